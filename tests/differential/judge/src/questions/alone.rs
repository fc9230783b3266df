//! What document 01 asks of the port where the original has no such input or answers otherwise: the differences over columns and the
//! limits, each with its smallest input and the answer that document 01 gives.

use crate::cases::{Answer, Part, list, number};

pub struct Case {
    pub name: &'static str,
    pub input: Vec<Part>,
    pub answer: Answer,
}

/// A set of one row with so many edges in its prev list.
fn set(deltas: Vec<i64>) -> [Part; 3] {
    let count = deltas.len() as u64;
    [number(count), list(&[0, count, count]), list(&deltas)]
}

fn none() -> Part {
    Part::List(Vec::new())
}

fn ones(count: usize) -> Part {
    list(&vec![1u8; count])
}

/// A file of one row from 100 on to build, with these unresolved children, kinds and flags, chains and seqs, and inbound children, parents and
/// kinds; there are labels where there are chains.
fn build(offsets: &[u64], columns: [&[u64]; 8]) -> Vec<Part> {
    let [uc, uk, uf, chains, seqs, ic, ip, ik] = columns.map(list);
    let covered = number(u8::from(!columns[3].is_empty()));
    vec![
        list(b"a"), number(100), number(1), list(offsets), none(), uc, uk, uf, none(), covered, chains, seqs, ic, ip, ik, number(0), number(1),
    ]
}

/// The references of one row: kinds, spaces, targets, whether each is known, numbers.
fn resolve(first: u64, starts: &[u64], columns: [&[u64]; 5]) -> Vec<Part> {
    [vec![number(first), number(1), list(starts)], columns.map(list).to_vec()].concat()
}

/// Slot offsets, targets, and the children, kinds and places of records.
fn resolved(input: Vec<Part>, offsets: &[u64], targets: &[u64], records: [&[u64]; 3]) -> Case {
    Case { name: "resolve", input, answer: Ok([vec![list(offsets), list(targets)], records.map(list).to_vec()].concat()) }
}

/// Questions about 1,025 rows, and covers of 1,025 records in their first column.
fn over_records() -> Vec<(&'static str, Vec<Part>)> {
    let place = || vec![number(100), number(1025), number(1125)];
    let no_set = || vec![number(0), none(), none()];
    let asked = || vec![number(0), number(100)];
    let read = [place(), no_set(), no_set(), no_set(), no_set()].concat();
    let mut build = build(&[0, 0, 0], [&[]; 8]);
    build[2] = number(1025);
    let columns = |given: usize| [vec![ones(1025)], vec![none(); given - 1]].concat();
    vec![
        ("read", read),
        ("parents", [place(), no_set(), asked()].concat()),
        ("children", [place(), no_set(), no_set(), asked()].concat()),
        ("label", vec![number(100), number(1025), none(), none(), number(100)]),
        ("roots", vec![number(100), number(1025), none()]),
        ("walk", [place(), no_set(), vec![number(0), number(1), number(100)]].concat()),
        ("build", build),
        ("cover", columns(6)),
        ("stored", columns(4)),
        ("decode", columns(7)),
        ("window", [columns(3), vec![number(1), number(0), number(0)]].concat()),
        ("links", columns(5)),
        ("resolve", [vec![number(100), number(1025)], vec![none(); 6]].concat()),
    ]
}

pub fn cases() -> Vec<Case> {
    let place = |end: u64| vec![number(100), number(1), number(end)];
    let refused = |name, input, number| Case { name, input, answer: Err(number) };
    let full = [place(102), set(vec![-1; 4096]).to_vec(), set(vec![-2]).to_vec(), vec![number(0), number(100)]].concat();
    let long = [place(101), vec![number(0), list(&[0u8; 4097]), none(), number(0), number(100)]].concat();
    let built = |columns| build(&[0, 0, 0], columns);
    let mut found = vec![
        Case { name: "roots", input: vec![number(100), number(1), list(&[100, 100])], answer: Ok(vec![list(&[0, 0])]) },
        refused("children", full, 43),
        refused("parents", long, 43),
        // slot offsets of another form
        refused("build", build(&[0, 0], [&[]; 8]), 2),
        // records whose columns are unequal in number: refused by the rule of the part that is missing
        refused("build", built([&[], &[0], &[0], &[], &[], &[], &[], &[]]), 6),
        refused("build", built([&[100], &[], &[0], &[], &[], &[], &[], &[]]), 7),
        refused("build", built([&[100], &[0], &[], &[], &[], &[], &[], &[]]), 7),
        refused("build", built([&[], &[], &[], &[1], &[], &[], &[], &[]]), 9),
        refused("build", built([&[], &[], &[], &[], &[], &[], &[100], &[0]]), 11),
        refused("build", built([&[], &[], &[], &[], &[], &[101], &[], &[0]]), 12),
        refused("build", built([&[], &[], &[], &[], &[], &[101], &[100], &[]]), 12),
        // a sequence flag and a kind that the original cannot say
        refused("build", built([&[100], &[0], &[2], &[], &[], &[], &[], &[]]), 7),
        refused("build", built([&[], &[], &[], &[], &[], &[101], &[100], &[2]]), 12),
        // link columns of a cover to build, unequal in number
        refused("cover", vec![none(), none(), ones(1), none(), none(), none()], 22),
        refused("links", vec![none(), none(), none(), none(), ones(4097)], 43),
        // answers that the original does not ask for are missing: of a link, of a number
        refused("resolve", resolve(100, &[0, 1], [&[2], &[0], &[7], &[], &[]]), 2),
        refused("resolve", resolve(100, &[0, 1], [&[0], &[3], &[99], &[], &[]]), 2),
        // columns of a reference unequal in number, starts of another form
        refused("resolve", resolve(100, &[0, 1], [&[0], &[], &[7], &[1], &[99]]), 2),
        refused("resolve", resolve(100, &[0, 0], [&[0], &[0], &[7], &[1], &[99]]), 2),
        refused("resolve", resolve(100, &[0, 0, 1], [&[0], &[0], &[7], &[1], &[99]]), 2),
        // numbers past 2^64 − 1, which the original leaves to its building
        refused("resolve", resolve(u64::MAX, &[0, 0], [&[]; 5]), 3),
        // a kind above the six makes nothing, a space above the four is looked up; two parents and two roots in a row
        resolved(resolve(100, &[0, 3], [&[6, 255, 0], &[0, 3, 4], &[7, 7, 7], &[0, 1, 1], &[0, 1, 99]]), &[0, 1, 1], &[99], [&[], &[], &[]]),
        resolved(resolve(100, &[0, 1], [&[1], &[255], &[7], &[0], &[0]]), &[0, 0, 0], &[], [&[100], &[1], &[0]]),
        resolved(resolve(100, &[0, 4], [&[3, 3, 5, 5], &[0, 0, 3, 3], &[1, 1, 2, 2], &[1, 1, 1, 1], &[9, 9, 9, 9]]), &[0, 0, 0], &[], [&[], &[], &[]]),
    ];
    found.extend(over_records().into_iter().map(|(name, input)| refused(name, input, 42)));
    found
}
