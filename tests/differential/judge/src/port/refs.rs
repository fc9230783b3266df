//! References resolved by the proved library; what it writes, handed to its building; and what it refuses, in which order.

use super::boundary::{Resolved, ridgeoven_resolve_graph};
use super::lent::{Lent, NUMBERS, OFFSETS, RECORDS};
use super::questions::{Asked, build, l, n, refused};
use crate::cases::{Part, list, number};

/// Lengths of the slices that are lent: slot offsets, targets, and three columns of records.
type Room = [usize; 5];

const ROOM: Room = [OFFSETS, NUMBERS, RECORDS, RECORDS, RECORDS];

fn call(p: &[Part], out: &mut [Lent<u64>; 5]) -> Resolved {
    let (starts, targets, numbers) = (l::<u64>(&p[2]), l::<u64>(&p[5]), l::<u64>(&p[7]));
    let (kinds, spaces, known) = (l::<u8>(&p[3]), l::<u8>(&p[4]), l::<u8>(&p[6]));
    let [o, t, c, k, h] = out;
    unsafe {
        ridgeoven_resolve_graph(
            n(&p[0]), n(&p[1]) as usize, starts.as_ptr(), starts.len(), kinds.as_ptr(), kinds.len(), spaces.as_ptr(), spaces.len(),
            targets.as_ptr(), targets.len(), known.as_ptr(), known.len(), numbers.as_ptr(), numbers.len(),
            o.at(), o.len(), t.at(), t.len(), c.at(), c.len(), k.at(), k.len(), h.at(), h.len(),
        )
    }
}

fn resolved(p: &[Part], room: Room) -> Asked {
    let mut out = room.map(Lent::new);
    let answer = call(p, &mut out);
    if answer.refusal != 0 {
        if (answer.parents, answer.unresolved) != (0, 0) {
            return Err("a refusal tells of parents or records".into());
        }
        return refused(answer.refusal, &out.map(|one| one.kept()));
    }
    let lengths = [2 * n(&p[1]) as usize + 1, answer.parents, answer.unresolved, answer.unresolved, answer.unresolved];
    let parts: Result<Vec<Part>, String> = out.iter().zip(lengths).map(|(one, length)| Ok(list(one.taken(length)?))).collect();
    Ok(Ok(parts?))
}

pub fn resolve(p: &[Part]) -> Asked {
    resolved(p, ROOM)
}

/// What was written goes to building as it is: slot offsets, targets, and the records, none of which names its parent by sequence.
pub fn handed(p: &[Part]) -> Asked {
    let [offsets, targets, children, kinds, places] = match resolve(p)? {
        Ok(parts) => parts.try_into().expect("five columns"),
        Err(refusal) => return Ok(Err(refusal)),
    };
    let none = || Part::List(Vec::new());
    let flags = list(&vec![0u8; l::<u64>(&places).len()]);
    let mut graph = vec![list(b"a"), p[0].clone(), p[1].clone(), offsets, targets, children, kinds, flags, none(), number(0)];
    graph.extend([none(), none(), none(), none(), none(), number(0), p[1].clone()]);
    build(&graph)
}

// ── refusals in their order ─────────────────────────────────────────────────────────────────

/// So many references of one row from `first` on: prev, by external id, known where they are to be.
fn one_row(first: u64, references: usize, known: u8) -> Vec<Part> {
    let column = |value: u8| list(&vec![value; references]);
    vec![number(first), number(1), list(&[0, references as u64]), column(0), column(1), column(7), column(known), column(1)]
}

/// An input with another part in one place.
fn with(input: &[Part], place: usize, part: Part) -> Vec<Part> {
    let mut input = input.to_vec();
    input[place] = part;
    input
}

/// Room for everything but one entry in one of the slices.
fn short(slice: usize) -> Room {
    let mut room = ROOM;
    room[slice] -= 1;
    room
}

/// What each input is answered with so much room: 0, or the number of the first rule that it breaks; document 02's order is 42, 43, 41, 2, 3.
fn cases() -> Vec<(Vec<Part>, Room, u8)> {
    let last = u64::MAX;
    let few = one_row(100, 2, 1);
    // known ones, so that no record is made
    let long = |place: usize| with(&one_row(100, 4096, 1), place, list(&vec![1u8; 4097]));
    let mut found = vec![
        (few.clone(), ROOM, 0),
        (one_row(last - 1, 2, 1), ROOM, 0),
        // at the limits and past them
        (with(&with(&few, 1, number(1024)), 2, list(&[vec![0u64], vec![2; 1024]].concat())), ROOM, 0),
        (with(&few, 1, number(1025)), ROOM, 42),
        (one_row(100, 1024, 0), ROOM, 0),
        (one_row(100, 1025, 0), ROOM, 42),
        (one_row(100, 4096, 1), ROOM, 0),
        (one_row(100, 4097, 1), ROOM, 43),
        // 42 before 43, 41, 2 and 3; references without an answer of their own are no records yet
        (one_row(last, 4097, 0), short(0), 42),
        (with(&one_row(last, 4097, 1), 1, number(1025)), short(0), 42),
        (with(&one_row(100, 1025, 0), 6, list(&[0u8; 1024])), ROOM, 2),
        // 43 before 41, 2 and 3
        (one_row(last, 4097, 1), short(0), 43),
        (with(&one_row(last, 4097, 1), 6, Part::List(Vec::new())), ROOM, 43),
        // 41 before 2 and 3
        (with(&one_row(last, 2, 1), 6, Part::List(Vec::new())), short(4), 41),
        // 2 before 3
        (with(&one_row(last, 2, 1), 6, Part::List(Vec::new())), ROOM, 2),
        (one_row(last, 2, 1), ROOM, 3),
    ];
    found.extend((2..8).map(|place| (long(place), ROOM, 43)));
    found.extend((0..5).map(|slice| (few.clone(), short(slice), 41)));
    // each column longer or shorter than the others, and starts of another form
    found.extend((3..8).flat_map(|place| [1, 3].map(|length| (with(&few, place, list(&vec![0u8; length])), ROOM, 2))));
    let starts: [&[u64]; 8] = [&[], &[0], &[2], &[0, 1], &[0, 3], &[1, 2], &[0, 2, 2], &[0, last]];
    found.extend(starts.map(|starts| (with(&few, 2, list(starts)), ROOM, 2)));
    found.push((with(&with(&few, 1, number(2)), 2, list(&[0u64, 3, 2])), ROOM, 2));
    found.push((with(&few, 1, number(0)), ROOM, 2));
    found
}

/// How many inputs are answered by the first rule that they break, or the first that is not.
pub fn refused_in_order() -> Result<usize, String> {
    let cases = cases();
    for (at, (input, room, wanted)) in cases.iter().enumerate() {
        let answer = resolved(input, *room)?.map_or_else(|refusal| refusal, |_| 0);
        if answer != *wanted {
            let lengths = input.iter().map(|part| if let Part::List(values) = part { values.len() } else { 1 });
            return Err(format!("case {at} of what is refused: {answer} and not {wanted}; room {room:?}, parts of {:?}", Vec::from_iter(lengths)));
        }
    }
    Ok(cases.len())
}
