//! The questions over columns, asked of the proved library. Input and answer are the parts of a case.

use super::boundary::{
    self, ridgeoven_ancestor, ridgeoven_build, ridgeoven_chain_links, ridgeoven_children, ridgeoven_cover_build, ridgeoven_cover_read,
    ridgeoven_cover_store, ridgeoven_label, ridgeoven_links_apart, ridgeoven_links_build, ridgeoven_links_from, ridgeoven_links_sort, ridgeoven_links_store,
    ridgeoven_links_together, ridgeoven_next, ridgeoven_parents, ridgeoven_read_granule, ridgeoven_read_set, ridgeoven_roots, ridgeoven_walk,
    ridgeoven_window,
};
use super::refs;
use super::lent::{Lent, NUMBERS, OFFSETS, Pattern, RECORDS};
use crate::cases::{Answer, Part, list, number};

/// What the library answers, or what it did that no answer allows.
pub type Asked = Result<Answer, String>;

pub fn n(part: &Part) -> u64 {
    match part {
        Part::Number(value) => *value as u64,
        Part::List(_) => panic!("a number is due"),
    }
}

pub fn l<T: TryFrom<i128>>(part: &Part) -> Vec<T> {
    match part {
        Part::List(values) => values.iter().map(|value| T::try_from(*value).ok().expect("a case's number is in range")).collect(),
        Part::Number(_) => panic!("a list is due"),
    }
}

/// A refusal keeps what was lent.
pub fn refused(refusal: u64, kept: &[Result<(), String>]) -> Asked {
    match kept.iter().find_map(|one| one.clone().err()) {
        Some(wrong) => Err(wrong),
        None => Ok(Err(refusal as u8)),
    }
}

/// A list of which the library said the length.
fn answered<T: Pattern + Into<i128>>(answer: &boundary::Answer, out: &Lent<T>) -> Asked {
    if answer.refusal != 0 {
        return refused(answer.refusal, &[out.kept()]);
    }
    Ok(Ok(vec![list(out.taken(answer.length)?)]))
}

/// The question of a name.
pub fn ask(name: &str, p: &[Part]) -> Asked {
    match name {
        "read" => read(p),
        "parents" => parents(p),
        "children" => children(p),
        "label" => label(p),
        "roots" => roots(p),
        "walk" => walk(p),
        "build" => build(p),
        "cover" => cover(p),
        "stored" => stored(p),
        "decode" => decode(p),
        "window" => window(p),
        "links" => chain_links(p),
        "resolve" => refs::resolve(p),
        "handed" => refs::handed(p),
        _ => Err(format!("the port has no question {name}")),
    }
}

/// A set of the input: its count, offsets and deltas.
struct Set(u64, Vec<u64>, Vec<i64>);

fn set(p: &[Part], at: usize) -> Set {
    Set(n(&p[at]), l(&p[at + 1]), l(&p[at + 2]))
}

/// The granule in one call, and each set by itself, which must answer what the granule does.
fn read(p: &[Part]) -> Asked {
    let [forward, reverse, inbound] = std::array::from_fn(|at| set(p, 3 + 3 * at));
    let (chains, seqs) = (l::<u64>(&p[13]), l::<u64>(&p[14]));
    let mut out: [Lent<u64>; 3] = std::array::from_fn(|_| Lent::new(NUMBERS));
    let [f, r, i] = &mut out;
    let answer = unsafe {
        ridgeoven_read_granule(
            n(&p[0]), n(&p[1]) as usize, n(&p[2]),
            forward.0, forward.1.as_ptr(), forward.1.len(), forward.2.as_ptr(), forward.2.len(),
            reverse.0, reverse.1.as_ptr(), reverse.1.len(), reverse.2.as_ptr(), reverse.2.len(),
            inbound.0, inbound.1.as_ptr(), inbound.1.len(), inbound.2.as_ptr(), inbound.2.len(),
            n(&p[12]), chains.as_ptr(), chains.len(), seqs.as_ptr(), seqs.len(),
            f.at(), f.len(), r.at(), r.len(), i.at(), i.len(),
        )
    };
    if answer.refusal != 0 {
        return refused(answer.refusal, &out.map(|one| one.kept()));
    }
    let mut read = Vec::new();
    for ((which, set), (out, length)) in
        [forward, reverse, inbound].iter().enumerate().zip(out.iter().zip([answer.forward, answer.reverse, answer.inbound]))
    {
        let targets = list(out.taken(length)?);
        if read_set(which, set, p)? != Ok(vec![targets.clone()]) {
            return Err(format!("set {which} is read otherwise by itself"));
        }
        read.push(targets);
    }
    let none: [u64; 0] = [];
    read.extend(if n(&p[12]) == 1 { [list(&chains), list(&seqs)] } else { [list(&none), list(&none)] });
    Ok(Ok(read))
}

fn read_set(which: usize, set: &Set, p: &[Part]) -> Asked {
    let mut targets = Lent::<u64>::new(NUMBERS);
    let answer = unsafe {
        ridgeoven_read_set(
            which as u64, n(&p[0]), n(&p[1]) as usize, n(&p[2]), set.0, set.1.as_ptr(), set.1.len(), set.2.as_ptr(), set.2.len(),
            targets.at(), targets.len(),
        )
    };
    answered(&answer, &targets)
}

fn parents(p: &[Part]) -> Asked {
    let set = set(p, 3);
    let mut out = Lent::<u64>::new(NUMBERS);
    let answer = unsafe {
        ridgeoven_parents(
            n(&p[0]), n(&p[1]) as usize, n(&p[2]), set.0, set.1.as_ptr(), set.1.len(), set.2.as_ptr(), set.2.len(),
            n(&p[6]), n(&p[7]), out.at(), out.len(),
        )
    };
    answered(&answer, &out)
}

fn children(p: &[Part]) -> Asked {
    let (reverse, inbound) = (set(p, 3), set(p, 6));
    let mut out = Lent::<u64>::new(NUMBERS);
    let answer = unsafe {
        ridgeoven_children(
            n(&p[0]), n(&p[1]) as usize, n(&p[2]),
            reverse.0, reverse.1.as_ptr(), reverse.1.len(), reverse.2.as_ptr(), reverse.2.len(),
            inbound.0, inbound.1.as_ptr(), inbound.1.len(), inbound.2.as_ptr(), inbound.2.len(),
            n(&p[9]), n(&p[10]), out.at(), out.len(),
        )
    };
    answered(&answer, &out)
}

fn label(p: &[Part]) -> Asked {
    let (chains, seqs) = (l::<u64>(&p[2]), l::<u64>(&p[3]));
    let label = unsafe {
        ridgeoven_label(n(&p[0]), n(&p[1]) as usize, chains.as_ptr(), chains.len(), seqs.as_ptr(), seqs.len(), n(&p[4]))
    };
    let found: &[u32] = if label.found == 1 { &[label.chain, label.seq] } else { &[] };
    Ok(if label.refusal != 0 { Err(label.refusal as u8) } else { Ok(vec![list(found)]) })
}

fn roots(p: &[Part]) -> Asked {
    let events = l::<u64>(&p[2]);
    let mut out = Lent::<u64>::new(RECORDS);
    let answer = unsafe { ridgeoven_roots(n(&p[0]), n(&p[1]) as usize, events.as_ptr(), events.len(), out.at(), out.len()) };
    answered(&answer, &out)
}

fn walk(p: &[Part]) -> Asked {
    let set = set(p, 3);
    let (mut numbers, mut ends) = (Lent::<u64>::new(NUMBERS), Lent::<u64>::new(NUMBERS));
    let walked = unsafe {
        ridgeoven_walk(
            n(&p[0]), n(&p[1]) as usize, n(&p[2]), set.0, set.1.as_ptr(), set.1.len(), set.2.as_ptr(), set.2.len(),
            n(&p[6]), n(&p[7]) as usize, n(&p[8]), numbers.at(), numbers.len(), ends.at(), ends.len(),
        )
    };
    if walked.refusal != 0 {
        return refused(walked.refusal, &[numbers.kept(), ends.kept()]);
    }
    let numbers = numbers.taken(walked.handed)?;
    let mut answer = vec![number(walked.levels as u64)];
    let mut start = 0;
    for &end in ends.taken(walked.levels)? {
        answer.push(list(numbers.get(start..end as usize).ok_or("levels do not end in order")?));
        start = end as usize;
    }
    step_by_step(p, &set, &answer[1..])?;
    shared(p, &set, numbers)?;
    answer.push(number(walked.handed as u64));
    Ok(Ok(answer))
}

/// The levels again, each asked for by itself from what was visited and the level before it.
fn step_by_step(p: &[Part], set: &Set, levels: &[Part]) -> Result<(), String> {
    let mut visited = vec![n(&p[8])];
    let (mut frontier, mut limit) = (visited.clone(), n(&p[7]) as usize);
    for at in 0.. {
        let mut out = Lent::<u64>::new(NUMBERS);
        let answer = unsafe {
            ridgeoven_next(
                n(&p[0]), n(&p[1]) as usize, n(&p[2]), set.0, set.1.as_ptr(), set.1.len(), set.2.as_ptr(), set.2.len(),
                n(&p[6]), limit, visited.as_ptr(), visited.len(), frontier.as_ptr(), frontier.len(), out.at(), out.len(),
            )
        };
        let level = match answered(&answer, &out)? {
            Ok(level) => level,
            Err(refusal) => return Err(format!("next refuses with {refusal} what the walk takes")),
        };
        let found = out.taken(answer.length)?;
        if found.is_empty() {
            return if at == levels.len() { Ok(()) } else { Err(format!("next ends after {at} levels")) };
        }
        if levels.get(at) != level.first() {
            return Err(format!("next answers another level {at}"));
        }
        limit -= found.len();
        visited.extend(found);
        frontier = found.to_vec();
        if visited.len() > NUMBERS {
            return Ok(());
        }
    }
    Ok(())
}

/// The shared ancestor of the start and each of the first numbers that it reaches: there is one, and of a number with itself it is that
/// number.
fn shared(p: &[Part], set: &Set, numbers: &[u64]) -> Result<(), String> {
    let start = n(&p[8]);
    let ask = |a: u64, b: u64| unsafe {
        ridgeoven_ancestor(
            n(&p[0]), n(&p[1]) as usize, n(&p[2]), set.0, set.1.as_ptr(), set.1.len(), set.2.as_ptr(), set.2.len(), n(&p[6]), a, b,
        )
    };
    let own = ask(start, start);
    if (own.refusal, own.found) != (0, 1) {
        return Err("a number has no shared ancestor with itself".into());
    }
    match numbers.iter().take(4).find(|number| ask(start, **number).found != 1 || ask(**number, start).found != 1) {
        Some(number) => Err(format!("{start} reaches {number}, and they have no shared ancestor")),
        None => Ok(()),
    }
}

/// The columns of records, one for each part.
fn columns<const PARTS: usize>(p: &[Part]) -> [Vec<u32>; PARTS] {
    std::array::from_fn(|at| l(&p[at]))
}

/// Lent columns of records.
fn lent<const PARTS: usize>() -> [Lent<u32>; PARTS] {
    std::array::from_fn(|_| Lent::new(RECORDS))
}

/// So many entries of each column.
fn taken(out: &[Lent<u32>], length: usize) -> Result<Vec<Part>, String> {
    out.iter().map(|one| Ok(list(one.taken(length)?))).collect()
}

fn all_kept(out: &[Lent<u32>]) -> Vec<Result<(), String>> {
    out.iter().map(Lent::kept).collect()
}

fn records(answer: &boundary::Answer, out: &[Lent<u32>]) -> Asked {
    if answer.refusal != 0 {
        return refused(answer.refusal, &all_kept(out));
    }
    Ok(Ok(taken(out, answer.length)?))
}

/// Four columns are put together as records and taken apart again: as many links as the shortest column has, and nothing past them.
fn through_records([a, b, c, d]: [&[u32]; 4]) -> Result<(), String> {
    let n = [a, b, c, d].map(<[u32]>::len).into_iter().min().unwrap_or(0);
    let mut records = Lent::<boundary::Link>::new(n + 1);
    let put = unsafe {
        ridgeoven_links_together(
            a.as_ptr(), a.len(), b.as_ptr(), b.len(), c.as_ptr(), c.len(), d.as_ptr(), d.len(), records.at(), records.len(),
        )
    };
    let wanted = |at: usize| boundary::Link { from_chain: a[at], from_seq: b[at], to_chain: c[at], to_seq: d[at] };
    if put != n || !records.taken(put)?.iter().enumerate().all(|(at, link)| *link == wanted(at)) {
        return Err("columns are put together as other records".into());
    }
    let mut back: [Lent<u32>; 4] = std::array::from_fn(|_| Lent::new(n + 1));
    let [w, x, y, z] = &mut back;
    let taken = unsafe {
        ridgeoven_links_apart(records.at(), n, w.at(), w.len(), x.at(), x.len(), y.at(), y.len(), z.at(), z.len())
    };
    let same = back.iter().zip([a, b, c, d]).all(|(column, given)| column.taken(n).is_ok_and(|numbers| *numbers == given[..n]));
    if taken == n && same { Ok(()) } else { Err("records are taken apart into other columns".into()) }
}

/// The records of columns that are equally long.
fn as_records([a, b, c, d]: [&[u32]; 4]) -> Option<Vec<boundary::Link>> {
    let link = |at: usize| boundary::Link { from_chain: a[at], from_seq: b[at], to_chain: c[at], to_seq: d[at] };
    [b, c, d].iter().all(|column| column.len() == a.len()).then(|| (0..a.len()).map(link).collect())
}

/// Records sorted in place are the links that the columns' call answers, before what stood behind them; too many stay as they are.
fn sorted_records(given: [&[u32]; 4], links: Option<[&[u32]; 4]>) -> Result<(), String> {
    let Some(records) = as_records(given) else { return Ok(()) };
    let mut sorted = records.clone();
    let answer = unsafe { ridgeoven_links_sort(sorted.as_mut_ptr(), sorted.len()) };
    if RECORDS < records.len() {
        return if answer.refusal == 42 && sorted == records { Ok(()) } else { Err("too many records are sorted".into()) };
    }
    let rest = records.get(answer.length..) == sorted.get(answer.length..);
    let wanted = links.and_then(as_records).is_none_or(|wanted| wanted[..] == sorted[..answer.length]);
    if answer.refusal == 0 && rest && wanted { Ok(()) } else { Err("records are sorted otherwise than columns".into()) }
}

/// Records asked for the links of chains answer what stored columns do, where these are the columns of records.
fn asked_records([a, b, c, d]: [&[u32]; 4], chains: &[u32], answer: &boundary::Answer, out: &[Lent<u32>]) -> Result<(), String> {
    let mut sum = 0u32;
    let from: Option<Vec<u32>> = a.iter().map(|less| { sum = sum.checked_add(*less)?; Some(sum) }).collect();
    let Some(records) = from.and_then(|from| as_records([&from, b, c, d])) else { return Ok(()) };
    let mut found = Lent::<boundary::Link>::new(RECORDS);
    let asked = unsafe {
        ridgeoven_links_from(records.as_ptr(), records.len(), chains.as_ptr(), chains.len(), found.at(), found.len())
    };
    let same = are(out, asked.length, as_columns(&found, asked.length)?.iter().map(Vec::as_slice));
    if (asked.refusal, asked.length) == (answer.refusal, answer.length) && same { Ok(()) } else { Err("records are asked otherwise than columns".into()) }
}

/// Records are stored as columns are.
fn stored_records(given: [&[u32]; 4], answer: &boundary::Answer, out: &[Lent<u32>]) -> Result<(), String> {
    let Some(records) = as_records(given) else { return Ok(()) };
    let mut columns = lent::<4>();
    let [w, x, y, z] = &mut columns;
    let stored = unsafe {
        ridgeoven_links_store(records.as_ptr(), records.len(), w.at(), w.len(), x.at(), x.len(), y.at(), y.len(), z.at(), z.len())
    };
    let same = columns.iter().zip(out).all(|(one, other)| one.taken(stored.length).is_ok_and(|numbers| Ok(numbers) == other.taken(stored.length)));
    if (stored.refusal, stored.length) == (answer.refusal, answer.length) && same { Ok(()) } else { Err("records are stored otherwise than columns".into()) }
}

/// The columns of records that were lent, of which so many are an answer.
fn as_columns(found: &Lent<boundary::Link>, length: usize) -> Result<[Vec<u32>; 4], String> {
    let links = found.taken(length)?;
    let numbers = |of: fn(&boundary::Link) -> u32| links.iter().map(of).collect::<Vec<_>>();
    Ok([numbers(|l| l.from_chain), numbers(|l| l.from_seq), numbers(|l| l.to_chain), numbers(|l| l.to_seq)])
}

/// Whether so many entries of lent columns are these, and nothing past them was written.
fn are<'a>(out: &[Lent<u32>], length: usize, wanted: impl IntoIterator<Item = &'a [u32]>) -> bool {
    out.iter().zip(wanted).all(|(column, numbers)| column.taken(length).is_ok_and(|found| found == numbers))
}

/// A cover of records, into slices of these lengths: the answer, the ranges and the links.
fn built_of(labels: [&[u32]; 2], records: &[boundary::Link], rooms: [usize; 4]) -> (boundary::Covered, [Lent<u32>; 3], Lent<boundary::Link>) {
    let ([chains, seqs], [a, b, c, room]) = (labels, rooms);
    let (mut ranges, mut links) = ([a, b, c].map(Lent::new), Lent::new(room));
    let [i, j, k] = &mut ranges;
    let built = unsafe {
        ridgeoven_links_build(
            chains.as_ptr(), chains.len(), seqs.as_ptr(), seqs.len(), records.as_ptr(), records.len(),
            i.at(), i.len(), j.at(), j.len(), k.at(), k.len(), links.at(), links.len(),
        )
    };
    (built, ranges, links)
}

/// Records are built into the cover that columns are. One place too few in any lent slice is 41, one record or label too many 42, which comes first;
/// neither writes anything.
fn built_records(labels: [&[u32]; 2], given: [&[u32]; 4], columns: &boundary::Covered, ranges: &[Lent<u32>], links: &[Lent<u32>]) -> Result<(), String> {
    let Some(records) = as_records(given) else { return Ok(()) };
    let (built, found, out) = built_of(labels, &records, [RECORDS; 4]);
    let wanted = ranges.iter().map(|column| column.taken(columns.ranges)).collect::<Result<Vec<_>, _>>()?;
    let same = (built.refusal, built.ranges, built.links) == (columns.refusal, columns.ranges, columns.links)
        && are(&found, built.ranges, wanted)
        && are(links, built.links, as_columns(&out, built.links)?.iter().map(Vec::as_slice));
    if !same {
        return Err("records are built otherwise than columns".into());
    }
    let many = vec![boundary::Link::PATTERN; RECORDS + 1];
    let long = vec![u32::PATTERN; RECORDS + 1];
    let short: [[usize; 4]; 4] = std::array::from_fn(|at| std::array::from_fn(|room| RECORDS - usize::from(room == at)));
    let refusals = short.iter().map(|rooms| (labels, &records, *rooms, if columns.refusal == 42 { 42 } else { 41 }));
    let over = [
        (labels, &many, [RECORDS; 4], 42), (labels, &many, [0; 4], 42),
        ([&long[..], labels[1]], &records, [0; 4], 42), ([labels[0], &long[..]], &records, [0; 4], 42),
    ];
    for (labels, records, rooms, refusal) in refusals.chain(over) {
        let (built, found, out) = built_of(labels, records, rooms);
        if (built.refusal, built.ranges, built.links) != (refusal, 0, 0) {
            return Err(format!("records are built with refusal {}, {refusal} is due", built.refusal));
        }
        found.iter().map(Lent::kept).chain([out.kept()]).collect::<Result<(), _>>()?;
    }
    Ok(())
}

fn cover(p: &[Part]) -> Asked {
    let [chains, seqs, a, b, c, d] = columns(p);
    through_records([&a, &b, &c, &d])?;
    let (mut ranges, mut links) = (lent::<3>(), lent::<4>());
    let ([i, j, k], [w, x, y, z]) = (&mut ranges, &mut links);
    let built = unsafe {
        ridgeoven_cover_build(
            chains.as_ptr(), chains.len(), seqs.as_ptr(), seqs.len(),
            a.as_ptr(), a.len(), b.as_ptr(), b.len(), c.as_ptr(), c.len(), d.as_ptr(), d.len(),
            i.at(), i.len(), j.at(), j.len(), k.at(), k.len(),
            w.at(), w.len(), x.at(), x.len(), y.at(), y.len(), z.at(), z.len(),
        )
    };
    built_records([&chains, &seqs], [&a, &b, &c, &d], &built, &ranges, &links)?;
    if built.refusal != 0 {
        sorted_records([&a, &b, &c, &d], None)?;
        return refused(built.refusal, &[all_kept(&ranges), all_kept(&links)].concat());
    }
    let answers: Vec<&[u32]> = links.iter().map(|column| column.taken(built.links)).collect::<Result<_, _>>()?;
    sorted_records([&a, &b, &c, &d], answers.try_into().ok())?;
    Ok(Ok([taken(&ranges, built.ranges)?, taken(&links, built.links)?].concat()))
}

fn stored(p: &[Part]) -> Asked {
    let [a, b, c, d] = columns(p);
    let mut out = lent();
    let [w, x, y, z] = &mut out;
    let answer = unsafe {
        ridgeoven_cover_store(
            a.as_ptr(), a.len(), b.as_ptr(), b.len(), c.as_ptr(), c.len(), d.as_ptr(), d.len(),
            w.at(), w.len(), x.at(), x.len(), y.at(), y.len(), z.at(), z.len(),
        )
    };
    stored_records([&a, &b, &c, &d], &answer, &out)?;
    records(&answer, &out)
}

fn decode(p: &[Part]) -> Asked {
    let [ids, minima, maxima, a, b, c, d] = columns(p);
    let mut out = lent();
    let [w, x, y, z] = &mut out;
    let answer = unsafe {
        ridgeoven_cover_read(
            ids.as_ptr(), ids.len(), minima.as_ptr(), minima.len(), maxima.as_ptr(), maxima.len(),
            a.as_ptr(), a.len(), b.as_ptr(), b.len(), c.as_ptr(), c.len(), d.as_ptr(), d.len(),
            w.at(), w.len(), x.at(), x.len(), y.at(), y.len(), z.at(), z.len(),
        )
    };
    records(&answer, &out)
}

fn window(p: &[Part]) -> Asked {
    let [ids, minima, maxima] = columns(p);
    let held = unsafe {
        ridgeoven_window(
            ids.as_ptr(), ids.len(), minima.as_ptr(), minima.len(), maxima.as_ptr(), maxima.len(),
            n(&p[3]) as u32, n(&p[4]) as u32, n(&p[5]) as u32,
        )
    };
    Ok(if held.refusal != 0 { Err(held.refusal as u8) } else { Ok(vec![number(held.holds)]) })
}

fn chain_links(p: &[Part]) -> Asked {
    let [a, b, c, d, chains] = columns(p);
    let mut out = lent();
    let [w, x, y, z] = &mut out;
    let answer = unsafe {
        ridgeoven_chain_links(
            a.as_ptr(), a.len(), b.as_ptr(), b.len(), c.as_ptr(), c.len(), d.as_ptr(), d.len(), chains.as_ptr(), chains.len(),
            w.at(), w.len(), x.at(), x.len(), y.at(), y.len(), z.at(), z.len(),
        )
    };
    asked_records([&a, &b, &c, &d], &chains, &answer, &out)?;
    records(&answer, &out)
}

pub fn build(p: &[Part]) -> Asked {
    let subject = l::<u8>(&p[0]);
    let column = |at: usize| l::<u64>(&p[at]);
    let (offsets, targets) = (column(3), column(4));
    let (children, kinds, flags) = (column(5), column(6), column(7));
    let (depth, chains, seqs) = (column(8), l::<u32>(&p[10]), l::<u32>(&p[11]));
    let (into, parents, by) = (column(12), column(13), column(14));
    let [low, high] = depth[..].try_into().unwrap_or_default();
    let mut out: [(Lent<u64>, Lent<i64>); 3] = std::array::from_fn(|_| (Lent::new(OFFSETS), Lent::new(NUMBERS)));
    let [(fo, fd), (ro, rd), (io, id)] = &mut out;
    let built = unsafe {
        ridgeoven_build(
            subject.as_ptr(), subject.len(), n(&p[1]), n(&p[2]) as usize,
            offsets.as_ptr(), offsets.len(), targets.as_ptr(), targets.len(),
            children.as_ptr(), children.len(), kinds.as_ptr(), kinds.len(), flags.as_ptr(), flags.len(),
            u64::from(!depth.is_empty()), low, high, n(&p[9]), chains.as_ptr(), chains.len(), seqs.as_ptr(), seqs.len(),
            into.as_ptr(), into.len(), parents.as_ptr(), parents.len(), by.as_ptr(), by.len(), n(&p[15]) as usize, n(&p[16]) as usize,
            fo.at(), fo.len(), fd.at(), fd.len(), ro.at(), ro.len(), rd.at(), rd.len(), io.at(), io.len(), id.at(), id.len(),
        )
    };
    if built.refusal != 0 {
        return refused(built.refusal, &out.iter().flat_map(|(offsets, deltas)| [offsets.kept(), deltas.kept()]).collect::<Vec<_>>());
    }
    let mut answer = Vec::new();
    for ((offsets, deltas), count) in out.iter().zip([built.forward, built.reverse, built.inbound]) {
        let offsets = offsets.taken(2 * n(&p[16]) as usize + 1)?;
        answer.extend([number(count as u64), list(offsets), list(deltas.taken(count)?)]);
    }
    Ok(Ok(answer))
}
