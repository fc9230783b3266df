//! References of rows, with the answers of their lookups.

use super::{Place, REACH, overflowing, place};
use crate::cases::{Part, list, number};
use crate::random::Random;

const PREV: u8 = 0;
const AUTH: u8 = 1;
const LINK: u8 = 2;
const PARENT: u8 = 3;
const ROOT: u8 = 5;
const SEQUENCE: u8 = 3;

/// A reference: kind, space, target, and the answer, whether it is known and its number.
#[derive(Clone, Copy)]
struct Reference {
    kind: u8,
    space: u8,
    target: u64,
    known: u8,
    number: u64,
}

impl Reference {
    fn is_unresolved(&self) -> bool {
        self.kind <= AUTH && self.space != SEQUENCE && self.known == 0
    }
}

/// A number for a parent of an event: mostly a near one before it, now and then one that building refuses.
fn parent(random: &mut Random, event: u64) -> u64 {
    let reach = random.of(&[3, 40]);
    let near = event.saturating_sub(1 + random.within(0, reach));
    let far = event.saturating_sub((1 << 63) - 1);
    match random.below(40) {
        0 => random.of(&[event, event.saturating_add(1), 0, u64::MAX, event.saturating_sub(1 << 63)]),
        1 => random.of(&[0, far]),
        _ => near,
    }
}

/// A reference of a row that has these already: at most one parent and one root, as the original's rows have.
fn reference(random: &mut Random, event: u64, before: &[Reference]) -> Reference {
    let kind = random.of(&[PREV, PREV, PREV, AUTH, AUTH, AUTH, LINK, PARENT, 4, ROOT]);
    let once = kind == PARENT || kind == ROOT;
    let kind = if once && before.iter().any(|one| one.kind == kind) { LINK } else { kind };
    let space = random.below(4) as u8;
    let handle = random.of(&[0, 1, 2, u64::MAX, event]);
    Reference {
        kind,
        space,
        target: if space == SEQUENCE { parent(random, event) } else { handle },
        known: random.of(&[0, 0, 1, 1, 1, 1, 2, 255]),
        number: parent(random, event),
    }
}

/// The references of a row. Their targets differ more often than not, so that building accepts many; a reference may be given twice.
fn row(random: &mut Random, event: u64, most: usize) -> Vec<Reference> {
    let mut row: Vec<Reference> = Vec::new();
    for _ in 0..random.of(&[0, 0, 1, 1, 2, 3, 6]).min(most) {
        let again = row.last().copied().filter(|last| last.kind != PARENT && last.kind != ROOT && random.once_in(20));
        let one = again.unwrap_or_else(|| reference(random, event, &row));
        row.push(one);
    }
    row
}

/// Leaves building nothing to refuse in a row: a number that it would refuse becomes the nearest one that is left, or the reference a link.
fn mend(event: u64, row: &mut [Reference]) {
    let mut named = [Vec::new(), Vec::new()];
    for one in row.iter_mut().filter(|one| one.kind <= AUTH && !one.is_unresolved()) {
        let list = &mut named[usize::from(one.kind)];
        let number = if one.space == SEQUENCE { &mut one.target } else { &mut one.number };
        let fits = |number: u64, list: &[u64]| event.checked_sub(number).is_some_and(|less| 0 < less && less <= REACH) && !list.contains(&number);
        let near = || (1..=8).filter_map(|less| event.checked_sub(less)).find(|near| fits(*near, list));
        match Some(*number).filter(|number| fits(*number, list)).or_else(near) {
            Some(mended) => {
                *number = mended;
                list.push(mended);
            }
            None => one.kind = LINK,
        }
    }
}

/// A large file's one row with as many references as a column has room for, or nearly.
fn widen(random: &mut Random, place: &Place, rows: &mut [Vec<Reference>]) {
    let at = random.below(rows.len());
    let event = place.first.wrapping_add(at as u64);
    let others: usize = rows.iter().map(Vec::len).sum::<usize>() - rows[at].len();
    let room = 4096 - others - random.below(2);
    rows[at] = (1..=room as u64)
        .map(|step| {
            let number = event.saturating_sub(step);
            Reference { kind: (step % 2) as u8, space: random.below(4) as u8, target: number, known: 1, number }
        })
        .collect();
}

/// Keeps what the original has no limit for: 1,024 unresolved references.
fn bounded(rows: &mut [Vec<Reference>]) {
    rows.iter_mut().flatten().filter(|one| one.is_unresolved()).skip(1024).for_each(|one| one.known = 1);
}

pub fn resolve(random: &mut Random) -> Vec<Part> {
    let mut place = place(random);
    overflowing(random, &mut place);
    let most = 4096 / place.rows.max(1) as usize;
    let mut rows: Vec<Vec<Reference>> = (0..place.rows).map(|at| row(random, place.first.wrapping_add(at), most)).collect();
    if random.large && random.once_in(4) && !rows.is_empty() {
        widen(random, &place, &mut rows);
    }
    bounded(&mut rows);
    if !random.once_in(3) {
        (0..).zip(&mut rows).for_each(|(at, row)| mend(place.first.wrapping_add(at), row));
    }
    let starts: Vec<u64> = [0].into_iter().chain(rows.iter().scan(0, |end, row| { *end += row.len() as u64; Some(*end) })).collect();
    let all = rows.concat();
    let mut answers: Vec<(u8, u64)> = all.iter().map(|one| (one.known, one.number)).collect();
    if random.once_in(12) {
        match answers.pop() {
            Some(last) if random.once_in(2) && answers.len() < 4094 => answers.extend([last; 2]),
            Some(_) => {}
            None => answers.push((1, 0)),
        }
    }
    vec![
        number(place.first),
        number(place.rows),
        list(&starts),
        list(&Vec::from_iter(all.iter().map(|one| one.kind))),
        list(&Vec::from_iter(all.iter().map(|one| one.space))),
        list(&Vec::from_iter(all.iter().map(|one| one.target))),
        list(&Vec::from_iter(answers.iter().map(|answer| answer.0))),
        list(&Vec::from_iter(answers.iter().map(|answer| answer.1))),
    ]
}
