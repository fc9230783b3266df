//! Columns to read.

use super::{Place, overflowing, place, targets};
use crate::archive::Set;
use crate::cases::{Part, list, number};
use crate::random::Random;

fn sound_set(random: &mut Random, place: &Place, set: usize) -> Set {
    let slots: Vec<Vec<u64>> = (0..2 * place.rows)
        .map(|slot| place.first.checked_add(slot / 2).map_or(Vec::new(), |event| targets(random, place, set, event)))
        .collect();
    Set::of(place.first, &slots)
}

/// A set with one thing changed.
fn broken_set(random: &mut Random, place: &Place, set: usize) -> Set {
    let mut columns = sound_set(random, place, set);
    let at = random.below(columns.offsets.len());
    let now = columns.offsets[at];
    match random.below(9) {
        0 => columns.offsets[at] = random.of(&[now.wrapping_add(1), now.wrapping_sub(1), 0, u64::MAX]),
        1 => drop(columns.offsets.pop()),
        2 => columns.offsets.push(now),
        3 => columns.count = random.of(&[columns.count.wrapping_add(1), columns.count.wrapping_sub(1), 0, u32::MAX]),
        4 => drop(columns.deltas.pop()),
        5 => columns.deltas.push(random.of(&[1, -1])),
        _ => edge_delta(random, place, &mut columns),
    }
    columns
}

/// A delta at the edge of the target's side, of 64 bits, or of the column.
fn edge_delta(random: &mut Random, place: &Place, set: &mut Set) {
    if set.deltas.is_empty() {
        return;
    }
    let at = random.below(set.deltas.len());
    let slot = set.offsets.iter().rposition(|offset| *offset <= at as u64).unwrap_or(0) as u64;
    let event = place.first.wrapping_add(slot / 2);
    let edge = random.of(&[0, event, place.end, u64::MAX]);
    let target = random.of(&[edge, edge.wrapping_add(1), edge.wrapping_sub(1)]);
    set.deltas[at] = random.of(&[event.wrapping_sub(target) as i64, i64::MIN, i64::MAX, i64::MIN + 1, 0, 1, -1]);
}

fn set(random: &mut Random, place: &Place, which: usize) -> Vec<Part> {
    let set = if random.once_in(3) { broken_set(random, place, which) } else { sound_set(random, place, which) };
    vec![number(set.count), list(&set.offsets), list(&set.deltas)]
}

pub fn read(random: &mut Random) -> Vec<Part> {
    let mut place = place(random);
    overflowing(random, &mut place);
    let mut parts = place.parts();
    for which in 0..3 {
        parts.extend(set(random, &place, which));
    }
    let covered = random.once_in(2);
    parts.push(number(u8::from(covered)));
    parts.extend(stored_labels(random, if covered { place.rows } else { 0 }));
    parts
}

/// Two label columns of 64-bit numbers, now and then too long, too short or too large.
fn stored_labels(random: &mut Random, rows: u64) -> Vec<Part> {
    let column = |random: &mut Random| {
        let rows = if random.once_in(12) { random.of(&[rows + 1, rows.saturating_sub(1)]) } else { rows };
        let mut column: Vec<u64> = (0..rows).map(|_| random.of(&[0, 1, 7, (1 << 32) - 1])).collect();
        if random.once_in(12) && let Some(last) = column.last_mut() {
            *last = random.of(&[1 << 32, u64::MAX]);
        }
        list(&column)
    };
    vec![column(random), column(random)]
}

pub fn parents(random: &mut Random) -> Vec<Part> {
    let mut place = place(random);
    overflowing(random, &mut place);
    let mut parts = place.parts();
    parts.extend(set(random, &place, 0));
    parts.extend([number(random.below(2) as u8), number(place.number(random))]);
    parts
}

pub fn children(random: &mut Random) -> Vec<Part> {
    let mut place = place(random);
    overflowing(random, &mut place);
    let mut parts = place.parts();
    parts.extend(set(random, &place, 1));
    parts.extend(set(random, &place, 2));
    parts.extend([number(random.below(2) as u8), number(place.number(random))]);
    parts
}

pub fn label(random: &mut Random) -> Vec<Part> {
    let place = place(random);
    let mut parts = vec![number(place.first), number(place.rows)];
    parts.extend(stored_labels(random, place.rows));
    parts.push(number(place.number(random)));
    parts
}

pub fn walk(random: &mut Random) -> Vec<Part> {
    let place = place(random);
    let mut parts = place.parts();
    parts.extend(set(random, &place, 0));
    let limits: &[u64] = if random.large { &[0, 1, 100, 1023, 4095, 4096, 4097, u64::MAX] } else { &[0, 1, 2, 3, 4, 5, 10, 100] };
    let limit = random.of(limits);
    parts.extend([number(random.below(2) as u8), number(limit), number(place.number(random))]);
    parts
}
