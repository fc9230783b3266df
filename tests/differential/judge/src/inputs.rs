//! Archives by number: each seed gives one, valid, next to an edge, or damaged.

use crate::archive::{File, Row, Set};
use crate::damage::{DAMAGES, damage};
use crate::neighbours;
use crate::random::Random;
use crate::shapes::{self, Size};
use crate::write;

/// An archive, and the names of the changes and damages that made it another.
pub struct Made {
    pub bytes: Vec<u8>,
    pub kinds: Vec<&'static str>,
}

pub fn archive(seed: u64, size: Size) -> Made {
    let mut random = Random::new(seed);
    let mut files = shapes::archive(&mut random, size);
    let mut kinds = Vec::new();
    let fate = random.below(8);
    if fate >= 4 {
        kinds.extend(neighbours::change(&mut random, &mut files));
    }
    let mut bytes = write::archive(&files);
    if fate == 7 {
        kinds.extend(damage(&mut random, &mut bytes));
    }
    Made { bytes, kinds }
}

/// Every name that an archive may have.
pub fn kinds() -> Vec<&'static str> {
    neighbours::CHANGES.map(|(name, _)| name).into_iter().chain(DAMAGES.map(|(name, _)| name)).collect()
}

/// How many archives of so many events there are with every choice of parents and erased events.
pub fn shorts(events: usize) -> usize {
    lists(events).pow(2) << events
}

/// One of them: a file from 100 on, where parents are 99 and earlier events, in any order, each once.
pub fn short(events: usize, number: usize) -> Vec<u8> {
    let (erased, number) = (number % (1 << events), number >> events);
    let kinds = [number % lists(events), number / lists(events)].map(|number| lists_of(events, number));
    let slots: Vec<Vec<u64>> = (0..2 * events).map(|slot| kinds[slot % 2][slot / 2].clone()).collect();
    let none = Set::empty(events);
    write::archive(&[File {
        first: 100,
        group: 0,
        subject: vec![115],
        depth: None,
        sets: [Set::of(100, &slots), none.clone(), none],
        rows: (0..events).map(|row| Row { erased: erased >> row & 1 == 1, tag: row as u64 }).collect(),
        unresolved: Vec::new(),
        roots: Vec::new(),
        cover: None,
        references: Vec::new(),
    }])
}

/// How many choices of a list for each event there are, out of 99 and the events before it.
fn lists(events: usize) -> usize {
    (1..=events).map(arrangements).product()
}

/// One of them.
fn lists_of(events: usize, mut number: usize) -> Vec<Vec<u64>> {
    let mut chosen = Vec::new();
    for most in 1..=events {
        chosen.push(arrangement(number % arrangements(most), most));
        number /= arrangements(most);
    }
    chosen
}

/// How many lists of distinct numbers there are, out of so many numbers.
fn arrangements(most: usize) -> usize {
    1 + if most == 0 { 0 } else { most * arrangements(most - 1) }
}

/// Those lists of the numbers from 99 on, counted off: the empty one, then by their first number.
fn arrangement(mut number: usize, most: usize) -> Vec<u64> {
    let mut left: Vec<u64> = (99..99 + most as u64).collect();
    let mut list = Vec::new();
    while number > 0 {
        number -= 1;
        let each = arrangements(left.len() - 1);
        list.push(left.remove(number / each));
        number %= each;
    }
    list
}
