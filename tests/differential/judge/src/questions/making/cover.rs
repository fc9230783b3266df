//! Labels, links and ranges.

use crate::cases::{Part, list, number};
use crate::random::Random;
use std::collections::BTreeSet;

fn few(random: &mut Random) -> usize {
    match random.below(12) {
        _ if random.large => random.below(1025),
        0 => random.below(40),
        _ => random.below(5),
    }
}

/// A number of a chain or a seq; a large input has many different ones.
fn word(random: &mut Random, choices: &[u32]) -> u32 {
    if random.large && !random.once_in(4) { random.below(300) as u32 } else { random.of(choices) }
}

fn some_links(random: &mut Random) -> Vec<[u32; 4]> {
    let different = if random.large { random.of(&[5, 100, 5000]) } else { 5 };
    let mut word = || word(random, &[0, 1, 2, 5, u32::MAX - 1, u32::MAX]);
    let mut link = || [word(), word(), word(), word()];
    let links: Vec<[u32; 4]> = (0..different).map(|_| link()).collect();
    (0..few(random)).map(|_| random.of(&links)).collect()
}

fn link_columns(links: &[[u32; 4]]) -> Vec<Part> {
    (0..4).map(|part| list(&Vec::from_iter(links.iter().map(|link| link[part])))).collect()
}

pub fn cover(random: &mut Random) -> Vec<Part> {
    let rows = few(random);
    let column = |random: &mut Random| list(&Vec::from_iter((0..rows).map(|_| word(random, &[0, 1, 2, 9, u32::MAX]))));
    let mut parts = vec![column(random), column(random)];
    parts.extend(link_columns(&some_links(random)));
    parts
}

pub fn stored(random: &mut Random) -> Vec<Part> {
    let mut links = some_links(random);
    if random.once_in(2) {
        links.sort();
    }
    link_columns(&links)
}

/// Stored link columns: rising links, then perhaps one entry changed or one column longer.
fn stored_links(random: &mut Random) -> Vec<Part> {
    let mut links = Vec::from_iter(BTreeSet::from_iter(some_links(random)));
    let mut before = 0;
    for link in &mut links {
        let chain = link[0];
        link[0] -= before;
        before = chain;
    }
    let mut columns: [Vec<u32>; 4] = std::array::from_fn(|part| links.iter().map(|link| link[part]).collect());
    let column = &mut columns[random.below(4)];
    if random.once_in(8) {
        column.push(0);
    } else if random.once_in(3) && !column.is_empty() {
        let at = random.below(column.len());
        let now = column[at];
        column[at] = random.of(&[now.saturating_sub(1), now.saturating_add(1), 0, u32::MAX]);
    }
    columns.iter().map(|column| list(column)).collect()
}

fn ranges(random: &mut Random) -> Vec<Part> {
    let ids = BTreeSet::from_iter((0..few(random)).map(|_| random.of(&[0, 1, 2, 3, 50, 60, u32::MAX])));
    let mut ids = Vec::from_iter(ids);
    if random.once_in(8) {
        ids.extend(ids.last().copied().map(|id| random.of(&[id, id.saturating_sub(1), 1])));
    }
    let mut least = Vec::new();
    let mut greatest = Vec::new();
    for _ in &ids {
        let low = random.of(&[0, 2, 5, u32::MAX]);
        least.push(low);
        let above = random.of(&[low, low.saturating_add(1), low.max(7), u32::MAX]);
        greatest.push(if random.once_in(20) { low.saturating_sub(1) } else { above });
    }
    vec![list(&ids), list(&least), list(&greatest)]
}

pub fn decode(random: &mut Random) -> Vec<Part> {
    let mut parts = ranges(random);
    parts.extend(stored_links(random));
    parts
}

pub fn window(random: &mut Random) -> Vec<Part> {
    let mut parts = ranges(random);
    let mut bound = || random.of(&[0, 1, 2, 3, 5, 6, 7, 8, u32::MAX - 1, u32::MAX]);
    let (low, high) = (bound(), bound());
    parts.extend([number(random.of(&[0, 1, 2, 3, 4, 50, u32::MAX])), number(low), number(high)]);
    parts
}

pub fn links(random: &mut Random) -> Vec<Part> {
    let mut parts = stored_links(random);
    let chains = Vec::from_iter((0..random.below(5)).map(|_| random.of(&[0, 1, 2, 5, 6, u32::MAX - 1, u32::MAX])));
    parts.push(list(&chains));
    parts
}
