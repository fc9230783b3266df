//! All short inputs of a question, up to a size that takes seconds.

use crate::cases::{Part, list, number};

/// All lists of numbers of the choices, of at most so many.
fn lists(choices: &[i128], most: usize) -> Vec<Vec<i128>> {
    let mut found = vec![Vec::new()];
    let mut start = 0;
    for _ in 0..most {
        let end = found.len();
        for at in start..end {
            for choice in choices {
                let mut longer = found[at].clone();
                longer.push(*choice);
                found.push(longer);
            }
        }
        start = end;
    }
    found
}

/// Columns of one row from 2 on, in a file that ends at 3 or, where reverse targets are wanted, at 4.
fn one_row(sets: usize, end: u8, deltas: &[i128]) -> Vec<Vec<Part>> {
    let mut found = Vec::new();
    for count in 0..=2u8 {
        for offsets in lists(&[0, 1, 2], 3) {
            for deltas in lists(deltas, 2) {
                let set = [number(count), list(&offsets), list(&deltas)];
                let none = [number(0), list(&[0, 0, 0]), list::<i64>(&[])];
                let place = [number(2), number(1), number(end)];
                for at in 0..sets {
                    let mut input = place.to_vec();
                    for which in 0..sets {
                        input.extend(if which == at { set.clone() } else { none.clone() });
                    }
                    for kind in 0..2u8 {
                        let mut input = input.clone();
                        input.extend([number(kind), number(2)]);
                        found.push(input);
                    }
                }
            }
        }
    }
    found
}

pub fn parents() -> Vec<Vec<Part>> {
    one_row(1, 3, &[-1, 0, 1, 2, 3])
}

pub fn children() -> Vec<Vec<Part>> {
    one_row(2, 4, &[-3, -2, -1, 0, 1])
}

/// Two rows from 1 on with every list of at most two parents out of 0, 1 and 2, prev and auth.
pub fn build() -> Vec<Vec<Part>> {
    let choices = lists(&[0, 1, 2], 2);
    let mut found = Vec::new();
    for shape in 0..choices.len().pow(4) {
        let slots: Vec<&Vec<i128>> = (0..4).map(|slot| &choices[shape / choices.len().pow(slot) % choices.len()]).collect();
        let offsets: Vec<u64> = (0..=4).map(|slot| slots[..slot].iter().map(|list| list.len() as u64).sum::<u64>()).collect();
        let none = || Part::List(Vec::new());
        let targets = slots.into_iter().flatten().copied().collect();
        let mut input = vec![list(&[97u8]), number(1), number(2), list(&offsets), Part::List(targets)];
        input.extend([none(), none(), none(), none(), number(0), none(), none(), none(), none(), none(), number(0), number(2)]);
        found.push(input);
    }
    found
}

/// Three rows from 1 on, each naming any earlier numbers in order, one kind; every start in reach, limits 0 to 4.
pub fn walk() -> Vec<Vec<Part>> {
    let mut found = Vec::new();
    for shape in 0..64u64 {
        // bits of the shape: row 1 names 0; row 2 names 0, 1; row 3 names 0, 1, 2
        let rows = [shape & 1, shape >> 1 & 3, shape >> 3 & 7];
        let mut offsets = vec![0];
        let mut deltas: Vec<i64> = Vec::new();
        for (event, names) in (1..).zip(rows) {
            deltas.extend((0..event).filter(|target| names >> target & 1 == 1).map(|target| event - target));
            offsets.extend([deltas.len() as u64; 2]);
        }
        for limit in 0..5u8 {
            for start in 0..5u8 {
                let mut input = vec![number(1), number(3), number(4), number(deltas.len() as u64), list(&offsets), list(&deltas)];
                input.extend([number(0), number(limit), number(start)]);
                found.push(input);
            }
        }
    }
    found
}

/// Every cover of at most two ranges over small numbers, and every window.
pub fn window() -> Vec<Vec<Part>> {
    let mut found = Vec::new();
    for ids in lists(&[0, 1], 2) {
        for least in lists(&[0, 1, 2], 2).into_iter().filter(|column| column.len() == ids.len()) {
            for greatest in lists(&[0, 1, 2], 2).into_iter().filter(|column| column.len() == ids.len()) {
                for bounds in 0..9u8 {
                    let columns = [&ids, &least, &greatest].map(|column| Part::List(column.clone()));
                    let asked = [number(1), number(bounds % 3), number(bounds / 3)];
                    found.push([columns, asked].concat());
                }
            }
        }
    }
    found
}

/// Every cover of at most two labels and two links over small numbers.
pub fn cover() -> Vec<Vec<Part>> {
    let mut found = Vec::new();
    for chains in lists(&[0, 1], 2) {
        for seqs in lists(&[0, 1], 2).into_iter().filter(|column| column.len() == chains.len()) {
            for links in lists(&Vec::from_iter(0..16), 2) {
                let column = |at: usize| Part::List(links.iter().map(|link| link >> at & 1).collect());
                let labels = [Part::List(chains.clone()), Part::List(seqs.clone())];
                found.push(labels.into_iter().chain((0..4).map(column)).collect());
            }
        }
    }
    found
}

/// Two rows from 100 on with at most two references, of every kind and space, known or not; where there are two, with one target or with two.
pub fn resolve() -> Vec<Vec<Part>> {
    let all: Vec<i128> = (0..48).collect();
    let mut found = Vec::new();
    for references in lists(&all, 2) {
        let column = |part: fn(i128) -> i128| Part::List(references.iter().map(|one| part(*one)).collect());
        let many = references.len() as u64;
        for first in 0..=many {
            for same in 0..many.max(1) {
                let targets = |from: u64| list(&(0..many).map(|at| if same == 0 { from + at } else { from }).collect::<Vec<u64>>());
                let mut input = vec![number(100), number(2), list(&[0, first, many]), column(|one| one % 6), column(|one| one / 6 % 4)];
                input.extend([targets(10), column(|one| one / 24), targets(20)]);
                found.push(input);
            }
        }
    }
    found
}

pub fn none() -> Vec<Vec<Part>> {
    Vec::new()
}
