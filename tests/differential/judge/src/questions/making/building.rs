//! Graphs to build, and events with roots.

use super::{Place, place, targets};
use crate::cases::{Part, list, number};
use crate::random::Random;
use std::collections::BTreeSet;

pub fn roots(random: &mut Random) -> Vec<Part> {
    let place = place(random);
    let events: BTreeSet<u64> = (0..random.below(4)).map(|_| place.number(random)).collect();
    vec![number(place.first), number(place.rows), list(&Vec::from_iter(events))]
}

/// A graph, its parts in the order of the question.
#[derive(Clone)]
struct Graph {
    subject: usize,
    place: Place,
    slots: Vec<Vec<u64>>,
    unresolved: Vec<(u64, u8, u8)>,
    depth: Vec<u64>,
    labels: Option<Vec<(u32, u32)>>,
    inbound: Vec<(u64, u64, u8)>,
    granule: (u64, u64),
}

pub fn build(random: &mut Random) -> Vec<Part> {
    let mut graph = sound_graph(random);
    for _ in 0..random.of(&[0, 0, 1, 1, 2]) {
        let before = graph.clone();
        break_graph(random, &mut graph);
        if !graph.fits() {
            graph = before;
        }
    }
    let Graph { subject, place, slots, unresolved, depth, labels, inbound, granule } = graph;
    let offsets: Vec<u64> =
        (0..=slots.len()).map(|slot| slots[..slot].iter().map(|list| list.len() as u64).sum::<u64>()).collect();
    let covered = labels.is_some();
    let labels = labels.unwrap_or_default();
    vec![
        list(&vec![97u8; subject]),
        number(place.first),
        number(place.rows),
        list(&offsets),
        list(&slots.concat()),
        list(&Vec::from_iter(unresolved.iter().map(|record| record.0))),
        list(&Vec::from_iter(unresolved.iter().map(|record| record.1))),
        list(&Vec::from_iter(unresolved.iter().map(|record| record.2))),
        list(&depth),
        number(u8::from(covered)),
        list(&Vec::from_iter(labels.iter().map(|label| label.0))),
        list(&Vec::from_iter(labels.iter().map(|label| label.1))),
        list(&Vec::from_iter(inbound.iter().map(|edge| edge.0))),
        list(&Vec::from_iter(inbound.iter().map(|edge| edge.1))),
        list(&Vec::from_iter(inbound.iter().map(|edge| edge.2))),
        number(granule.0),
        number(granule.1),
    ]
}

impl Graph {
    /// Whether document 01's limits are kept, which the original does not have.
    fn fits(&self) -> bool {
        let targets: usize = self.slots.iter().map(Vec::len).sum();
        self.place.rows <= 1024 && self.unresolved.len() <= 1024 && targets <= 4096 && self.inbound.len() <= 4096
    }
}

/// Whether one round of records more is made: by chance, in a large graph up to so many.
fn more(random: &mut Random, most: usize, made: usize) -> bool {
    if random.large { made < most } else { random.once_in(2) }
}

/// A slot of a large graph with as many parents as the column has room for, or nearly.
fn widen(random: &mut Random, place: &Place, slots: &mut [Vec<u64>]) {
    let slot = random.below(slots.len());
    let event = place.first + slot as u64 / 2;
    let others: usize = slots.iter().map(Vec::len).sum::<usize>() - slots[slot].len();
    let step = random.within(1, 3);
    let room = 4096 - others - random.below(2);
    slots[slot] = (1..=room as u64).map_while(|at| event.checked_sub(at * step)).collect();
    if random.once_in(2) {
        slots[slot].reverse();
    }
}

fn sound_graph(random: &mut Random) -> Graph {
    let mut place = place(random);
    place.end = place.first + place.rows;
    let mut slots: Vec<Vec<u64>> = (0..2 * place.rows)
        .map(|slot| {
            let mut seen = BTreeSet::new();
            let mut list = targets(random, &place, 0, place.first + slot / 2);
            list.retain(|target| seen.insert(*target));
            list
        })
        .collect();
    if random.large && random.once_in(4) {
        widen(random, &place, &mut slots);
    }
    let inside = |random: &mut Random| place.first + random.within(0, place.rows - 1);
    let mut unresolved = Vec::new();
    let mut inbound = BTreeSet::new();
    let (most, each, reach) = if random.large { (random.below(1025), 4, 2000) } else { (0, 1, 3) };
    while place.rows > 0 && more(random, most, unresolved.len()) {
        unresolved.push((inside(random), random.below(2) as u8, 0));
        for _ in 0..each {
            let parent = inside(random);
            let child = place.end.saturating_add(random.within(0, reach));
            inbound.insert((random.of(&[child, child, parent.saturating_add(1 << 63).max(place.end)]), parent, random.below(2) as u8));
        }
    }
    let granule = if random.once_in(3) {
        let first = random.within(0, place.rows);
        (first, random.within(0, place.rows - first))
    } else {
        (0, place.rows)
    };
    let mut seq = 0;
    let labels = random.once_in(2).then(|| {
        let mut label = || {
            seq += 1 + random.below(2) as u32;
            (if random.large { random.below(500) as u32 } else { random.of(&[0, 1, u32::MAX]) }, seq)
        };
        (0..place.rows).map(|_| label()).collect()
    });
    let depth = random.of(&[&[][..], &[1, 1], &[0, u64::MAX]]).to_vec();
    let mut inbound = Vec::from_iter(inbound);
    if random.once_in(2) {
        inbound.reverse();
    }
    Graph { subject: random.of(&[1, 1, 1, 255]), place, slots, unresolved, depth, labels, inbound, granule }
}

fn break_graph(random: &mut Random, graph: &mut Graph) {
    let Place { first, rows, end } = graph.place;
    let slot = random.below(graph.slots.len().max(1));
    let event = first.wrapping_add(slot as u64 / 2);
    match random.below(13) {
        0 => graph.subject = random.of(&[0, 1, 255, 256]),
        1 => graph.place.rows = random.of(&[rows + 1, rows.saturating_sub(1)]),
        2 => graph.place.first = random.of(&[u64::MAX - rows, (u64::MAX - rows).saturating_add(1), u64::MAX]),
        3 | 4 => {
            if let Some(list) = graph.slots.get_mut(slot) {
                list.push(random.of(&[event, event.saturating_sub(1), end, 0, event.saturating_sub(1 << 63), u64::MAX]));
            }
        }
        5 => {
            if let Some(list) = graph.slots.get_mut(slot)
                && let Some(&again) = list.first()
            {
                list.push(again);
            }
        }
        6 => {
            let child = random.of(&[first, first.wrapping_sub(1), end, end.wrapping_sub(1)]);
            graph.unresolved.push((child, random.of(&[0, 1, 2, 255]), random.of(&[0, 0, 1])));
        }
        7 => graph.depth = random.of(&[&[2, 1], &[1, 2], &[u64::MAX, u64::MAX - 1]]).to_vec(),
        8 => {
            if let Some(labels) = &mut graph.labels {
                labels.push((0, random.of(&[0, 9])));
            }
        }
        9 => {
            if let Some(labels) = &mut graph.labels
                && labels.len() > 1
            {
                labels[1] = (labels[0].0, random.of(&[labels[0].1, labels[0].1 - 1, labels[0].1 + 1]));
            }
        }
        10 => {
            let child = random.of(&[end, end.wrapping_sub(1), end.wrapping_add(1), u64::MAX]);
            let parent = random.of(&[first, end, first.wrapping_sub(1), end.wrapping_sub(1)]);
            graph.inbound.push((child, parent, random.below(2) as u8));
        }
        11 => {
            if let Some(&edge) = graph.inbound.first() {
                graph.inbound.push(random.of(&[edge, edge, (edge.0, edge.1, 1 - edge.2)]));
            }
        }
        _ => graph.granule = random.of(&[(0, rows + 1), (1, rows), (rows, 0), (rows, 1), (rows + 1, 0)]),
    }
}
