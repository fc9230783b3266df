//! Valid archives of many shapes.

use crate::archive::{Cover, Depth, File, Range, Root, Row, Set, Unresolved};
use crate::random::Random;
use std::collections::{BTreeMap, BTreeSet};

/// The greatest difference of event and target that a column holds.
const REACH: u64 = i64::MAX as u64;

/// How large an archive may become.
#[derive(Debug, Clone, Copy, PartialEq, Eq)]
pub enum Size {
    /// A few hundred bytes: what the definitions compute in a second or two.
    Small,
    Middle,
    /// Up to the limits of a run.
    Large,
}

impl Size {
    /// The size where none is asked for: mostly small.
    pub fn by(seed: u64) -> Self {
        if seed % 100 == 0 {
            Self::Large
        } else if seed % 4 == 0 {
            Self::Middle
        } else {
            Self::Small
        }
    }
}

/// What a whole archive has in common.
struct Style {
    start: u64,
    /// How parents are chosen.
    lists: Lists,
    /// One event in so many is erased; 0 means none, 1 nearly all.
    erased: usize,
    /// Whether files carry the reverse and inbound sets that fit, none, or others that can be read.
    own_sets: usize,
}

#[derive(Debug, Clone, Copy)]
enum Lists {
    /// Each event names the one before it.
    Chain,
    /// Each names the two or three before it.
    Diamonds,
    /// Any earlier events, some before the start.
    Mixed,
    /// Mostly numbers before the start, out to the edge of a column's reach.
    Before,
    /// Many parents in each list.
    Dense,
}

pub fn archive(random: &mut Random, size: Size) -> Vec<File> {
    let counts = counts(random, size);
    let rows: u64 = counts.iter().flatten().sum::<usize>() as u64;
    let style = Style {
        start: start(random, rows),
        lists: random.of(&[Lists::Chain, Lists::Diamonds, Lists::Mixed, Lists::Mixed, Lists::Before, Lists::Dense]),
        erased: random.of(&[0, 1, 2, 2, 3, 6]),
        own_sets: random.below(3),
    };
    let subject = subject(random, size);
    let mut files = Vec::new();
    let mut first = style.start;
    for (group, counts) in counts.iter().enumerate() {
        let mut seqs = random.once_in(2).then(BTreeMap::new);
        let deep = random.once_in(2);
        for &rows in counts {
            let mut file = plain(first, group as u8, &subject, rows);
            fill(random, &style, &mut file);
            file.depth = depth(random, deep);
            file.cover = seqs.as_mut().map(|seqs| cover(random, seqs, rows));
            first += rows as u64;
            files.push(file);
        }
        keep_one(random, &mut files, group as u8);
    }
    files
}

/// Rows of each file, group by group.
fn counts(random: &mut Random, size: Size) -> Vec<Vec<usize>> {
    let (groups, files, rows) = match size {
        Size::Small => (random.of(&[1, 1, 2, 2, 3]), 2, 4),
        Size::Middle => (random.of(&[1, 2, 3, 4, 16]), 3, 12),
        Size::Large => (random.of(&[1, 2, 4]), 3, 200),
    };
    (0..groups)
        .map(|_| {
            let files = 1 + random.below(files);
            let mut counts: Vec<usize> = (0..files).map(|_| random.below(rows + 1)).collect();
            if counts.iter().sum::<usize>() == 0 {
                counts[0] = 1;
            }
            if size == Size::Large && random.once_in(4) && groups == 1 {
                counts = vec![1024];
            }
            counts
        })
        .collect()
}

/// First numbers at the edges of signed and unsigned 64 bits, and ordinary ones.
fn start(random: &mut Random, rows: u64) -> u64 {
    let last = u64::MAX - rows;
    let near = random.within(0, 3);
    random
        .of(&[near, 1, 100, 100, 1000, (1 << 32) - near, (1 << 63) - near, (1 << 63) - rows, (1 << 63) + near, last - near, last])
        .min(last)
}

fn subject(random: &mut Random, size: Size) -> Vec<u8> {
    let length = if size == Size::Small { random.of(&[1, 1, 2]) } else { random.of(&[1, 4, 255]) };
    (0..length).map(|_| random.next() as u8).collect()
}

fn plain(first: u64, group: u8, subject: &[u8], rows: usize) -> File {
    File {
        first,
        group,
        subject: subject.to_vec(),
        depth: None,
        sets: std::array::from_fn(|_| Set::empty(rows)),
        rows: vec![Row { erased: false, tag: 0 }; rows],
        unresolved: Vec::new(),
        roots: Vec::new(),
        cover: None,
        references: Vec::new(),
    }
}

fn depth(random: &mut Random, deep: bool) -> Option<Depth> {
    if !deep || random.once_in(6) {
        return None;
    }
    let (a, b) = (random.within(0, 9), random.of(&[0, 7, u64::MAX]));
    Some(Depth { least: a.min(b), greatest: a.max(b) })
}

fn fill(random: &mut Random, style: &Style, file: &mut File) {
    let mut slots = Vec::new();
    for place in 0..file.rows.len() {
        let event = file.first + place as u64;
        let erased = match style.erased {
            0 => false,
            1 => !random.once_in(6),
            times => random.once_in(times),
        };
        file.rows[place] = Row { erased, tag: random.of(&[0, 1, u64::MAX, random_tag(event)]) };
        slots.push(parents(random, style, event));
        slots.push(parents(random, style, event));
        if random.once_in(4) {
            file.roots.push(Root { row: place as u64, handle: random.next() });
        }
        while random.once_in(4) {
            let kind = random.below(2) as u8;
            file.unresolved.push(Unresolved { child: event, kind, handle: random.next() as u32 });
        }
    }
    let reverse = reverse(file, &slots);
    file.sets[0] = Set::of(file.first, &slots);
    match style.own_sets {
        0 => file.sets[1] = Set::of(file.first, &reverse),
        1 => other_sets(random, file),
        _ => (),
    }
}

fn random_tag(event: u64) -> u64 {
    event.wrapping_mul(0x1_0000_0001)
}

/// A list of earlier numbers within reach.
fn parents(random: &mut Random, style: &Style, event: u64) -> Vec<u64> {
    let low = event.saturating_sub(REACH);
    let own = event - style.start; // events of the archive before this one
    let back = |steps: u64| event.checked_sub(steps).filter(|target| *target >= low);
    let mut list: Vec<u64> = Vec::new();
    match style.lists {
        Lists::Chain => list.extend(back(1).filter(|_| !random.once_in(5))),
        Lists::Diamonds => list.extend((1..=random.within(1, 3)).filter_map(back)),
        Lists::Mixed => {
            for _ in 0..random.below(4) {
                let steps = if own > 0 && !random.once_in(3) { random.within(1, own) } else { own + random.within(1, 4) };
                list.extend(back(steps));
            }
        }
        Lists::Before => {
            for _ in 0..random.below(3) {
                let near = event.saturating_sub(random.within(1, 4));
                let target = random.of(&[low, low + 1, style.start.saturating_sub(1), style.start / 2, near, near]);
                list.extend((target < event && target >= low).then_some(target));
            }
        }
        Lists::Dense => list.extend((1..=random.within(0, 7)).filter_map(back)),
    }
    if !random.once_in(8) {
        let mut seen = BTreeSet::new();
        list.retain(|target| seen.insert(*target));
    }
    if random.once_in(2) {
        list.reverse();
    }
    list
}

/// The forward lists turned round.
fn reverse(file: &File, slots: &[Vec<u64>]) -> Vec<Vec<u64>> {
    let mut turned = vec![Vec::new(); slots.len()];
    for (slot, targets) in slots.iter().enumerate() {
        for target in targets {
            if let Some(row) = target.checked_sub(file.first) {
                turned[2 * row as usize + slot % 2].push(file.first + slot as u64 / 2);
            }
        }
    }
    turned
}

/// Reverse and inbound lists that can be read and fit nothing.
fn other_sets(random: &mut Random, file: &mut File) {
    let end = file.first + file.rows.len() as u64;
    let mut reverse = Vec::new();
    let mut inbound = Vec::new();
    for slot in 0..2 * file.rows.len() {
        let event = file.first + slot as u64 / 2;
        let mut later = Vec::new();
        while event + 1 < end && random.once_in(3) {
            later.push(random.within(event + 1, end - 1));
        }
        reverse.push(later);
        let farthest = event.saturating_add(REACH);
        let past = |target: u64| (target >= end && target <= farthest).then_some(target);
        let choices = [end, end.saturating_add(3), farthest, u64::MAX];
        inbound.push(if random.once_in(3) { past(random.of(&choices)).into_iter().collect() } else { Vec::new() });
    }
    file.sets[1] = Set::of(file.first, &reverse);
    file.sets[2] = Set::of(file.first, &inbound);
}

/// A cover whose seqs rise with those of the group's earlier files, save now and then.
fn cover(random: &mut Random, seqs: &mut BTreeMap<u32, u32>, rows: usize) -> Cover {
    let mut cover = Cover::default();
    for _ in 0..rows {
        let chain = random.of(&[0, 1, 2, 5, u32::MAX]);
        let seq = seqs.entry(chain).or_insert(random.below(3) as u32);
        *seq += if random.once_in(60) { 0 } else { 1 + random.below(3) as u32 };
        cover.chains.push(chain);
        cover.seqs.push(*seq);
    }
    let mut ids = BTreeSet::new();
    while random.once_in(2) {
        ids.insert(random.of(&[0, 1, 7, u32::MAX]));
    }
    for chain in ids {
        let (a, b) = (random.below(5) as u32, random.of(&[0, 9, u32::MAX]));
        cover.ranges.push(Range { chain, least: a.min(b), greatest: a.max(b) });
    }
    cover.links = links(random);
    cover
}

/// The stored columns of some links in order.
fn links(random: &mut Random) -> [Vec<u32>; 4] {
    let mut set = BTreeSet::new();
    while random.once_in(2) {
        set.insert([random.of(&[0, 1, 3, u32::MAX]), random.below(3) as u32, random.of(&[0, 4, u32::MAX]), random.below(2) as u32]);
    }
    let mut columns: [Vec<u32>; 4] = Default::default();
    let mut before = 0;
    for link in set {
        columns[0].push(link[0] - before);
        before = link[0];
        for part in 1..4 {
            columns[part].push(link[part]);
        }
    }
    columns
}

/// A group without a survivor is refused, so one event stays, save now and then.
fn keep_one(random: &mut Random, files: &mut [File], group: u8) {
    let rows: Vec<&mut Row> = files.iter_mut().filter(|file| file.group == group).flat_map(|file| &mut file.rows).collect();
    if rows.iter().all(|row| row.erased) && !random.once_in(20) {
        let kept = random.below(rows.len());
        rows.into_iter().nth(kept).expect("a row").erased = false;
    }
}
