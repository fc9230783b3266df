//! A file of an archive, as its seven records hold it.

#[derive(Debug, Clone, PartialEq, Eq)]
pub struct File {
    pub first: u64,
    pub group: u8,
    pub subject: Vec<u8>,
    pub depth: Option<Depth>,
    /// Forward, reverse, inbound.
    pub sets: [Set; 3],
    pub rows: Vec<Row>,
    pub unresolved: Vec<Unresolved>,
    pub roots: Vec<Root>,
    pub cover: Option<Cover>,
    /// Row by row; empty where no row has one.
    pub references: Vec<Vec<Reference>>,
}

#[derive(Debug, Clone, Copy, PartialEq, Eq)]
pub struct Depth {
    pub least: u64,
    pub greatest: u64,
}

#[derive(Debug, Clone, Default, PartialEq, Eq)]
pub struct Set {
    pub count: u32,
    pub offsets: Vec<u64>,
    pub deltas: Vec<i64>,
}

#[derive(Debug, Clone, Copy, PartialEq, Eq)]
pub struct Row {
    pub erased: bool,
    pub tag: u64,
}

#[derive(Debug, Clone, Copy, PartialEq, Eq)]
pub struct Unresolved {
    pub child: u64,
    pub kind: u8,
    pub handle: u32,
}

#[derive(Debug, Clone, Copy, PartialEq, Eq)]
pub struct Reference {
    pub kind: u8,
    pub space: u8,
    pub target: u64,
}

#[derive(Debug, Clone, Copy, PartialEq, Eq)]
pub struct Root {
    pub row: u64,
    pub handle: u64,
}

#[derive(Debug, Clone, Default, PartialEq, Eq)]
pub struct Cover {
    pub chains: Vec<u32>,
    pub seqs: Vec<u32>,
    pub ranges: Vec<Range>,
    /// From chain as differences, from seq, to chain, to seq.
    pub links: [Vec<u32>; 4],
}

#[derive(Debug, Clone, Copy, PartialEq, Eq)]
pub struct Range {
    pub chain: u32,
    pub least: u32,
    pub greatest: u32,
}

impl Set {
    /// The set of a file of so many rows without edges.
    pub fn empty(rows: usize) -> Self {
        Self { count: 0, offsets: vec![0; 2 * rows + 1], deltas: Vec::new() }
    }

    /// The set that holds the lists of a file's slots. Differences wrap: a target out of reach gives a wrong one, on purpose.
    pub fn of(first: u64, slots: &[Vec<u64>]) -> Self {
        let mut set = Self { count: 0, offsets: vec![0], deltas: Vec::new() };
        for (slot, targets) in slots.iter().enumerate() {
            let event = first.wrapping_add(slot as u64 / 2);
            set.deltas.extend(targets.iter().map(|target| event.wrapping_sub(*target) as i64));
            set.offsets.push(set.deltas.len() as u64);
        }
        set.count = set.deltas.len() as u32;
        set
    }
}
