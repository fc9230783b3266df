//! An archive as it is shown. Only archives that the library accepted are read here, and nothing is decided: what cannot be read is no refusal,
//! but a record that this reader does not know yet.

mod cursor;
mod records;

pub use records::read;

/// prev and auth, in the order of their numbers.
pub const KINDS: [&str; 2] = ["prev", "auth"];

pub struct File {
    pub first_sn: u64,
    pub group: u8,
    pub subject: Vec<u8>,
    /// The least and the greatest.
    pub depth: Option<(u64, u64)>,
    pub events: Vec<Event>,
    /// Of a file with a chain cover: from chain, from seq, to chain, to seq.
    pub links: Option<Vec<[u32; 4]>>,
}

#[derive(Default)]
pub struct Event {
    pub sn: u64,
    pub is_erased: bool,
    pub tag: u64,
    /// The numbers of its parents, a list for each kind.
    pub parents: [Vec<u64>; KINDS.len()],
    /// The kinds and handles of parents that the archive has no number for.
    pub unresolved: Vec<(u8, u32)>,
    /// The handle of its state root.
    pub root: Option<u64>,
    /// Its chain and seq, where its file has a chain cover.
    pub label: Option<(u32, u32)>,
}

/// The events of all files, in order.
pub fn events(files: &[File]) -> impl Iterator<Item = &Event> {
    files.iter().flat_map(|file| &file.events)
}
