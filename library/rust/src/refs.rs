//! The references of a file's rows: parent lists and unresolved records out of them, and their record.

use crate::boundary::Answer;
use crate::refusal::{Refusal, accepted, length};

const OFFSETS: usize = 2049;
const PARENTS: usize = 4096;
const RECORDS: usize = 1024;

/// What an event's reference says of its target.
#[derive(Clone, Copy, Debug, PartialEq, Eq, Hash)]
#[repr(u8)]
pub enum ReferenceKind {
    Prev = 0,
    Auth = 1,
    Link = 2,
    Parent = 3,
    Related = 4,
    Root = 5,
}

/// What a reference names its target by.
#[derive(Clone, Copy, Debug, PartialEq, Eq, Hash)]
#[repr(u8)]
pub enum Space {
    EventId = 0,
    External = 1,
    ProtocolId = 2,
    Sequence = 3,
}

/// A reference of an event. Its target is a number where the space is `Sequence`, else the host's handle of an id.
#[derive(Clone, Copy, Debug, PartialEq, Eq, Hash)]
pub struct Reference {
    pub kind: ReferenceKind,
    pub space: Space,
    pub target: u64,
}

/// The parents of one event, in the order of its references.
#[derive(Clone, Debug, Default, PartialEq, Eq)]
pub struct Parents {
    pub prev: Vec<u64>,
    pub auth: Vec<u64>,
}

/// A prev or auth reference that names nothing: its event, its kind, and its place among all references given, from 0.
#[derive(Clone, Copy, Debug, PartialEq, Eq)]
pub struct Unresolved {
    pub child: u64,
    pub kind: ReferenceKind,
    pub place: usize,
}

/// The parents of each row, and the unresolved references in their order.
#[derive(Clone, Debug, PartialEq, Eq)]
pub struct ResolvedGraph {
    pub parents: Vec<Parents>,
    pub unresolved: Vec<Unresolved>,
}

#[repr(C)]
pub(crate) struct Resolved {
    refusal: u64,
    parents: usize,
    unresolved: usize,
}

unsafe extern "C" {
    fn ridgeoven_resolve_graph(
        first: u64, rows: usize, starts: *const u64, starts_length: usize, kinds: *const u8, kinds_length: usize, spaces: *const u8,
        spaces_length: usize, targets: *const u64, targets_length: usize, known: *const u8, known_length: usize, numbers: *const u64,
        numbers_length: usize, offsets: *mut u64, offsets_room: usize, parents: *mut u64, parents_room: usize, children: *mut u64,
        children_room: usize, record_kinds: *mut u64, record_kinds_room: usize, places: *mut u64, places_room: usize,
    ) -> Resolved;
    fn ridgeoven_write_references(
        out: *mut u8, out_room: usize, at: usize, starts: *const u64, starts_length: usize, kinds: *const u8, kinds_length: usize,
        spaces: *const u8, spaces_length: usize, targets: *const u64, targets_length: usize,
    ) -> Answer;
}

/// The references of all rows, a column for each part, and where each row's start.
struct Given {
    starts: Vec<u64>,
    kinds: Vec<u8>,
    spaces: Vec<u8>,
    targets: Vec<u64>,
}

impl Given {
    fn of(rows: &[Vec<Reference>]) -> Self {
        let ends = rows.iter().scan(0, |end, row| {
            *end += row.len() as u64;
            Some(*end)
        });
        let all = || rows.iter().flatten();
        Given {
            starts: std::iter::once(0).chain(ends).collect(),
            kinds: all().map(|one| one.kind as u8).collect(),
            spaces: all().map(|one| one.space as u8).collect(),
            targets: all().map(|one| one.target).collect(),
        }
    }
}

/// What a call is lent for its answer, and how much of it is one.
struct Made {
    offsets: Vec<u64>,
    parents: Vec<u64>,
    children: Vec<u64>,
    kinds: Vec<u64>,
    places: Vec<u64>,
}

impl Made {
    fn empty() -> Self {
        let record = || vec![0; RECORDS];
        Made { offsets: vec![0; OFFSETS], parents: vec![0; PARENTS], children: record(), kinds: record(), places: record() }
    }

    fn slot(&self, at: usize) -> Vec<u64> {
        self.parents[self.offsets[at] as usize..self.offsets[at + 1] as usize].to_vec()
    }

    fn record(&self, at: usize) -> Unresolved {
        let kind = if self.kinds[at] == 0 { ReferenceKind::Prev } else { ReferenceKind::Auth };
        Unresolved { child: self.children[at], kind, place: self.places[at] as usize }
    }
}

/// The parents and the unresolved references of a file's rows, of which the first is the event `first`. There is an answer for each reference of
/// all rows, in their order: the number of what it names, where the host's lookup knows it. Answers beside references by sequence, and beside
/// those that are neither prev nor auth, are not looked at.
///
/// ```
/// use ridgeoven::{Parents, Reference, ReferenceKind::Prev, Space, resolve_graph};
/// let by_number = Reference { kind: Prev, space: Space::Sequence, target: 99 };
/// let by_handle = Reference { kind: Prev, space: Space::External, target: 7 };
/// let graph = resolve_graph(100, &[vec![by_number, by_handle]], &[None, Some(98)]).unwrap();
/// assert_eq!(graph.parents, [Parents { prev: vec![99, 98], auth: vec![] }]);
/// assert_eq!(graph.unresolved, []);
/// ```
pub fn resolve_graph(first: u64, rows: &[Vec<Reference>], answers: &[Option<u64>]) -> Result<ResolvedGraph, Refusal> {
    let Given { starts, kinds, spaces, targets } = Given::of(rows);
    let known: Vec<u8> = answers.iter().map(|answer| u8::from(answer.is_some())).collect();
    let numbers: Vec<u64> = answers.iter().map(|answer| answer.unwrap_or(0)).collect();
    let mut made = Made::empty();
    let (o, p, c, k, h) = (&mut made.offsets, &mut made.parents, &mut made.children, &mut made.kinds, &mut made.places);
    let resolved = unsafe {
        ridgeoven_resolve_graph(
            first, rows.len(), starts.as_ptr(), starts.len(), kinds.as_ptr(), kinds.len(), spaces.as_ptr(), spaces.len(), targets.as_ptr(),
            targets.len(), known.as_ptr(), known.len(), numbers.as_ptr(), numbers.len(), o.as_mut_ptr(), o.len(), p.as_mut_ptr(), p.len(),
            c.as_mut_ptr(), c.len(), k.as_mut_ptr(), k.len(), h.as_mut_ptr(), h.len(),
        )
    };
    let unresolved = accepted(resolved.refusal, resolved.unresolved)?;
    Ok(ResolvedGraph {
        parents: (0..rows.len()).map(|row| Parents { prev: made.slot(2 * row), auth: made.slot(2 * row + 1) }).collect(),
        unresolved: (0..unresolved).map(|at| made.record(at)).collect(),
    })
}

/// Writes the record of the references of a file's rows into `out`, from place `at` on: the place after it. A refused call writes nothing; a
/// record of no reference is refused with 23, and so is a second parent or root in a row.
///
/// ```
/// use ridgeoven::{Reference, ReferenceKind::Prev, Space, write_references};
/// let mut out = [0; 20];
/// let end = write_references(&[vec![Reference { kind: Prev, space: Space::Sequence, target: 99 }]], &mut out, 0);
/// assert_eq!(end, Ok(20));
/// assert_eq!(out, [0, 0, 0, 16, 1, 7, 0, 0, 0, 1, 0, 3, 0, 0, 0, 0, 0, 0, 0, 99]);
/// ```
pub fn write_references(rows: &[Vec<Reference>], out: &mut [u8], at: usize) -> Result<usize, Refusal> {
    let Given { starts, kinds, spaces, targets } = Given::of(rows);
    length(unsafe {
        ridgeoven_write_references(
            out.as_mut_ptr(), out.len(), at, starts.as_ptr(), starts.len(), kinds.as_ptr(), kinds.len(), spaces.as_ptr(), spaces.len(),
            targets.as_ptr(), targets.len(),
        )
    })
}
