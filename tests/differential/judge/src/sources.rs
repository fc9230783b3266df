//! A file of an archive as the original takes it: a footer, one granule, rows that are tags.

use crate::archive::{File, Row, Set};
use crate::blocks;
use original::artifacts::state_chunk::StateRoot;
use original::deletes::DeletionVector;
use original::error::FormatError;
use original::events::{RelationshipKind, RelationshipRef};
use original::layout::footer::{ExactCounts, Footer, GranuleEntry, GraphBlockEntry, GraphDirectory, StateRootEntry};
use original::layout::graph::{ChainCover, DepthRange, UnresolvedEdge};
use original::layout::reader::OeFile;
use original::layout::shown::decode_cover;
use original::writer::build::BuildRow;
use original::writer::graph_renumber::RenumberSource;

/// The one granule of a file.
pub fn granule(rows: usize) -> GranuleEntry {
    GranuleEntry { first_row_ordinal: 0, granule_id: 0, row_count: rows as u32 }
}

/// The parent that an unresolved record names: its handle as an external id. A kind that is neither prev nor auth becomes one that
/// the original has no edges for.
pub fn reference(kind: u8, handle: u32) -> RelationshipRef {
    let kind = match kind {
        0 => RelationshipKind::Prev,
        1 => RelationshipKind::Auth,
        _ => RelationshipKind::Related,
    };
    RelationshipRef::to_external(kind, &handle.to_be_bytes()).expect("four bytes are an external id")
}

pub fn depth(file: &File) -> Option<DepthRange> {
    file.depth.map(|depth| DepthRange { max: depth.greatest, min: depth.least })
}

pub fn unresolved(file: &File) -> Vec<UnresolvedEdge> {
    let edge = |record: &crate::archive::Unresolved| UnresolvedEdge {
        child: record.child,
        parent: reference(record.kind, record.handle),
    };
    file.unresolved.iter().map(edge).collect()
}

/// The cover as the original reads it.
pub fn cover(file: &File) -> Result<Option<ChainCover>, FormatError> {
    file.cover.as_ref().map(|cover| decode_cover(&blocks::cover_of(cover))).transpose()
}

/// What the original takes of a file whose cover can be read.
pub fn source(file: &File) -> Result<RenumberSource, FormatError> {
    let block = blocks::granule_of(&file.sets, file.cover.as_ref());
    let footer = Footer {
        exact_counts: ExactCounts { row_count: file.rows.len() as u64 },
        granules: vec![granule(file.rows.len())],
        graph: Some(GraphDirectory {
            blocks: vec![GraphBlockEntry { granule_id: 0, len: block.len() as u64, offset: 0 }],
            chain_cover: cover(file)?,
            depth: depth(file),
            event_ids: None,
            first_sn: file.first,
            subject: file.subject.clone(),
            unresolved: unresolved(file),
        }),
        state_roots: file
            .roots
            .iter()
            .map(|root| StateRootEntry { root: StateRoot(root.handle), row_ordinal: root.row })
            .collect(),
    };
    Ok(RenumberSource {
        deleted: Some(DeletionVector(file.rows.iter().map(|row| row.erased).collect())),
        file: OeFile::new(block, footer),
        rows: file.rows.iter().map(|row: &Row| BuildRow { relationships: None, tag: row.tag }).collect(),
    })
}

/// The file with its subject, place, group and kind of cover, and nothing that could be refused in it.
pub fn bare(file: &File) -> File {
    let rows = file.rows.len();
    File {
        depth: None,
        sets: std::array::from_fn(|_| Set::empty(rows)),
        rows: vec![Row { erased: false, tag: 0 }; rows],
        unresolved: Vec::new(),
        roots: Vec::new(),
        cover: file.cover.as_ref().map(|_| crate::archive::Cover {
            chains: vec![0; rows],
            seqs: vec![0; rows],
            ..Default::default()
        }),
        subject: file.subject.clone(),
        references: Vec::new(),
        ..*file
    }
}
