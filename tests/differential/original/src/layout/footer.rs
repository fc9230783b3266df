//! What a file's footer says of its graph.

use super::graph::{ChainCover, DepthRange, EventIdIndex, UnresolvedEdge};
use crate::artifacts::state_chunk::StateRoot;

#[derive(Debug, Clone, PartialEq, Eq)]
pub struct GranuleEntry {
    pub first_row_ordinal: u64,
    pub granule_id: u32,
    pub row_count: u32,
}

#[derive(Debug, Clone, PartialEq, Eq)]
pub struct StateRootEntry {
    pub root: StateRoot,
    pub row_ordinal: u64,
}

pub struct GraphBlockEntry {
    pub granule_id: u32,
    pub len: u64,
    pub offset: u64,
}

pub struct GraphDirectory {
    pub blocks: Vec<GraphBlockEntry>,
    pub chain_cover: Option<ChainCover>,
    pub depth: Option<DepthRange>,
    pub event_ids: Option<EventIdIndex>,
    pub first_sn: u64,
    pub subject: Vec<u8>,
    pub unresolved: Vec<UnresolvedEdge>,
}

pub struct ExactCounts {
    pub row_count: u64,
}

pub struct Footer {
    pub exact_counts: ExactCounts,
    pub granules: Vec<GranuleEntry>,
    pub graph: Option<GraphDirectory>,
    pub state_roots: Vec<StateRootEntry>,
}
