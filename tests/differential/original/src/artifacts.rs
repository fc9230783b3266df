//! State roots: one number each, the handle of document 01's roots record.

pub mod state_chunk {
    #[derive(Debug, Clone, Copy, PartialEq, Eq)]
    pub struct StateRoot(pub u64);

    pub struct StateKey;

    pub struct StateChange;
}
