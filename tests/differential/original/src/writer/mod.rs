//! Renumbering and resolving are the original's; a row is its tag and its references.

pub mod build {
    use crate::events::EventRelationships;

    #[derive(Debug, Clone, PartialEq)]
    pub struct BuildRow {
        pub relationships: Option<EventRelationships>,
        pub tag: u64,
    }
}

include!(concat!(env!("OUT_DIR"), "/writer.rs"));
