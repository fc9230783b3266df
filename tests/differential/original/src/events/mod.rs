//! Relationships are the original's; what they lean on is here.

pub mod constant {
    pub const EXTERNAL_ID_MAX_BYTES: usize = 1024;
    pub const SUBJECT_SEQUENCE_TARGET_LEN: usize = 8;
}

pub mod provenance {
    pub fn hex_lower_into(bytes: &[u8], out: &mut String) {
        for byte in bytes {
            out.push_str(&format!("{byte:02x}"));
        }
    }
}

include!(concat!(env!("OUT_DIR"), "/events.rs"));

pub use relationships::{EventRelationships, RelationshipKind, RelationshipRef, TargetIdSpace};
