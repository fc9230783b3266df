//! The event id index hashes ids; the index is outside the port, so any hash serves.

pub mod xxh3 {
    use std::hash::{DefaultHasher, Hasher};

    pub fn xxh3_64(bytes: &[u8]) -> u64 {
        let mut hasher = DefaultHasher::new();
        hasher.write(bytes);
        hasher.finish()
    }
}
