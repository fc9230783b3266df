//! The standard library's set under the other crate's name: the same answers, a slower hash.

pub use std::collections::HashSet;
