//! The cursor, the writer and their errors: all the original's.

include!(concat!(env!("OUT_DIR"), "/file.rs"));
