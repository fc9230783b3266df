//! The graph's layout is the original's; footer and reader are stand-ins.

pub mod footer;
pub mod reader;
pub mod shown;

include!(concat!(env!("OUT_DIR"), "/layout.rs"));
