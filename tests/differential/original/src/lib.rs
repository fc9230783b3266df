//! The original's files, compiled where they are, among stand-ins for what they lean on.
//! A module here is a stand-in unless it comes from an `include!`.

#![allow(dead_code)]

pub mod artifacts;
pub mod columns;
pub mod deletes;
pub mod encoding;
pub mod events;
pub mod file;
pub mod indexes;
pub mod layout;
pub mod writer;

include!(concat!(env!("OUT_DIR"), "/root.rs"));
