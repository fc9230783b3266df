//! The original keeps a cover's stored form to its own folder; these two hand it out.

use super::graph::ChainCover;
use crate::error::FormatError;
use crate::file::bytes::Writer;

pub fn encode_cover(cover: &ChainCover) -> Vec<u8> {
    let mut out = Writer::new();
    cover.encode(&mut out);
    out.into_bytes()
}

pub fn decode_cover(bytes: &[u8]) -> Result<ChainCover, FormatError> {
    ChainCover::decode(bytes)
}
