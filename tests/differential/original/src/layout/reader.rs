//! A file over memory: its footer, and the bytes of its blocks.

use super::footer::Footer;
use super::graph::GranuleEdges;
use crate::error::FormatError;

pub struct OeFile {
    blocks: Vec<u8>,
    footer: Footer,
}

impl OeFile {
    pub fn new(blocks: Vec<u8>, footer: Footer) -> Self {
        Self { blocks, footer }
    }

    pub fn footer(&self) -> &Footer {
        &self.footer
    }

    pub fn data(&self, position: usize, len: usize, what: &'static str) -> Result<&[u8], FormatError> {
        position
            .checked_add(len)
            .and_then(|end| self.blocks.get(position..end))
            .ok_or(FormatError::Truncated { what })
    }

    pub fn cached_granule_edges(&self, granule_id: u32) -> Result<GranuleEdges, FormatError> {
        self.granule_edges(granule_id)
    }

    pub fn external_id(&self, _row: u64) -> Result<Option<Vec<u8>>, FormatError> {
        Ok(None)
    }

    pub fn file_position(&self, _granule_id: u32, offset: u64) -> Result<usize, FormatError> {
        Ok(offset as usize)
    }
}
