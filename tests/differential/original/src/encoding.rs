//! Columns handed over uncompressed: the words of a column, little-endian, under a number for its type.

use crate::error::FormatError;

#[derive(Debug, Clone, Copy, PartialEq, Eq)]
pub struct PipelineId(pub u32);

#[derive(Debug, Clone, PartialEq, Eq)]
pub enum ColumnData {
    I64(Vec<i64>),
    U64(Vec<u64>),
}

pub struct EncodedBlock {
    pub bytes: Vec<u8>,
    pub pipeline: PipelineId,
}

const UNSIGNED: PipelineId = PipelineId(0);
const SIGNED: PipelineId = PipelineId(1);

pub fn encode_block(data: &ColumnData, _random_access: bool) -> EncodedBlock {
    match data {
        ColumnData::U64(words) => EncodedBlock {
            bytes: words.iter().flat_map(|word| word.to_le_bytes()).collect(),
            pipeline: UNSIGNED,
        },
        ColumnData::I64(words) => EncodedBlock {
            bytes: words.iter().flat_map(|word| word.to_le_bytes()).collect(),
            pipeline: SIGNED,
        },
    }
}

pub fn decode_block(pipeline: PipelineId, bytes: &[u8]) -> Result<ColumnData, FormatError> {
    let (words, rest) = bytes.as_chunks::<8>();
    if !rest.is_empty() {
        return Err(FormatError::Structural { rule: "stand-in: a column of whole words" });
    }
    match pipeline {
        UNSIGNED => Ok(ColumnData::U64(words.iter().map(|word| u64::from_le_bytes(*word)).collect())),
        SIGNED => Ok(ColumnData::I64(words.iter().map(|word| i64::from_le_bytes(*word)).collect())),
        _ => Err(FormatError::Structural { rule: "stand-in: a known column type" }),
    }
}
