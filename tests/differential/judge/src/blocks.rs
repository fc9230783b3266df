//! Columns to the original's blocks and back, over the raw words that the encoding stand-in hands on.

use crate::archive::{Cover, Range, Set};
use original::encoding::{ColumnData, PipelineId, decode_block, encode_block};
use original::file::bytes::{Reader, Writer};

fn put(out: &mut Writer, column: &ColumnData) {
    let block = encode_block(column, false);
    out.put_u32(block.pipeline.0);
    out.put_u32(block.bytes.len() as u32);
    out.put_slice(&block.bytes);
}

fn take(from: &mut Reader) -> ColumnData {
    let pipeline = PipelineId(from.u32("type").expect("a block"));
    let length = from.u32("length").expect("a block") as usize;
    decode_block(pipeline, from.take(length, "words").expect("a block")).expect("a block")
}

fn take_unsigned(from: &mut Reader) -> Vec<u64> {
    match take(from) {
        ColumnData::U64(words) => words,
        ColumnData::I64(_) => panic!("the original wrote a signed column where an unsigned one is due"),
    }
}

fn take_signed(from: &mut Reader) -> Vec<i64> {
    match take(from) {
        ColumnData::I64(words) => words,
        ColumnData::U64(_) => panic!("the original wrote an unsigned column where a signed one is due"),
    }
}

fn wide(column: &[u32]) -> Vec<u64> {
    column.iter().copied().map(u64::from).collect()
}

fn narrow(column: Vec<u64>) -> Vec<u32> {
    column.into_iter().map(|word| u32::try_from(word).expect("a column of 32-bit numbers")).collect()
}

/// A granule's block: three sets and, where there is a cover, two label columns.
/// Without edges the original stores no delta column, so none is handed over.
pub fn granule(sets: &[Set; 3], labels: Option<[&[u64]; 2]>) -> Vec<u8> {
    let mut out = Writer::new();
    for set in sets {
        out.put_u32(set.count);
        put(&mut out, &ColumnData::U64(set.offsets.clone()));
        if set.count > 0 {
            put(&mut out, &ColumnData::I64(set.deltas.clone()));
        }
    }
    for column in labels.iter().flatten() {
        put(&mut out, &ColumnData::U64(column.to_vec()));
    }
    out.into_bytes()
}

/// A file's one granule.
pub fn granule_of(sets: &[Set; 3], cover: Option<&Cover>) -> Vec<u8> {
    let labels = cover.map(|cover| [wide(&cover.chains), wide(&cover.seqs)]);
    granule(sets, labels.as_ref().map(|[chains, seqs]| [&chains[..], &seqs[..]]))
}

/// The columns of a block that the original wrote.
pub fn columns(block: &[u8], covered: bool) -> ([Set; 3], Option<[Vec<u32>; 2]>) {
    let mut from = Reader::new(block);
    let sets = std::array::from_fn(|_| {
        let count = from.u32("count").expect("a count");
        let offsets = take_unsigned(&mut from);
        let deltas = if count > 0 { take_signed(&mut from) } else { Vec::new() };
        Set { count, offsets, deltas }
    });
    let labels = covered.then(|| std::array::from_fn(|_| narrow(take_unsigned(&mut from))));
    assert_eq!(from.remaining(), 0, "the original wrote more than the columns");
    (sets, labels)
}

/// A cover's stored form: ranges, then link columns. The count is that of the longest column, so that columns of unequal number are
/// all handed over.
pub fn cover(ranges: &[Range], links: [&[u64]; 4]) -> Vec<u8> {
    let mut out = Writer::new();
    out.put_u32(ranges.len() as u32);
    for range in ranges {
        out.put_u32(range.chain);
        out.put_u32(range.least);
        out.put_u32(range.greatest);
    }
    let count = links.iter().map(|column| column.len()).max().unwrap_or(0);
    out.put_u32(count as u32);
    if count > 0 {
        for column in links {
            put(&mut out, &ColumnData::U64(column.to_vec()));
        }
    }
    out.into_bytes()
}

pub fn cover_of(cover: &Cover) -> Vec<u8> {
    let links = cover.links.each_ref().map(|column| wide(column));
    self::cover(&cover.ranges, links.each_ref().map(|column| &column[..]))
}

/// The ranges and link columns of a cover that the original wrote.
pub fn cover_columns(bytes: &[u8]) -> (Vec<Range>, [Vec<u32>; 4]) {
    let mut from = Reader::new(bytes);
    let count = from.u32("ranges").expect("a count");
    let ranges = (0..count)
        .map(|_| {
            let mut word = || from.u32("range").expect("a range");
            Range { chain: word(), least: word(), greatest: word() }
        })
        .collect();
    let count = from.u32("links").expect("a count");
    let mut links: [Vec<u32>; 4] = Default::default();
    if count > 0 {
        links = std::array::from_fn(|_| narrow(take_unsigned(&mut from)));
    }
    assert_eq!(from.remaining(), 0, "the original wrote more than the cover");
    (ranges, links)
}
