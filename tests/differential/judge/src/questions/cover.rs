//! Questions over a chain cover, asked of the original.

use super::Parts;
use crate::archive::Range;
use crate::cases::{Answer, Part, list, number};
use crate::{blocks, refusals};
use original::error::FormatError;
use original::layout::footer::{ExactCounts, Footer, GraphDirectory};
use original::layout::graph::{ChainCover, ChainCoverInput, ChainLabel, ChainLink};
use original::layout::reader::OeFile;
use original::layout::shown::{decode_cover, encode_cover};

fn columns<T: TryFrom<i128>, const N: usize>(parts: &mut Parts) -> Option<[Vec<T>; N]> {
    let columns: Vec<Vec<T>> = (0..N).map(|_| parts.list()).collect::<Option<_>>()?;
    columns.try_into().ok()
}

fn even<T>(columns: &[Vec<T>]) -> bool {
    columns.iter().all(|column| column.len() == columns[0].len())
}

/// Links as they stand in four columns of equal number.
fn links_of(columns: &[Vec<u32>; 4]) -> Option<Vec<ChainLink>> {
    let link = |at: usize| ChainLink {
        from_chain: columns[0][at],
        from_seq: columns[1][at],
        to_chain: columns[2][at],
        to_seq: columns[3][at],
    };
    even(columns).then(|| (0..columns[0].len()).map(link).collect())
}

fn link_parts(links: &[ChainLink]) -> Vec<Part> {
    let column = |part: fn(&ChainLink) -> u32| list(&links.iter().map(part).collect::<Vec<u32>>());
    vec![
        column(|link| link.from_chain),
        column(|link| link.from_seq),
        column(|link| link.to_chain),
        column(|link| link.to_seq),
    ]
}

/// Label chains, seqs; links in any order, as four columns. Answers ranges (ids, minimums, maximums), then links (four columns).
pub fn build(input: &[Part]) -> Option<Answer> {
    let mut parts = Parts::of(input);
    let [chains, seqs] = columns::<u32, 2>(&mut parts)?;
    let links = links_of(&columns(&mut parts)?)?;
    if chains.len() != seqs.len() {
        return None;
    }
    let labels = chains.into_iter().zip(seqs).map(|(chain_id, seq)| ChainLabel { chain_id, seq }).collect();
    let cover = ChainCover::build(&ChainCoverInput { labels, links });
    let column = |part: fn(&original::layout::graph::ChainRange) -> u32| list(&cover.chains.iter().map(part).collect::<Vec<u32>>());
    let mut answer = vec![column(|range| range.chain_id), column(|range| range.min_seq), column(|range| range.max_seq)];
    answer.extend(link_parts(&cover.links));
    Some(Ok(answer))
}

/// Links as they stand, four columns. Answers the stored columns: the first holds differences.
pub fn stored(input: &[Part]) -> Option<Answer> {
    let links = links_of(&columns(&mut Parts::of(input))?)?;
    let (_, columns) = blocks::cover_columns(&encode_cover(&ChainCover { chains: Vec::new(), links }));
    Some(Ok(columns.iter().map(|column| list(column)).collect()))
}

fn ranges(parts: &mut Parts) -> Option<Vec<Range>> {
    let [ids, least, greatest] = columns::<u32, 3>(parts)?;
    if ids.len() != least.len() || ids.len() != greatest.len() {
        return None;
    }
    let range = |((chain, least), greatest)| Range { chain, least, greatest };
    Some(ids.into_iter().zip(least).zip(greatest).map(range).collect())
}

fn read(ranges: &[Range], links: &[Vec<u64>; 4]) -> Result<ChainCover, FormatError> {
    decode_cover(&blocks::cover(ranges, links.each_ref().map(|column| &column[..])))
}

fn answered(answer: Result<Vec<Part>, FormatError>) -> Option<Answer> {
    Some(answer.map_err(|error| refusals::number(&error)))
}

/// Ranges (ids, minimums, maximums), stored link columns. Answers the links (four columns).
pub fn decode(input: &[Part]) -> Option<Answer> {
    let mut parts = Parts::of(input);
    let ranges = ranges(&mut parts)?;
    answered(read(&ranges, &columns(&mut parts)?).map(|cover| link_parts(&cover.links)))
}

/// A file of which only the cover is asked.
fn file(cover: ChainCover) -> OeFile {
    let graph = GraphDirectory {
        blocks: Vec::new(),
        chain_cover: Some(cover),
        depth: None,
        event_ids: None,
        first_sn: 0,
        subject: vec![0],
        unresolved: Vec::new(),
    };
    let footer =
        Footer { exact_counts: ExactCounts { row_count: 0 }, granules: Vec::new(), graph: Some(graph), state_roots: Vec::new() };
    OeFile::new(Vec::new(), footer)
}

/// Ranges; chain, low, high. Answers 1 where the window meets the chain, else 0.
pub fn window(input: &[Part]) -> Option<Answer> {
    let mut parts = Parts::of(input);
    let ranges = ranges(&mut parts)?;
    let (chain, low, high) = (parts.number()?, parts.number()?, parts.number()?);
    let cover = read(&ranges, &Default::default());
    answered(cover.map(|cover| vec![number(u8::from(file(cover).graph_may_hold_chain(chain, low..=high)))]))
}

/// Stored link columns; chains in any order. Answers the links from those chains (four columns).
pub fn links(input: &[Part]) -> Option<Answer> {
    let mut parts = Parts::of(input);
    let columns = columns(&mut parts)?;
    let chains: Vec<u32> = parts.list()?;
    answered(read(&[], &columns).map(|cover| link_parts(&file(cover).graph_chain_links(&chains))))
}
