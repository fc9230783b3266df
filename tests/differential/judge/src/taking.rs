//! Taking an archive: 23, also where there are references, which a run does not carry yet; 42, 43, then file by file document 01's order. The original decides each rule that it has; the limits,
//! the group numbers and the order are document 01's own.

use crate::archive::File;
use crate::refusals::{Number, number};
use crate::{blocks, read, sources};
use original::artifacts::state_chunk::StateRoot;
use original::error::FormatError;
use original::layout::graph::{GraphInput, RowEdges, decode_granule_edges, encode_graph_blocks, state_root_entries};
use original::writer::graph_renumber::renumber_graph;
use std::collections::BTreeSet;

const RECORDS: usize = 1024;
const GROUPS: usize = 16;
const NUMBERS: usize = 4096;

/// The files of an archive's bytes, or the first rule that they break.
pub fn take(bytes: &[u8]) -> Result<Vec<File>, Number> {
    take_after(&[], bytes)
}

/// The same after files that were taken before.
pub fn take_after(taken: &[File], bytes: &[u8]) -> Result<Vec<File>, Number> {
    let files = read::archive(bytes).filter(|files| files.iter().all(|file| file.references.is_empty())).ok_or(23)?;
    limits(&[taken, &files].concat())?;
    let mut before = taken.last();
    for file in &files {
        rules(before, file)?;
        before = Some(file);
    }
    Ok(files)
}

fn limits(files: &[File]) -> Result<(), Number> {
    let total = |figure: &dyn Fn(&File) -> usize| files.iter().map(figure).sum::<usize>();
    let of_cover = |figure: fn(&crate::archive::Cover) -> usize| total(&|file| file.cover.as_ref().map_or(0, figure));
    let records = [
        total(&|file| file.rows.len()),
        total(&|file| file.roots.len()),
        total(&|file| file.unresolved.len()),
        of_cover(|cover| cover.ranges.len()),
        of_cover(|cover| cover.links[0].len()),
    ];
    let groups: BTreeSet<u8> = files.iter().map(|file| file.group).collect();
    if records.iter().any(|count| *count > RECORDS) || groups.len() > GROUPS {
        return Err(42);
    }
    let too_many = (0..3).any(|set| total(&|file| file.sets[set].deltas.len()) > NUMBERS);
    if too_many { Err(43) } else { Ok(()) }
}

fn as_number<T>(answer: Result<T, FormatError>) -> Result<(), Number> {
    answer.map(|_| ()).map_err(|error| number(&error))
}

/// 1, 3, 8, 24, 25, 26, 17 to 19 set by set, 16, 6 and 7 record by record, 22.
fn rules(before: Option<&File>, file: &File) -> Result<(), Number> {
    let rows = file.rows.len() as u64;
    let plain = GraphInput {
        first_sn: file.first,
        rows: vec![RowEdges::default(); file.rows.len()],
        subject: file.subject.clone(),
        ..GraphInput::default()
    };
    let building = |graph: &GraphInput| as_number(encode_graph_blocks(graph, rows, &[]));
    building(&plain)?;
    building(&GraphInput { depth: sources::depth(file), ..plain.clone() })?;
    follows(before, file)?;
    let block = blocks::granule_of(&file.sets, file.cover.as_ref());
    as_number(decode_granule_edges(&block, file.first, rows as u32, file.first + rows, file.cover.is_some()))?;
    roots(file, &plain)?;
    building(&GraphInput { unresolved: sources::unresolved(file), ..plain })?;
    as_number(sources::cover(file))
}

/// 24, then 25 and 26 as the original has them for two files of which nothing else is known.
fn follows(before: Option<&File>, file: &File) -> Result<(), Number> {
    let Some(before) = before else {
        return if file.group == 0 { Ok(()) } else { Err(24) };
    };
    let same = file.group == before.group;
    if !same && Some(file.group) != before.group.checked_add(1) {
        return Err(24);
    }
    let source = |file| sources::source(&sources::bare(file)).expect("a bare file is sound");
    let (first, second) = (source(before), source(file));
    let groups = if same { vec![vec![first, second]] } else { vec![vec![first], vec![second]] };
    match as_number(renumber_graph(groups)) {
        Err(27) => Ok(()),
        answer => answer,
    }
}

/// 16. The original asks by event number; a row whose number would pass 2^64 − 1 is outside every file.
fn roots(file: &File, plain: &GraphInput) -> Result<(), Number> {
    let mut graph = plain.clone();
    for root in &file.roots {
        let event = file.first.checked_add(root.row).ok_or(16)?;
        graph.state_roots.insert(event, StateRoot(root.handle));
    }
    as_number(state_root_entries(&graph, file.rows.len() as u64))
}
