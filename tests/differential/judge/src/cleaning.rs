//! A whole run over the original: an archive taken, resolved and written, and what the listing program prints of it.

use crate::archive::{Cover, File, Root, Row, Set, Unresolved};
use crate::counting;
use crate::refusals::{Number, number};
use crate::{blocks, sources, taking, write};
use original::error::FormatError;
use original::layout::graph::{ChainCover, EdgeKind, GraphInput, encode_graph_blocks, state_root_entries};
use original::layout::shown::encode_cover;
use original::writer::graph_renumber::{GraphRenumbering, RenumberSource, RenumberedGraphFile, renumber_graph};
use std::fmt::Write;

/// The listing program's own limit.
const LISTED: usize = 65_536;
const NEW_ENTRIES: usize = 4096;

pub struct Cleaned {
    pub listing: String,
    pub bytes: Vec<u8>,
}

/// The run's answer: the listing and the cleaned bytes, or the refusal of the first step that refuses.
pub fn clean(bytes: &[u8]) -> Result<Cleaned, Number> {
    let files = taking::take(bytes)?;
    let renumbering = resolve(&files)?;
    let outputs = outputs(&renumbering)?;
    Ok(Cleaned { listing: listing(&files, &renumbering, &outputs), bytes: write::archive(&outputs) })
}

/// The cleaned bytes of an archive that is accepted, without taking's rules: the least that the original does for them.
#[cfg(feature = "port")]
pub fn renumbered(bytes: &[u8]) -> Vec<u8> {
    let files = crate::read::archive(bytes).expect("an archive");
    let renumbering = grouped(&files).and_then(renumber_graph).expect("sound files");
    write::archive(&outputs(&renumbering).expect("sound outputs"))
}

/// A run over the original, call by call: the sources taken, and once resolved their renumbering.
#[cfg(feature = "port")]
#[derive(Default)]
pub struct Run {
    files: Vec<File>,
    renumbering: Option<GraphRenumbering>,
}

#[cfg(feature = "port")]
impl Run {
    pub fn take(&mut self, bytes: &[u8]) -> Result<(), Number> {
        self.unresolved()?;
        self.files.extend(taking::take_after(&self.files, bytes)?);
        Ok(())
    }

    pub fn resolve(&mut self) -> Result<(), Number> {
        self.unresolved()?;
        self.renumbering = Some(resolve(&self.files)?);
        Ok(())
    }

    pub fn write(&self) -> Result<Vec<u8>, Number> {
        Ok(write::archive(&outputs(self.resolved()?)?))
    }

    pub fn new_number(&self, old: u64) -> Result<Option<u64>, Number> {
        Ok(self.resolved()?.sn_map.get(&old).copied().flatten())
    }

    pub fn reparented(&self) -> Result<usize, Number> {
        self.resolved().map(|_| counting::reparented(&self.files))
    }

    fn unresolved(&self) -> Result<(), Number> {
        if self.renumbering.is_some() { Err(40) } else { Ok(()) }
    }

    fn resolved(&self) -> Result<&GraphRenumbering, Number> {
        self.renumbering.as_ref().ok_or(40)
    }
}

/// What the listing program prints, and the cleaned bytes where the run is accepted. Only the listing has a limit on its input.
pub fn answers(bytes: &[u8]) -> (String, Option<Vec<u8>>) {
    let refused = |number: Number| format!("refused {number}\n");
    match clean(bytes) {
        Ok(cleaned) if bytes.len() > LISTED => (refused(41), Some(cleaned.bytes)),
        Ok(cleaned) => (cleaned.listing, Some(cleaned.bytes)),
        Err(_) if bytes.len() > LISTED => (refused(41), None),
        Err(number) => (refused(number), None),
    }
}

fn grouped(files: &[File]) -> Result<Vec<Vec<RenumberSource>>, FormatError> {
    files.chunk_by(|a, b| a.group == b.group).map(|group| group.iter().map(sources::source).collect()).collect()
}

/// 24 without a source, 43 over all new lists, 27.
fn resolve(files: &[File]) -> Result<GraphRenumbering, Number> {
    if !files.is_empty() && counting::new_entries(files) > NEW_ENTRIES {
        return Err(43);
    }
    grouped(files).and_then(renumber_graph).map_err(|error| number(&error))
}

/// The output files, each built by the original as one granule.
fn outputs(renumbering: &GraphRenumbering) -> Result<Vec<File>, Number> {
    let built = |(group, file)| output(group, file).map_err(|error: FormatError| number(&error));
    renumbering.files.iter().enumerate().map(built).collect()
}

fn output(group: usize, file: &RenumberedGraphFile) -> Result<File, FormatError> {
    let graph = &file.graph;
    let rows = file.rows.len();
    let blocks = encode_graph_blocks(graph, rows as u64, &[sources::granule(rows)])?;
    let (sets, labels) = blocks::columns(&blocks[&0], graph.chain_cover.is_some());
    Ok(File {
        first: graph.first_sn,
        group: group as u8,
        subject: graph.subject.clone(),
        depth: graph.depth.map(|depth| crate::archive::Depth { least: depth.min, greatest: depth.max }),
        sets,
        rows: file.rows.iter().map(|row| Row { erased: false, tag: row.tag }).collect(),
        unresolved: unresolved(graph),
        roots: state_root_entries(graph, rows as u64)?
            .iter()
            .map(|entry| Root { row: entry.row_ordinal, handle: entry.root.0 })
            .collect(),
        cover: labels.map(|[chains, seqs]| {
            let built = ChainCover::build(graph.chain_cover.as_ref().expect("labels come with a cover"));
            let (ranges, links) = blocks::cover_columns(&encode_cover(&built));
            Cover { chains, seqs, ranges, links }
        }),
        references: Vec::new(),
    })
}

fn unresolved(graph: &GraphInput) -> Vec<Unresolved> {
    let record = |edge: &original::layout::graph::UnresolvedEdge| Unresolved {
        child: edge.child,
        kind: match EdgeKind::of(edge.parent.kind) {
            Some(EdgeKind::Prev) => 0,
            Some(EdgeKind::Auth) => 1,
            None => unreachable!("taking refuses other kinds"),
        },
        handle: u32::from_be_bytes(edge.parent.target_ref[..].try_into().expect("a handle is four bytes")),
    };
    graph.unresolved.iter().map(record).collect()
}

fn line(out: &mut String, words: &str, name: &str, column: impl Iterator<Item = String>) {
    *out += words;
    *out += " ";
    *out += name;
    for word in column {
        *out += " ";
        *out += &word;
    }
    *out += "\n";
}

fn listed_set(out: &mut String, name: &str, set: &Set) {
    line(out, "offsets", name, set.offsets.iter().map(u64::to_string));
    line(out, "deltas", name, set.deltas.iter().map(i64::to_string));
}

fn listing(files: &[File], renumbering: &GraphRenumbering, outputs: &[File]) -> String {
    let mut out = String::new();
    for (old, new) in &renumbering.sn_map {
        let new = new.map_or("-".into(), |new| new.to_string());
        writeln!(out, "map {old} {new}").expect("a string takes all");
    }
    for file in outputs {
        writeln!(out, "file {} {} {}", file.group, file.first, file.rows.len()).expect("a string takes all");
        for (name, set) in ["forward", "reverse", "inbound"].iter().zip(&file.sets) {
            listed_set(&mut out, name, set);
        }
    }
    writeln!(out, "reparented {}", counting::reparented(files)).expect("a string takes all");
    out
}
