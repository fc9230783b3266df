//! The records of an archive asked of the proved library (feature `port`): how many of each kind it has, and each file's edges, rows and
//! references written again, which must be the bytes that stand in the archive.

use super::boundary::{ridgeoven_sums, ridgeoven_write_edges, ridgeoven_write_references, ridgeoven_write_rows};
use super::lent::{Lent, NUMBERS, RECORDS};
use crate::archive::File;
use crate::{read, write};

/// What differs, if anything does.
pub fn differs(bytes: &[u8]) -> Option<String> {
    let files = read::archive(bytes);
    let (expected, port) = (counts(files.as_deref()), summed(bytes));
    if port != expected {
        return Some(format!("the archive's counts are {expected:?}, the port's {port:?}"));
    }
    let small = |file: &File| {
        let cited: usize = file.references.iter().map(Vec::len).sum();
        file.rows.len() <= RECORDS && cited <= NUMBERS && file.sets.iter().all(|set| set.deltas.len() <= NUMBERS)
    };
    files?.into_iter().filter(small).find_map(|file| match (written(&file), cited(&file)) {
        (Err(wrong), _) | (_, Err(wrong)) => Some(format!("records: {wrong}")),
        (Ok(port), _) if port != write::edges_and_rows(&file) => Some("edges and rows are written otherwise".into()),
        (_, Ok(port)) => (port != write::references_record(&file)).then(|| "references are written otherwise".into()),
    })
}

/// A refusal or 0, and the counts: of files, events, roots, unresolved records, ranges, links, deltas of each set, and references.
fn counts(files: Option<&[File]>) -> [u64; 11] {
    let Some(files) = files else { return [23, 0, 0, 0, 0, 0, 0, 0, 0, 0, 0] };
    let sum = |count: &dyn Fn(&File) -> usize| files.iter().map(|file| count(file) as u64).sum();
    let of_cover = |file: &File| file.cover.as_ref().map_or((0, 0), |cover| (cover.ranges.len(), cover.links[0].len()));
    let set = |number: usize| sum(&|file: &File| file.sets[number].deltas.len());
    [
        0, files.len() as u64, sum(&|file| file.rows.len()), sum(&|file| file.roots.len()), sum(&|file| file.unresolved.len()),
        sum(&|file| of_cover(file).0), sum(&|file| of_cover(file).1), set(0), set(1), set(2),
        sum(&|file| file.references.iter().map(Vec::len).sum()),
    ]
}

fn summed(bytes: &[u8]) -> [u64; 11] {
    let sums = unsafe { ridgeoven_sums(bytes.as_ptr(), bytes.len()) };
    let counts = [
        sums.files, sums.events, sums.roots, sums.unresolved, sums.ranges, sums.links, sums.forward, sums.reverse, sums.inbound, sums.references,
    ];
    let mut all = [sums.refusal; 11];
    for (place, count) in all[1..].iter_mut().zip(counts) {
        *place = count as u64;
    }
    all
}

/// The edges record and the rows record behind it.
fn written(file: &File) -> Result<Vec<u8>, String> {
    let [f, r, i] = &file.sets;
    let (flags, tags): (Vec<u8>, Vec<u64>) = file.rows.iter().map(|row| (u8::from(row.erased), row.tag)).unzip();
    let mut out = Lent::<u8>::new(write::edges_and_rows(file).len() + 1);
    let edges = unsafe {
        ridgeoven_write_edges(
            out.at(), out.len(), 0, f.offsets.as_ptr(), f.offsets.len(), f.deltas.as_ptr(), f.deltas.len(),
            r.offsets.as_ptr(), r.offsets.len(), r.deltas.as_ptr(), r.deltas.len(),
            i.offsets.as_ptr(), i.offsets.len(), i.deltas.as_ptr(), i.deltas.len(),
        )
    };
    let rows = unsafe { ridgeoven_write_rows(out.at(), out.len(), edges.length, flags.as_ptr(), flags.len(), tags.as_ptr(), tags.len()) };
    match (edges.refusal, rows.refusal) {
        (0, 0) => Ok(out.taken(rows.length)?.to_vec()),
        refused => Err(format!("refused {refused:?}")),
    }
}

/// The record of references, where there are any.
fn cited(file: &File) -> Result<Vec<u8>, String> {
    if file.references.is_empty() {
        return Ok(Vec::new());
    }
    let mut offsets = vec![0u64];
    offsets.extend(file.references.iter().scan(0, |place, list| {
        *place += list.len() as u64;
        Some(*place)
    }));
    let all = || file.references.iter().flatten();
    let (kinds, spaces): (Vec<u8>, Vec<u8>) = all().map(|reference| (reference.kind, reference.space)).unzip();
    let targets: Vec<u64> = all().map(|reference| reference.target).collect();
    let mut out = Lent::<u8>::new(write::references_record(file).len() + 1);
    let answer = unsafe {
        ridgeoven_write_references(
            out.at(), out.len(), 0, offsets.as_ptr(), offsets.len(), kinds.as_ptr(), kinds.len(), spaces.as_ptr(), spaces.len(),
            targets.as_ptr(), targets.len(),
        )
    };
    if answer.refusal == 0 { Ok(out.taken(answer.length)?.to_vec()) } else { Err(format!("refused {}", answer.refusal)) }
}
