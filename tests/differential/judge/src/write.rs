//! Files to bytes, by document 01's "Archive records" and document 02, L1.

use crate::archive::{Cover, Depth, File, Set};

fn words(out: &mut Vec<u8>, column: &[u32]) {
    out.extend(column.iter().flat_map(|word| word.to_be_bytes()));
}

fn record(out: &mut Vec<u8>, kind: u8, body: Vec<u8>) {
    words(out, &[body.len() as u32 + 2]);
    out.extend([1, kind]);
    out.extend(body);
}

fn head(file: &File) -> Vec<u8> {
    let mut out = file.first.to_be_bytes().to_vec();
    words(&mut out, &[file.rows.len() as u32]);
    out.extend([file.group, file.subject.len() as u8]);
    out.extend(&file.subject);
    out.push(u8::from(file.depth.is_some()));
    let depth = file.depth.unwrap_or(Depth { least: 0, greatest: 0 });
    out.extend(depth.least.to_be_bytes());
    out.extend(depth.greatest.to_be_bytes());
    out
}

fn set(out: &mut Vec<u8>, set: &Set) {
    words(out, &[set.count]);
    out.extend(set.offsets.iter().flat_map(|offset| offset.to_be_bytes()));
    out.extend(set.deltas.iter().flat_map(|delta| delta.to_be_bytes()));
}

fn edges(file: &File) -> Vec<u8> {
    let mut out = Vec::new();
    for one in &file.sets {
        set(&mut out, one);
    }
    out
}

fn rows(file: &File) -> Vec<u8> {
    let mut out = Vec::new();
    for row in &file.rows {
        out.push(u8::from(row.erased));
        out.extend(row.tag.to_be_bytes());
    }
    out
}

fn unresolved(file: &File) -> Vec<u8> {
    let mut out = Vec::new();
    words(&mut out, &[file.unresolved.len() as u32]);
    for record in &file.unresolved {
        out.extend(record.child.to_be_bytes());
        out.push(record.kind);
        words(&mut out, &[record.handle]);
    }
    out
}

fn roots(file: &File) -> Vec<u8> {
    let mut out = Vec::new();
    words(&mut out, &[file.roots.len() as u32]);
    for root in &file.roots {
        out.extend(root.row.to_be_bytes());
        out.extend(root.handle.to_be_bytes());
    }
    out
}

fn cover(cover: &Cover) -> Vec<u8> {
    let mut out = Vec::new();
    words(&mut out, &cover.chains);
    words(&mut out, &cover.seqs);
    words(&mut out, &[cover.ranges.len() as u32]);
    for range in &cover.ranges {
        words(&mut out, &[range.chain, range.least, range.greatest]);
    }
    words(&mut out, &[cover.links[0].len() as u32]);
    for column in &cover.links {
        words(&mut out, column);
    }
    out
}

fn references(file: &File) -> Vec<u8> {
    let mut out = Vec::new();
    for list in &file.references {
        words(&mut out, &[list.len() as u32]);
        for reference in list {
            out.extend([reference.kind, reference.space]);
            out.extend(reference.target.to_be_bytes());
        }
    }
    out
}

pub fn file(out: &mut Vec<u8>, file: &File) {
    record(out, 1, head(file));
    record(out, 2, edges(file));
    record(out, 3, rows(file));
    record(out, 4, unresolved(file));
    record(out, 5, roots(file));
    if let Some(one) = &file.cover {
        record(out, 6, cover(one));
    }
    if !file.references.is_empty() {
        record(out, 7, references(file));
    }
}

/// The records of a file's edges and rows.
#[cfg(feature = "port")]
pub fn edges_and_rows(one: &File) -> Vec<u8> {
    let mut out = Vec::new();
    record(&mut out, 2, edges(one));
    record(&mut out, 3, rows(one));
    out
}

/// The record of a file's references, where it has any.
#[cfg(feature = "port")]
pub fn references_record(one: &File) -> Vec<u8> {
    let mut out = Vec::new();
    if !one.references.is_empty() {
        record(&mut out, 7, references(one));
    }
    out
}

pub fn archive(files: &[File]) -> Vec<u8> {
    let mut out = Vec::new();
    for one in files {
        file(&mut out, one);
    }
    out
}
