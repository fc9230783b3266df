//! Bytes to files, by document 01's "Archive records" and document 02, L1. Anything that does not fit is `None`: refusal 23.

use crate::archive::{Cover, Depth, File, Range, Reference, Root, Row, Set, Unresolved};

struct Cursor<'a> {
    bytes: &'a [u8],
}

impl<'a> Cursor<'a> {
    fn take(&mut self, count: usize) -> Option<&'a [u8]> {
        let (head, rest) = self.bytes.split_at_checked(count)?;
        self.bytes = rest;
        Some(head)
    }

    fn number(&mut self, width: usize) -> Option<u64> {
        Some(self.take(width)?.iter().fold(0, |number, byte| number << 8 | u64::from(*byte)))
    }

    fn byte(&mut self) -> Option<u8> {
        Some(self.take(1)?[0])
    }

    fn word(&mut self) -> Option<u32> {
        Some(self.number(4)? as u32)
    }

    /// As many things of a width as a count says; the room is tested before anything is read.
    fn table<T>(&mut self, count: usize, width: usize, thing: impl Fn(&mut Cursor<'a>) -> Option<T>) -> Option<Vec<T>> {
        let mut part = Cursor { bytes: self.take(count.checked_mul(width)?)? };
        (0..count).map(|_| thing(&mut part)).collect()
    }

    fn words(&mut self, count: usize) -> Option<Vec<u32>> {
        self.table(count, 4, Cursor::word)
    }

    /// The body of the next record, which must be of version 1 and of this kind.
    fn record(&mut self, kind: u8) -> Option<Cursor<'a>> {
        let length = self.number(4)? as usize;
        let mut body = Cursor { bytes: self.take(length)? };
        (body.byte()? == 1 && body.byte()? == kind).then_some(body)
    }

    /// Nothing is left.
    fn ends(&self) -> Option<()> {
        self.bytes.is_empty().then_some(())
    }
}

struct Head {
    first: u64,
    rows: usize,
    group: u8,
    subject: Vec<u8>,
    depth: Option<Depth>,
}

fn head(mut body: Cursor) -> Option<Head> {
    let first = body.number(8)?;
    let rows = body.number(4)? as usize;
    let group = body.byte()?;
    let length = body.byte()?;
    let subject = body.take(usize::from(length))?.to_vec();
    let flag = body.byte()?;
    let (least, greatest) = (body.number(8)?, body.number(8)?);
    body.ends()?;
    let depth = match flag {
        0 if least == 0 && greatest == 0 => None,
        1 => Some(Depth { least, greatest }),
        _ => return None,
    };
    Some(Head { first, rows, group, subject, depth })
}

fn set(body: &mut Cursor, rows: usize) -> Option<Set> {
    let count = body.word()?;
    let offsets = body.table(2 * rows + 1, 8, |part| part.number(8))?;
    let deltas = body.table(count as usize, 8, |part| Some(part.number(8)? as i64))?;
    Some(Set { count, offsets, deltas })
}

fn sets(mut body: Cursor, rows: usize) -> Option<[Set; 3]> {
    let sets = [set(&mut body, rows)?, set(&mut body, rows)?, set(&mut body, rows)?];
    body.ends()?;
    Some(sets)
}

fn rows(mut body: Cursor, count: usize) -> Option<Vec<Row>> {
    let rows = body.table(count, 9, |part| {
        let flag = part.byte()?;
        let tag = part.number(8)?;
        (flag <= 1).then_some(Row { erased: flag == 1, tag })
    })?;
    body.ends()?;
    Some(rows)
}

fn unresolved(mut body: Cursor) -> Option<Vec<Unresolved>> {
    let count = body.word()? as usize;
    let records = body.table(count, 13, |part| {
        Some(Unresolved { child: part.number(8)?, kind: part.byte()?, handle: part.word()? })
    })?;
    body.ends()?;
    records.is_sorted_by_key(|record| record.child).then_some(records)
}

fn roots(mut body: Cursor) -> Option<Vec<Root>> {
    let count = body.word()? as usize;
    let roots = body.table(count, 16, |part| Some(Root { row: part.number(8)?, handle: part.number(8)? }))?;
    body.ends()?;
    roots.is_sorted_by(|a, b| a.row < b.row).then_some(roots)
}

fn cover(mut body: Cursor, rows: usize) -> Option<Cover> {
    let (chains, seqs) = (body.words(rows)?, body.words(rows)?);
    let count = body.word()? as usize;
    let ranges = body.table(count, 12, |part| {
        Some(Range { chain: part.word()?, least: part.word()?, greatest: part.word()? })
    })?;
    let count = body.word()? as usize;
    let links = [body.words(count)?, body.words(count)?, body.words(count)?, body.words(count)?];
    body.ends()?;
    Some(Cover { chains, seqs, ranges, links })
}

/// Kinds prev 0, auth 1, link 2, parent 3, related 4, root 5; spaces event id 0, external 1, protocol id 2, sequence 3; at most one parent and one
/// root in a row, and some reference in the record.
fn references(mut body: Cursor, rows: usize) -> Option<Vec<Vec<Reference>>> {
    let mut lists = Vec::new();
    for _ in 0..rows {
        let count = body.word()? as usize;
        let list = body.table(count, 10, |part| Some(Reference { kind: part.byte()?, space: part.byte()?, target: part.number(8)? }))?;
        let of = |kind: u8| list.iter().filter(|reference| reference.kind == kind).count();
        let known = list.iter().all(|reference| reference.kind <= 5 && reference.space <= 3);
        (known && of(3) <= 1 && of(5) <= 1).then(|| lists.push(list.clone()))?;
    }
    body.ends()?;
    lists.iter().any(|list| !list.is_empty()).then_some(lists)
}

fn file(bytes: &mut Cursor) -> Option<File> {
    let head = head(bytes.record(1)?)?;
    let sets = sets(bytes.record(2)?, head.rows)?;
    let rows = rows(bytes.record(3)?, head.rows)?;
    let unresolved = unresolved(bytes.record(4)?)?;
    let roots = roots(bytes.record(5)?)?;
    let covered = bytes.bytes.get(5) == Some(&6);
    let cover = if covered { Some(cover(bytes.record(6)?, head.rows)?) } else { None };
    let cited = bytes.bytes.get(5) == Some(&7);
    let references = if cited { references(bytes.record(7)?, head.rows)? } else { Vec::new() };
    let Head { first, group, subject, depth, .. } = head;
    Some(File { first, group, subject, depth, sets, rows, unresolved, roots, cover, references })
}

pub fn archive(bytes: &[u8]) -> Option<Vec<File>> {
    let mut bytes = Cursor { bytes };
    let mut files = Vec::new();
    while !bytes.bytes.is_empty() {
        files.push(file(&mut bytes)?);
    }
    Some(files)
}
