//! Records to files. The body of each kind of record has one function here, which puts what it holds into the file that the record belongs to.

use super::cursor::Cursor;
use super::{Event, File, KINDS};

/// The files of an accepted archive; nothing where a record is not one of those known here.
pub fn read(bytes: &[u8]) -> Option<Vec<File>> {
    let mut archive = Cursor(bytes);
    let mut files = Vec::new();
    while !archive.0.is_empty() {
        let length = archive.count()?;
        let mut body = Cursor(archive.take(length)?);
        let (version, kind) = (body.u8()?, body.u8()?);
        match (kind, version, files.last_mut()) {
            (1, 1, _) => files.push(head(&mut body)?),
            (2, 1, Some(file)) => edges(&mut body, file)?,
            (3, 1, Some(file)) => rows(&mut body, file)?,
            (4, 1, Some(file)) => unresolved(&mut body, file)?,
            (5, 1, Some(file)) => roots(&mut body, file)?,
            (6, 1, Some(file)) => cover(&mut body, file)?,
            _ => return None,
        }
    }
    Some(files)
}

/// A file without anything but its number of events.
fn head(body: &mut Cursor) -> Option<File> {
    let (first_sn, rows, group) = (body.u64()?, body.count()?, body.u8()?);
    let length = body.u8()?;
    let subject = body.take(length.into())?.to_vec();
    let has_depth = body.u8()? == 1;
    let depth = (body.u64()?, body.u64()?);
    let events = (first_sn..).take(rows).map(|sn| Event { sn, ..Event::default() }).collect();
    Some(File { first_sn, group, subject, depth: has_depth.then_some(depth), events, links: None })
}

/// Of the three sets forward, reverse and inbound the first names the parents; the others name children, which nobody is shown.
fn edges(body: &mut Cursor, file: &mut File) -> Option<()> {
    let count = body.count()?;
    let offsets = body.u64s(KINDS.len() * file.events.len() + 1)?;
    let deltas = body.u64s(count)?;
    let mut slots = offsets.windows(2);
    for event in &mut file.events {
        for parents in &mut event.parents {
            let slot = slots.next()?;
            let slot = deltas.get(usize::try_from(slot[0]).ok()?..usize::try_from(slot[1]).ok()?)?;
            // A delta is in two's complement, and event minus delta is the parent.
            parents.extend(slot.iter().map(|delta| event.sn.wrapping_sub(*delta)));
        }
    }
    Some(())
}

fn rows(body: &mut Cursor, file: &mut File) -> Option<()> {
    for event in &mut file.events {
        event.is_erased = body.u8()? == 1;
        event.tag = body.u64()?;
    }
    Some(())
}

fn unresolved(body: &mut Cursor, file: &mut File) -> Option<()> {
    for _ in 0..body.count()? {
        let (child, kind, handle) = (body.u64()?, body.u8()?, body.u32()?);
        let row = usize::try_from(child.checked_sub(file.first_sn)?).ok()?;
        file.events.get_mut(row)?.unresolved.push((kind, handle));
    }
    Some(())
}

/// A root's row counts from the file's first event.
fn roots(body: &mut Cursor, file: &mut File) -> Option<()> {
    for _ in 0..body.count()? {
        let (row, handle) = (usize::try_from(body.u64()?).ok()?, body.u64()?);
        file.events.get_mut(row)?.root = Some(handle);
    }
    Some(())
}

/// The ranges are skipped: those of a cleaned archive say no more than its labels. The first link column holds differences.
fn cover(body: &mut Cursor, file: &mut File) -> Option<()> {
    let rows = file.events.len();
    let (chains, seqs) = (body.u32s(rows)?, body.u32s(rows)?);
    for (event, label) in file.events.iter_mut().zip(chains.into_iter().zip(seqs)) {
        event.label = Some(label);
    }
    let ranges = body.count()?;
    body.take(ranges.checked_mul(12)?)?;
    let count = body.count()?;
    let columns = [body.u32s(count)?, body.u32s(count)?, body.u32s(count)?, body.u32s(count)?];
    let mut from = 0u32;
    let link = |at: usize| {
        from = from.wrapping_add(columns[0][at]);
        [from, columns[1][at], columns[2][at], columns[3][at]]
    };
    file.links = Some((0..count).map(link).collect());
    Some(())
}
