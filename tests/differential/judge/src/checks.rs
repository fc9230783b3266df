//! What must hold of every archive. Each check answers what is wrong, if anything is.

use crate::archive::{File, Set};
use crate::cleaning::{self, Cleaned};
use crate::{read, write};

pub type Check = fn(&[u8]) -> Option<String>;

pub const ALL: &[(&str, Check)] = &[
    ("records read and written again are the same bytes", records),
    ("a cleaned archive is cleaned to itself", again),
    ("archives that differ in what was erased are cleaned to the same bytes", erased_parts),
    #[cfg(feature = "port")]
    ("the port answers what the original does", port),
    #[cfg(feature = "port")]
    ("the port cleans archives that differ in what was erased to the same bytes", port_twins),
    #[cfg(feature = "port")]
    ("the port's run answers every call as the original's does", port_runs),
];

/// The first check that an archive fails.
pub fn first_failure(bytes: &[u8]) -> Option<(&'static str, String)> {
    ALL.iter().find_map(|(name, check)| Some((*name, check(bytes)?)))
}

fn records(bytes: &[u8]) -> Option<String> {
    let files = read::archive(bytes)?;
    (write::archive(&files) != bytes).then(|| "other bytes".into())
}

fn again(bytes: &[u8]) -> Option<String> {
    let first = cleaning::clean(bytes).ok()?;
    match cleaning::clean(&first.bytes) {
        Err(number) => Some(format!("refused {number}")),
        Ok(second) if second.bytes != first.bytes => Some("other bytes".into()),
        Ok(second) if !untouched(&second) => Some("its listing says that something changed".into()),
        Ok(_) => None,
    }
}

/// Every number stays and nobody is reparented.
fn untouched(cleaned: &Cleaned) -> bool {
    let same = |line: &str| {
        let words: Vec<&str> = line.split(' ').collect();
        words[0] != "map" || words[1] == words[2]
    };
    cleaned.listing.lines().all(same) && cleaned.listing.ends_with("reparented 0\n")
}

fn erased_parts(bytes: &[u8]) -> Option<String> {
    let first = cleaning::clean(bytes).ok()?;
    match cleaning::clean(&twin(bytes)?) {
        Err(number) => Some(format!("refused {number}")),
        Ok(second) => (second.bytes != first.bytes).then(|| "other bytes".into()),
    }
}

/// The same archive with other erased parts; its records stand in their files.
fn twin(bytes: &[u8]) -> Option<Vec<u8>> {
    let mut files = read::archive(bytes)?;
    files.iter_mut().for_each(rub_out);
    Some(write::archive(&files))
}

#[cfg(feature = "port")]
fn port(bytes: &[u8]) -> Option<String> {
    crate::port::archives::differs(bytes)
}

/// Asked of archives that the original accepts, so that every record of their twins stands in its file.
#[cfg(feature = "port")]
fn port_twins(bytes: &[u8]) -> Option<String> {
    cleaning::clean(bytes).ok()?;
    crate::port::archives::twin_differs(bytes, &twin(bytes)?)
}

#[cfg(feature = "port")]
fn port_runs(bytes: &[u8]) -> Option<String> {
    crate::port::runs::differs(bytes)
}

/// Other tags and labels, no roots and no unresolved references where rows are erased; other reverse and inbound sets.
fn rub_out(file: &mut File) {
    let File { first, sets, rows, unresolved, roots, cover, .. } = file;
    let erased: Vec<bool> = rows.iter().map(|row| row.erased).collect();
    rows.iter_mut().filter(|row| row.erased).for_each(|row| row.tag = !row.tag);
    roots.retain(|root| !erased[root.row as usize]);
    unresolved.retain(|record| !erased[(record.child - *first) as usize]);
    for set in &mut sets[1..] {
        *set = Set::empty(rows.len());
    }
    if let Some(cover) = cover {
        cover.ranges.clear();
        for row in (0..rows.len()).filter(|row| erased[*row]) {
            cover.chains[row] ^= 1;
            cover.seqs[row] = 0;
        }
    }
}
