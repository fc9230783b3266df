//! The smallest archive found that still fails.

use crate::archive::{File, Set};
use crate::{read, write};

/// Smaller archives are tried until none fails.
pub fn smallest(bytes: &[u8], fails: &dyn Fn(&[u8]) -> bool) -> Vec<u8> {
    let mut best = bytes.to_vec();
    loop {
        let structured = read::archive(&best).map(|files| smaller(&files)).unwrap_or_default();
        let candidates = structured.iter().map(|files| write::archive(files)).chain(shorter(&best));
        let Some(found) = candidates.into_iter().find(|one| simpler(one, &best) && fails(one)) else {
            return best;
        };
        best = found;
    }
}

/// Shorter, or as long with a smaller sum of bytes: so shrinking ends.
fn simpler(one: &[u8], other: &[u8]) -> bool {
    let measure = |bytes: &[u8]| (bytes.len(), bytes.iter().map(|byte| u64::from(*byte)).sum::<u64>());
    measure(one) < measure(other)
}

fn shorter(bytes: &[u8]) -> impl Iterator<Item = Vec<u8>> {
    let step = (bytes.len() / 64).max(1);
    (0..bytes.len()).step_by(step).map(move |start| {
        let end = (start + step).min(bytes.len());
        [&bytes[..start], &bytes[end..]].concat()
    })
}

type Edit = fn(&mut File);

const EDITS: [Edit; 9] = [
    |file| file.unresolved.clear(),
    |file| file.roots.clear(),
    |file| file.depth = None,
    |file| file.subject.truncate(1),
    |file| file.rows.iter_mut().for_each(|row| row.tag = 0),
    |file| file.sets[1] = Set::empty(file.rows.len()),
    |file| file.sets[2] = Set::empty(file.rows.len()),
    |file| file.cover.iter_mut().for_each(|cover| cover.links = Default::default()),
    |file| file.cover.iter_mut().for_each(|cover| cover.ranges.clear()),
];

fn smaller(files: &[File]) -> Vec<Vec<File>> {
    let mut found = Vec::new();
    let mut changed = |change: &dyn Fn(&mut Vec<File>)| {
        let mut files = files.to_vec();
        change(&mut files);
        found.push(files);
    };
    for place in 0..files.len() {
        changed(&|files| drop(files.remove(place)));
        changed(&|files| files.truncate(place));
    }
    changed(&|files| files.iter_mut().for_each(|file| file.cover = None));
    for edit in EDITS {
        changed(&|files| files.iter_mut().for_each(edit));
    }
    for place in 0..files.len() {
        for row in 0..files[place].rows.len() {
            changed(&|files| without_row(files, place, row));
            changed(&|files| files[place].rows[row].erased = false);
        }
        for set in 0..3 {
            for edge in 0..files[place].sets[set].deltas.len() {
                changed(&|files| without_edge(&mut files[place].sets[set], edge));
            }
        }
        for edit in EDITS {
            changed(&|files| edit(&mut files[place]));
        }
    }
    found
}

/// A row and its edges left out; what comes after moves up.
fn without_row(files: &mut [File], place: usize, row: usize) {
    let file = &mut files[place];
    file.rows.remove(row);
    for set in &mut file.sets {
        while let (Some(&from), Some(&to)) = (set.offsets.get(2 * row), set.offsets.get(2 * row + 2)) {
            if from >= to || from as usize >= set.deltas.len() {
                break;
            }
            without_edge(set, from as usize);
        }
        set.offsets.drain(2 * row..2 * row + 2);
    }
    if let Some(cover) = &mut file.cover {
        cover.chains.remove(row);
        cover.seqs.remove(row);
    }
    file.roots.retain(|root| root.row != row as u64);
    file.roots.iter_mut().filter(|root| root.row > row as u64).for_each(|root| root.row -= 1);
    let event = file.first.wrapping_add(row as u64);
    file.unresolved.retain(|record| record.child != event);
    for file in files[place..].iter_mut() {
        file.unresolved.iter_mut().filter(|record| record.child > event).for_each(|record| record.child -= 1);
    }
    for file in files[place + 1..].iter_mut() {
        file.first = file.first.wrapping_sub(1);
    }
}

fn without_edge(set: &mut Set, edge: usize) {
    set.deltas.remove(edge);
    set.count = set.deltas.len() as u32;
    set.offsets.iter_mut().filter(|offset| **offset > edge as u64).for_each(|offset| *offset -= 1);
}
