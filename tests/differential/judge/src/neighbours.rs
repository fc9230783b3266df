//! Neighbours of the rules' edges: a valid archive with one thing moved to an edge or over it. The change is often refused and
//! sometimes not; the original says which.

#![allow(clippy::ptr_arg, reason = "all changes have one type")]

use crate::archive::{Cover, Depth, File, Range, Reference, Root, Row, Set, Unresolved};
use crate::random::Random;

type Change = fn(&mut Random, &mut Vec<File>);

/// Every change, each tried as often as any other.
pub const CHANGES: [(&str, Change); 21] = [
    ("subject length", subject_length),
    ("other subject", other_subject),
    ("first number", first_number),
    ("depth", depth),
    ("group", group),
    ("cover in some", cover_in_some),
    ("offset", offset),
    ("edge count", edge_count),
    ("delta", delta),
    ("root row", root_row),
    ("roots order", roots_order),
    ("unresolved child", unresolved_child),
    ("unresolved kind", unresolved_kind),
    ("range", range),
    ("link", link),
    ("label", label),
    ("erase a group", erase_group),
    ("events", events),
    ("groups", groups),
    ("new lists", new_lists),
    ("references", references),
];

/// One change; its name, where it changed something.
pub fn change(random: &mut Random, files: &mut Vec<File>) -> Option<&'static str> {
    let (name, change) = random.of(&CHANGES);
    let before = files.clone();
    change(random, files);
    (*files != before).then_some(name)
}

fn any<'a>(random: &mut Random, files: &'a mut [File]) -> &'a mut File {
    let place = random.below(files.len());
    &mut files[place]
}

/// Places every file behind the one before it.
fn renumber(files: &mut [File]) {
    for place in 1..files.len() {
        files[place].first = files[place - 1].first.wrapping_add(files[place - 1].rows.len() as u64);
    }
}

fn subject_length(random: &mut Random, files: &mut Vec<File>) {
    let length = random.of(&[0, 1, 254, 255]);
    for file in files {
        file.subject = vec![7; length];
    }
}

fn other_subject(random: &mut Random, files: &mut Vec<File>) {
    let file = any(random, files);
    if random.once_in(2) {
        file.subject[0] ^= 1;
    } else {
        file.subject.push(0);
    }
}

fn first_number(random: &mut Random, files: &mut Vec<File>) {
    if random.once_in(2) {
        let file = any(random, files);
        file.first = random.of(&[file.first.wrapping_add(1), file.first.wrapping_sub(1)]);
        return;
    }
    let rows: u64 = files.iter().map(|file| file.rows.len() as u64).sum();
    files[0].first = random.of(&[0, u64::MAX - rows, (u64::MAX - rows).wrapping_add(1), u64::MAX, (1 << 63) - rows / 2]);
    renumber(files);
}

fn depth(random: &mut Random, files: &mut Vec<File>) {
    let edge = random.of(&[0, 5, u64::MAX - 1]);
    let (least, greatest) = random.of(&[(edge, edge), (edge + 1, edge), (edge, edge + 1)]);
    any(random, files).depth = Some(Depth { least, greatest });
}

fn group(random: &mut Random, files: &mut Vec<File>) {
    let place = random.below(files.len());
    let step = random.of(&[0, 1, 2, 255]);
    files[place].group = files[place].group.wrapping_add(step);
    if random.once_in(2) {
        for file in &mut files[place + 1..] {
            file.group = file.group.wrapping_add(step);
        }
    }
}

fn cover_in_some(random: &mut Random, files: &mut Vec<File>) {
    let file = any(random, files);
    let rows = file.rows.len();
    file.cover = match file.cover {
        Some(_) => None,
        None => Some(Cover { chains: vec![0; rows], seqs: (0..rows as u32).collect(), ..Cover::default() }),
    };
}

fn offset(random: &mut Random, files: &mut Vec<File>) {
    let set = random.below(3);
    let set = &mut any(random, files).sets[set];
    let place = random.below(set.offsets.len());
    let now = set.offsets[place];
    set.offsets[place] = random.of(&[now.wrapping_add(1), now.wrapping_sub(1), 0, u64::from(set.count), u64::MAX]);
}

/// One edge more or fewer than the offsets say, in the count and the column alike.
fn edge_count(random: &mut Random, files: &mut Vec<File>) {
    let set = random.below(3);
    let set = &mut any(random, files).sets[set];
    if random.once_in(2) || set.deltas.pop().is_none() {
        set.deltas.push(1);
    }
    set.count = set.deltas.len() as u32;
}

/// A target on the edge of its side, of 64 bits, or of a column's reach; an edge is added where the set has none.
fn delta(random: &mut Random, files: &mut Vec<File>) {
    let which = random.below(3);
    let file = any(random, files);
    if file.rows.is_empty() {
        return;
    }
    let rows = file.rows.len() as u64;
    let set = &mut file.sets[which];
    if set.count == 0 {
        let slot = random.below(2 * rows as usize);
        for offset in &mut set.offsets[slot + 1..] {
            *offset = 1;
        }
        set.deltas = vec![1];
        set.count = 1;
    }
    let place = random.below(set.deltas.len());
    let slot = set.offsets.iter().rposition(|offset| *offset <= place as u64).unwrap_or(0).min(2 * rows as usize - 1);
    let event = file.first.wrapping_add(slot as u64 / 2);
    let end = file.first.wrapping_add(rows);
    let edge = random.of(&[0, event, end, u64::MAX, file.first, event.wrapping_sub(1 << 63), event.wrapping_add(1 << 63)]);
    let target = random.of(&[edge, edge.wrapping_add(1), edge.wrapping_sub(1)]);
    set.deltas[place] = random.of(&[event.wrapping_sub(target) as i64, i64::MIN, i64::MAX, 0, 1, -1]);
}

fn root_row(random: &mut Random, files: &mut Vec<File>) {
    let file = any(random, files);
    let rows = file.rows.len() as u64;
    let row = random.of(&[rows, rows.saturating_sub(1), u64::MAX, u64::MAX - file.first]);
    file.roots.retain(|root| root.row < row);
    file.roots.push(Root { row, handle: 3 });
}

fn roots_order(random: &mut Random, files: &mut Vec<File>) {
    let file = any(random, files);
    let row = file.roots.last().map_or(0, |root| root.row);
    file.roots.push(Root { row: random.of(&[row, row.saturating_sub(1), row + 1]), handle: 4 });
}

fn unresolved_child(random: &mut Random, files: &mut Vec<File>) {
    let file = any(random, files);
    let end = file.first.wrapping_add(file.rows.len() as u64);
    let child = random.of(&[file.first, file.first.wrapping_sub(1), end, end.wrapping_sub(1)]);
    let kind = random.of(&[0, 0, 1, 2]);
    file.unresolved.push(Unresolved { child, kind, handle: 9 });
    if !random.once_in(4) {
        file.unresolved.sort_by_key(|record| record.child);
    }
}

fn unresolved_kind(random: &mut Random, files: &mut Vec<File>) {
    let file = any(random, files);
    if file.unresolved.is_empty() {
        file.unresolved.push(Unresolved { child: file.first, kind: 0, handle: 1 });
    }
    let place = random.below(file.unresolved.len());
    file.unresolved[place].kind = random.of(&[0, 1, 2, 255]);
}

fn covered<'a>(random: &mut Random, files: &'a mut [File]) -> Option<&'a mut Cover> {
    let covered: Vec<usize> = (0..files.len()).filter(|place| files[*place].cover.is_some()).collect();
    if covered.is_empty() {
        return None;
    }
    let place = random.of(&covered);
    files[place].cover.as_mut()
}

fn range(random: &mut Random, files: &mut Vec<File>) {
    let Some(cover) = covered(random, files) else { return };
    let chain = cover.ranges.last().map_or(0, |range| range.chain);
    let least = random.of(&[0, 4, u32::MAX]);
    let greatest = random.of(&[least, least.saturating_sub(1), least.saturating_add(1)]);
    let chain = random.of(&[chain, chain.saturating_add(1), chain.saturating_sub(1), u32::MAX]);
    cover.ranges.push(Range { chain, least, greatest });
}

fn link(random: &mut Random, files: &mut Vec<File>) {
    let Some(cover) = covered(random, files) else { return };
    let last = cover.links.each_ref().map(|column| column.last().copied().unwrap_or(0));
    let sum: u64 = cover.links[0].iter().map(|difference| u64::from(*difference)).sum();
    let room = u32::MAX.saturating_sub(u32::try_from(sum).unwrap_or(u32::MAX));
    let difference = random.of(&[0, 0, 0, 1, room, room.saturating_add(1), u32::MAX]);
    cover.links[0].push(difference);
    for (column, last) in cover.links.iter_mut().zip(last).skip(1) {
        column.push(random.of(&[last, last, last.saturating_add(1), last.saturating_sub(1)]));
    }
}

/// A seq at, below or above an earlier one of its chain.
fn label(random: &mut Random, files: &mut Vec<File>) {
    let Some(cover) = covered(random, files) else { return };
    if cover.seqs.len() < 2 {
        return;
    }
    let place = 1 + random.below(cover.seqs.len() - 1);
    let seq = cover.seqs[place - 1];
    cover.chains[place] = cover.chains[place - 1];
    cover.seqs[place] = random.of(&[seq, seq.saturating_sub(1), seq.saturating_add(1), u32::MAX]);
}

fn erase_group(random: &mut Random, files: &mut Vec<File>) {
    let group = any(random, files).group;
    let keep = random.once_in(2);
    for file in files.iter_mut().filter(|file| file.group == group) {
        for row in &mut file.rows {
            row.erased = true;
        }
        if keep && let Some(row) = file.rows.last_mut() {
            row.erased = false;
        }
    }
}

/// The last file made longer, so that the run has 1,024 events or one more.
fn events(random: &mut Random, files: &mut Vec<File>) {
    let rows: usize = files.iter().map(|file| file.rows.len()).sum();
    let last = files.last_mut().expect("a file");
    if last.first > u64::MAX - 2000 || rows > 1000 {
        return;
    }
    let total = last.rows.len() + random.of(&[1024, 1025]) - rows;
    last.rows.resize(total, Row { erased: false, tag: 1 });
    for set in &mut last.sets[..2] {
        set.offsets.resize(2 * total + 1, u64::from(set.count));
    }
    last.sets[2] = Set::empty(total);
    if let Some(cover) = &mut last.cover {
        cover.chains.resize(total, 77);
        let from = cover.seqs.len() as u32;
        cover.seqs.extend((from..).take(total - from as usize));
    }
}

/// Groups of one event each behind the archive, so that there are 16 or one more.
fn groups(random: &mut Random, files: &mut Vec<File>) {
    let wanted = random.of(&[15, 16]);
    let last = files.last().expect("a file");
    let mut first = last.first.wrapping_add(last.rows.len() as u64);
    if first > u64::MAX - 100 {
        return;
    }
    for group in last.group.saturating_add(1)..=wanted {
        files.push(File {
            first,
            group,
            subject: files[0].subject.clone(),
            depth: None,
            sets: std::array::from_fn(|_| Set::empty(1)),
            rows: vec![Row { erased: false, tag: 2 }],
            unresolved: Vec::new(),
            roots: Vec::new(),
            cover: None,
            references: Vec::new(),
        });
        first += 1;
    }
}

/// One file whose erased event has many ends, and as many events that name it as give 4,096 entries in all, or one more.
fn new_lists(random: &mut Random, files: &mut Vec<File>) {
    let (ends, events) = random.of(&[(63, 64), (15, 256), (31, 128)]);
    let more = random.below(2);
    let start = 1000;
    let mut slots = vec![Vec::new(); 2 * (events + 1)];
    slots[0] = (0..ends).collect();
    for event in 1..=events {
        slots[2 * event] = vec![start];
    }
    // the erased event and each event that names it have all its ends; the rest is in the last event's auth list
    let entries = ends as usize * (events + 1);
    slots[2 * events + 1] = (0..(4096 + more - entries) as u64).map(|place| 999 - place).collect();
    let rows = (0..=events).map(|place| Row { erased: place == 0, tag: 0 }).collect();
    let none = Set::empty(events + 1);
    *files = vec![File {
        first: start,
        group: 0,
        subject: vec![1],
        depth: None,
        sets: [Set::of(start, &slots), none.clone(), none],
        rows,
        unresolved: Vec::new(),
        roots: Vec::new(),
        cover: None,
        references: Vec::new(),
    }];
}

/// References of some rows, of kinds and spaces that there are or one past them, now and then with a second parent or root; or a record of none.
fn references(random: &mut Random, files: &mut Vec<File>) {
    let file = any(random, files);
    file.references = vec![Vec::new(); file.rows.len()];
    for list in &mut file.references {
        while random.once_in(2) {
            let target = random.of(&[0, file.first, u64::MAX]);
            list.push(Reference { kind: random.of(&[0, 1, 2, 3, 4, 5, 5, 6]), space: random.of(&[0, 1, 2, 3, 3, 3, 4]), target });
        }
    }
}
