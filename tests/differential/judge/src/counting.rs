//! Two figures that the original does not answer: how many survivors were reparented, and how long all new lists are together.

use crate::archive::{File, Row, Set};
use crate::{blocks, sources};
use original::layout::graph::{EdgeKind, decode_granule_edges};
use original::writer::graph_renumber::renumber_graph;
use std::collections::BTreeSet;

/// An event as taken: whether it is erased, and its prev and auth lists as the original reads them.
struct Event {
    erased: bool,
    lists: [Vec<u64>; 2],
}

fn events(files: &[File]) -> Vec<Event> {
    let mut events = Vec::new();
    for file in files {
        let rows = file.rows.len() as u64;
        let block = blocks::granule_of(&file.sets, file.cover.as_ref());
        let edges = decode_granule_edges(&block, file.first, rows as u32, file.first + rows, file.cover.is_some())
            .expect("a file that was taken is read");
        for (number, row) in (file.first..).zip(&file.rows) {
            let list = |kind| edges.parents(number, kind).to_vec();
            events.push(Event { erased: row.erased, lists: [list(EdgeKind::Prev), list(EdgeKind::Auth)] });
        }
    }
    events
}

/// Survivors that name an erased parent in either list.
pub fn reparented(files: &[File]) -> usize {
    let start = files[0].first;
    let events = events(files);
    let erased = |number: &u64| number.checked_sub(start).is_some_and(|place| events[place as usize].erased);
    events.iter().filter(|event| !event.erased && event.lists.iter().flatten().any(erased)).count()
}

/// The lengths of all events' new lists together, erased events' own included.
///
/// The original keeps erased events' lists to itself. Here it gets one file more, with a survivor for each erased event that names
/// that event alone in both kinds: the survivor's new lists are then the erased event's. All numbers are first made small, those
/// before the start by their rank, so that the added file fits behind any archive.
pub fn new_entries(files: &[File]) -> usize {
    let mut events = events(files);
    let start = files[0].first;
    let before: BTreeSet<u64> = events.iter().flat_map(|event| event.lists.iter().flatten()).copied().filter(|n| *n < start).collect();
    let before: Vec<u64> = before.into_iter().collect();
    let small_start = before.len() as u64;
    let small = |number: u64| match number.checked_sub(start) {
        Some(place) => small_start + place,
        None => before.partition_point(|one| *one < number) as u64,
    };
    for target in events.iter_mut().flat_map(|event| event.lists.iter_mut().flatten()) {
        *target = small(*target);
    }
    let erased: Vec<u64> = (small_start..).zip(&events).filter(|(_, event)| event.erased).map(|(number, _)| number).collect();
    events.extend(erased.into_iter().map(|number| Event { erased: false, lists: [vec![number], vec![number]] }));
    if events.is_empty() {
        return 0;
    }
    let source = sources::source(&one_file(small_start, &events)).expect("a file without a cover");
    let renumbering = renumber_graph(vec![vec![source]]).expect("an archive with survivors");
    let rows = &renumbering.files[0].graph.rows;
    rows.iter().map(|row| row.auth.len() + row.prev.len()).sum()
}

fn one_file(first: u64, events: &[Event]) -> File {
    let slots: Vec<Vec<u64>> = events.iter().flat_map(|event| event.lists.clone()).collect();
    File {
        first,
        group: 0,
        subject: vec![0],
        depth: None,
        sets: [Set::of(first, &slots), Set::empty(events.len()), Set::empty(events.len())],
        rows: events.iter().map(|event| Row { erased: event.erased, tag: 0 }).collect(),
        unresolved: Vec::new(),
        roots: Vec::new(),
        cover: None,
        references: Vec::new(),
    }
}
