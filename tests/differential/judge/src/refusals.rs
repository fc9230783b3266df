//! Which of document 01's numbers an error of the original is.
//!
//! The original refuses with values that hold a sentence. Their numbers are learned: for each number there is an input that breaks
//! that rule alone, next to one that breaks none. The first must be refused and the second accepted, and no two numbers may share an
//! error; so a changed original is noticed here before anything is compared.

use crate::archive::{Cover, File, Range, Row, Set};
use crate::{blocks, sources};
use original::artifacts::state_chunk::StateRoot;
use original::error::FormatError;
use original::events::{RelationshipKind, RelationshipRef};
use original::layout::footer::GranuleEntry;
use original::layout::graph::{
    ChainCoverInput, ChainLabel, DepthRange, EdgeKind, GraphEdge, GraphInput, RowEdges, UnresolvedEdge, decode_granule_edges,
    encode_graph_blocks, state_root_entries,
};
use original::layout::shown::decode_cover;
use original::writer::graph_renumber::renumber_graph;
use std::sync::LazyLock;

/// A refusal's number.
pub type Number = u8;

type Tried = Result<(), FormatError>;

static LEARNED: LazyLock<Vec<(FormatError, Number)>> = LazyLock::new(learn);

/// The number of an error of the original.
pub fn number(error: &FormatError) -> Number {
    known(error).unwrap_or_else(|| panic!("the original refused with an error of no known number: {error:?}"))
}

fn known(error: &FormatError) -> Option<Number> {
    LEARNED.iter().find(|(one, _)| one == error).map(|(_, number)| *number)
}

/// How many errors have been told apart.
pub fn count() -> usize {
    LEARNED.len()
}

fn learn() -> Vec<(FormatError, Number)> {
    let mut learned: Vec<(FormatError, Number)> = Vec::new();
    let mut probes = building();
    probes.extend(reading());
    probes.extend(covers());
    probes.extend(renumbering());
    for (number, broken, sound) in probes {
        assert_eq!(sound, Ok(()), "the sound neighbour of {number} is refused");
        let error = broken.expect_err("an input that breaks a rule is accepted");
        match learned.iter().find(|(one, _)| *one == error) {
            Some((_, other)) => assert_eq!(*other, number, "{other} and {number} are one error of the original: {error:?}"),
            None => learned.push((error, number)),
        }
    }
    learned
}

type Probe = (Number, Tried, Tried);

fn graph(change: impl Fn(&mut GraphInput)) -> GraphInput {
    let mut graph = GraphInput {
        first_sn: 100,
        rows: vec![RowEdges::default(); 2],
        subject: b"a".to_vec(),
        ..GraphInput::default()
    };
    change(&mut graph);
    graph
}

fn built_as(change: impl Fn(&mut GraphInput), row_count: u64, first_row_ordinal: u64) -> Tried {
    let granule = GranuleEntry { first_row_ordinal, granule_id: 0, row_count: 2 };
    encode_graph_blocks(&graph(change), row_count, &[granule]).map(|_| ())
}

fn built(change: impl Fn(&mut GraphInput)) -> Tried {
    built_as(change, 2, 0)
}

fn unresolved(child: u64, parent: RelationshipRef) -> Tried {
    built(|graph| graph.unresolved = vec![UnresolvedEdge { child, parent: parent.clone() }])
}

fn labelled(labels: &[(u32, u32)]) -> Tried {
    let labels: Vec<ChainLabel> = labels.iter().map(|&(chain_id, seq)| ChainLabel { chain_id, seq }).collect();
    built(|graph| graph.chain_cover = Some(ChainCoverInput { labels: labels.clone(), links: Vec::new() }))
}

fn inbound(edges: &[(u64, u64)]) -> Tried {
    let edges: Vec<GraphEdge> =
        edges.iter().map(|&(child, parent)| GraphEdge { child, kind: EdgeKind::Prev, parent }).collect();
    built(|graph| graph.inbound = edges.clone())
}

fn rooted(event: u64) -> Tried {
    let graph = graph(|graph| {
        graph.state_roots.insert(event, StateRoot(0));
    });
    state_root_entries(&graph, 2).map(|_| ())
}

fn building() -> Vec<Probe> {
    let prev = |targets: &'static [u64]| built(move |graph| graph.rows[0].prev = targets.to_vec());
    let depth = |min, max| built(move |graph| graph.depth = Some(DepthRange { max, min }));
    let far = |first| {
        built(move |graph| {
            graph.first_sn = first;
            graph.rows[0].prev = vec![0];
        })
    };
    let outside = RelationshipRef::to_external(RelationshipKind::Related, b"x").expect("an id");
    let inside = sources::reference(0, 7);
    let by_number = RelationshipRef::to_subject_sequence(RelationshipKind::Prev, 7);
    vec![
        (1, built(|graph| graph.subject.clear()), built(|_| ())),
        (1, built(|graph| graph.subject = vec![0; 256]), built(|graph| graph.subject = vec![0; 255])),
        (2, built_as(|_| (), 3, 0), built(|_| ())),
        (3, built(|graph| graph.first_sn = u64::MAX - 1), built(|graph| graph.first_sn = u64::MAX - 2)),
        (4, prev(&[100]), prev(&[99])),
        (5, prev(&[99, 99]), prev(&[99, 98])),
        (6, unresolved(102, inside.clone()), unresolved(101, inside.clone())),
        (7, unresolved(100, outside), unresolved(100, inside.clone())),
        (7, unresolved(100, by_number), unresolved(100, inside)),
        (8, depth(2, 1), depth(1, 1)),
        (9, labelled(&[(0, 0)]), labelled(&[(0, 0), (0, 1)])),
        (10, labelled(&[(0, 4), (0, 4)]), labelled(&[(0, 4), (0, 5)])),
        (11, inbound(&[(101, 100)]), inbound(&[(102, 100)])),
        (12, inbound(&[(102, 102)]), inbound(&[(102, 101)])),
        (13, inbound(&[(102, 100), (102, 100)]), inbound(&[(102, 100), (103, 100)])),
        (14, built_as(|_| (), 2, 1), built(|_| ())),
        (15, far(1 << 63), far((1 << 63) - 1)),
        (16, rooted(102), rooted(101)),
    ]
}

fn read_as(first: u64, forward: Set, labels: Option<[&[u64]; 2]>) -> Tried {
    let rows = forward.offsets.len() / 2;
    let block = blocks::granule(&[forward, Set::empty(rows), Set::empty(rows)], labels);
    decode_granule_edges(&block, first, rows as u32, first.saturating_add(rows as u64), labels.is_some()).map(|_| ())
}

fn forward(count: u32, offsets: &[u64], deltas: &[i64]) -> Set {
    Set { count, offsets: offsets.to_vec(), deltas: deltas.to_vec() }
}

fn reading() -> Vec<Probe> {
    let read = |set| read_as(100, set, None);
    let labels = |chains: &[u64], seqs: &[u64]| read_as(100, Set::empty(1), Some([chains, seqs]));
    let last = |first| read_as(first, forward(1, &[0, 1, 1, 1, 1], &[1]), None);
    vec![
        (17, read(forward(1, &[1, 1, 1], &[1])), read(forward(1, &[0, 1, 1], &[1]))),
        (18, read(forward(1, &[0, 1, 1], &[1, 2])), read(forward(1, &[0, 1, 1], &[1]))),
        (19, read(forward(1, &[0, 1, 1], &[0])), read(forward(1, &[0, 1, 1], &[1]))),
        (19, last(u64::MAX), last(u64::MAX - 1)),
        (20, labels(&[1], &[]), labels(&[1], &[1])),
        (21, labels(&[1 << 32], &[1]), labels(&[(1 << 32) - 1], &[1])),
    ]
}

fn covers() -> Vec<Probe> {
    let read = |least, greatest| decode_cover(&blocks::cover(&[Range { chain: 0, least, greatest }], [&[]; 4])).map(|_| ());
    vec![(22, read(2, 1), read(1, 1))]
}

fn one_row(first: u64, covered: bool) -> File {
    File {
        first,
        group: 0,
        subject: b"a".to_vec(),
        depth: None,
        sets: std::array::from_fn(|_| Set::empty(1)),
        rows: vec![Row { erased: false, tag: 0 }],
        unresolved: Vec::new(),
        roots: Vec::new(),
        cover: covered.then(|| Cover { chains: vec![0], seqs: vec![0], ..Cover::default() }),
        references: Vec::new(),
    }
}

fn renumbered(files: &[File]) -> Tried {
    let group: Result<Vec<_>, FormatError> = files.iter().map(sources::source).collect();
    renumber_graph(if files.is_empty() { Vec::new() } else { vec![group?] }).map(|_| ())
}

fn renumbering() -> Vec<Probe> {
    let pair = |a, b| renumbered(&[a, b]);
    let plain = |first| one_row(first, false);
    let mut erased = plain(100);
    erased.rows[0].erased = true;
    vec![
        (24, renumbered(&[]), renumbered(&[plain(100)])),
        (25, pair(plain(100), plain(102)), pair(plain(100), plain(101))),
        (26, pair(plain(100), one_row(101, true)), pair(one_row(100, true), one_row(101, true))),
        (27, renumbered(&[erased]), renumbered(&[plain(100)])),
        (3, renumbered(&[plain(u64::MAX)]), renumbered(&[plain(u64::MAX - 1)])),
    ]
}
