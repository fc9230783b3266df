//! Questions over edge columns, asked of the original.

use super::Parts;
use crate::archive::Set;
use crate::cases::{Answer, Part, list, number};
use crate::{blocks, refusals, sources};
use original::artifacts::state_chunk::StateRoot;
use original::error::FormatError;
use original::events::{RelationshipKind, RelationshipRef};
use original::layout::api::EventGraph;
use original::layout::footer::GranuleEntry;
use original::layout::graph::{
    ChainCoverInput, ChainLabel, DepthRange, EdgeKind, GranuleEdges, GraphEdge, GraphInput, RowEdges, UnresolvedEdge,
    decode_granule_edges, encode_graph_blocks, state_root_entries,
};

fn answered(answer: Result<Vec<Part>, FormatError>) -> Answer {
    answer.map_err(|error| refusals::number(&error))
}

fn kind(slot: u8) -> Option<EdgeKind> {
    match slot {
        0 => Some(EdgeKind::Prev),
        1 => Some(EdgeKind::Auth),
        _ => None,
    }
}

fn set(parts: &mut Parts) -> Option<Set> {
    Some(Set { count: parts.number()?, offsets: parts.list()?, deltas: parts.list()? })
}

// ── building ────────────────────────────────────────────────────────────────────────────────

/// The rows that slot offsets cut out of targets. Offsets of another form have no counterpart: the original is given lists.
fn rows(offsets: &[u64], targets: &[u64]) -> Option<Vec<RowEdges>> {
    let formed = offsets.len() % 2 == 1 && offsets[0] == 0 && offsets.is_sorted() && *offsets.last()? == targets.len() as u64;
    if !formed {
        return None;
    }
    let slot = |at: usize| targets[offsets[at] as usize..offsets[at + 1] as usize].to_vec();
    Some((0..offsets.len() / 2).map(|row| RowEdges { prev: slot(2 * row), auth: slot(2 * row + 1) }).collect())
}

fn unresolved(parts: &mut Parts) -> Option<Vec<UnresolvedEdge>> {
    let (children, kinds, flags) = (parts.list::<u64>()?, parts.list::<u8>()?, parts.list::<u8>()?);
    if children.len() != kinds.len() || children.len() != flags.len() {
        return None;
    }
    let edge = |((child, kind), flag): ((u64, u8), u8)| {
        let parent = match (flag, kind) {
            (0, _) => sources::reference(kind, 1),
            (1, 0) => RelationshipRef::to_subject_sequence(RelationshipKind::Prev, 1),
            (1, 1) => RelationshipRef::to_subject_sequence(RelationshipKind::Auth, 1),
            (1, _) => RelationshipRef::to_subject_sequence(RelationshipKind::Related, 1),
            _ => return None,
        };
        Some(UnresolvedEdge { child, parent })
    };
    children.into_iter().zip(kinds).zip(flags).map(edge).collect()
}

fn labels(covered: bool, chains: Vec<u32>, seqs: Vec<u32>) -> Option<Option<ChainCoverInput>> {
    if chains.len() != seqs.len() {
        return None;
    }
    let labels = chains.into_iter().zip(seqs).map(|(chain_id, seq)| ChainLabel { chain_id, seq }).collect();
    Some(covered.then_some(ChainCoverInput { labels, links: Vec::new() }))
}

fn inbound(parts: &mut Parts) -> Option<Vec<GraphEdge>> {
    let (children, parents, kinds) = (parts.list::<u64>()?, parts.list::<u64>()?, parts.list::<u8>()?);
    if children.len() != parents.len() || children.len() != kinds.len() {
        return None;
    }
    let edge = |((child, parent), slot)| Some(GraphEdge { child, kind: kind(slot)?, parent });
    children.into_iter().zip(parents).zip(kinds).map(edge).collect()
}

fn depth(values: &[u64]) -> Option<Option<DepthRange>> {
    match *values {
        [] => Some(None),
        [min, max] => Some(Some(DepthRange { max, min })),
        _ => None,
    }
}

/// Subject, first number, rows; slot offsets, targets; unresolved children, kinds, flags; depth (none, or two numbers); whether
/// there are labels, chains, seqs; inbound children, parents, kinds; the granule's first row, its rows. Answers three sets.
pub fn build(input: &[Part]) -> Option<Answer> {
    let mut parts = Parts::of(input);
    let (subject, first_sn, row_count) = (parts.list()?, parts.number()?, parts.number()?);
    let (offsets, targets) = (parts.list()?, parts.list()?);
    let graph = GraphInput {
        first_sn,
        rows: rows(&offsets, &targets)?,
        subject,
        unresolved: unresolved(&mut parts)?,
        depth: depth(&parts.list()?)?,
        chain_cover: {
            let covered = parts.flag()?;
            labels(covered, parts.list()?, parts.list()?)?
        },
        inbound: inbound(&mut parts)?,
        ..GraphInput::default()
    };
    let granule = GranuleEntry { first_row_ordinal: parts.number()?, granule_id: 0, row_count: parts.number()? };
    Some(built(&graph, row_count, granule))
}

/// The three sets of a granule.
pub fn built(graph: &GraphInput, row_count: u64, granule: GranuleEntry) -> Answer {
    answered(encode_graph_blocks(graph, row_count, &[granule]).map(|blocks| {
        let (sets, _) = blocks::columns(&blocks[&0], graph.chain_cover.is_some());
        sets.iter().flat_map(|set| [number(set.count), list(&set.offsets), list(&set.deltas)]).collect()
    }))
}

/// First number, rows, root events, rising. Answers rows.
pub fn roots(input: &[Part]) -> Option<Answer> {
    let mut parts = Parts::of(input);
    let (first_sn, row_count, events): (u64, u64, Vec<u64>) = (parts.number()?, parts.number()?, parts.list()?);
    if !events.is_sorted_by(|a, b| a < b) {
        return None;
    }
    let state_roots = events.into_iter().map(|event| (event, StateRoot(0))).collect();
    let graph = GraphInput { first_sn, state_roots, ..GraphInput::default() };
    let rows = state_root_entries(&graph, row_count)
        .map(|entries| vec![list(&entries.iter().map(|entry| entry.row_ordinal).collect::<Vec<u64>>())]);
    Some(answered(rows))
}

// ── reading ─────────────────────────────────────────────────────────────────────────────────

struct Place {
    first: u64,
    rows: u32,
    end: u64,
}

fn place(parts: &mut Parts) -> Option<Place> {
    Some(Place { first: parts.number()?, rows: parts.number()?, end: parts.number()? })
}

impl Place {
    fn edges(&self, sets: &[Set; 3], labels: Option<[&[u64]; 2]>) -> Result<GranuleEdges, FormatError> {
        decode_granule_edges(&blocks::granule(sets, labels), self.first, self.rows, self.end, labels.is_some())
    }

    fn no_edges(&self) -> Set {
        Set::empty(self.rows as usize)
    }

    /// The lists of all slots one after the other. A row past 2^64 − 1 has none: sets with edges are refused there.
    fn joined(&self, lists: impl Fn(u64, EdgeKind) -> Vec<u64>) -> Part {
        let numbers = (0..u64::from(self.rows)).map_while(|row| self.first.checked_add(row));
        list(&numbers.flat_map(|event| [lists(event, EdgeKind::Prev), lists(event, EdgeKind::Auth)]).flatten().collect::<Vec<u64>>())
    }
}

/// First number, rows, the file's end; forward, reverse, inbound (count, offsets, deltas each); whether there are labels, chains,
/// seqs. Answers the targets of each set, slot after slot, and the labels' chains and seqs.
pub fn read(input: &[Part]) -> Option<Answer> {
    let mut parts = Parts::of(input);
    let place = place(&mut parts)?;
    let sets = [set(&mut parts)?, set(&mut parts)?, set(&mut parts)?];
    let (covered, chains, seqs) = (parts.flag()?, parts.list::<u64>()?, parts.list::<u64>()?);
    if covered && place.first.checked_add(u64::from(place.rows.saturating_sub(1))).is_none() {
        return None; // labels are asked for by number, and these have none
    }
    let read = place.edges(&sets, covered.then_some([&chains[..], &seqs[..]])).map(|edges| {
        // Reverse targets lie below the file's end and inbound ones do not, so the children part at the end.
        let children = |inbound: bool| {
            let own = move |target: &u64| (*target >= place.end) == inbound;
            place.joined(|event, kind| edges.children_iter(event, kind).filter(own).collect())
        };
        let labels: Vec<ChainLabel> = (0..u64::from(place.rows))
            .map_while(|row| place.first.checked_add(row))
            .filter_map(|event| edges.label(event))
            .collect();
        vec![
            place.joined(|event, kind| edges.parents(event, kind).to_vec()),
            children(false),
            children(true),
            list(&labels.iter().map(|label| label.chain_id).collect::<Vec<u32>>()),
            list(&labels.iter().map(|label| label.seq).collect::<Vec<u32>>()),
        ]
    });
    Some(answered(read))
}

/// First number, rows, the file's end; forward; kind, number. Answers a list.
pub fn parents(input: &[Part]) -> Option<Answer> {
    let mut parts = Parts::of(input);
    let place = place(&mut parts)?;
    let forward = set(&mut parts)?;
    let (kind, event) = (kind(parts.number()?)?, parts.number()?);
    let edges = place.edges(&[forward, place.no_edges(), place.no_edges()], None);
    Some(answered(edges.map(|edges| vec![list(edges.parents(event, kind))])))
}

/// First number, rows, the file's end; reverse, inbound; kind, number. Answers a list.
pub fn children(input: &[Part]) -> Option<Answer> {
    let mut parts = Parts::of(input);
    let place = place(&mut parts)?;
    let (reverse, inbound) = (set(&mut parts)?, set(&mut parts)?);
    let (kind, event) = (kind(parts.number()?)?, parts.number()?);
    let edges = place.edges(&[place.no_edges(), reverse, inbound], None);
    Some(answered(edges.map(|edges| vec![list(&edges.children(event, kind))])))
}

/// First number, rows; chains, seqs; number. Answers nothing, or a chain and a seq.
pub fn label(input: &[Part]) -> Option<Answer> {
    let mut parts = Parts::of(input);
    let (first, rows) = (parts.number()?, parts.number()?);
    let (chains, seqs) = (parts.list::<u64>()?, parts.list::<u64>()?);
    let event = parts.number()?;
    let place = Place { first, rows, end: u64::MAX };
    let edges = place.edges(&std::array::from_fn(|_| place.no_edges()), Some([&chains, &seqs]));
    let found = |edges: GranuleEdges| edges.label(event).map_or(Vec::new(), |label| vec![label.chain_id, label.seq]);
    Some(answered(edges.map(|edges| vec![list(&found(edges))])))
}

// ── the walk ────────────────────────────────────────────────────────────────────────────────

/// One file's parents; other numbers have none.
pub struct OneFile(pub GranuleEdges);

impl EventGraph for OneFile {
    fn parents_of(&self, _subject: &[u8], sns: &[u64], kind: EdgeKind) -> Result<Vec<Vec<u64>>, FormatError> {
        Ok(sns.iter().map(|sn| self.0.parents(*sn, kind).to_vec()).collect())
    }

    fn children_of(&self, _subject: &[u8], sns: &[u64], kind: EdgeKind) -> Result<Vec<Vec<u64>>, FormatError> {
        Ok(sns.iter().map(|sn| self.0.children(*sn, kind)).collect())
    }
}

/// First number, rows, the file's end; forward; kind, limit, start. Answers how many levels there are, each level, and how many
/// numbers they have together.
pub fn walk(input: &[Part]) -> Option<Answer> {
    let mut parts = Parts::of(input);
    let place = place(&mut parts)?;
    let forward = set(&mut parts)?;
    let (kind, limit, start) = (kind(parts.number()?)?, parts.number()?, parts.number()?);
    let edges = place.edges(&[forward, place.no_edges(), place.no_edges()], None);
    let walked = edges.and_then(|edges| OneFile(edges).walk(b"a", start, kind, limit).collect::<Result<Vec<Vec<u64>>, _>>());
    Some(answered(walked.map(|levels| {
        let mut answer = vec![number(levels.len() as u64)];
        answer.extend(levels.iter().map(|level| list(level)));
        answer.push(number(levels.iter().flatten().count() as u64));
        answer
    })))
}
