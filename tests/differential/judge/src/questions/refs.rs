//! References resolved to parent lists and unresolved records, asked of the original; and its answer handed to its building.

use super::{Parts, columns};
use crate::cases::{Answer, Part, list};
use crate::sources;
use original::error::StorageError;
use original::events::{EventRelationships, RelationshipKind, RelationshipRef, TargetIdSpace};
use original::layout::graph::{EdgeKind, GraphInput};
use original::writer::build::BuildRow;
use original::writer::graph::{EventSequenceNumbers, resolve_graph};

const KINDS: [RelationshipKind; 6] = [
    RelationshipKind::Prev,
    RelationshipKind::Auth,
    RelationshipKind::Link,
    RelationshipKind::Parent,
    RelationshipKind::Related,
    RelationshipKind::Root,
];

/// A reference as its columns have it.
#[derive(Clone, Copy)]
struct Given {
    kind: RelationshipKind,
    space: TargetIdSpace,
    target: u64,
}

impl Given {
    /// As the original has it. An id holds the target and behind it a place, so that the record of a reference that names nothing tells its place.
    fn reference(&self, place: usize) -> RelationshipRef {
        let id = u128::from(self.target) << 64 | place as u128;
        match self.space {
            TargetIdSpace::EventId => RelationshipRef::to_event(self.kind, id),
            TargetIdSpace::ExternalId => RelationshipRef::to_external(self.kind, &id.to_be_bytes()).expect("sixteen bytes are an external id"),
            TargetIdSpace::ProtocolEventId => {
                let mut bytes = [0; 32];
                bytes[16..].copy_from_slice(&id.to_be_bytes());
                RelationshipRef::to_protocol(self.kind, bytes)
            }
            TargetIdSpace::SubjectSequence => RelationshipRef::to_subject_sequence(self.kind, self.target),
        }
    }

    /// Whether the answer of its lookup counts: reading 9 of document 02.
    fn is_looked_up(&self) -> bool {
        EdgeKind::of(self.kind).is_some() && self.space != TargetIdSpace::SubjectSequence
    }
}

fn place_of(reference: &RelationshipRef) -> usize {
    let (_, place) = reference.target_ref.split_last_chunk::<8>().expect("an id ends with a place");
    u64::from_be_bytes(*place) as usize
}

/// The references of a file's rows, and the answers of their lookups.
struct Asked {
    first: u64,
    starts: Vec<usize>,
    references: Vec<Given>,
    answers: Vec<Option<u64>>,
}

/// Rows as many as their starts say, which rise or stay level from 0 to the number of references; columns of one length, but that answers may be
/// missing or too many; kinds and spaces that have a name. All else has no counterpart: the original is given lists and enums.
fn asked(input: &[Part]) -> Option<Asked> {
    let mut parts = Parts::of(input);
    let (first, rows) = (parts.number()?, parts.number::<usize>()?);
    let starts: Vec<usize> = parts.list()?;
    let (kinds, spaces, targets) = (parts.list::<usize>()?, parts.list::<usize>()?, parts.list::<u64>()?);
    let (known, numbers) = (parts.list::<u8>()?, parts.list::<u64>()?);
    let even = kinds.len() == spaces.len() && kinds.len() == targets.len() && known.len() == numbers.len();
    let formed = starts.len().checked_sub(1) == Some(rows) && starts[0] == 0 && starts.is_sorted() && starts[rows] == kinds.len();
    if !even || !formed {
        return None;
    }
    let given = |((kind, space), target)| Some(Given { kind: *KINDS.get(kind)?, space: *TargetIdSpace::ALL.get(space)?, target });
    let references = kinds.into_iter().zip(spaces).zip(targets).map(given).collect::<Option<Vec<Given>>>()?;
    let answers = known.into_iter().zip(numbers).map(|(known, number)| (known != 0).then_some(number)).collect();
    Some(Asked { first, starts, references, answers })
}

/// Answers what the original asks for, by the place that stands in each id; answers that are too many come behind.
struct ByPlace<'a>(&'a Asked);

impl EventSequenceNumbers for ByPlace<'_> {
    fn sequence_numbers(&self, _subject: &[u8], targets: &[&RelationshipRef]) -> Result<Vec<Option<u64>>, StorageError> {
        let Asked { references, answers, .. } = self.0;
        let found = targets.iter().filter_map(|target| answers.get(place_of(target)).copied());
        Ok(found.chain(answers.iter().skip(references.len()).copied()).collect())
    }
}

/// Answers the same, whatever is asked for.
struct InOrder(Vec<Option<u64>>);

impl EventSequenceNumbers for InOrder {
    fn sequence_numbers(&self, _subject: &[u8], _targets: &[&RelationshipRef]) -> Result<Vec<Option<u64>>, StorageError> {
        Ok(self.0.clone())
    }
}

impl Asked {
    /// The rows as the original has them, if it has them: at most one parent and one root each.
    fn rows(&self, place: impl Fn(usize) -> usize) -> Option<Vec<BuildRow>> {
        let row = |(bounds, tag): (&[usize], u64)| {
            let refs: Vec<RelationshipRef> = (bounds[0]..bounds[1]).map(|at| self.references[at].reference(place(at))).collect();
            // a row without references has none of them, or an empty list
            let some = !refs.is_empty() || tag % 2 == 1;
            let relationships = EventRelationships::new(refs).ok()?;
            Some(BuildRow { relationships: some.then_some(relationships), tag })
        };
        self.starts.windows(2).zip(0..).map(row).collect()
    }

    /// What the original makes of them, or 2. Asked twice, the second time with ids that hold no place and with the answers that are not looked at
    /// dropped; both must be the same but for the places.
    fn graph(&self) -> Option<Result<GraphInput, u8>> {
        let placed = resolve_graph(&self.rows(|at| at)?, b"a".to_vec(), self.first, &ByPlace(self));
        let counts = |(at, _): &(usize, &Option<u64>)| self.references.get(*at).is_none_or(Given::is_looked_up);
        let kept = self.answers.iter().enumerate().filter(counts).map(|(_, answer)| *answer).collect();
        let plain = resolve_graph(&self.rows(|_| 0)?, b"a".to_vec(), self.first, &InOrder(kept));
        let graph = match (placed, plain) {
            (Err(StorageError::Io { op: "sequence number lookup", .. }), Err(StorageError::Io { op: "sequence number lookup", .. })) => {
                return Some(Err(2));
            }
            (Ok(placed), Ok(plain)) => {
                assert!(same(&placed, &plain), "the original looks at what an id holds");
                placed
            }
            other => panic!("the original answers otherwise where an id holds a place: {other:?}"),
        };
        // answers are missing that the original does not ask for: document 02 alone says 2
        (self.answers.len() == self.references.len()).then_some(Ok(graph))
    }
}

/// Whether two graphs are the same but for the places in their ids.
fn same(placed: &GraphInput, plain: &GraphInput) -> bool {
    let without = |reference: &RelationshipRef| {
        let mut reference = reference.clone();
        let at = reference.target_ref.len() - 8;
        reference.target_ref[at..].fill(0);
        reference
    };
    let mut placed = placed.clone();
    placed.unresolved.iter_mut().for_each(|edge| edge.parent = without(&edge.parent));
    placed == *plain
}

/// First number, rows; where each row's references start, and where the last one's end; kinds, spaces, targets; whether each is known, numbers.
/// Answers slot offsets, targets; unresolved children, kinds, places.
pub fn resolve(input: &[Part]) -> Option<Answer> {
    let asked = asked(input)?;
    // numbers past 2^64 − 1 are for its building to refuse
    asked.first.checked_add(asked.starts.len() as u64 - 1)?;
    Some(asked.graph()?.map(|graph| {
        let slots: Vec<&Vec<u64>> = graph.rows.iter().flat_map(|row| [&row.prev, &row.auth]).collect();
        let ends = slots.iter().scan(0, |end, slot| {
            *end += slot.len() as u64;
            Some(*end)
        });
        let offsets: Vec<u64> = [0].into_iter().chain(ends).collect();
        let kind = |kind| KINDS.iter().position(|one| *one == kind).expect("a kind has a number") as u64;
        let column = |part: &dyn Fn(&original::layout::graph::UnresolvedEdge) -> u64| list(&graph.unresolved.iter().map(part).collect::<Vec<u64>>());
        vec![
            list(&offsets),
            list(&slots.into_iter().flatten().copied().collect::<Vec<u64>>()),
            column(&|edge| edge.child),
            column(&|edge| kind(edge.parent.kind)),
            column(&|edge| place_of(&edge.parent) as u64),
        ]
    }))
}

/// The same input. Answers the three sets that building makes of what was resolved.
pub fn handed(input: &[Part]) -> Option<Answer> {
    let asked = asked(input)?;
    let rows = asked.starts.len() - 1;
    Some(asked.graph()?.and_then(|graph| columns::built(&graph, rows as u64, sources::granule(rows))))
}
