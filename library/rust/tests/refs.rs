//! References to parent lists and unresolved records, and to their record: answers that document 02's words give, worked out by hand.

use ridgeoven::ReferenceKind::{Auth, Link, Parent, Prev, Related, Root};
use ridgeoven::Space::{EventId, External, ProtocolId, Sequence};
use ridgeoven::{Parents, Reference, ReferenceKind, Refusal, Space, Unresolved, resolve_graph, write_references};

fn to(kind: ReferenceKind, space: Space, target: u64) -> Reference {
    Reference { kind, space, target }
}

fn parents(prev: &[u64], auth: &[u64]) -> Parents {
    Parents { prev: prev.to_vec(), auth: auth.to_vec() }
}

#[test]
fn each_kind_has_its_list() {
    let rows = [
        vec![to(Prev, Sequence, 90), to(Auth, EventId, 7)],
        vec![to(Auth, Sequence, 100), to(Prev, ProtocolId, 8), to(Prev, External, 9), to(Prev, Sequence, 100)],
        vec![],
        vec![to(Auth, External, 9)],
    ];
    let answers = [None, None, None, Some(99), None, None, Some(95)];
    let graph = resolve_graph(100, &rows, &answers).expect("it is sound");
    assert_eq!(graph.parents, [parents(&[90], &[]), parents(&[99, 100], &[100]), parents(&[], &[]), parents(&[], &[95])]);
    // the second of all references, and the fifth: the third of the second row
    assert_eq!(graph.unresolved, [Unresolved { child: 100, kind: Auth, place: 1 }, Unresolved { child: 101, kind: Prev, place: 4 }]);
}

#[test]
fn other_kinds_make_nothing_and_count_as_places() {
    let rows = [vec![to(Link, EventId, 1), to(Parent, Sequence, 2), to(Related, External, 3), to(Root, ProtocolId, 4), to(Auth, EventId, 5)]];
    let graph = resolve_graph(100, &rows, &[Some(50), None, Some(51), None, None]).expect("it is sound");
    assert_eq!(graph.parents, [parents(&[], &[])]);
    assert_eq!(graph.unresolved, [Unresolved { child: 100, kind: Auth, place: 4 }]);
}

#[test]
fn a_sequence_is_not_looked_up() {
    let graph = resolve_graph(100, &[vec![to(Prev, Sequence, 90), to(Auth, Sequence, 91)]], &[Some(5), None]).expect("it is sound");
    assert_eq!(graph.parents, [parents(&[90], &[91])]);
    assert_eq!(graph.unresolved, []);
}

#[test]
fn repeats_and_later_numbers_stay() {
    // building refuses both, with 5 and 4
    let rows = [vec![to(Prev, Sequence, 100), to(Prev, EventId, 3), to(Prev, EventId, 3), to(Prev, External, 4), to(Prev, External, 4)]];
    let graph = resolve_graph(100, &rows, &[None, Some(99), Some(99), None, None]).expect("it is sound");
    assert_eq!(graph.parents, [parents(&[100, 99, 99], &[])]);
    assert_eq!(graph.unresolved, [Unresolved { child: 100, kind: Prev, place: 3 }, Unresolved { child: 100, kind: Prev, place: 4 }]);
}

#[test]
fn an_answer_for_each_reference() {
    let row = vec![to(Prev, Sequence, 90), to(Link, EventId, 1)];
    assert!(resolve_graph(100, &[row.clone()], &[None, None]).is_ok());
    for answers in [&[][..], &[None], &[None; 3]] {
        assert_eq!(resolve_graph(100, &[row.clone()], answers), Err(Refusal(2)));
    }
}

#[test]
fn numbers_to_the_last() {
    let rows = [vec![], vec![to(Prev, External, 1)]];
    let graph = resolve_graph(u64::MAX - 2, &rows, &[None]).expect("the number past the rows has 64 bits");
    assert_eq!(graph.unresolved, [Unresolved { child: u64::MAX - 1, kind: Prev, place: 0 }]);
    assert_eq!(resolve_graph(u64::MAX - 1, &rows, &[None]), Err(Refusal(3)));
    assert_eq!(resolve_graph(u64::MAX, &[], &[]).map(|graph| graph.parents), Ok(vec![]));
}

#[test]
fn limits() {
    let one = to(Prev, External, 1);
    assert_eq!(resolve_graph(0, &vec![vec![]; 1024], &[]).map(|graph| graph.parents.len()), Ok(1024));
    assert_eq!(resolve_graph(0, &vec![vec![]; 1025], &[]), Err(Refusal(42)));
    assert_eq!(resolve_graph(0, &[vec![one; 1024]], &[None; 1024]).map(|graph| graph.unresolved.len()), Ok(1024));
    assert_eq!(resolve_graph(0, &[vec![one; 1025]], &[None; 1025]), Err(Refusal(42)));
    assert_eq!(resolve_graph(0, &[vec![one; 4096]], &[Some(1); 4096]).map(|graph| graph.parents[0].prev.len()), Ok(4096));
    assert_eq!(resolve_graph(0, &[vec![one; 4097]], &[Some(1); 4097]), Err(Refusal(43)));
}

#[test]
fn a_record_row_by_row() {
    let rows = [vec![to(Auth, Sequence, 0x0102), to(Root, ProtocolId, u64::MAX)], vec![], vec![to(Parent, EventId, 7)]];
    let mut out = [9; 50];
    assert_eq!(write_references(&rows, &mut out, 1), Ok(49));
    // its length without itself, version 1, kind 7
    assert_eq!(out[..7], [9, 0, 0, 0, 44, 1, 7]);
    assert_eq!(out[7..31], [0, 0, 0, 2, 1, 3, 0, 0, 0, 0, 0, 0, 1, 2, 5, 2, 255, 255, 255, 255, 255, 255, 255, 255]);
    assert_eq!(out[31..], [0, 0, 0, 0, 0, 0, 0, 1, 3, 0, 0, 0, 0, 0, 0, 0, 0, 7, 9]);
}

#[test]
fn refused_records_write_nothing() {
    let one = to(Prev, External, 1);
    let mut out = [9; 45062];
    for (rows, refusal) in [
        (vec![], 23),
        (vec![vec![], vec![]], 23),
        (vec![vec![to(Parent, Sequence, 1), to(Parent, External, 1)]], 23),
        (vec![vec![one], vec![to(Root, EventId, 1), one, to(Root, EventId, 1)]], 23),
        (vec![vec![one]; 1025], 42),
        (vec![vec![one; 4097]], 43),
        (vec![vec![one; 4096], vec![to(Root, EventId, 1)]], 43),
    ] {
        assert_eq!(write_references(&rows, &mut out, 0), Err(Refusal(refusal)));
    }
    let most = vec![vec![one; 4]; 1024];
    assert_eq!(write_references(&most, &mut out[1..], 0), Err(Refusal(41)));
    assert_eq!(write_references(&most, &mut out, 1), Err(Refusal(41)));
    assert_eq!(write_references(&most, &mut out, usize::MAX), Err(Refusal(41)));
    assert!(out.iter().all(|byte| *byte == 9));
    assert_eq!(write_references(&most, &mut out, 0), Ok(45062));
    let apart = [vec![to(Parent, Sequence, 1), to(Root, Sequence, 1)], vec![to(Parent, Sequence, 1), to(Root, Sequence, 1)]];
    assert_eq!(write_references(&apart, &mut out, 0), Ok(54));
}
