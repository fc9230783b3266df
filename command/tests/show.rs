//! What people look at: rooms and refusals.

mod common;

use common::{ran, repository};
use ridgeoven::Refusal;
use std::path::Path;

fn show(archive: &Path, words: &[&str]) -> String {
    let shown = ran([&["show", archive.to_str().unwrap()], words].concat());
    assert_eq!((shown.status, shown.told.as_str()), (0, ""));
    shown.text().into()
}

#[test]
fn the_worked_room() {
    let worked = repository("crates/clean/stdin");
    assert_eq!(show(&worked, &[]), include_str!("known/worked.show"));
    assert_eq!(show(&worked, &["--cleaned"]), include_str!("known/worked.show-cleaned"));
    assert_eq!(show(&worked, &["--dot"]), include_str!("known/worked.dot"));
    assert_eq!(show(&worked, &["--dot", "--cleaned"]), include_str!("known/worked.dot-cleaned"));
}

/// Two groups, the first of several files with covers; unresolved references; lists that go on in the next line.
#[test]
fn a_room_of_groups() {
    let groups = repository("tests/programs/archives/mixed-00013-valid.archive");
    assert_eq!(show(&groups, &[]), include_str!("known/groups.show"));
    assert_eq!(show(&groups, &["--dot"]), include_str!("known/groups.dot"));
}

/// Every number that the library has words for is explained, and no other.
#[test]
fn refusals_are_explained() {
    for number in 0..100 {
        let explained = ran(["explain", &number.to_string()]);
        if Refusal(number).words().is_empty() {
            explained.fails(2, "no refusal's number");
        } else {
            assert_eq!((explained.status, explained.told.as_str()), (0, ""));
            assert!(explained.text().starts_with(&format!("{}\n\nTested ", Refusal(number))));
        }
    }
}
