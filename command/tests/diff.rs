//! Two archives, and where their cleanings differ first.

mod common;

use common::{CLEANED, Ran, WORKED, command, file, folder, repository};
use std::fs;

/// A change of an archive's bytes: the record of a kind, counted from 0 among those of its kind, the place in its body, and what stands there then.
struct Change(usize, u8, usize, &'static [u8]);

fn changed(archive: &[u8], Change(nth, kind, at, bytes): &Change) -> Vec<u8> {
    let mut archive = archive.to_vec();
    let (mut record, mut left) = (0, *nth);
    while archive[record + 5] != *kind || left > 0 {
        left -= usize::from(archive[record + 5] == *kind);
        record += 4 + u32::from_be_bytes(archive[record..record + 4].try_into().unwrap()) as usize;
    }
    archive[record + 6 + at..][..bytes.len()].copy_from_slice(bytes);
    archive
}

/// What `diff A B` says of archives with these bytes.
fn diff(name: &str, a: &[u8], b: &[u8]) -> Ran {
    let folder = folder(name);
    file(&folder, "A", a);
    file(&folder, "B", b);
    let ran = Ran::of(command(["diff", "A", "B"]).current_dir(&folder).output().unwrap());
    assert_eq!(ran.told, "");
    ran
}

/// The worked archive is cleaned to what its cleaned archive is cleaned to.
#[test]
fn the_same_bytes() {
    for other in [WORKED, CLEANED] {
        diff("same", WORKED, other).prints("cleaned to the same bytes: bytes 271, survivors 2\n");
    }
}

#[test]
fn what_is_said_of_a_difference() {
    for (change, text) in [
        // 103 names 99 where it named 100, as its second prev parent.
        (
            Change(0, 2, 139, &[4]),
            "a survivor differs in prev\nA: 101, which was 103: prev 100 95\nB: 101, which was 103: prev 100 95 99\n",
        ),
        // 103 is erased too.
        (Change(0, 3, 27, &[1]), "a survivor differs in number\nA: 101, which was 103: number 101\nB: no survivor is left\n"),
        // 102 is not erased.
        (Change(0, 3, 18, &[0]), "a survivor differs in tag\nA: 101, which was 103: tag 1003\nB: 101, which was 102: tag 1002\n"),
        (Change(0, 1, 14, b"moor"), "group 0 differs in subject\nA: subject room\nB: subject moor\n"),
        (
            Change(0, 1, 18, &[1, 0, 0, 0, 0, 0, 0, 0, 2, 0, 0, 0, 0, 0, 0, 0, 7]),
            "group 0 differs in depth\nA: depth none\nB: depth 2 to 7\n",
        ),
    ] {
        let said = diff("said", WORKED, &changed(WORKED, &change));
        assert_eq!((said.status, said.text()), (1, format!("cleaned to different bytes: {text}").as_str()));
    }
}

/// Each of the other fields is found where nothing but it was changed.
#[test]
fn every_field() {
    let read = |name: &str| fs::read(repository(&format!("tests/programs/archives/{name}.archive"))).unwrap();
    let (worked, groups, mixed) = (WORKED.to_vec(), read("24-030-group_step-ok0"), read("mixed-00025-valid"));
    for (archive, change, said) in [
        (&worked, Change(0, 1, 7, &[101]), "a survivor differs in number"),
        (&worked, Change(0, 2, 147, &[4]), "a survivor differs in auth"),
        (&groups, Change(1, 1, 12, &[0]), "a survivor differs in group"),
        (&mixed, Change(0, 4, 13, &[1, 2, 3, 4]), "a survivor differs in unresolved"),
        (&mixed, Change(0, 5, 12, &[1, 2, 3, 4]), "a survivor differs in state root"),
        (&mixed, Change(0, 6, 0, &[1, 2, 3, 4]), "a survivor differs in label"),
        (&mixed, Change(0, 6, 172, &[255; 4]), "group 0 differs in links"),
    ] {
        let ran = diff("fields", archive, &changed(archive, &change));
        assert_eq!((ran.status, ran.text().lines().next()), (1, Some(format!("cleaned to different bytes: {said}").as_str())));
    }
}
