//! A folder of good and bad archives.

mod common;

use common::{Folder, Ran, WORKED, command, file, folder, ran, repository, skipped};
use std::ffi::OsString;
use std::fs;
use std::os::unix::ffi::OsStringExt;
use std::os::unix::fs::symlink;
use std::path::Path;
use std::process::{Command, Stdio};

const ACCEPTED: &str = "accepted: files 1, events 4, erased 2, survivors 2";
const WORDS: &str = "a record of the archive is broken: its length, version, kind, order, or something that it holds";

/// Archives, one of them in a folder of its own and one of a name that is no text; and what is no archive.
fn mixed(name: &str) -> Folder {
    let folder = folder(name);
    fs::create_dir(folder.join("inner")).unwrap();
    file(&folder, "good.archive", WORKED);
    file(&folder, "inner/bad.archive", &WORKED[1..]);
    file(&folder, "note", b"no archive");
    file(&folder, OsString::from_vec(b"odd\xff\n.archive".to_vec()), WORKED);
    symlink(".", folder.join("round")).unwrap();
    symlink("missing", folder.join("gone.archive")).unwrap();
    symlink("good.archive", folder.join("linked.archive")).unwrap();
    folder
}

fn checked(folder: &Path, words: &[&str]) -> Ran {
    Ran::of(command([&["check"], words].concat()).current_dir(folder).output().unwrap())
}

#[test]
fn a_folder_is_searched() {
    let checked = checked(&mixed("searched"), &["."]);
    assert_eq!((checked.status, checked.told.as_str()), (3, ""));
    let lines = [
        "./gone.archive: cannot be read: No such file or directory (os error 2)\n".into(),
        format!("./good.archive: {ACCEPTED}\n"),
        format!("./inner/bad.archive: refused 23: {WORDS}\n"),
        format!("./linked.archive: {ACCEPTED}\n"),
        format!("./odd\\xff\\x0a.archive: {ACCEPTED}\n"),
        "3 accepted, 1 refused, 1 not read; 2 passed over\n".into(),
    ];
    assert_eq!(checked.text(), lines.concat());
}

#[test]
fn a_named_file_is_checked_whatever_its_name() {
    let folder = mixed("named");
    let checked = checked(&folder, &["note", "good.archive", "missing"]);
    assert_eq!(checked.status, 3);
    let unread = "missing: cannot be read: No such file or directory (os error 2)\n";
    let counts = "1 accepted, 1 refused, 1 not read\n";
    assert_eq!(checked.text(), format!("note: refused 23: {WORDS}\ngood.archive: {ACCEPTED}\n{unread}{counts}"));
}

#[test]
fn all_files_are_checked() {
    let checked = checked(&mixed("all"), &["--all", "."]);
    assert!(checked.text().contains("\n./note: refused 23: "));
    assert!(checked.text().ends_with("\n3 accepted, 2 refused, 1 not read; 1 passed over\n"));
}

#[test]
fn json_is_an_object_a_line() {
    let checked = checked(&mixed("json"), &["--json", "."]);
    assert_eq!(checked.status, 3);
    let accepted = "\"result\": \"accepted\", \"files\": 1, \"events\": 4, \"erased\": 2, \"survivors\": 2}\n";
    let lines = [
        "{\"name\": \"./gone.archive\", \"result\": \"unread\", \"error\": \"No such file or directory (os error 2)\"}\n".into(),
        format!("{{\"name\": \"./good.archive\", {accepted}"),
        format!("{{\"name\": \"./inner/bad.archive\", \"result\": \"refused\", \"refusal\": 23, \"words\": \"{WORDS}\"}}\n"),
        format!("{{\"name\": \"./linked.archive\", {accepted}"),
        format!("{{\"name\": \"./odd\\\\xff\\\\x0a.archive\", \"name_hex\": \"2e2f6f6464ff0a2e61726368697665\", {accepted}"),
        "{\"accepted\": 3, \"refused\": 1, \"unread\": 1, \"passed_over\": 2}\n".into(),
    ];
    assert_eq!(checked.text(), lines.concat());
}

/// The proved program for machines without cargo says the same; it can't say why a file is not read.
#[test]
fn check_archives_says_the_same() {
    let words = fs::read_to_string(repository("crates/check_archives/args")).unwrap();
    let known = fs::read_to_string(repository("crates/check_archives/stdout")).unwrap();
    let checked = checked(&repository("crates/check_archives/data"), &words.split_whitespace().collect::<Vec<_>>());
    assert_eq!(checked.text().replace(": No such file or directory (os error 2)", ""), known);
}

#[test]
fn an_empty_folder_is_no_failure() {
    ran(["check".as_ref(), folder("empty").as_os_str()]).prints("0 accepted, 0 refused, 0 not read\n");
}

/// The line that says how far the check has come is seen on a terminal alone; `script` is one that a test can read.
#[test]
fn progress_is_shown_on_a_terminal() {
    let folder = mixed("progress");
    let words = format!("'{}' check .", env!("CARGO_BIN_EXE_ridgeoven"));
    match Command::new("script").args(["-qec", &words, "/dev/null"]).current_dir(&folder).stdin(Stdio::null()).output() {
        Err(_) => skipped("there is no `script` to show progress on"),
        Ok(output) => assert!(String::from_utf8_lossy(&output.stdout).contains("\rchecking 2 of 5\x1b[K\r\x1b[K./good.archive: accepted")),
    }
    assert!(!checked(&folder, &["."]).text().contains("checking"));
}
