//! Every exit status of every command.

mod common;

use common::{BROKEN, CLEANED, LISTING, WORKED, file, folder, ran, ran_with, repository};

const COMMANDS: [&str; 7] = ["clean", "list", "check", "show", "diff", "explain", "play"];

#[test]
fn help_is_printed() {
    let help = ran(["--help"]);
    assert_eq!((help.status, help.told.as_str()), (0, ""));
    assert_eq!(ran(["-h"]), help);
    for name in COMMANDS {
        assert!(help.text().contains(&format!("ridgeoven {name} ")));
        let more = ran([name, "--help"]);
        assert_eq!((more.status, more.told.as_str()), (0, ""));
        assert!(more.text().starts_with(&format!("ridgeoven {name} ")) && more.text().contains("Exit status"));
        assert_eq!(ran([name, "a", "b", "-h"]), more);
    }
    ran(["--version"]).prints(concat!("ridgeoven ", env!("CARGO_PKG_VERSION"), "\n"));
    assert_eq!(ran(["-V"]), ran(["--version"]));
}

#[test]
fn done_is_0() {
    let worked = repository("crates/clean/stdin");
    let worked = worked.to_str().unwrap();
    ran(["clean", worked]).prints(CLEANED);
    ran(["list", worked]).prints(LISTING);
    ran(["diff", worked, worked]).prints("cleaned to the same bytes: bytes 271, survivors 2\n");
    for words in [&["check", worked][..], &["show", worked], &["show", worked, "--cleaned"], &["show", worked, "--dot"], &["explain", "1"]]
    {
        let ran = ran(words);
        assert_eq!((ran.status, ran.told.as_str()), (0, ""), "{words:?}");
    }
    ran(["play"]).prints("");
}

#[test]
fn standard_input_is_a_dash() {
    ran_with(["clean", "-"], &[WORKED]).prints(CLEANED);
    ran_with(["list", "-"], &[WORKED]).prints(LISTING);
    ran_with(["check", "-"], &[WORKED])
        .prints("standard input: accepted: files 1, events 4, erased 2, survivors 2\n1 accepted, 0 refused, 0 not read\n");
    assert_eq!(ran_with(["show", "-"], &[WORKED]).status, 0);
    ran_with(["clean", "-"], &[&WORKED[1..]]).fails(1, &format!("standard input: {BROKEN}"));
}

#[test]
fn refused_is_1() {
    let worked = repository("crates/clean/stdin");
    let worked = worked.to_str().unwrap();
    let folder = folder("refused");
    let short = file(&folder, "short", &WORKED[..464]);
    let short = short.to_str().unwrap();
    let line = format!("{short}: {BROKEN}");
    for words in [
        &["clean", short][..],
        &["list", short],
        &["show", short],
        &["show", short, "--cleaned"],
        &["show", short, "--dot"],
        &["diff", short, worked],
        &["diff", worked, short],
    ] {
        ran(words).fails(1, &line);
    }
    let checked = ran(["check", short, worked]);
    assert_eq!((checked.status, checked.told.as_str()), (1, ""));
    assert_eq!(ran(["diff", worked, repository("tests/programs/archives/mixed-00007-valid.archive").to_str().unwrap()]).status, 1);
}

#[test]
fn wrong_usage_is_2() {
    for words in [
        &[][..],
        &["bake", "a"],
        &["--bake"],
        &["clean"],
        &["clean", "a", "b"],
        &["clean", "a", "-o"],
        &["clean", "a", "--cold"],
        &["clean", "-", "--in-place"],
        &["clean", "/dev/null", "--in-place"],
        &["clean", "a", "-o", "b", "--in-place"],
        &["clean", "a", "-o", "-", "--in-place"],
        &["clean", "a", "--in-place=yes"],
        &["list"],
        &["list", "a", "--json"],
        &["list", "--", "-a", "-b"],
        &["check"],
        &["show"],
        &["show", "a", "b"],
        &["diff", "a"],
        &["explain"],
        &["explain", "0"],
        &["explain", "39"],
        &["explain", "twenty"],
        &["play", "a", "b"],
    ] {
        ran(words).fails(2, "ridgeoven: ");
    }
}

#[test]
fn what_cannot_be_read_is_3() {
    let folder = folder("unread");
    let (missing, folder) = (folder.join("missing"), folder.to_str().unwrap());
    let (missing, worked) = (missing.to_str().unwrap(), repository("crates/clean/stdin"));
    for (path, why) in [(missing, "cannot be read: No such file"), (folder, "cannot be read: Is a directory")] {
        let line = format!("{path}: {why}");
        for words in [&["clean", path][..], &["list", path], &["show", path], &["diff", worked.to_str().unwrap(), path], &["play", path]] {
            ran(words).fails(3, &line);
        }
    }
    let checked = ran(["check", missing]);
    assert_eq!((checked.status, checked.told.as_str()), (3, ""));
    assert!(checked.text().ends_with("\n0 accepted, 0 refused, 1 not read\n"));
}
