//! Files that are written whole or not at all, and what stands in the way.

mod common;

use common::{BROKEN, CLEANED, Ran, WORKED, command, file, folder, names, ran, ran_with, skipped, with_empty_files};
use std::ffi::{OsStr, OsString};
use std::fs::{self, File, OpenOptions, Permissions};
use std::io::Write;
use std::os::unix::ffi::OsStringExt;
use std::os::unix::fs::{FileTypeExt, MetadataExt, PermissionsExt, chown, symlink};
use std::path::Path;
use std::process::{Command, Stdio};

fn clean(input: &Path, output: &Path) -> Ran {
    ran(["clean".as_ref(), input.as_os_str(), "-o".as_ref(), output.as_os_str()])
}

#[test]
fn an_output_is_made() {
    let folder = folder("made");
    let worked = file(&folder, "worked", WORKED);
    for (name, words) in [("one", ["-o", "one"].to_vec()), ("two", ["--output=two"].to_vec()), ("three", ["-othree"].to_vec())] {
        let output = command([&["clean", "worked"], &words[..]].concat()).current_dir(&folder).output().unwrap();
        Ran::of(output).prints("");
        assert_eq!(fs::read(folder.join(name)).unwrap(), CLEANED);
    }
    ran(["clean", worked.to_str().unwrap(), "-o", "-"]).prints(CLEANED);
    assert_eq!(names(&folder), ["one", "three", "two", "worked"]);
}

#[test]
fn an_output_that_exists_is_replaced_or_stays() {
    let folder = folder("exists");
    let worked = file(&folder, "worked", WORKED);
    let short = file(&folder, "short", &WORKED[1..]);
    let output = file(&folder, "output", b"of last month");
    fs::set_permissions(&output, Permissions::from_mode(0o600)).unwrap();
    clean(&short, &output).fails(1, BROKEN);
    clean(&folder.join("missing"), &output).fails(3, "missing: cannot be read");
    assert_eq!(fs::read(&output).unwrap(), b"of last month");
    clean(&worked, &output).prints("");
    assert_eq!(fs::read(&output).unwrap(), CLEANED);
    assert_eq!(fs::metadata(&output).unwrap().permissions().mode() & 0o777, 0o600);
    assert_eq!(names(&folder), ["output", "short", "worked"]);
}

/// Who may give files away does so: the new file has the owner of the one that it replaces.
#[test]
fn an_output_that_exists_keeps_its_owner() {
    let folder = folder("owner");
    let (worked, output) = (file(&folder, "worked", WORKED), file(&folder, "output", b"of last month"));
    if chown(&output, Some(4321), Some(1234)).is_err() {
        return skipped("only root may give files away");
    }
    clean(&worked, &output).prints("");
    let there = fs::metadata(&output).unwrap();
    assert_eq!((there.uid(), there.gid(), there.len()), (4321, 1234, CLEANED.len() as u64));
}

#[test]
fn an_output_through_a_link_leaves_the_link() {
    let folder = folder("through");
    let worked = file(&folder, "worked", WORKED);
    let output = file(&folder, "output", b"of last month");
    let link = folder.join("link");
    symlink("output", &link).unwrap();
    clean(&worked, &link).prints("");
    assert!(fs::symlink_metadata(&link).unwrap().is_symlink());
    assert_eq!(fs::read(output).unwrap(), CLEANED);
}

#[test]
fn an_output_that_is_the_input_is_wrong_usage() {
    let folder = folder("itself");
    let worked = file(&folder, "worked", WORKED);
    let (hard, soft) = (folder.join("hard"), folder.join("soft"));
    fs::hard_link(&worked, &hard).unwrap();
    symlink("worked", &soft).unwrap();
    for output in [&worked, &hard, &soft] {
        clean(&worked, output).fails(2, "--in-place");
    }
    let opened = || OpenOptions::new().append(true).open(&worked).unwrap();
    let appended = Ran::of(command(["clean".as_ref(), worked.as_os_str()]).stdout(opened()).output().unwrap());
    appended.fails(2, "--in-place");
    let output = command(["clean".as_ref(), "-".as_ref(), "-o".as_ref(), worked.as_os_str()]).stdin(File::open(&worked).unwrap()).output();
    Ran::of(output.unwrap()).fails(2, "--in-place");
    assert_eq!(fs::read(&worked).unwrap(), WORKED);
}

#[test]
fn in_place_replaces_the_input_or_leaves_it() {
    let folder = folder("in_place");
    let worked = file(&folder, "worked", WORKED);
    let short = file(&folder, "short", &WORKED[1..]);
    ran(["clean".as_ref(), "--in-place".as_ref(), worked.as_os_str()]).prints("");
    ran(["clean".as_ref(), "--in-place".as_ref(), short.as_os_str()]).fails(1, BROKEN);
    assert_eq!((fs::read(worked).unwrap(), fs::read(short).unwrap()), (CLEANED.to_vec(), WORKED[1..].to_vec()));
    assert_eq!(names(&folder), ["short", "worked"]);
}

#[test]
fn a_full_disk_is_3() {
    let folder = folder("full");
    let worked = file(&folder, "worked", WORKED);
    let full = Path::new("/dev/full");
    clean(&worked, full).fails(3, "/dev/full: cannot be written: No space left on device");
    assert!(fs::metadata(full).unwrap().file_type().is_char_device());
    for words in [&["clean"][..], &["list"], &["check"], &["show"], &["show", "--dot"]] {
        let mut command = command(words);
        let output = command.arg(&worked).stdout(OpenOptions::new().write(true).open(full).unwrap()).output();
        Ran::of(output.unwrap()).fails(3, "standard output: cannot be written: No space left on device");
    }
}

/// A disk that is full in the middle, as near as a test comes to it: no file may have more than no bytes.
#[test]
fn a_write_that_fails_leaves_what_was_there() {
    let folder = folder("middle");
    let (worked, output) = (file(&folder, "worked", WORKED), file(&folder, "output", b"of last month"));
    let limited = |words: [&OsStr; 4]| {
        let command = ["-c", "trap '' XFSZ; ulimit -f 0; exec \"$0\" \"$@\"", env!("CARGO_BIN_EXE_ridgeoven")];
        Ran::of(Command::new("sh").args(command).args(words).output().unwrap())
    };
    limited(["clean".as_ref(), worked.as_ref(), "-o".as_ref(), output.as_ref()]).fails(3, "output: cannot be written: File too large");
    limited(["clean".as_ref(), "--in-place".as_ref(), "--".as_ref(), worked.as_ref()])
        .fails(3, "worked: cannot be written: File too large");
    assert_eq!((fs::read(output).unwrap(), fs::read(worked).unwrap()), (b"of last month".to_vec(), WORKED.to_vec()));
    assert_eq!(names(&folder), ["output", "worked"]);
}

#[test]
fn an_output_that_cannot_be_made_is_3() {
    let folder = folder("unmade");
    let worked = file(&folder, "worked", WORKED);
    clean(&worked, &folder).fails(3, "cannot be written: is a directory");
    clean(&worked, &folder.join("no/output")).fails(3, "no/output: cannot be written: No such file");
    clean(&worked, &worked.join("output")).fails(3, "worked/output: cannot be written: Not a directory");
    assert_eq!(names(&folder), ["worked"]);
}

#[test]
fn a_pipe_that_pauses_is_read_to_its_end() {
    let archive = with_empty_files(1);
    let (first, second) = archive.split_at(WORKED.len());
    ran_with(["clean", "-"], &[first, second]).prints(CLEANED);
    ran_with(["clean", "-"], &[first, &second[1..]]).fails(1, BROKEN);
    let checked = ran_with(["check", "-"], &[first, second]);
    assert!(checked.text().starts_with("standard input: accepted: files 2, events 4, erased 2, survivors 2\n"));
}

#[test]
fn an_input_that_cannot_be_read_is_3() {
    let output = command(["clean", "-"]).stdin(File::open("/").unwrap()).output();
    Ran::of(output.unwrap()).fails(3, "standard input: cannot be read: Is a directory");
}

#[test]
fn an_output_that_nobody_reads_ends_quietly() {
    let mut child = command(["play"]).stdin(Stdio::piped()).spawn().unwrap();
    drop(child.stdout.take());
    child.stdin.take().unwrap().write_all(b"resolve\n").unwrap();
    assert_eq!(Ran::of(child.wait_with_output().unwrap()), Ran { status: 3, out: Vec::new(), told: String::new() });
}

#[test]
fn long_archives_are_read_whole_or_refused() {
    let folder = folder("long");
    let long = with_empty_files(10_000);
    assert!(long.len() > 655_360);
    ran([&"clean".into(), &file(&folder, "long", &long).into_os_string()]).prints(CLEANED);
    ran([&"clean".into(), &file(&folder, "cut", &long[..long.len() - 1]).into_os_string()]).fails(1, BROKEN);
    let over = folder.join("over");
    File::create(&over).unwrap().set_len((256 << 20) + 1).unwrap();
    ran(["clean".as_ref(), over.as_os_str()]).fails(1, "refused 41: ");
}

#[test]
fn a_listing_reads_65536_bytes() {
    let folder = folder("listed");
    let zeros = |count| file(&folder, "zeros", &vec![0; count]).into_os_string();
    ran([&"list".into(), &zeros(65_536)]).fails(1, BROKEN);
    ran([&"list".into(), &zeros(65_537)]).fails(1, "refused 41: ");
}

#[test]
fn names_need_not_be_text() {
    let folder = folder("names");
    let name = |name: &[u8]| OsString::from_vec(name.to_vec());
    let (worked, output) = (file(&folder, name(b"worked\xff"), WORKED), folder.join(name(b"output\xfe\n")));
    clean(&worked, &output).prints("");
    assert_eq!(fs::read(&output).unwrap(), CLEANED);
    clean(&folder.join(name(b"missing\xff")), &output).fails(3, "missing\\xff: cannot be read");
    clean(&worked, &folder.join(name(b"no\n\xff/output"))).fails(3, "no\\x0a\\xff/output: cannot be written");
}
