//! Archives and lists of calls with known answers: those that the repository keeps, and those of `../shared/vectors` where that is at hand.

mod common;

use common::{ran, repository, skipped};
use std::fs;
use std::path::{Path, PathBuf};

/// The levels of lists of calls that the library answers.
const LEVELS: [&str; 1] = ["L0"];

/// No longer archive is listed.
const LISTED: usize = 65_536;

/// The vectors, or nothing where there are none.
fn vectors() -> Option<PathBuf> {
    let vectors = repository("../shared/vectors");
    if vectors.is_dir() {
        return Some(vectors);
    }
    skipped(&format!("there are no vectors at {}", vectors.display()));
    None
}

fn of_kind(folder: &Path, extension: &str) -> Vec<PathBuf> {
    let paths = fs::read_dir(folder).expect("the folder is there").map(|entry| entry.expect("an entry").path());
    let mut paths: Vec<_> = paths.filter(|path| path.extension().is_some_and(|of| of == extension)).collect();
    paths.sort();
    assert!(!paths.is_empty(), "{} has none", folder.display());
    paths
}

fn archives() -> Vec<PathBuf> {
    let mut folders = vec![repository("tests/programs/archives"), repository("tests/differential/kept/differences")];
    folders.extend(vectors().map(|vectors| vectors.join("archives")));
    folders.iter().flat_map(|folder| of_kind(folder, "archive")).collect()
}

/// The known listing, and the line of a refusal in it.
fn listing(archive: &Path) -> (String, Option<String>) {
    let listing = fs::read_to_string(archive.with_extension("listing")).expect("a listing");
    let refused = listing.starts_with("refused").then(|| listing.replace('\n', ": "));
    (listing, refused)
}

#[test]
fn archives_are_listed_and_cleaned_as_known() {
    for archive in archives() {
        let path = archive.to_str().unwrap();
        let (listed, cleaned) = (ran(["list", path]), ran(["clean", path]));
        match listing(&archive) {
            (listing, None) => {
                listed.prints(listing);
                cleaned.prints(fs::read(archive.with_extension("cleaned")).expect("a cleaned archive"));
            }
            (_, Some(refused)) => {
                listed.fails(1, &format!("{path}: {refused}"));
                if fs::metadata(&archive).unwrap().len() as usize <= LISTED {
                    cleaned.fails(1, &format!("{path}: {refused}"));
                }
            }
        }
    }
}

#[test]
fn archives_are_checked_as_known() {
    let archives = archives();
    let checked = ran([vec![Path::new("check")], archives.iter().map(PathBuf::as_path).collect()].concat());
    for (line, archive) in checked.text().lines().zip(&archives) {
        let said = line.strip_prefix(&format!("{}: ", archive.display())).expect("in the order given");
        match listing(archive) {
            (listing, None) => {
                let maps: Vec<_> = listing.lines().filter(|line| line.starts_with("map ")).collect();
                let erased = maps.iter().filter(|line| line.ends_with(" -")).count();
                let counts = format!(", events {}, erased {erased}, survivors {}", maps.len(), maps.len() - erased);
                assert!(said.starts_with("accepted: files ") && said.ends_with(&counts), "{line}");
            }
            (_, Some(refused)) => assert!(said.starts_with(&refused) || fs::metadata(archive).unwrap().len() as usize > LISTED, "{line}"),
        }
    }
}

/// The numbers behind a line's first words.
fn numbers<T: std::str::FromStr>(line: &str, words: &str) -> Option<Vec<T>> {
    line.strip_prefix(words)?.split_whitespace().map(|number| number.parse().ok()).collect()
}

/// The edges that a listing says, as a picture draws them.
fn edges_listed(listing: &str) -> Vec<String> {
    let (mut first_sn, mut offsets, mut edges) = (0, Vec::new(), Vec::new());
    for line in listing.lines() {
        if let Some(file) = numbers::<u64>(line, "file ") {
            first_sn = file[1];
        } else if let Some(read) = numbers::<usize>(line, "offsets forward") {
            offsets = read;
        } else if let Some(deltas) = numbers::<i64>(line, "deltas forward") {
            for (slot, bounds) in offsets.windows(2).enumerate() {
                let (event, look) = (first_sn + slot as u64 / 2, if slot % 2 == 0 { "" } else { " [style=dotted, color=blue]" });
                edges.extend(
                    deltas[bounds[0]..bounds[1]].iter().map(|delta| format!("    {event} -> {}{look};", event.wrapping_sub(*delta as u64))),
                );
            }
        }
    }
    edges
}

/// What people look at is what the library lists: every edge of the cleaned room, and every event before with its new number or erased.
#[test]
fn archives_are_shown_as_listed() {
    for archive in archives() {
        let (listing, refused) = listing(&archive);
        if refused.is_some() {
            continue;
        }
        let path = archive.to_str().unwrap();
        let (before, after) = (ran(["show", "--dot", path]), ran(["show", "--dot", "--cleaned", path]));
        let edges: Vec<_> = after.text().lines().filter(|line| line.contains(" -> ") && !line.contains('?')).collect();
        assert_eq!(edges, edges_listed(&listing), "{path}");
        let events = before.text().lines().filter(|line| line.contains("[label="));
        let maps = listing.lines().filter_map(|line| line.strip_prefix("map ")?.split_once(' ')).map(|(old, new)| match new {
            "-" => format!("        {old} [label=\"{old}\", style=\"rounded,dashed\", fontcolor=gray40];"),
            new if new == old => format!("        {old} [label=\"{old}\"];"),
            new => format!("        {old} [label=\"{old}\\nnow {new}\"];"),
        });
        assert!(events.eq(maps), "{path}");
    }
}

#[test]
fn lists_of_calls_are_answered_as_known() {
    let Some(vectors) = vectors() else { return };
    for level in LEVELS {
        for calls in of_kind(&vectors.join("levels").join(level), "calls") {
            ran(["play", calls.to_str().unwrap()]).prints(fs::read(calls.with_extension("answers")).expect("answers"));
        }
    }
}
