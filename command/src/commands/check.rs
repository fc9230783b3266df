//! `ridgeoven check`

mod progress;
mod report;
mod search;

use super::Command;
use crate::arguments::{Arguments, Flag};
use crate::cleaning::{self, Counts};
use crate::ending::{Failure, Status};
use crate::{input, output};
use progress::Progress;
use report::Form;
use ridgeoven::Refusal;
use search::{Found, Search};
use std::ffi::OsStr;
use std::io;

pub const COMMAND: Command = Command {
    name: "check",
    usage: "PATH.. [--all] [--json]",
    does: "says of many archives whether they are accepted",
    more: "\
A line for each archive: its name, and how many files, events, erased events and survivors it has,
or why it is refused; at the end, the counts. It goes on after one that is refused or cannot be read;
the status is 3 if any could not be read, else 1 if any was refused. Folders are searched, with all
folders in them, for files named *.archive; a file that is named itself is checked whatever its name.

  --all    every file of a folder, whatever its name
  --json   one object a line instead: name, result (accepted, refused or unread), then files,
           events, erased and survivors, or refusal and words, or error; name_hex has the bytes of
           a name that is no plain text. The last object has the counts.
",
    flags: &[Flag { names: &["--all"], has_value: false }, Flag { names: &["--json"], has_value: false }],
    operands: 1..=usize::MAX,
    run,
};

/// What came of one archive.
enum Outcome {
    Accepted(Counts),
    Refused(Refusal),
    Unread(io::Error),
}

/// How many archives came to what.
#[derive(Default)]
struct Tally {
    accepted: usize,
    refused: usize,
    unread: usize,
    /// What stands in folders and is not looked at.
    passed_over: usize,
}

impl Tally {
    fn count(&mut self, outcome: &Outcome) {
        match outcome {
            Outcome::Accepted(_) => self.accepted += 1,
            Outcome::Refused(_) => self.refused += 1,
            Outcome::Unread(_) => self.unread += 1,
        }
    }

    /// Where not everything was read, nobody knows whether it would be refused.
    fn status(&self) -> Status {
        match (self.unread, self.refused) {
            (0, 0) => Status::Done,
            (0, _) => Status::Refused,
            _ => Status::File,
        }
    }
}

fn run(arguments: &Arguments) -> Result<Status, Failure> {
    let form = if arguments.has("--json") { Form::Json } else { Form::Text };
    let search = Search::of(&arguments.operands, arguments.has("--all"));
    let mut tally = Tally { passed_over: search.passed_over, ..Tally::default() };
    let mut progress = Progress::new(search.found.len());
    for found in search.found {
        progress.show();
        let (path, outcome) = match found {
            Found::File(path) => {
                let outcome = outcome(&path)?;
                (path, outcome)
            }
            Found::Unread(path, error) => (path, Outcome::Unread(error)),
        };
        tally.count(&outcome);
        progress.clear();
        output::print(form.line(&path, &outcome))?;
    }
    output::print(form.counts(&tally))?;
    Ok(tally.status())
}

/// What is the matter with one archive is no failure of the check.
fn outcome(path: &OsStr) -> Result<Outcome, Failure> {
    match counts(path) {
        Ok(counts) => Ok(Outcome::Accepted(counts)),
        Err(Failure::Refused(_, refusal)) => Ok(Outcome::Refused(refusal)),
        Err(Failure::Unread(_, error)) => Ok(Outcome::Unread(error)),
        Err(failure) => Err(failure),
    }
}

/// The library cleans the archive, and so says whether it is accepted; then both are counted.
fn counts(path: &OsStr) -> Result<Counts, Failure> {
    let name = input::name(path);
    let archive = input::read(path)?;
    let cleaned = ridgeoven::clean_to_vec(&archive).map_err(|refusal| Failure::Refused(name.clone(), refusal))?;
    Ok(Counts::of(&cleaning::files(&name, &archive)?, &cleaning::files(&name, &cleaned)?))
}
