//! `ridgeoven clean`

use super::Command;
use crate::arguments::{Arguments, Flag};
use crate::ending::{Failure, Status};
use crate::{input, output, text};
use std::ffi::OsStr;
use std::fs::{self, File, Metadata};
use std::io::{self, stdin, stdout};
use std::os::fd::{AsFd, BorrowedFd};
use std::os::unix::ffi::OsStrExt;
use std::os::unix::fs::MetadataExt;
use std::path::Path;

pub const COMMAND: Command = Command {
    name: "clean",
    usage: "IN [-o OUT | --in-place]",
    does: "cleans an archive",
    more: "\
The cleaned archive goes to standard output, if no option says otherwise.

  -o, --output OUT   to OUT, which is written whole or not at all: where anything goes wrong, a file
                     that was there stays as it was. OUT must not be IN itself.
  --in-place         to IN's place, likewise whole or not at all
",
    flags: &[Flag { names: &["--output", "-o"], has_value: true }, Flag { names: &["--in-place"], has_value: false }],
    operands: 1..=1,
    run,
};

fn run(arguments: &Arguments) -> Result<Status, Failure> {
    let from = arguments.operands[0].as_os_str();
    let to = target(arguments, from)?;
    let archive = input::read(from)?;
    let cleaned = ridgeoven::clean_to_vec(&archive).map_err(|refusal| Failure::Refused(input::name(from), refusal))?;
    match to {
        None => output::print(cleaned)?,
        Some(path) => {
            output::write_whole(path, &cleaned).map_err(|error| Failure::Unwritten(text::plain(path.as_os_str().as_bytes()), error))?
        }
    }
    Ok(Status::Done)
}

/// The file that is written, if it is not standard output.
fn target<'a>(arguments: &'a Arguments, from: &'a OsStr) -> Result<Option<&'a Path>, Failure> {
    let to = arguments.value("--output").filter(|to| *to != "-");
    if arguments.has("--in-place") {
        let is_no_file = from == "-" || fs::metadata(from).is_ok_and(|there| !there.is_file());
        return match (is_no_file, arguments.has("--output")) {
            (true, _) => Err(Failure::Usage(format!("--in-place wants a file, and {} is none", input::name(from)))),
            (_, true) => Err(Failure::Usage("either -o or --in-place, not both".into())),
            _ => Ok(Some(Path::new(from))),
        };
    }
    if is_same_file(from, to) {
        return Err(Failure::Usage(format!("the output is {} itself; --in-place where that is meant", input::name(from))));
    }
    Ok(to.map(Path::new))
}

/// Whether the same file is read and would be written, whatever names or links lead there. What can't be asked about is not there yet, or
/// will not be read.
fn is_same_file(from: &OsStr, to: Option<&OsStr>) -> bool {
    let from = if from == "-" { of_open(stdin().as_fd()) } else { fs::metadata(from) };
    let to = to.map_or_else(|| of_open(stdout().as_fd()), fs::metadata);
    match (from, to) {
        (Ok(from), Ok(to)) => from.is_file() && (from.dev(), from.ino()) == (to.dev(), to.ino()),
        _ => false,
    }
}

fn of_open(file: BorrowedFd) -> io::Result<Metadata> {
    File::from(file.try_clone_to_owned()?).metadata()
}
