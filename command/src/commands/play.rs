//! `ridgeoven play`

mod calls;

use super::Command;
use crate::arguments::Arguments;
use crate::ending::{Failure, Status};
use crate::{input, output};
use ridgeoven::Run;
use std::ffi::OsStr;
use std::io::{BufRead, BufReader};

pub const COMMAND: Command = Command {
    name: "play",
    usage: "[FILE]",
    does: "makes a list of calls on one run",
    more: "\
FILE, or standard input, has a call in each line; each is made on the run as the last one left it,
and its answer is a line. Empty lines and lines that begin with # are passed over. A refused call is
answered CALL refused N, and leaves the run as it was.

  take HEX      takes the archive of these bytes           take ok
  resolve       gives the survivors their numbers          resolve ok
  number OLD    an event's new number, - if it has none    number ok NEW
  reparented    how many survivors had an erased parent    reparented ok N
  write CAP     the cleaned archive, into CAP bytes        write ok LENGTH HEX
",
    flags: &[],
    operands: 0..=1,
    run,
};

fn run(arguments: &Arguments) -> Result<Status, Failure> {
    let from = arguments.operands.first().map_or(OsStr::new("-"), |path| path.as_os_str());
    let mut run = Run::new();
    for (at, line) in BufReader::new(input::open(from)?).split(b'\n').enumerate() {
        let line = line.map_err(|error| Failure::Unread(input::name(from), error))?;
        let line = String::from_utf8_lossy(&line);
        let line = line.trim();
        if line.is_empty() || line.starts_with('#') {
            continue;
        }
        let unclear = |words| Failure::Usage(format!("{}, line {}: {words}", input::name(from), at + 1));
        output::print(calls::answer(&mut run, line).map_err(unclear)? + "\n")?;
    }
    Ok(Status::Done)
}
