//! `ridgeoven list`

use super::Command;
use crate::arguments::Arguments;
use crate::ending::{Failure, Status};
use crate::{input, output};

pub const COMMAND: Command = Command {
    name: "list",
    usage: "IN",
    does: "what a cleaning makes of an archive, in numbers",
    more: "\
Prints the new number of every event (- where it is erased); then for each cleaned file its group,
first number and number of events, and the offsets and deltas of its three sets; last how many
survivors named an erased parent. An archive of more than 65,536 bytes is refused with 41.
",
    flags: &[],
    operands: 1..=1,
    run,
};

fn run(arguments: &Arguments) -> Result<Status, Failure> {
    let from = &arguments.operands[0];
    let archive = input::read(from)?;
    output::print(ridgeoven::list_to_vec(&archive).map_err(|refusal| Failure::Refused(input::name(from), refusal))?)?;
    Ok(Status::Done)
}
