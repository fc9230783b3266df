//! `ridgeoven diff`

mod difference;

use super::Command;
use crate::archive;
use crate::arguments::Arguments;
use crate::cleaning::Cleaning;
use crate::ending::{Failure, Status};
use crate::{input, output};

pub const COMMAND: Command = Command {
    name: "diff",
    usage: "A B",
    does: "whether two archives are cleaned to the same bytes",
    more: "\
Where they are not, names the first survivor that differs and the field: its number, group, tag,
parents, unresolved references, state root or chain label; and what that is in A and in B. Where all
survivors are alike, the files' subjects, depths and links are looked at.
",
    flags: &[],
    operands: 2..=2,
    run,
};

fn run(arguments: &Arguments) -> Result<Status, Failure> {
    let names = [0, 1].map(|at| input::name(&arguments.operands[at]));
    let cleaning = |at: usize| Cleaning::of(&names[at], &input::read(&arguments.operands[at])?);
    let cleanings = [cleaning(0)?, cleaning(1)?];
    if cleanings[0].bytes == cleanings[1].bytes {
        let (bytes, survivors) = (cleanings[0].bytes.len(), archive::events(&cleanings[0].after).count());
        output::print(format!("cleaned to the same bytes: bytes {bytes}, survivors {survivors}\n"))?;
        return Ok(Status::Done);
    }
    output::print(difference::first(&names, &cleanings))?;
    Ok(Status::Refused)
}
