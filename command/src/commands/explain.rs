//! `ridgeoven explain`

mod conditions;

use super::Command;
use crate::arguments::Arguments;
use crate::ending::{Failure, Status};
use crate::{output, text};
use conditions::CONDITIONS;
use ridgeoven::Refusal;
use std::os::unix::ffi::OsStrExt;

pub const COMMAND: Command = Command {
    name: "explain",
    usage: "N",
    does: "what a refusal's number means",
    more: "\
Prints the words of the refusal, in which calls it can come, and its condition. The numbers are 1 to
27 and 40 to 43.
",
    flags: &[],
    operands: 1..=1,
    run,
};

/// A line of text is no longer.
const WIDTH: usize = 100;

fn run(arguments: &Arguments) -> Result<Status, Failure> {
    let word = &arguments.operands[0];
    let number = word.to_str().and_then(|word| word.parse().ok());
    let condition = CONDITIONS.iter().find(|condition| Some(condition.number) == number);
    let unknown = || Failure::Usage(format!("{} is no refusal's number; explain --help says which are", text::plain(word.as_bytes())));
    let condition = condition.ok_or_else(unknown)?;
    let words: Vec<_> = condition.text.split_whitespace().map(String::from).collect();
    let lines = text::wrapped(&words, WIDTH).join("\n");
    output::print(format!("{}\n\nTested {}.\n{lines}\n", Refusal(condition.number), condition.tested))?;
    Ok(Status::Done)
}
