//! The commands, one module each, and which of them is called.

mod check;
mod clean;
mod diff;
mod explain;
mod list;
mod play;
mod show;

use crate::arguments::{Arguments, Flag};
use crate::ending::{Failure, Status};
use crate::{output, text};
use std::ffi::OsString;
use std::ops::RangeInclusive;
use std::os::unix::ffi::OsStrExt;

pub struct Command {
    pub name: &'static str,
    /// What stands behind the name.
    pub usage: &'static str,
    /// What it does, in a line.
    pub does: &'static str,
    /// What there is to know besides, with the options.
    pub more: &'static str,
    pub flags: &'static [Flag],
    /// How many operands it has.
    pub operands: RangeInclusive<usize>,
    pub run: fn(&Arguments) -> Result<Status, Failure>,
}

const COMMANDS: [Command; 7] =
    [clean::COMMAND, list::COMMAND, check::COMMAND, show::COMMAND, diff::COMMAND, explain::COMMAND, play::COMMAND];

const STATUSES: &str = "\
IN may be -, which is standard input. Exit status: 0 done; 1 an archive is refused, or two are
cleaned to different bytes; 2 wrong usage; 3 something could not be read or written.
";

/// Runs the command that the words name.
pub fn run(mut words: impl Iterator<Item = OsString>) -> Result<Status, Failure> {
    let Some(word) = words.next() else {
        return Err(Failure::Usage("a command is missing; ridgeoven --help lists them".into()));
    };
    match word.to_str() {
        Some("--help" | "-h") => printed(help()),
        Some("--version" | "-V") => printed(format!("ridgeoven {}\n", env!("CARGO_PKG_VERSION"))),
        _ => match COMMANDS.iter().find(|command| word == command.name) {
            Some(command) => run_command(command, words),
            None => Err(Failure::Usage(format!("there is no command {}; ridgeoven --help lists them", text::plain(word.as_bytes())))),
        },
    }
}

fn run_command(command: &Command, words: impl Iterator<Item = OsString>) -> Result<Status, Failure> {
    let words: Vec<_> = words.collect();
    if words.iter().take_while(|word| *word != "--").any(|word| word == "--help" || word == "-h") {
        return printed(help_of(command));
    }
    let arguments = Arguments::read(words.into_iter(), command.flags)?;
    if !command.operands.contains(&arguments.operands.len()) {
        return Err(Failure::Usage(format!("as it is called: ridgeoven {} {}", command.name, command.usage)));
    }
    (command.run)(&arguments)
}

fn printed(text: String) -> Result<Status, Failure> {
    output::print(text)?;
    Ok(Status::Done)
}

fn help() -> String {
    let mut help = String::from("ridgeoven: cleans room archives by a proved library\n\n");
    for command in &COMMANDS {
        help += &format!("  ridgeoven {:38} {}\n", format!("{} {}", command.name, command.usage), command.does);
    }
    help + "\nridgeoven COMMAND --help says more of a command; ridgeoven --version says which one this is.\n\n" + STATUSES
}

fn help_of(command: &Command) -> String {
    format!("ridgeoven {} {}: {}\n\n{}\n{STATUSES}", command.name, command.usage, command.does, command.more)
}
