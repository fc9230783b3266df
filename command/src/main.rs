//! The command `ridgeoven` cleans, checks and shows room archives. Whether an archive is accepted, why it is refused and what it is cleaned to
//! are the proved library's answers; here files are read and written, and the answers put into words, pictures and exit statuses.

mod archive;
mod arguments;
mod cleaning;
mod commands;
mod ending;
mod input;
mod output;
mod text;

use std::env;
use std::process::ExitCode;

fn main() -> ExitCode {
    let status = commands::run(env::args_os().skip(1)).unwrap_or_else(|failure| {
        failure.tell();
        failure.status()
    });
    ExitCode::from(status as u8)
}
