//! What is printed of each archive, and at the end.

use super::{Outcome, Tally};
use crate::cleaning::Counts;
use crate::input;
use crate::text::{hex, plain, quoted};
use std::ffi::OsStr;
use std::os::unix::ffi::OsStrExt;

pub enum Form {
    Text,
    Json,
}

impl Form {
    pub fn line(&self, path: &OsStr, outcome: &Outcome) -> String {
        match self {
            Self::Text => format!("{}: {}\n", input::name(path), text(outcome)),
            Self::Json => format!("{{{}, {}}}\n", name(path), members(outcome)),
        }
    }

    pub fn counts(&self, tally: &Tally) -> String {
        let Tally { accepted, refused, unread, passed_over } = tally;
        match self {
            Self::Text => {
                let others = if *passed_over == 0 { String::new() } else { format!("; {passed_over} passed over") };
                format!("{accepted} accepted, {refused} refused, {unread} not read{others}\n")
            }
            Self::Json => {
                format!("{{\"accepted\": {accepted}, \"refused\": {refused}, \"unread\": {unread}, \"passed_over\": {passed_over}}}\n")
            }
        }
    }
}

fn text(outcome: &Outcome) -> String {
    match outcome {
        Outcome::Accepted(counts) => {
            let Counts { files, events, erased, survivors } = counts;
            format!("accepted: files {files}, events {events}, erased {erased}, survivors {survivors}")
        }
        Outcome::Refused(refusal) => refusal.to_string(),
        Outcome::Unread(error) => format!("cannot be read: {error}"),
    }
}

/// JSON has no name that is no text: its bytes stand beside what can be read of it.
fn name(path: &OsStr) -> String {
    let mut name = format!("\"name\": {}", quoted(&input::name(path)));
    if plain(path.as_bytes()).as_bytes() != path.as_bytes() {
        name += &format!(", \"name_hex\": \"{}\"", hex(path.as_bytes()));
    }
    name
}

fn members(outcome: &Outcome) -> String {
    match outcome {
        Outcome::Accepted(counts) => {
            let Counts { files, events, erased, survivors } = counts;
            format!("\"result\": \"accepted\", \"files\": {files}, \"events\": {events}, \"erased\": {erased}, \"survivors\": {survivors}")
        }
        Outcome::Refused(refusal) => {
            format!("\"result\": \"refused\", \"refusal\": {}, \"words\": {}", refusal.0, quoted(&refusal.words()))
        }
        Outcome::Unread(error) => format!("\"result\": \"unread\", \"error\": {}", quoted(&error.to_string())),
    }
}
