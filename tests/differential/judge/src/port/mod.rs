//! The proved library beside the original (feature `port`).

pub mod archives;
pub mod bench;
mod boundary;
mod lent;
pub mod questions;
mod records;
mod refs;
pub mod runs;
pub mod smallest;

use crate::cases::{Part, line};
use crate::questions::{Question, alone};

/// Whether both accept an input, or what differs between them. `None` where the original has no such input.
pub fn question(question: &Question, input: &[Part]) -> Option<Result<bool, String>> {
    let original = (question.ask)(input)?;
    Some(match questions::ask(question.name, input) {
        Err(wrong) => Err(wrong),
        Ok(port) if port != original => Err(format!("the port: {}", line(question.name, input, &port))),
        Ok(port) => Ok(port.is_ok()),
    })
}

/// How many cases the port alone is asked, or the first that it answers otherwise than document 01.
pub fn alone() -> Result<usize, String> {
    let cases = alone::cases();
    for alone::Case { name, input, answer } in &cases {
        let port = questions::ask(name, input)?;
        if port != *answer {
            return Err(format!("the port alone: {}", line(name, input, &port)));
        }
    }
    Ok(cases.len() + refs::refused_in_order()?)
}
