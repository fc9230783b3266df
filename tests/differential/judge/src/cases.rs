//! A case: a question, what it is given and what the original answers, as one line of numbers.
//!
//! A line is the question's name, the parts of its input, `=`, and the answer: a refusal's number alone, or 0 and the parts of the
//! answer. A part is a number, or a list: its length, then its numbers. Which parts a question has is in `questions`.

use crate::refusals::Number;
use std::fmt;

#[derive(Debug, Clone, PartialEq, Eq)]
pub enum Part {
    Number(i128),
    List(Vec<i128>),
}

/// What a question answers: its refusal, or the parts of its answer.
pub type Answer = Result<Vec<Part>, Number>;

pub fn number(value: impl Into<i128>) -> Part {
    Part::Number(value.into())
}

pub fn list<T: Into<i128> + Copy>(values: &[T]) -> Part {
    Part::List(values.iter().map(|value| (*value).into()).collect())
}

impl fmt::Display for Part {
    fn fmt(&self, out: &mut fmt::Formatter) -> fmt::Result {
        match self {
            Part::Number(value) => write!(out, " {value}"),
            Part::List(values) => {
                write!(out, " {}", values.len())?;
                values.iter().try_for_each(|value| write!(out, " {value}"))
            }
        }
    }
}

fn written(parts: &[Part]) -> String {
    parts.iter().map(Part::to_string).collect()
}

pub fn line(name: &str, input: &[Part], answer: &Answer) -> String {
    match answer {
        Ok(parts) => format!("{name}{} = 0{}", written(input), written(parts)),
        Err(number) => format!("{name}{} = {number}", written(input)),
    }
}

/// The input of a line whose parts are numbers (N) and lists (L) as the form says, and the words after `=`.
pub fn parse<'a>(form: &str, words: &mut impl Iterator<Item = &'a str>) -> Option<Vec<Part>> {
    let mut next = || words.next()?.parse::<i128>().ok();
    let parts = form.chars().map(|sort| match sort {
        'N' => Some(Part::Number(next()?)),
        _ => {
            let length = next()?;
            Some(Part::List((0..length).map(|_| next()).collect::<Option<_>>()?))
        }
    });
    parts.collect()
}
