//! The questions over lent columns: how inputs are made, and what the original answers.

pub mod alone;
mod columns;
mod cover;
pub mod edges;
mod making;
mod refs;
mod short;

use crate::cases::{Answer, Part};
use crate::random::Random;
use crate::refusals::Number;
#[cfg(feature = "port")]
pub use columns::OneFile;

pub struct Question {
    pub name: &'static str,
    /// N for a number, L for a list, in order.
    pub form: &'static str,
    /// The refusals that its inputs reach.
    pub refusals: &'static [Number],
    pub make: fn(&mut Random) -> Vec<Part>,
    /// All short inputs, where there is a list of them.
    pub short: fn() -> Vec<Vec<Part>>,
    /// `None` where the original has no counterpart for such an input.
    pub ask: fn(&[Part]) -> Option<Answer>,
}

pub const ALL: [Question; 14] = [
    Question {
        name: "build",
        form: "LNNLLLLLLNLLLLLNN",
        refusals: &[1, 2, 3, 4, 5, 6, 7, 8, 9, 10, 11, 12, 13, 14, 15],
        make: making::build,
        short: short::build,
        ask: columns::build,
    },
    Question {
        name: "read",
        form: "NNNNLLNLLNLLNLL",
        refusals: &[17, 18, 19, 20, 21],
        make: making::read,
        short: short::none,
        ask: columns::read,
    },
    Question {
        name: "parents",
        form: "NNNNLLNN",
        refusals: &[17, 18, 19],
        make: making::parents,
        short: short::parents,
        ask: columns::parents,
    },
    Question {
        name: "children",
        form: "NNNNLLNLLNN",
        refusals: &[17, 18, 19],
        make: making::children,
        short: short::children,
        ask: columns::children,
    },
    Question { name: "label", form: "NNLLN", refusals: &[20, 21], make: making::label, short: short::none, ask: columns::label },
    Question { name: "roots", form: "NNL", refusals: &[16], make: making::roots, short: short::none, ask: columns::roots },
    Question {
        name: "walk",
        form: "NNNNLLNNN",
        refusals: &[17, 18, 19],
        make: making::walk,
        short: short::walk,
        ask: columns::walk,
    },
    Question { name: "cover", form: "LLLLLL", refusals: &[], make: making::cover, short: short::cover, ask: cover::build },
    Question { name: "stored", form: "LLLL", refusals: &[], make: making::stored, short: short::none, ask: cover::stored },
    Question { name: "decode", form: "LLLLLLL", refusals: &[22], make: making::decode, short: short::none, ask: cover::decode },
    Question { name: "window", form: "LLLNNN", refusals: &[22], make: making::window, short: short::window, ask: cover::window },
    Question { name: "links", form: "LLLLL", refusals: &[22], make: making::links, short: short::none, ask: cover::links },
    Question { name: "resolve", form: "NNLLLLLL", refusals: &[2], make: making::resolve, short: short::resolve, ask: refs::resolve },
    Question {
        name: "handed",
        form: "NNLLLLLL",
        refusals: &[2, 3, 4, 5, 15],
        make: making::resolve,
        short: short::resolve,
        ask: refs::handed,
    },
];

pub fn named(name: &str) -> Option<&'static Question> {
    ALL.iter().find(|question| question.name == name)
}

/// Reads the parts of an input in order. A part that is not there, or a number out of its range, is `None`.
struct Parts<'a>(std::slice::Iter<'a, Part>);

impl Parts<'_> {
    fn of(input: &[Part]) -> Parts<'_> {
        Parts(input.iter())
    }

    fn number<T: TryFrom<i128>>(&mut self) -> Option<T> {
        match self.0.next()? {
            Part::Number(value) => T::try_from(*value).ok(),
            Part::List(_) => None,
        }
    }

    fn list<T: TryFrom<i128>>(&mut self) -> Option<Vec<T>> {
        match self.0.next()? {
            Part::List(values) => values.iter().map(|value| T::try_from(*value).ok()).collect(),
            Part::Number(_) => None,
        }
    }

    /// A number that is 0 or 1.
    fn flag(&mut self) -> Option<bool> {
        Some(self.number::<u8>().filter(|flag| *flag <= 1)? == 1)
    }
}
