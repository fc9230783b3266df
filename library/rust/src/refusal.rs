//! Why a call is refused.

use crate::boundary::{Answer, WORDS_ROOM, ridgeoven_words};
use std::fmt;

/// Why a call was refused, by document 01's number: 1 to 27 for the archive, 40 for a call out of turn, 41 for too little room, 42 and 43
/// for the limits.
#[derive(Clone, Copy, Debug, PartialEq, Eq, Hash)]
pub struct Refusal(pub u64);

impl Refusal {
    /// What the number means; nothing where it is no refusal's.
    pub fn words(self) -> String {
        let mut out = [0; WORDS_ROOM];
        let answer = unsafe { ridgeoven_words(self.0, out.as_mut_ptr(), out.len()) };
        String::from_utf8_lossy(&out[..answer.length]).into_owned()
    }
}

impl fmt::Display for Refusal {
    fn fmt(&self, f: &mut fmt::Formatter<'_>) -> fmt::Result {
        write!(f, "refused {}: {}", self.0, self.words())
    }
}

impl std::error::Error for Refusal {}

/// 0 is no refusal.
pub(crate) fn accepted<T>(refusal: u64, answer: T) -> Result<T, Refusal> {
    if refusal == 0 { Ok(answer) } else { Err(Refusal(refusal)) }
}

pub(crate) fn length(answer: Answer) -> Result<usize, Refusal> {
    accepted(answer.refusal, answer.length)
}
