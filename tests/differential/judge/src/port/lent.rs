//! Slices lent for an answer, filled with a pattern, so that entries that must keep their value are seen to.

use super::boundary::Link;

pub const OFFSETS: usize = 2049;
pub const NUMBERS: usize = 4096;
pub const RECORDS: usize = 1024;

/// A number that can be a pattern.
pub trait Pattern: Copy + PartialEq {
    const PATTERN: Self;
}

macro_rules! patterns {
    ($($number:ty),*) => { $(impl Pattern for $number { const PATTERN: Self = 0x5a; })* };
}

patterns!(u8, u32, u64, i64);

impl Pattern for Link {
    const PATTERN: Self = Link { from_chain: 0x5a, from_seq: 0x5a, to_chain: 0x5a, to_seq: 0x5a };
}

pub struct Lent<T>(Vec<T>);

impl<T: Pattern> Lent<T> {
    pub fn new(length: usize) -> Self {
        Self(vec![T::PATTERN; length])
    }

    pub fn at(&mut self) -> *mut T {
        self.0.as_mut_ptr()
    }

    pub fn len(&self) -> usize {
        self.0.len()
    }

    /// The answer of so many entries, if nothing past it was written.
    pub fn taken(&self, length: usize) -> Result<&[T], String> {
        let (answer, rest) = self.0.split_at_checked(length).ok_or(format!("an answer of {length} entries"))?;
        if rest.iter().all(|entry| *entry == T::PATTERN) { Ok(answer) } else { Err("an entry past the answer was written".into()) }
    }

    /// After a refusal nothing is written.
    pub fn kept(&self) -> Result<(), String> {
        self.taken(0).map(|_| ()).map_err(|_| "a refusal wrote an entry".into())
    }
}
