//! The command line: a command, then `--name value` pairs.

use crate::shapes::Size;
use std::collections::BTreeMap;
use std::time::{Duration, Instant};

pub struct Options {
    values: BTreeMap<String, String>,
}

impl Options {
    pub fn read(words: impl Iterator<Item = String>, known: &[&str]) -> Result<Self, String> {
        let mut words = words;
        let mut values = BTreeMap::new();
        while let Some(word) = words.next() {
            let name = word.strip_prefix("--").filter(|name| known.contains(name)).ok_or(format!("unknown word {word}"))?;
            values.insert(name.to_string(), words.next().ok_or(format!("--{name} needs a value"))?);
        }
        Ok(Self { values })
    }

    pub fn word(&self, name: &str) -> Option<&str> {
        self.values.get(name).map(String::as_str)
    }

    pub fn number(&self, name: &str, otherwise: u64) -> Result<u64, String> {
        self.word(name).map_or(Ok(otherwise), |word| word.parse().map_err(|_| format!("--{name} {word} is no number")))
    }

    pub fn size(&self) -> Result<Option<Size>, String> {
        match self.word("size") {
            None => Ok(None),
            Some("small") => Ok(Some(Size::Small)),
            Some("middle") => Ok(Some(Size::Middle)),
            Some("large") => Ok(Some(Size::Large)),
            Some(word) => Err(format!("--size {word} is none of small, middle, large")),
        }
    }

    /// The seeds to try: `--count` from `--seed` on, until `--seconds` have passed.
    pub fn seeds(&self, count: u64) -> Result<impl Iterator<Item = u64> + use<>, String> {
        let first = self.number("seed", 1)?;
        let count = self.number("count", count)?;
        let end = Instant::now() + Duration::from_secs(self.number("seconds", 3600)?);
        Ok((0..count).map(move |place| first.wrapping_add(place)).take_while(move |_| Instant::now() < end))
    }
}
