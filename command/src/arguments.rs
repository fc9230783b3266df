//! The words behind a command's name.

use crate::ending::Failure;
use crate::text;
use std::ffi::{OsStr, OsString};
use std::os::unix::ffi::{OsStrExt, OsStringExt};

/// An option of a command.
pub struct Flag {
    /// As it is written, `--json` or `-o`; the first name is the one by which it is asked for.
    pub names: &'static [&'static str],
    /// Whether a value follows it.
    pub has_value: bool,
}

/// Options and operands, in the order in which they were given. Options may stand anywhere before a `--`.
#[derive(Default)]
pub struct Arguments {
    options: Vec<(&'static str, OsString)>,
    pub operands: Vec<OsString>,
}

impl Arguments {
    pub fn read(mut words: impl Iterator<Item = OsString>, flags: &[Flag]) -> Result<Self, Failure> {
        let mut read = Self::default();
        while let Some(word) = words.next() {
            if word == "--" {
                read.operands.extend(words);
                break;
            }
            if word == "-" || !word.as_bytes().starts_with(b"-") {
                read.operands.push(word);
                continue;
            }
            let (name, value) = halves(word.as_bytes());
            let said = text::plain(name);
            let flag = flags.iter().find(|flag| flag.names.contains(&said.as_str()));
            let flag = flag.ok_or_else(|| Failure::Usage(format!("there is no option {said} here")))?;
            let value = match (flag.has_value, value) {
                (true, None) => words.next().ok_or_else(|| Failure::Usage(format!("{said} wants a value")))?,
                (false, Some(_)) => return Err(Failure::Usage(format!("{said} has no value"))),
                (_, value) => OsString::from_vec(value.unwrap_or_default().to_vec()),
            };
            read.options.push((flag.names[0], value));
        }
        Ok(read)
    }

    pub fn has(&self, name: &str) -> bool {
        self.value(name).is_some()
    }

    /// The value of an option; where it was given more than once, the last.
    pub fn value(&self, name: &str) -> Option<&OsStr> {
        self.options.iter().rev().find(|option| option.0 == name).map(|option| option.1.as_os_str())
    }
}

/// `--name=value` and `-nvalue` as the option's name and its value.
fn halves(word: &[u8]) -> (&[u8], Option<&[u8]>) {
    if word.starts_with(b"--") {
        match word.iter().position(|byte| *byte == b'=') {
            Some(place) => (&word[..place], Some(&word[place + 1..])),
            None => (word, None),
        }
    } else {
        let (name, value) = word.split_at(2);
        (name, (!value.is_empty()).then_some(value))
    }
}
