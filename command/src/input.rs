//! Archives as they are read: whole, or not at all.

use crate::ending::Failure;
use crate::text;
use ridgeoven::Refusal;
use std::ffi::OsStr;
use std::fs::File;
use std::io::{self, Read};
use std::os::unix::ffi::OsStrExt;

/// A longer archive is refused with 41. One with an event in every file has at most 606,208 bytes.
const LIMIT: u64 = 256 << 20;

/// Where an archive is read from, for people to read.
pub fn name(path: &OsStr) -> String {
    if path == "-" { "standard input".into() } else { text::plain(path.as_bytes()) }
}

/// A file that is open for reading; `-` is standard input.
pub fn open(path: &OsStr) -> Result<Box<dyn Read>, Failure> {
    if path == "-" {
        return Ok(Box::new(io::stdin()));
    }
    let file = File::open(path).map_err(|error| Failure::Unread(name(path), error))?;
    Ok(Box::new(file))
}

/// All bytes of an archive.
pub fn read(path: &OsStr) -> Result<Vec<u8>, Failure> {
    let mut bytes = Vec::new();
    let count = open(path)?.take(LIMIT + 1).read_to_end(&mut bytes);
    match count {
        Err(error) => Err(Failure::Unread(name(path), error)),
        Ok(count) if count as u64 > LIMIT => Err(Failure::Refused(name(path), Refusal(41))),
        Ok(_) => Ok(bytes),
    }
}
