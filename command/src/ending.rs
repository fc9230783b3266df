//! How a command ends.

use ridgeoven::Refusal;
use std::io::{self, ErrorKind, Write};

/// The exit status.
#[derive(Clone, Copy, Debug, PartialEq, Eq, PartialOrd, Ord)]
pub enum Status {
    Done = 0,
    /// An archive was refused, or two are cleaned to different bytes.
    Refused = 1,
    Usage = 2,
    /// Something could not be read or written.
    File = 3,
}

/// Why a command ends early.
#[derive(Debug)]
pub enum Failure {
    /// The archive of this name is refused.
    Refused(String, Refusal),
    /// The command was called in a way that means nothing.
    Usage(String),
    /// What has this name cannot be read.
    Unread(String, io::Error),
    /// What has this name cannot be written.
    Unwritten(String, io::Error),
}

impl Failure {
    pub fn status(&self) -> Status {
        match self {
            Self::Refused(..) => Status::Refused,
            Self::Usage(_) => Status::Usage,
            Self::Unread(..) | Self::Unwritten(..) => Status::File,
        }
    }

    /// Says in one line on standard error what is the matter; nothing where whoever read our output has gone.
    pub fn tell(&self) {
        let line = match self {
            Self::Refused(name, refusal) => format!("{name}: {refusal}\n"),
            Self::Usage(words) => format!("ridgeoven: {words}\n"),
            Self::Unread(name, error) => format!("{name}: cannot be read: {error}\n"),
            Self::Unwritten(_, error) if error.kind() == ErrorKind::BrokenPipe => return,
            Self::Unwritten(name, error) => format!("{name}: cannot be written: {error}\n"),
        };
        // Where standard error cannot be written either, the status still tells.
        let _ = io::stderr().write_all(line.as_bytes());
    }
}
