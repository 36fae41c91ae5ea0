//! Why the program ends without what was asked for.

use std::fmt;
use std::io;
use zerglaz::{BrokenLayout, Error, Fault, Refusal};

/// A failure, and with it the exit status.
#[derive(Debug)]
pub enum Failure {
    /// A call refuses, or bytes are no list of the kind or a volume that no history reaches.
    List(Error),
    /// A text is no hexadecimal text, at this line.
    Text(usize),
    /// The words are no command; this is what the program takes.
    Usage(&'static str),
    /// A file cannot be read or written.
    File(String, io::Error),
}

impl Failure {
    /// The exit status.
    pub fn status(&self) -> u8 {
        match self {
            Failure::List(_) | Failure::Text(_) => 1,
            Failure::Usage(_) => 2,
            Failure::File(..) => 3,
        }
    }
}

impl fmt::Display for Failure {
    fn fmt(&self, f: &mut fmt::Formatter<'_>) -> fmt::Result {
        match self {
            Failure::List(error) => error.fmt(f),
            Failure::Text(line) => write!(f, "line {line} is no hexadecimal text"),
            Failure::Usage(usage) => write!(f, "these words are no command\n{}", usage.trim_end()),
            Failure::File(name, error) => write!(f, "{name}: {error}"),
        }
    }
}

impl From<Error> for Failure {
    fn from(error: Error) -> Failure {
        Failure::List(error)
    }
}

impl From<Refusal> for Failure {
    fn from(refusal: Refusal) -> Failure {
        Failure::List(refusal.into())
    }
}

impl From<BrokenLayout> for Failure {
    fn from(broken: BrokenLayout) -> Failure {
        Failure::List(broken.into())
    }
}

impl From<Fault> for Failure {
    fn from(fault: Fault) -> Failure {
        Failure::List(fault.into())
    }
}
