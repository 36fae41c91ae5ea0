//! The one error type.

use crate::fault::Fault;
use crate::fields::BrokenLayout;
use crate::live::Live;
use crate::refusal::Refusal;
use std::fmt;

/// Why a step of a [`Volume`](crate::Volume) is refused, or bytes are not read. Whatever it is, the
/// volume is as it was.
#[derive(Debug, Clone, Copy, PartialEq, Eq)]
#[non_exhaustive]
pub enum Error {
    /// The call refuses.
    Refused(Refusal),
    /// The call was accepted and apply refuses its change, which is dropped.
    Dropped(Refusal),
    /// Bytes that are no list of the kind asked for.
    BrokenLayout(BrokenLayout),
    /// A deletion names a piece that is not live.
    NotLive(Live),
    /// A deletion names a piece twice.
    NamedTwice(Live),
    /// A volume that no history from a clean volume reaches.
    NotReached(Fault),
}

impl fmt::Display for Error {
    fn fmt(&self, f: &mut fmt::Formatter<'_>) -> fmt::Result {
        match self {
            Error::Refused(refusal) => refusal.fmt(f),
            Error::Dropped(refusal) => write!(f, "the change is dropped: apply {refusal}"),
            Error::BrokenLayout(broken) => broken.fmt(f),
            Error::NotLive(piece) => write!(f, "{piece} is not live"),
            Error::NamedTwice(piece) => write!(f, "{piece} is named twice"),
            Error::NotReached(fault) => write!(f, "no history reaches this volume: {fault}"),
        }
    }
}

impl std::error::Error for Error {
    fn source(&self) -> Option<&(dyn std::error::Error + 'static)> {
        match self {
            Error::Refused(refusal) | Error::Dropped(refusal) => Some(refusal),
            Error::BrokenLayout(broken) => Some(broken),
            Error::NotReached(fault) => Some(fault),
            Error::NotLive(_) | Error::NamedTwice(_) => None,
        }
    }
}

impl From<Refusal> for Error {
    fn from(refusal: Refusal) -> Error {
        Error::Refused(refusal)
    }
}

impl From<BrokenLayout> for Error {
    fn from(broken: BrokenLayout) -> Error {
        Error::BrokenLayout(broken)
    }
}

impl From<Fault> for Error {
    fn from(fault: Fault) -> Error {
        Error::NotReached(fault)
    }
}

#[cfg(test)]
mod tests {
    use super::Error;
    use crate::{BrokenLayout, Bucket, DeviceSector, Fault, Live, Refusal};
    use std::error::Error as _;

    /// Each error has words of its own, and what it stands on is its source.
    #[test]
    fn words() {
        let live = Live {
            first: DeviceSector(96),
            sectors: 64,
            generation: 2,
        };
        let errors = [
            Error::Refused(Refusal::LimitPassed),
            Error::Dropped(Refusal::LimitPassed),
            Error::BrokenLayout(BrokenLayout),
            Error::NotLive(live),
            Error::NamedTwice(live),
            Error::NotReached(Fault::WrongSum(Bucket(7))),
        ];
        let words = errors.map(|error| error.to_string());
        assert_eq!(words[0], "refused 3: a limit is passed");
        assert_eq!(
            words[1],
            "the change is dropped: apply refused 3: a limit is passed"
        );
        assert_eq!(
            words[3],
            "the piece of 64 sectors from device sector 96 on, generation 2 is not live"
        );
        assert!(words[5].contains("bucket 7"));
        let sources = errors.map(|error| error.source().is_some());
        assert_eq!(sources, [true, true, true, false, false, true]);
    }
}
