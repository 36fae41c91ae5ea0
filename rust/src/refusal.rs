//! The refusals: docs/FORMAT.md, "Refusals".

use crate::fields::BrokenLayout;
use std::error::Error;
use std::fmt;

/// Why a call refuses. A call answers with the first whose test fails, in this order, 22 directly after
/// 2; among 12 and 13 the walk decides, and among 15 to 19 the lowest bucket.
#[derive(Debug, Clone, Copy, PartialEq, Eq, PartialOrd, Ord, Hash)]
#[repr(u32)]
pub enum Refusal {
    /// Release: the scratch has fewer than [`SUMS`](crate::SUMS) sums.
    ScratchTooShort = 1,
    /// A list breaks its layout, names another call or holds another call's requests. Generations: or
    /// the buckets do not ascend.
    BrokenLayout = 2,
    /// A limit is passed; in apply by the volume or by the result, in generations by the volume or by
    /// the buckets.
    LimitPassed = 3,
    /// Place and release: bucket sectors are 0.
    NoBucketSectors = 4,
    /// Place: the checksum option is above 3.
    UnknownChecksumOption = 5,
    /// Place: a compression kind is not 0, 2, 3, 4 or 5.
    UnknownCompression = 6,
    /// Place: a compression kind other than 0 meets checksum option 0.
    CompressionWithoutChecksum = 7,
    /// Place: block sectors do not divide both the bucket and 128.
    BlockDoesNotDivide = 8,
    /// Place: a piece's sectors are out of bounds, no blocks or not as its kind asks.
    BadPiece = 9,
    /// Place: two freespace runs overlap.
    RunsOverlap = 10,
    /// Place: fewer buckets are free than are needed and kept back.
    TooFewFreeBuckets = 11,
    /// Place: the walk reaches a run begun before bucket 0.
    RunBeforeBucketZero = 12,
    /// Place: the walk would take a bucket whose alloc key has a data type.
    FreeBucketInUse = 13,
    /// Release: a piece has 0 or over 128 sectors, or passes its bucket's end or bucket 65,535.
    BadRelease = 14,
    /// Release: a bucket has no alloc key.
    NoAllocKey = 15,
    /// Release: a bucket's alloc value is below 56 bytes.
    AllocValueTooShort = 16,
    /// Release: a bucket's dirty sectors exceed the bucket.
    TooManyDirtySectors = 17,
    /// Release: more is freed of a bucket than it holds.
    FreesMoreThanHeld = 18,
    /// Release: an emptied bucket's generation record is too short for its byte.
    GenerationRecordTooShort = 19,
    /// Discard: the batch is 0.
    NoBatch = 20,
    /// The output is too short for the answer.
    OutputTooShort = 21,
    /// Two keys of a tree stand at one position, or a reserved bucket stands twice.
    StandsTwice = 22,
}

impl Refusal {
    /// All refusals, by number.
    pub const ALL: [Refusal; 22] = [
        Refusal::ScratchTooShort,
        Refusal::BrokenLayout,
        Refusal::LimitPassed,
        Refusal::NoBucketSectors,
        Refusal::UnknownChecksumOption,
        Refusal::UnknownCompression,
        Refusal::CompressionWithoutChecksum,
        Refusal::BlockDoesNotDivide,
        Refusal::BadPiece,
        Refusal::RunsOverlap,
        Refusal::TooFewFreeBuckets,
        Refusal::RunBeforeBucketZero,
        Refusal::FreeBucketInUse,
        Refusal::BadRelease,
        Refusal::NoAllocKey,
        Refusal::AllocValueTooShort,
        Refusal::TooManyDirtySectors,
        Refusal::FreesMoreThanHeld,
        Refusal::GenerationRecordTooShort,
        Refusal::NoBatch,
        Refusal::OutputTooShort,
        Refusal::StandsTwice,
    ];

    /// Its number, 1 to 22.
    pub const fn number(self) -> u32 {
        self as u32
    }

    /// The refusal of a number; none for 0 and above 22.
    pub fn from_number(number: u32) -> Option<Refusal> {
        Refusal::ALL.into_iter().find(|r| r.number() == number)
    }

    /// What is wrong, in words.
    const fn words(self) -> &'static str {
        match self {
            Refusal::ScratchTooShort => "the scratch has fewer than 65,536 sums",
            Refusal::BrokenLayout => "a list breaks its layout or is another call's, or buckets do not ascend",
            Refusal::LimitPassed => "a limit is passed",
            Refusal::NoBucketSectors => "bucket sectors are 0",
            Refusal::UnknownChecksumOption => "the checksum option is above 3",
            Refusal::UnknownCompression => "a compression kind is not listed",
            Refusal::CompressionWithoutChecksum => "compression without a checksum",
            Refusal::BlockDoesNotDivide => "blocks do not divide the bucket and 128",
            Refusal::BadPiece => "a piece's sectors do not stand",
            Refusal::RunsOverlap => "two freespace runs overlap",
            Refusal::TooFewFreeBuckets => "too few buckets are free",
            Refusal::RunBeforeBucketZero => "a freespace run begins before bucket 0",
            Refusal::FreeBucketInUse => "a free bucket's alloc key has a data type",
            Refusal::BadRelease => "a released piece's sectors do not stand",
            Refusal::NoAllocKey => "a bucket has no alloc key",
            Refusal::AllocValueTooShort => "an alloc value is below 56 bytes",
            Refusal::TooManyDirtySectors => "dirty sectors exceed the bucket",
            Refusal::FreesMoreThanHeld => "more is freed than held",
            Refusal::GenerationRecordTooShort => "a generation record is too short",
            Refusal::NoBatch => "the batch is 0",
            Refusal::OutputTooShort => "the output is too short",
            Refusal::StandsTwice => "a position of a tree or a reserved bucket stands twice",
        }
    }
}

impl fmt::Display for Refusal {
    fn fmt(&self, f: &mut fmt::Formatter<'_>) -> fmt::Result {
        write!(f, "refused {}: {}", self.number(), self.words())
    }
}

impl Error for Refusal {}

impl From<BrokenLayout> for Refusal {
    fn from(_: BrokenLayout) -> Refusal {
        Refusal::BrokenLayout
    }
}

#[cfg(test)]
mod tests {
    use super::Refusal;

    /// Numbers run from 1 to 22, and each gives its refusal again.
    #[test]
    fn numbers() {
        let numbers: Vec<u32> = Refusal::ALL.iter().map(|r| r.number()).collect();
        assert_eq!(numbers, (1..=22).collect::<Vec<u32>>());
        for refusal in Refusal::ALL {
            assert_eq!(Refusal::from_number(refusal.number()), Some(refusal));
        }
        assert_eq!(Refusal::from_number(0), None);
        assert_eq!(Refusal::from_number(23), None);
        assert_eq!(Refusal::from_number(u32::MAX), None);
    }

    /// Each refusal has words of its own.
    #[test]
    fn words() {
        let mut words = Refusal::ALL.map(|r| r.to_string()).to_vec();
        assert_eq!(words[20], "refused 21: the output is too short");
        words.sort();
        words.dedup();
        assert_eq!(words.len(), 22);
    }
}
