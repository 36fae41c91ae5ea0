//! Clean volumes: what a history starts from.

use crate::call_list::CallList;
use crate::fault::Fault;
use crate::head::Head;
use crate::kinds::Bucket;
use crate::limits::MAX_KEYS;
use std::ops::Range;

/// What may be chosen anew between the steps of a [`Volume`](crate::Volume).
#[derive(Debug, Clone, Copy, PartialEq, Eq)]
pub struct Options {
    /// Sectors of a block, of which pieces are whole numbers; 0 counts as 1. It divides the bucket
    /// and 128.
    pub block_sectors: u16,
    /// The checksum option: 0 none, 1 crc32c, 2 crc64, 3 xxhash.
    pub checksum_option: u8,
    /// Free buckets that saves leave for the journal, beside the 32 that they always leave.
    pub journal_reserve: u32,
    /// How many buckets a discard puts into one batch of its change list, 1 or more.
    pub batch: u32,
}

impl Default for Options {
    /// Blocks of a sector, crc32c, no journal reserve, and every discard in one batch.
    fn default() -> Options {
        Options {
            block_sectors: 1,
            checksum_option: 1,
            journal_reserve: 0,
            batch: MAX_KEYS as u32,
        }
    }
}

/// A clean volume: its free buckets, those set aside, and nothing placed.
#[derive(Debug, Clone, PartialEq, Eq)]
pub struct Format {
    /// Sectors of a bucket, which stay.
    pub bucket_sectors: u16,
    /// The runs of free buckets, of which none is empty and no two share a bucket.
    pub free: Vec<Range<Bucket>>,
    /// Buckets that are set aside: a placement passes over them.
    pub reserved: Vec<Bucket>,
    /// The journal number of the first step.
    pub journal: u64,
    /// What may be chosen anew later.
    pub options: Options,
}

impl Format {
    /// Buckets 0 up to `buckets`, all free, of `bucket_sectors` each.
    pub fn new(bucket_sectors: u16, buckets: u32) -> Format {
        Format {
            bucket_sectors,
            free: vec![Bucket(0)..Bucket(buckets)],
            reserved: Vec::new(),
            journal: 1,
            options: Options::default(),
        }
    }

    /// The clean volume as a list.
    ///
    /// # Errors
    /// [`Fault::EmptyRun`] and [`Fault::RunsOverlap`].
    pub fn to_list(&self) -> Result<CallList, Fault> {
        let mut list = CallList::new(Head {
            bucket_sectors: self.bucket_sectors,
            block_sectors: self.options.block_sectors,
            checksum_option: self.options.checksum_option,
            journal_reserve: self.options.journal_reserve,
            batch: self.options.batch,
            journal: self.journal,
            ..Head::default()
        });
        let mut free = self.free.clone();
        free.sort_by_key(|run| run.start);
        let mut last = Bucket(0);
        for run in free {
            if run.is_empty() {
                return Err(Fault::EmptyRun(run.end));
            }
            if run.start < last {
                return Err(Fault::RunsOverlap(run.start));
            }
            last = run.end;
            list.insert_run(run);
        }
        for &bucket in &self.reserved {
            list.reserve(bucket);
        }
        Ok(list)
    }
}

#[cfg(test)]
mod tests {
    use super::Format;
    use crate::{Bucket, Fault, Tree};

    /// A volume of these runs.
    fn runs(runs: &[(u32, u32)]) -> Format {
        let run = |&(start, end)| Bucket(start)..Bucket(end);
        Format {
            free: runs.iter().map(run).collect(),
            ..Format::new(128, 1)
        }
    }

    /// Runs in any order are the volume's runs.
    #[test]
    fn clean() {
        let format = runs(&[(40, 90), (0, 40)]);
        let list = format.to_list().expect("a clean volume");
        let ends = list.keys(Tree::Freespace).map(|key| key.position.offset);
        assert!(ends.eq([40, 90]));
    }

    /// Empty runs and runs that share a bucket are refused, those with one end too.
    #[test]
    fn not_clean() {
        let faults = [
            (runs(&[(5, 5)]), Fault::EmptyRun(Bucket(5))),
            (runs(&[(6, 5)]), Fault::EmptyRun(Bucket(5))),
            (runs(&[(0, 10), (9, 20)]), Fault::RunsOverlap(Bucket(9))),
            (runs(&[(0, 10), (5, 10)]), Fault::RunsOverlap(Bucket(5))),
        ];
        for (format, fault) in faults {
            assert_eq!(format.to_list(), Err(fault));
        }
    }
}
