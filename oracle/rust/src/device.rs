//! Stands in for the device, the checksums and the set of reserved buckets: each notes what the
//! change list tells of it.

use crate::error::Result;
use std::collections::BTreeSet;

/// What is stored of a piece: its length and the checksum given for it, and no data.
pub struct Stored {
    pub sectors: u64,
    pub checksum: u64,
}

/// The device as the functions write to it.
pub trait BlockDevice {
    /// Note a piece stored at a byte of the device.
    fn write_at(&mut self, at: u64, stored: &Stored) -> Result<()>;

    /// The pieces noted, by first sector and length, in order.
    fn written(&self) -> &[(u64, u64)];
}

/// A device that holds no data.
#[derive(Default)]
pub struct Notes(Vec<(u64, u64)>);

impl BlockDevice for Notes {
    fn write_at(&mut self, at: u64, stored: &Stored) -> Result<()> {
        self.0.push((at / 512, stored.sectors));
        Ok(())
    }

    fn written(&self) -> &[(u64, u64)] {
        &self.0
    }
}

/// The set of reserved buckets; buckets added and removed are noted in order.
pub struct Reserved {
    set: BTreeSet<u64>,
    pub taken: Vec<u32>,
    pub removed: Vec<u32>,
}

impl Reserved {
    /// The set of a call list's reserved buckets, with nothing noted.
    pub fn new(buckets: &[u32]) -> Self {
        Reserved {
            set: buckets.iter().map(|&b| u64::from(b)).collect(),
            taken: Vec::new(),
            removed: Vec::new(),
        }
    }

    /// Whether a bucket is reserved.
    pub fn contains(&self, bucket: &u64) -> bool {
        self.set.contains(bucket)
    }

    /// Reserve buckets: tag 71.
    pub fn extend(&mut self, buckets: impl Iterator<Item = u64>) {
        for b in buckets {
            self.set.insert(b);
            self.taken.push(b as u32);
        }
    }

    /// Give a bucket back, reserved or not: tag 75.
    pub fn remove(&mut self, bucket: &u64) {
        self.set.remove(bucket);
        self.removed.push(*bucket as u32);
    }
}
