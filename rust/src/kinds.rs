//! The three kinds of number that must not be taken for each other.

use std::fmt;

/// A bucket's number.
#[derive(Debug, Clone, Copy, PartialEq, Eq, PartialOrd, Ord, Hash, Default)]
// `ffi::numbers` lends buckets as numbers.
#[repr(transparent)]
pub struct Bucket(pub u32);

/// A sector of the device, of 512 bytes.
#[derive(Debug, Clone, Copy, PartialEq, Eq, PartialOrd, Ord, Hash, Default)]
pub struct DeviceSector(pub u64);

/// A sector of a file, of 512 bytes.
#[derive(Debug, Clone, Copy, PartialEq, Eq, PartialOrd, Ord, Hash, Default)]
pub struct FileSector(pub u64);

impl Bucket {
    /// The bucket's first sector, where a bucket has `bucket_sectors`.
    pub fn first_sector(self, bucket_sectors: u16) -> DeviceSector {
        DeviceSector(u64::from(self.0) * u64::from(bucket_sectors))
    }
}

impl DeviceSector {
    /// The bucket that the sector lies in, where a bucket has `bucket_sectors`; none where that is
    /// 0 or the bucket's number has more than 32 bits.
    pub fn bucket(self, bucket_sectors: u16) -> Option<Bucket> {
        let number = self.0.checked_div(u64::from(bucket_sectors))?;
        u32::try_from(number).ok().map(Bucket)
    }

    /// How far into its bucket the sector lies; none where buckets have no sectors.
    pub fn offset(self, bucket_sectors: u16) -> Option<u16> {
        let offset = self.0.checked_rem(u64::from(bucket_sectors))?;
        u16::try_from(offset).ok()
    }
}

impl fmt::Display for Bucket {
    fn fmt(&self, f: &mut fmt::Formatter<'_>) -> fmt::Result {
        write!(f, "bucket {}", self.0)
    }
}

impl fmt::Display for DeviceSector {
    fn fmt(&self, f: &mut fmt::Formatter<'_>) -> fmt::Result {
        write!(f, "device sector {}", self.0)
    }
}

#[cfg(test)]
mod tests {
    use super::{Bucket, DeviceSector};

    /// The highest bucket of the largest size has its first sector.
    #[test]
    fn first_sectors() {
        assert_eq!(Bucket(0).first_sector(128), DeviceSector(0));
        assert_eq!(Bucket(3).first_sector(128), DeviceSector(384));
        let highest = Bucket(u32::MAX).first_sector(u16::MAX);
        assert_eq!(highest, DeviceSector(4_294_967_295 * 65_535));
    }
    /// A sector's bucket and its place there.
    #[test]
    fn buckets() {
        assert_eq!(DeviceSector(383).bucket(128), Some(Bucket(2)));
        assert_eq!(DeviceSector(383).offset(128), Some(127));
        let highest = Bucket(u32::MAX).first_sector(u16::MAX);
        assert_eq!(highest.bucket(u16::MAX), Some(Bucket(u32::MAX)));
        assert_eq!(DeviceSector(u64::MAX).bucket(1), None);
        assert_eq!(DeviceSector(9).bucket(0), None);
        assert_eq!(DeviceSector(9).offset(0), None);
    }
}
