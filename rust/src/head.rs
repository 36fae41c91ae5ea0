//! The head of a list: what it says of the volume and of the call.

use crate::fields::{put, require, Body, BrokenLayout, Fields};
use crate::kinds::FileSector;

/// The head's tag.
pub(crate) const HEAD: u8 = 1;

/// The call that a list asks for.
#[derive(Debug, Clone, Copy, PartialEq, Eq, Hash, Default)]
#[repr(u8)]
pub enum Call {
    /// Place pieces.
    #[default]
    Place = 1,
    /// Release pieces.
    Release = 2,
    /// Discard emptied buckets.
    Discard = 3,
}

impl Call {
    /// The call of a call byte.
    pub fn from_byte(byte: u8) -> Option<Call> {
        let calls = [Call::Place, Call::Release, Call::Discard];
        calls.into_iter().find(|&call| call as u8 == byte)
    }
}

/// Which roots exist.
#[derive(Debug, Clone, Copy, PartialEq, Eq, Hash, Default)]
pub struct Roots {
    /// The LRU tree's.
    pub lru: bool,
    /// The need-discard tree's.
    pub need_discard: bool,
    /// The bucket generations' tree's.
    pub bucket_gens: bool,
}

impl Roots {
    /// The roots of bits 0 to 2; none where another bit is set.
    pub fn from_bits(bits: u8) -> Option<Roots> {
        (bits < 8).then_some(Roots {
            lru: bits & 1 != 0,
            need_discard: bits & 2 != 0,
            bucket_gens: bits & 4 != 0,
        })
    }

    /// Bits 0 to 2.
    pub fn bits(self) -> u8 {
        u8::from(self.lru) | u8::from(self.need_discard) << 1 | u8::from(self.bucket_gens) << 2
    }
}

/// What a call list says of the volume and of the call.
#[derive(Debug, Clone, Copy, PartialEq, Eq, Default)]
pub struct Head {
    /// The call asked for; apply takes each.
    pub call: Call,
    /// Sectors of a bucket.
    pub bucket_sectors: u16,
    /// Sectors of a block; 0 counts as 1.
    pub block_sectors: u16,
    /// The checksum option: 0 none, 1 crc32c, 2 crc64, 3 xxhash.
    pub checksum_option: u8,
    /// Which roots exist.
    pub roots: Roots,
    /// Buckets that a placement keeps back for the journal.
    pub journal_reserve: u32,
    /// How many buckets a discard puts into one batch.
    pub batch: u32,
    /// The journal number that the call's changes are written under.
    pub journal: u64,
    /// The inode whose data is placed.
    pub inode: u64,
    /// The file sector where the placed data begins.
    pub base: FileSector,
}

impl Head {
    /// The head of a call list, wherever it stands.
    ///
    /// # Errors
    /// Where the bytes are no whole fields, or have not exactly one head, or it breaks its layout.
    pub fn of(list: &[u8]) -> Result<Head, BrokenLayout> {
        let mut found = None;
        for field in Fields::new(list) {
            let (tag, body) = field?;
            if tag == HEAD {
                require(found.is_none())?;
                found = Some(Head::read(body)?);
            }
        }
        found.ok_or(BrokenLayout)
    }

    /// The head at the front of a list.
    pub(crate) fn first(list: &[u8]) -> Result<Head, BrokenLayout> {
        match Fields::new(list).next().ok_or(BrokenLayout)?? {
            (HEAD, body) => Head::read(body),
            _ => Err(BrokenLayout),
        }
    }

    /// The head in a field's body.
    pub(crate) fn read(mut body: Body) -> Result<Head, BrokenLayout> {
        let head = Head {
            call: Call::from_byte(body.u8()?).ok_or(BrokenLayout)?,
            bucket_sectors: body.u16()?,
            block_sectors: body.u16()?,
            checksum_option: body.u8()?,
            roots: Roots::from_bits(body.u8()?).ok_or(BrokenLayout)?,
            journal_reserve: body.u32()?,
            batch: body.u32()?,
            journal: body.u64()?,
            inode: body.u64()?,
            base: FileSector(body.u64()?),
        };
        body.end()?;
        Ok(head)
    }

    /// Append the head's field.
    pub(crate) fn put(&self, out: &mut Vec<u8>) {
        let parts: [&[u8]; 10] = [
            &[self.call as u8],
            &self.bucket_sectors.to_le_bytes(),
            &self.block_sectors.to_le_bytes(),
            &[self.checksum_option],
            &[self.roots.bits()],
            &self.journal_reserve.to_le_bytes(),
            &self.batch.to_le_bytes(),
            &self.journal.to_le_bytes(),
            &self.inode.to_le_bytes(),
            &self.base.0.to_le_bytes(),
        ];
        put(out, HEAD, &parts);
    }
}

#[cfg(test)]
mod tests {
    use super::{Call, Head};
    use crate::fields::{put, BrokenLayout};

    /// The one head of a list is found wherever it stands.
    #[test]
    fn anywhere() {
        let head = Head {
            call: Call::Discard,
            bucket_sectors: 8,
            ..Head::default()
        };
        let mut list = Vec::new();
        put(&mut list, 64, &[&[7, 0, 0, 0]]);
        assert_eq!(Head::of(&list), Err(BrokenLayout));
        head.put(&mut list);
        assert_eq!(Head::of(&list), Ok(head));
        put(&mut list, 11, &[&[0; 37]]);
        assert_eq!(Head::of(&list), Ok(head));
        assert_eq!(Head::first(&list), Err(BrokenLayout));
        assert_eq!(Head::of(&list[..list.len() - 1]), Err(BrokenLayout));
        head.put(&mut list);
        assert_eq!(Head::of(&list), Err(BrokenLayout));
    }
}
