//! Live pieces, and how a volume's own keys name them.

use crate::change_list::Placed;
use crate::key::{key_type, Position};
use crate::key_ref::KeyRef;
use crate::kinds::{Bucket, DeviceSector, FileSector};
use std::fmt;

/// A piece that was placed and not released since: where it lies, how long it is, and its bucket's
/// generation. A save gives it, and a deletion names the piece by it.
#[derive(Debug, Clone, Copy, PartialEq, Eq, PartialOrd, Ord, Hash)]
pub struct Live {
    /// Its first sector.
    pub first: DeviceSector,
    /// How many sectors it takes.
    pub sectors: u16,
    /// The generation of its bucket.
    pub generation: u8,
}

impl Live {
    /// The sector after its last.
    pub fn end(self) -> DeviceSector {
        DeviceSector(self.first.0.saturating_add(u64::from(self.sectors)))
    }

    /// Its bucket, where a bucket has `bucket_sectors`; none where that is 0 or the bucket's number
    /// has more than 32 bits.
    pub fn bucket(self, bucket_sectors: u16) -> Option<Bucket> {
        self.first.bucket(bucket_sectors)
    }

    /// The live piece that a backpointer names; none where the key is no backpointer of a piece.
    pub(crate) fn of_backpointer(key: KeyRef) -> Option<Live> {
        let first = DeviceSector(key.position.offset / Position::BACKPOINTER_STEP);
        let value: &[u8; 32] = key.value.try_into().ok()?;
        let names = key.key_type == key_type::BACKPOINTER
            && key.position == Position::of_backpointer(first);
        let sectors = number(value, 8, 4).try_into().ok()?;
        names.then_some(Live {
            first,
            sectors,
            generation: value[3],
        })
    }
}

/// The inode and the file sector that a backpointer's value leads back to: where its extent ends.
pub(crate) fn extent_of(value: &[u8]) -> Option<(u64, FileSector)> {
    let value: &[u8; 32] = value.try_into().ok()?;
    Some((number(value, 24, 8), FileSector(number(value, 16, 8))))
}

/// The number of `length` bytes from `at` on in a backpointer's value.
fn number(value: &[u8; 32], at: usize, length: usize) -> u64 {
    let bytes = value[at..at + length].iter().rev();
    bytes.fold(0, |number, &byte| number << 8 | u64::from(byte))
}

impl From<Placed> for Live {
    fn from(placed: Placed) -> Live {
        Live {
            first: placed.first,
            sectors: placed.stored_sectors,
            generation: placed.generation,
        }
    }
}

impl fmt::Display for Live {
    fn fmt(&self, f: &mut fmt::Formatter<'_>) -> fmt::Result {
        let Live {
            first,
            sectors,
            generation,
        } = self;
        write!(
            f,
            "the piece of {sectors} sectors from {first} on, generation {generation}"
        )
    }
}

#[cfg(test)]
mod tests {
    use super::{extent_of, Live};
    use crate::fields::Bodies;
    use crate::key::{key_type, Key, Position, Tree};
    use crate::key_ref::Keys;
    use crate::kinds::{DeviceSector, FileSector};

    /// What a key of the backpointers says.
    fn named(key: &Key) -> Option<Live> {
        let mut field = Vec::new();
        key.put(Tree::Backpointers, &mut field);
        let mut keys = Keys::new(Bodies::together(&field));
        Live::of_backpointer(keys.next().expect("a key"))
    }

    /// The backpointer of a piece of 96 sectors from sector 3 on, generation 7, of file 4,096.
    fn backpointer() -> Key {
        let mut key = Key::new(
            key_type::BACKPOINTER,
            Position::of_backpointer(DeviceSector(3)),
        );
        let words: [u64; 4] = [0x0704_0000, 96 | u64::from(u32::MAX) << 32, 200, 4_096];
        key.value = words.iter().flat_map(|word| word.to_le_bytes()).collect();
        key
    }

    /// A backpointer names its piece and leads back to its extent.
    #[test]
    fn backpointers() {
        let live = named(&backpointer()).expect("a piece");
        let (first, sectors, generation) = (DeviceSector(3), 96, 7);
        assert_eq!(
            live,
            Live {
                first,
                sectors,
                generation
            }
        );
        assert_eq!(live.end(), DeviceSector(99));
        let extent = extent_of(&backpointer().value);
        assert_eq!(extent, Some((4_096, FileSector(200))));
    }

    /// Other keys name no piece.
    #[test]
    fn no_backpointers() {
        let changes: [fn(&mut Key); 5] = [
            |key| key.key_type = key_type::SET,
            |key| key.position.inode = 1,
            |key| key.position.offset += 1,
            |key| key.value.truncate(31),
            |key| key.value[10] = 1,
        ];
        for change in changes {
            let mut key = backpointer();
            change(&mut key);
            assert_eq!(named(&key), None);
        }
    }
}
