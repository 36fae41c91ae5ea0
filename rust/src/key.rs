//! Keys of the trees, and where they stand.

use crate::alloc_value;
use crate::fields::put;
use crate::kinds::{Bucket, DeviceSector};
use std::fmt;
use std::ops::Range;

/// The types of keys that the calls read or make.
pub mod key_type {
    /// A deletion, in a change list.
    pub const DELETED: u8 = 0;
    /// An extent.
    pub const EXTENT: u8 = 6;
    /// A key that says by its place alone: a freespace run, an LRU or a need-discard key.
    pub const SET: u8 = 25;
    /// What a bucket holds.
    pub const ALLOC_V4: u8 = 27;
    /// A backpointer.
    pub const BACKPOINTER: u8 = 28;
    /// The generations of 256 buckets.
    pub const BUCKET_GENS: u8 = 30;
}

/// A tree of keys, by its tag.
#[derive(Debug, Clone, Copy, PartialEq, Eq, PartialOrd, Ord, Hash)]
#[repr(u8)]
pub enum Tree {
    /// The extents of files; they stand in change lists alone.
    Extents = 0,
    /// What each bucket holds.
    Alloc = 4,
    /// Part-filled buckets by how full they are.
    Lru = 10,
    /// Runs of free buckets.
    Freespace = 11,
    /// Emptied buckets that wait for their discard.
    NeedDiscard = 12,
    /// From each device extent to the file extent that points at it.
    Backpointers = 13,
    /// The generations of buckets.
    BucketGens = 14,
}

impl Tree {
    /// The trees of a volume, by tag: all but the extents.
    pub const STORED: [Tree; 6] = {
        let [_, stored @ ..] = Tree::ALL;
        stored
    };

    /// All trees, by tag.
    pub const ALL: [Tree; 7] = [
        Tree::Extents,
        Tree::Alloc,
        Tree::Lru,
        Tree::Freespace,
        Tree::NeedDiscard,
        Tree::Backpointers,
        Tree::BucketGens,
    ];

    /// The tree's tag.
    pub const fn tag(self) -> u8 {
        self as u8
    }

    /// The tree of a tag.
    pub fn from_tag(tag: u8) -> Option<Tree> {
        Tree::ALL.into_iter().find(|tree| tree.tag() == tag)
    }
}

impl fmt::Display for Tree {
    fn fmt(&self, f: &mut fmt::Formatter<'_>) -> fmt::Result {
        f.write_str(match self {
            Tree::Extents => "extent",
            Tree::Alloc => "alloc",
            Tree::Lru => "LRU",
            Tree::Freespace => "freespace",
            Tree::NeedDiscard => "need-discard",
            Tree::Backpointers => "backpointer",
            Tree::BucketGens => "bucket gens",
        })
    }
}

/// Where a key stands in its tree; keys ascend by it.
#[derive(Debug, Clone, Copy, PartialEq, Eq, PartialOrd, Ord, Hash, Default)]
pub struct Position {
    /// The first part.
    pub inode: u64,
    /// The second part.
    pub offset: u64,
    /// The third part: 0 but for extents.
    pub snapshot: u32,
}

impl Position {
    /// How far apart the backpointers of neighbouring sectors stand.
    pub(crate) const BACKPOINTER_STEP: u64 = 65_536;

    /// A position with snapshot 0.
    pub const fn new(inode: u64, offset: u64) -> Position {
        Position {
            inode,
            offset,
            snapshot: 0,
        }
    }

    /// Where a bucket's alloc key stands.
    pub fn of_alloc(bucket: Bucket) -> Position {
        Position::new(0, u64::from(bucket.0))
    }

    /// Where a run stands that ends before `end`.
    pub fn of_run(end: Bucket) -> Position {
        Position::new(0, u64::from(end.0))
    }

    /// Where a bucket waits that was emptied at a journal number.
    pub fn of_need_discard(journal: u64, bucket: Bucket) -> Position {
        Position::new(journal, u64::from(bucket.0))
    }

    /// Where the backpointer stands of an extent that begins at `first`.
    pub fn of_backpointer(first: DeviceSector) -> Position {
        Position::new(0, first.0.wrapping_mul(Position::BACKPOINTER_STEP))
    }

    /// Where the LRU key stands of a bucket that holds `dirty` of its `bucket_sectors`, which are
    /// above 0.
    pub(crate) fn of_lru(bucket: Bucket, dirty: u32, bucket_sectors: u16) -> Position {
        let full = (u64::from(dirty) << 31) / u64::from(bucket_sectors);
        Position::new((1 << 61) + full, u64::from(bucket.0))
    }

    /// Where the generation record of a bucket stands.
    pub fn of_generations(bucket: Bucket) -> Position {
        Position::new(0, u64::from(bucket.0 / 256))
    }
}

impl fmt::Display for Position {
    fn fmt(&self, f: &mut fmt::Formatter<'_>) -> fmt::Result {
        write!(f, "{}:{}:{}", self.inode, self.offset, self.snapshot)
    }
}

/// A key with its value.
#[derive(Debug, Clone, PartialEq, Eq, Default)]
pub struct Key {
    /// The type, one of [`key_type`] or any other.
    pub key_type: u8,
    /// The size: sectors of an extent, buckets of a run, else 0.
    pub size: u32,
    /// The version's high part.
    pub version_high: u32,
    /// The version's low part.
    pub version_low: u64,
    /// Where the key stands.
    pub position: Position,
    /// The value, of at most [`MAX_VALUE`](crate::limits::MAX_VALUE) bytes; a longer one breaks a
    /// list's layout.
    pub value: Vec<u8>,
}

impl Key {
    /// A key with its type and position, and nothing else.
    pub fn new(key_type: u8, position: Position) -> Key {
        Key {
            key_type,
            position,
            ..Key::default()
        }
    }

    /// A freespace run of these buckets.
    ///
    /// # Panics
    /// Where the run ends before it begins.
    pub fn run(buckets: Range<Bucket>) -> Key {
        let size = buckets.end.0.checked_sub(buckets.start.0);
        Key {
            size: size.expect("a run ends after it begins"),
            ..Key::new(key_type::SET, Position::of_run(buckets.end))
        }
    }

    /// The key says that what stands at its position is deleted.
    pub fn is_deletion(&self) -> bool {
        self.key_type == key_type::DELETED
    }

    /// The generation in an alloc value.
    pub fn generation(&self) -> Option<u8> {
        alloc_value::generation(&self.value)
    }

    /// The data type in an alloc value: 0 free, 4 user data, 9 waiting for its discard.
    pub fn data_type(&self) -> Option<u8> {
        alloc_value::data_type(&self.value)
    }

    /// The dirty sectors in an alloc value.
    pub fn dirty_sectors(&self) -> Option<u32> {
        alloc_value::dirty_sectors(&self.value)
    }

    /// Append the key as a field of its tree.
    pub(crate) fn put(&self, tree: Tree, out: &mut Vec<u8>) {
        let Position {
            inode,
            offset,
            snapshot,
        } = self.position;
        let parts: [&[u8]; 8] = [
            &[self.key_type],
            &self.size.to_le_bytes(),
            &self.version_high.to_le_bytes(),
            &self.version_low.to_le_bytes(),
            &inode.to_le_bytes(),
            &offset.to_le_bytes(),
            &snapshot.to_le_bytes(),
            &self.value,
        ];
        put(out, tree.tag(), &parts);
    }
}

#[cfg(test)]
mod tests {
    use super::{Key, Position, Tree};
    use crate::fields::{BrokenLayout, Fields};
    use crate::key_ref::KeyRef;
    use crate::kinds::{Bucket, DeviceSector};

    /// A key with every part set.
    fn key(value: usize) -> Key {
        Key {
            key_type: 27,
            size: 0x0102_0304,
            version_high: 5,
            version_low: 6 << 40,
            position: Position::new(7, 8 << 32),
            value: (0..value).map(|i| i as u8).collect(),
        }
    }

    /// The key that is read from a key's field.
    fn again(tree: Tree, key: &Key) -> Result<Key, BrokenLayout> {
        let mut out = Vec::new();
        key.put(tree, &mut out);
        let (tag, body) = Fields::new(&out).next().expect("a field")?;
        assert_eq!(Tree::from_tag(tag), Some(tree));
        KeyRef::read(body).map(KeyRef::to_key)
    }

    /// A key that is put is read again, with a value of any length up to 256.
    #[test]
    fn round_trip() {
        for tree in Tree::ALL {
            for value in [0, 1, 64, 255, 256] {
                assert_eq!(again(tree, &key(value)), Ok(key(value)));
            }
            assert_eq!(again(tree, &key(257)), Err(BrokenLayout));
        }
    }

    /// The positions of docs/FORMAT.md, "Keys".
    #[test]
    fn positions() {
        let run = Key::run(Bucket(10)..Bucket(20));
        assert_eq!((run.position, run.size), (Position::new(0, 20), 10));
        let first = DeviceSector(3);
        assert_eq!(Position::of_backpointer(first), Position::new(0, 196_608));
        assert_eq!(Position::of_generations(Bucket(515)), Position::new(0, 2));
        assert_eq!(Position::of_need_discard(8, Bucket(5)), Position::new(8, 5));
        let lru = Position::of_lru(Bucket(5), 96, 128);
        assert_eq!(lru, Position::new((1 << 61) + 1_610_612_736, 5));
        assert!(Position::new(0, 9) < Position::new(1, 0));
    }

    /// Tags of no tree give none.
    #[test]
    fn tags() {
        let tags: Vec<u8> = (0..=255).filter(|&t| Tree::from_tag(t).is_some()).collect();
        assert_eq!(tags, [0, 4, 10, 11, 12, 13, 14]);
        assert_eq!(Tree::ALL[1..], Tree::STORED);
    }

    /// An alloc value's parts, and none where the value is too short.
    #[test]
    fn alloc_values() {
        let long = key(64);
        assert_eq!((long.generation(), long.data_type()), (Some(12), Some(14)));
        assert_eq!(long.dirty_sectors(), Some(0x1312_1110));
        let short = key(12);
        assert_eq!((short.generation(), short.dirty_sectors()), (None, None));
        assert_eq!(key(19).dirty_sectors(), None);
    }
}
