//! Keys read where they stand in a list.

use crate::alloc_value;
use crate::fields::{require, Bodies, Body, BrokenLayout};
use crate::key::{key_type, Key, Position};
use crate::kinds::Bucket;
use crate::limits::MAX_VALUE;
use std::iter::Peekable;
use std::ops::Range;

/// A key of a list, with its value where that stands in the list's bytes.
#[derive(Debug, Clone, Copy, PartialEq, Eq)]
pub struct KeyRef<'a> {
    /// The type, one of [`key_type`] or any other.
    pub key_type: u8,
    /// The size: sectors of an extent, buckets of a run, else 0.
    pub size: u32,
    /// The version's high part.
    pub version_high: u32,
    /// The version's low part.
    pub version_low: u64,
    /// Where the key stands.
    pub position: Position,
    /// The value.
    pub value: &'a [u8],
}

impl<'a> KeyRef<'a> {
    /// The key in a field's body.
    pub(crate) fn read(mut body: Body<'a>) -> Result<KeyRef<'a>, BrokenLayout> {
        let key = KeyRef {
            key_type: body.u8()?,
            size: body.u32()?,
            version_high: body.u32()?,
            version_low: body.u64()?,
            position: Position {
                inode: body.u64()?,
                offset: body.u64()?,
                snapshot: body.u32()?,
            },
            value: body.rest(),
        };
        require(key.value.len() <= MAX_VALUE)?;
        Ok(key)
    }

    /// The key with a value of its own.
    pub fn to_key(self) -> Key {
        Key {
            key_type: self.key_type,
            size: self.size,
            version_high: self.version_high,
            version_low: self.version_low,
            position: self.position,
            value: self.value.to_vec(),
        }
    }

    /// The key says that what stands at its position is deleted.
    pub fn is_deletion(self) -> bool {
        self.key_type == key_type::DELETED
    }

    /// The generation in an alloc value.
    pub fn generation(self) -> Option<u8> {
        alloc_value::generation(self.value)
    }

    /// The data type in an alloc value: 0 free, 4 user data, 9 waiting for its discard.
    pub fn data_type(self) -> Option<u8> {
        alloc_value::data_type(self.value)
    }

    /// The dirty sectors in an alloc value.
    pub fn dirty_sectors(self) -> Option<u32> {
        alloc_value::dirty_sectors(self.value)
    }

    /// The bucket that a key of the alloc, LRU or need-discard tree is of; none where its offset
    /// has more than 32 bits.
    pub fn bucket(self) -> Option<Bucket> {
        u32::try_from(self.position.offset).ok().map(Bucket)
    }

    /// The buckets of a freespace run, from bucket 0 on; none for a key that is no run.
    pub fn run(self) -> Option<Range<Bucket>> {
        let is_run = self.key_type == key_type::SET && self.position.inode == 0;
        let end = self.bucket().filter(|_| is_run)?;
        Some(Bucket(end.0.saturating_sub(self.size))..end)
    }
}

/// Keys of one tree where they stand in a list, by their positions.
#[derive(Debug, Clone)]
pub struct Keys<'a>(Bodies<'a>);

impl<'a> Keys<'a> {
    /// The keys in these bodies, each of which is a key's.
    pub(crate) fn new(bodies: Bodies<'a>) -> Keys<'a> {
        Keys(bodies)
    }
}

impl<'a> Iterator for Keys<'a> {
    type Item = KeyRef<'a>;

    /// The next key.
    fn next(&mut self) -> Option<KeyRef<'a>> {
        KeyRef::read(self.0.next()?).ok()
    }
}

/// Keys of one tree that are looked up by ascending positions, in one pass over them.
pub(crate) struct Lookups<'a>(Peekable<Keys<'a>>);

impl<'a> Lookups<'a> {
    /// Lookups in these keys, which ascend.
    pub(crate) fn new(keys: Keys<'a>) -> Lookups<'a> {
        Lookups(keys.peekable())
    }

    /// The key at a position, which is not below the one asked for before.
    pub(crate) fn at(&mut self, position: Position) -> Option<KeyRef<'a>> {
        while self.0.next_if(|key| key.position < position).is_some() {}
        let next = self.0.peek().copied();
        next.filter(|key| key.position == position)
    }
}

#[cfg(test)]
mod tests {
    use super::{Keys, Lookups};
    use crate::fields::Bodies;
    use crate::key::{Key, Position, Tree};
    use crate::kinds::Bucket;

    /// Runs that end at 10, 20 and 30, as fields.
    fn runs() -> Vec<u8> {
        let mut fields = Vec::new();
        for end in [10, 20, 30] {
            Key::run(Bucket(end - 5)..Bucket(end)).put(Tree::Freespace, &mut fields);
        }
        fields
    }

    /// Keys that are read where they stand are those that were put.
    #[test]
    fn same_keys() {
        let fields = runs();
        let keys = || Keys::new(Bodies::together(&fields));
        let buckets: Vec<_> = keys().filter_map(|key| key.run()).collect();
        let keys: Vec<Key> = keys().map(|key| key.to_key()).collect();
        assert_eq!(keys.len(), 3);
        assert_eq!(keys[1], Key::run(Bucket(15)..Bucket(20)));
        assert_eq!(buckets[2], Bucket(25)..Bucket(30));
    }

    /// Lookups find what is there, also twice, and go on past what is not.
    #[test]
    fn lookups() {
        let fields = runs();
        let mut lookups = Lookups::new(Keys::new(Bodies::together(&fields)));
        let mut found = |offset| lookups.at(Position::new(0, offset)).is_some();
        assert!(!found(9) && found(10) && found(10) && !found(11) && found(20));
        assert!(!found(29) && found(30) && !found(31) && !found(31));
    }
}
