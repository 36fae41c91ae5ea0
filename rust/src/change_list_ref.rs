//! Change lists read where they stand.

use crate::change_list::{tag, Placed, Root, Row};
use crate::fields::{require, Body, BrokenLayout, Fields};
use crate::key::Tree;
use crate::key_ref::KeyRef;
use crate::kinds::Bucket;

/// A field of a change list.
#[derive(Debug, Clone, Copy, PartialEq, Eq)]
pub enum ChangeField<'a> {
    /// A key of a tree; a deletion has type 0.
    Key(Tree, KeyRef<'a>),
    /// A root that is made.
    Root(Root),
    /// A bucket that is taken, and becomes reserved.
    Taken(Bucket),
    /// Where a piece is placed.
    Placed(Placed),
    /// An accounting row.
    Row(Row),
    /// How many file sectors a placement holds.
    FileSectors(u64),
    /// A bucket that is discarded, and is reserved no longer.
    Unreserved(Bucket),
    /// The end of a batch.
    End,
}

impl<'a> ChangeField<'a> {
    /// The field of a tag and a body.
    fn read(tag: u8, mut body: Body<'a>) -> Result<ChangeField<'a>, BrokenLayout> {
        let field = match tag {
            tag::PLACED => return Placed::read(body).map(ChangeField::Placed),
            tag::ROW => return Row::read(body).map(ChangeField::Row),
            tag::ROOT => ChangeField::Root(Root::from_id(body.u8()?).ok_or(BrokenLayout)?),
            tag::TAKEN => ChangeField::Taken(Bucket(body.u32()?)),
            tag::FILE_SECTORS => ChangeField::FileSectors(body.u64()?),
            tag::UNRESERVED => ChangeField::Unreserved(Bucket(body.u32()?)),
            tag::END => ChangeField::End,
            _ => return ChangeField::read_key(tag, body),
        };
        body.end()?;
        Ok(field)
    }

    /// A key's field; outside the extents its snapshot is 0.
    fn read_key(tag: u8, body: Body<'a>) -> Result<ChangeField<'a>, BrokenLayout> {
        let tree = Tree::from_tag(tag).ok_or(BrokenLayout)?;
        let key = KeyRef::read(body)?;
        require(tree == Tree::Extents || key.position.snapshot == 0)?;
        Ok(ChangeField::Key(tree, key))
    }
}

/// A change list read where it stands: nothing is copied, and fields are read as they are asked
/// for. [`ChangeList`](crate::ChangeList) holds a list of its own.
#[derive(Debug, Clone, Copy)]
pub struct ChangeListRef<'a>(&'a [u8]);

impl<'a> ChangeListRef<'a> {
    /// The list in `bytes`.
    ///
    /// # Errors
    /// Where the bytes break the layout of a change list.
    pub fn read(bytes: &'a [u8]) -> Result<ChangeListRef<'a>, BrokenLayout> {
        let mut last = None;
        for field in Fields::new(bytes) {
            let (tag, body) = field?;
            require(last.is_none_or(|last| last <= tag))?;
            ChangeField::read(tag, body)?;
            last = (tag != tag::END).then_some(tag);
        }
        require(last.is_none())?;
        Ok(ChangeListRef(bytes))
    }

    /// The answer of a call, which is a change list.
    pub(crate) fn answer(bytes: &'a [u8]) -> ChangeListRef<'a> {
        ChangeListRef(bytes)
    }

    /// Its fields, in order.
    pub fn fields(&self) -> impl Iterator<Item = ChangeField<'a>> + 'a {
        let read = |(tag, body)| ChangeField::read(tag, body).ok();
        Fields::new(self.0).filter_map(move |field| field.ok().and_then(read))
    }

    /// Where the pieces of all batches are placed, in the order of the requests.
    pub fn placed(&self) -> impl Iterator<Item = Placed> + 'a {
        let of_tag = |&(tag, _): &(u8, Body)| tag == tag::PLACED;
        let placed = Fields::new(self.0).filter_map(Result::ok).filter(of_tag);
        placed.filter_map(|(_, body)| Placed::read(body).ok())
    }

    /// The buckets of all batches that are discarded, in order.
    pub fn unreserved(&self) -> impl Iterator<Item = Bucket> + 'a {
        self.fields().filter_map(|field| match field {
            ChangeField::Unreserved(bucket) => Some(bucket),
            _ => None,
        })
    }
}

#[cfg(test)]
mod tests {
    use super::{ChangeField, ChangeListRef};
    use crate::change_list::{Batch, ChangeList};
    use crate::key::{key_type, Key, Position, Tree};
    use crate::kinds::Bucket;

    /// A batch with a key and a bucket discarded.
    fn batch() -> Batch {
        Batch {
            keys: vec![(Tree::Freespace, Key::run(Bucket(5)..Bucket(6)))],
            unreserved: vec![Bucket(5)],
            ..Batch::default()
        }
    }

    /// Fields stand in the order of the list, over all batches.
    #[test]
    fn fields() {
        let batches = vec![batch(), batch()];
        let bytes = ChangeList { batches }.to_bytes();
        let list = ChangeListRef::read(&bytes).expect("a change list");
        let fields: Vec<ChangeField> = list.fields().collect();
        assert_eq!(fields.len(), 6);
        assert!(matches!(fields[3], ChangeField::Key(Tree::Freespace, key) if key.size == 1));
        assert_eq!(fields[5], ChangeField::End);
        assert!(list.unreserved().eq([Bucket(5), Bucket(5)]) && list.placed().next().is_none());
    }

    /// A snapshot stands in the extents alone.
    #[test]
    fn snapshots() {
        for tree in Tree::ALL {
            let mut key = Key::new(key_type::SET, Position::new(1, 2));
            key.position.snapshot = u32::MAX;
            let keys = vec![(tree, key)];
            let batches = vec![Batch {
                keys,
                ..Batch::default()
            }];
            let bytes = ChangeList { batches }.to_bytes();
            let read = ChangeListRef::read(&bytes).is_ok();
            assert_eq!(read, tree == Tree::Extents);
        }
    }
}
