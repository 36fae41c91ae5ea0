//! Call lists and volumes read where they stand.

use crate::buckets::Buckets;
use crate::fault::{self, Fault};
use crate::fields::{put, require, Bodies, Body, BrokenLayout, Fields, Stretch};
use crate::head::{Head, HEAD};
use crate::key::{Position, Tree};
use crate::key_ref::{KeyRef, Keys};
use crate::kinds::Bucket;
use crate::limits::{KEY_BODY, MAX_VALUE};
use crate::live::Live;
use crate::refusal::Refusal;
use crate::request::{Piece, Released, PIECE, RELEASED};
use crate::usage::Usage;
use std::borrow::Cow;
use std::ops::RangeInclusive;

/// The tag of reserved buckets.
pub(crate) const RESERVED: u8 = 64;

/// How long the bodies of keys, reserved buckets and requests are.
const KEY: RangeInclusive<usize> = KEY_BODY..=KEY_BODY + MAX_VALUE;
const BUCKET: RangeInclusive<usize> = 4..=4;
const PIECE_BODY: RangeInclusive<usize> = 13..=13;
const RELEASED_BODY: RangeInclusive<usize> = 10..=10;

/// A call list, or a volume where it has no requests, read where it stands: no key is copied, and keys
/// are read as they are asked for. Its fields may stand in any order; where they are in order, as apply
/// and sort write them, nothing is noted of them but where each tag begins.
/// [`CallList`](crate::CallList) holds a list of its own and can be changed.
#[derive(Debug, Clone)]
pub struct CallListRef<'a> {
    head: Head,
    trees: [Stretch<'a>; Tree::STORED.len()],
    reserved: Stretch<'a>,
    pieces: Stretch<'a>,
    released: Stretch<'a>,
    volume: Cow<'a, [u8]>,
}

impl<'a> CallListRef<'a> {
    /// The list in `bytes`, of whichever call, its fields in any order.
    ///
    /// # Errors
    /// As the calls refuse it: [`Refusal::BrokenLayout`] where the bytes break the layout of a call
    /// list, and [`Refusal::StandsTwice`] where two keys of a tree stand at one position or a reserved
    /// bucket stands twice.
    pub fn read(bytes: &'a [u8]) -> Result<CallListRef<'a>, Refusal> {
        match CallListRef::split(bytes) {
            Ok(list) if list.is_in_order() => Ok(list),
            _ => Gathered::read(bytes)?.list(bytes),
        }
    }

    /// The list in `bytes`, where the order of fields, keys and reserved buckets is known to be right.
    pub(crate) fn split(bytes: &'a [u8]) -> Result<CallListRef<'a>, BrokenLayout> {
        let mut fields = Fields::new(bytes);
        let (tag, body) = fields.next().ok_or(BrokenLayout)??;
        require(tag == HEAD)?;
        let mut trees = [const { Stretch::Together(&[]) }; Tree::STORED.len()];
        for (keys, tree) in trees.iter_mut().zip(Tree::STORED) {
            *keys = Stretch::Together(fields.stretch(tree.tag(), KEY)?);
        }
        let reserved = fields.stretch(RESERVED, BUCKET)?;
        let volume = bytes.len() - fields.left();
        let pieces = fields.stretch(PIECE, PIECE_BODY)?;
        let released = fields.stretch(RELEASED, RELEASED_BODY)?;
        fields.end()?;
        Ok(CallListRef {
            head: Head::read(body)?,
            trees,
            reserved: Stretch::Together(reserved),
            pieces: Stretch::Together(pieces),
            released: Stretch::Together(released),
            volume: Cow::Borrowed(&bytes[..volume]),
        })
    }

    /// Keys stand together and ascend, snapshots are 0, and reserved buckets ascend.
    fn is_in_order(&self) -> bool {
        let keys = |keys: &Stretch<'a>| keys.together().is_some_and(in_order);
        self.trees.iter().all(keys) && self.reserved().is_sorted_by(|a, b| a < b)
    }

    /// What it says of the volume and of the call.
    pub fn head(&self) -> Head {
        self.head
    }

    /// The list's bytes without its requests: what apply takes.
    pub fn volume(&self) -> &[u8] {
        &self.volume
    }

    /// The keys of a tree, by their positions; none for the extents, which stand in change lists alone.
    pub fn keys(&self, tree: Tree) -> Keys<'a> {
        let at = Tree::STORED.iter().position(|&stored| stored == tree);
        Keys::new(at.map_or(Bodies::together(&[]), |at| self.trees[at].bodies()))
    }

    /// The key at a position of a tree.
    pub fn key(&self, tree: Tree, position: Position) -> Option<KeyRef<'a>> {
        let mut keys = self.keys(tree);
        let found = keys.find(|key| key.position >= position);
        found.filter(|key| key.position == position)
    }

    /// The alloc key of a bucket.
    pub fn alloc(&self, bucket: Bucket) -> Option<KeyRef<'a>> {
        self.key(Tree::Alloc, Position::of_alloc(bucket))
    }

    /// The reserved buckets, by their numbers.
    pub fn reserved(&self) -> impl Iterator<Item = Bucket> + 'a {
        read_all(&self.reserved, |mut body| body.u32().map(Bucket))
    }

    /// The pieces to place, in the order of the list.
    pub fn pieces(&self) -> impl Iterator<Item = Piece> + 'a {
        read_all(&self.pieces, Piece::read)
    }

    /// The pieces to release, in the order of the list.
    pub fn released(&self) -> impl Iterator<Item = Released> + 'a {
        read_all(&self.released, Released::read)
    }

    /// The live pieces, by their first sectors: those that backpointers name.
    pub fn live(&self) -> impl Iterator<Item = Live> + 'a {
        self.keys(Tree::Backpointers)
            .filter_map(Live::of_backpointer)
    }

    /// What it says of each bucket.
    pub fn buckets(&self) -> Buckets {
        Buckets::of(self)
    }

    /// How many buckets are free, in use, waiting and reserved.
    pub fn usage(&self) -> Usage {
        Usage::of(self)
    }

    /// That its keys and reserved buckets agree with each other as they do on every volume that a
    /// history from a clean volume reaches: [`Volume::open`](crate::Volume::open) says how far.
    ///
    /// # Errors
    /// The first fault found.
    pub fn check(&self) -> Result<(), Fault> {
        fault::check(self)
    }
}

/// What stands in each field of a stretch.
fn read_all<'a, T>(
    stretch: &Stretch<'a>,
    read: impl Fn(Body<'a>) -> Result<T, BrokenLayout> + 'a,
) -> impl Iterator<Item = T> + 'a {
    stretch.bodies().filter_map(move |body| read(body).ok())
}

/// Each key stands above the one before it, and has snapshot 0.
fn in_order(keys: Fields) -> bool {
    let mut last: Option<Position> = None;
    let mut positions = keys.map(|field| Ok(KeyRef::read(field?.1)?.position));
    positions.all(|position: Result<Position, BrokenLayout>| {
        position.is_ok_and(|position| {
            let above = last.is_none_or(|last| last < position);
            last = Some(position);
            above && position.snapshot == 0
        })
    })
}

/// The bodies of a list's fields by tag, those of trees with their positions and those of reserved
/// buckets with their numbers.
#[derive(Default)]
struct Gathered<'a> {
    head: Option<Head>,
    trees: [Vec<(Position, &'a [u8])>; Tree::STORED.len()],
    reserved: Vec<(Bucket, &'a [u8])>,
    pieces: Vec<&'a [u8]>,
    released: Vec<&'a [u8]>,
}

impl<'a> Gathered<'a> {
    /// The fields of a list in any order.
    fn read(bytes: &'a [u8]) -> Result<Gathered<'a>, BrokenLayout> {
        let mut gathered = Gathered::default();
        for field in Fields::new(bytes) {
            let (tag, body) = field?;
            gathered.take(tag, body.rest())?;
        }
        Ok(gathered)
    }

    /// Take a field's body.
    fn take(&mut self, tag: u8, body: &'a [u8]) -> Result<(), BrokenLayout> {
        match tag {
            HEAD => {
                require(self.head.is_none())?;
                self.head = Some(Head::read(Body::new(body))?);
            }
            RESERVED => {
                require(BUCKET.contains(&body.len()))?;
                self.reserved.push((Bucket(Body::new(body).u32()?), body));
            }
            PIECE => {
                require(PIECE_BODY.contains(&body.len()))?;
                self.pieces.push(body);
            }
            RELEASED => {
                require(RELEASED_BODY.contains(&body.len()))?;
                self.released.push(body);
            }
            tree => {
                let at = Tree::STORED.iter().position(|stored| stored.tag() == tree);
                let keys = at.map(|at| &mut self.trees[at]).ok_or(BrokenLayout)?;
                let position = KeyRef::read(Body::new(body))?.position;
                require(position.snapshot == 0)?;
                keys.push((position, body));
            }
        }
        Ok(())
    }

    /// The list with its keys and reserved buckets in order, none of which stands twice.
    fn list(self, bytes: &'a [u8]) -> Result<CallListRef<'a>, Refusal> {
        let head = self.head.ok_or(BrokenLayout)?;
        let volume = self.volume(bytes);
        let mut trees = [const { Stretch::Together(&[]) }; Tree::STORED.len()];
        for (keys, gathered) in trees.iter_mut().zip(self.trees) {
            *keys = sorted(gathered)?;
        }
        Ok(CallListRef {
            head,
            trees,
            reserved: sorted(self.reserved)?,
            pieces: Stretch::Apart(self.pieces.into()),
            released: Stretch::Apart(self.released.into()),
            volume,
        })
    }

    /// The list's bytes without its requests, which may stand between other fields.
    fn volume(&self, bytes: &'a [u8]) -> Cow<'a, [u8]> {
        if self.pieces.is_empty() && self.released.is_empty() {
            return Cow::Borrowed(bytes);
        }
        let mut volume = Vec::with_capacity(bytes.len());
        for (tag, body) in Fields::new(bytes).flatten() {
            if tag != PIECE && tag != RELEASED {
                put(&mut volume, tag, &[body.rest()]);
            }
        }
        Cow::Owned(volume)
    }
}

/// Bodies by what they stand by, of which no two are the same.
fn sorted<'a, T: Ord>(mut bodies: Vec<(T, &'a [u8])>) -> Result<Stretch<'a>, Refusal> {
    bodies.sort_by(|a, b| a.0.cmp(&b.0));
    if bodies.windows(2).any(|two| two[0].0 == two[1].0) {
        return Err(Refusal::StandsTwice);
    }
    let bodies = bodies.into_iter().map(|(_, body)| body);
    Ok(Stretch::Apart(bodies.collect()))
}

#[cfg(test)]
mod tests {
    use super::CallListRef;
    use crate::call_list::CallList;
    use crate::key::{key_type, Key, Position, Tree};
    use crate::kinds::Bucket;
    use crate::refusal::Refusal;
    use crate::request::Piece;
    use crate::{Call, Head};

    /// A placement with two runs, an alloc key, a reserved bucket and a piece.
    fn list() -> CallList {
        let mut list = CallList::new(Head::default());
        list.insert_run(Bucket(0)..Bucket(20));
        list.insert_run(Bucket(30)..Bucket(70));
        let mut alloc = Key::new(key_type::ALLOC_V4, Position::of_alloc(Bucket(9)));
        alloc.value = (0..64).collect();
        list.insert(Tree::Alloc, alloc);
        list.reserve(Bucket(7));
        list.pieces.push(Piece::plain(5, 6));
        list
    }

    /// Each part is the one that was put, and the value is the list's own bytes.
    #[test]
    fn parts() {
        let list = list();
        let bytes = list.to_bytes();
        let read = CallListRef::read(&bytes).expect("a list");
        assert_eq!(
            (read.head().call, read.keys(Tree::Lru).count()),
            (Call::Place, 0)
        );
        let alloc = read.alloc(Bucket(9)).expect("its key");
        assert_eq!(
            (alloc.generation(), alloc.data_type()),
            (Some(12), Some(14))
        );
        assert!(bytes.as_ptr_range().contains(&alloc.value.as_ptr()));
        assert_eq!(read.alloc(Bucket(8)), None);
        let runs: Vec<_> = read
            .keys(Tree::Freespace)
            .filter_map(|key| key.run())
            .collect();
        assert_eq!(runs, [Bucket(0)..Bucket(20), Bucket(30)..Bucket(70)]);
        assert!(read.reserved().eq([Bucket(7)]) && read.pieces().eq([Piece::plain(5, 6)]));
        assert_eq!(read.released().count(), 0);
        assert_eq!(read.volume(), list.volume().to_bytes());
    }

    /// The fields of a list.
    fn fields(bytes: &[u8]) -> Vec<&[u8]> {
        let (mut fields, mut rest) = (Vec::new(), bytes);
        while !rest.is_empty() {
            let length = 3 + usize::from(u16::from_le_bytes([rest[1], rest[2]]));
            fields.push(&rest[..length]);
            rest = &rest[length..];
        }
        fields
    }

    /// In any order of its fields a list has the same parts, its values where they stand.
    #[test]
    fn any_order() {
        let mut list = list();
        list.reserve(Bucket(3));
        list.pieces.push(Piece::plain(9, 9));
        let bytes = list.to_bytes();
        let fields = fields(&bytes);
        for by in 0..fields.len() {
            let mut turned = fields.clone();
            turned.rotate_left(by);
            // Requests stay in their order.
            let requests = turned.iter().filter(|field| field[0] == 65);
            let swapped = !requests.eq(fields.iter().filter(|field| field[0] == 65));
            let turned = turned.concat();
            let read = CallListRef::read(&turned).expect("a list");
            assert_eq!(read.head(), list.head);
            for tree in Tree::STORED {
                let keys = read.keys(tree).map(|key| key.to_key());
                assert!(keys.eq(list.keys(tree).cloned()));
            }
            assert!(read.reserved().eq([Bucket(3), Bucket(7)]));
            let pieces: Vec<Piece> = read.pieces().collect();
            assert_eq!(pieces == list.pieces, !swapped);
            let alloc = read.alloc(Bucket(9)).expect("its key");
            assert!(turned.as_ptr_range().contains(&alloc.value.as_ptr()));
            let volume = CallListRef::read(read.volume()).expect("a volume");
            assert!(volume.pieces().next().is_none() && volume.head() == list.head);
            assert_eq!(read.volume().len(), list.volume().to_bytes().len());
            assert_eq!(
                CallList::read(&turned).map(|l| l.volume()),
                Ok(list.volume())
            );
        }
    }

    /// A snapshot other than 0 breaks the layout; a position or a reserved bucket that stands twice, near
    /// or apart, is refused after it.
    #[test]
    fn refusals() {
        let read = |bytes: &[u8]| CallListRef::read(bytes).map(|_| ());
        let mut snapshot = list();
        let mut key = Key::run(Bucket(90)..Bucket(95));
        key.position.snapshot = 1;
        snapshot.insert(Tree::Freespace, key);
        assert_eq!(read(&snapshot.to_bytes()), Err(Refusal::BrokenLayout));
        let bytes = list().volume().to_bytes();
        let fields = fields(&bytes);
        let (head, doubles) = (fields[0], &fields[1..]);
        assert_eq!(doubles.len(), 4);
        for field in doubles {
            let twice = [&bytes[..], field].concat();
            assert_eq!(read(&twice), Err(Refusal::StandsTwice));
            let mut other = [field, &bytes[..]].concat();
            assert_eq!(read(&other), Err(Refusal::StandsTwice));
            if field[0] != 64 {
                other[3] ^= 1;
                assert_eq!(read(&other), Err(Refusal::StandsTwice));
                other[36] = 1;
                assert_eq!(read(&other), Err(Refusal::BrokenLayout));
            }
        }
        let two_heads = [&bytes[..], head].concat();
        assert_eq!(read(&two_heads), Err(Refusal::BrokenLayout));
        assert_eq!(read(&bytes[head.len()..]), Err(Refusal::BrokenLayout));
    }
}
