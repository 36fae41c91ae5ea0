//! Call lists, which every call reads, and volumes, which are call lists without requests.

use crate::call_list_ref::{CallListRef, RESERVED};
use crate::fields::put;
use crate::head::{Call, Head};
use crate::key::{Key, Position, Tree};
use crate::kinds::Bucket;
use crate::refusal::Refusal;
use crate::request::{Piece, Released};
use std::collections::{BTreeMap, BTreeSet};
use std::ops::Range;

/// A call list, or a volume where it has no requests. Keys and reserved buckets are kept in the order
/// of the list's sorted form.
#[derive(Debug, Clone, PartialEq, Eq, Default)]
pub struct CallList {
    /// What it says of the volume and of the call.
    pub head: Head,
    keys: BTreeMap<(Tree, Position), Key>,
    reserved: BTreeSet<Bucket>,
    /// The pieces to place, in order.
    pub pieces: Vec<Piece>,
    /// The pieces to release, in order.
    pub released: Vec<Released>,
}

impl CallList {
    /// A list with its head, and nothing else.
    pub fn new(head: Head) -> CallList {
        CallList {
            head,
            ..CallList::default()
        }
    }

    /// Add a key to a tree; gives the key that stood at its position. A call list with a key of
    /// [`Tree::Extents`], or with a snapshot other than 0, is refused.
    pub fn insert(&mut self, tree: Tree, key: Key) -> Option<Key> {
        self.keys.insert((tree, key.position), key)
    }

    /// Add a run of free buckets.
    ///
    /// # Panics
    /// Where the run ends before it begins.
    pub fn insert_run(&mut self, buckets: Range<Bucket>) {
        self.insert(Tree::Freespace, Key::run(buckets));
    }

    /// Take a key out of a tree.
    pub fn remove(&mut self, tree: Tree, position: Position) -> Option<Key> {
        self.keys.remove(&(tree, position))
    }

    /// The key at a position of a tree.
    pub fn key(&self, tree: Tree, position: Position) -> Option<&Key> {
        self.keys.get(&(tree, position))
    }

    /// The alloc key of a bucket.
    pub fn alloc(&self, bucket: Bucket) -> Option<&Key> {
        self.key(Tree::Alloc, Position::of_alloc(bucket))
    }

    /// The keys of a tree, by their positions.
    pub fn keys(&self, tree: Tree) -> impl Iterator<Item = &Key> {
        let last = Position {
            inode: u64::MAX,
            offset: u64::MAX,
            snapshot: u32::MAX,
        };
        let range = (tree, Position::default())..=(tree, last);
        self.keys.range(range).map(|(_, key)| key)
    }

    /// Reserve a bucket; false where it was reserved.
    pub fn reserve(&mut self, bucket: Bucket) -> bool {
        self.reserved.insert(bucket)
    }

    /// Give a reserved bucket back; false where it was not reserved.
    pub fn unreserve(&mut self, bucket: Bucket) -> bool {
        self.reserved.remove(&bucket)
    }

    /// The reserved buckets, by their numbers.
    pub fn reserved(&self) -> impl Iterator<Item = Bucket> + '_ {
        self.reserved.iter().copied()
    }

    /// The list without its requests: what apply takes.
    pub fn volume(&self) -> CallList {
        CallList {
            pieces: Vec::new(),
            released: Vec::new(),
            ..self.clone()
        }
    }

    /// A list of the same volume that asks for a call, with no requests yet.
    pub fn asking(&self, call: Call) -> CallList {
        let mut list = self.volume();
        list.head.call = call;
        list
    }

    /// The list's bytes: its sorted form.
    ///
    /// # Panics
    /// Where a key's value has more than 65,498 bytes.
    pub fn to_bytes(&self) -> Vec<u8> {
        let mut out = Vec::new();
        self.head.put(&mut out);
        for ((tree, _), key) in &self.keys {
            key.put(*tree, &mut out);
        }
        for bucket in &self.reserved {
            put(&mut out, RESERVED, &[&bucket.0.to_le_bytes()]);
        }
        for piece in &self.pieces {
            piece.put(&mut out);
        }
        for released in &self.released {
            released.put(&mut out);
        }
        out
    }

    /// The list in `bytes`, of whichever call, its fields in any order. [`CallListRef`] reads a list
    /// without copying it.
    ///
    /// # Errors
    /// As the calls refuse it: [`Refusal::BrokenLayout`] where the bytes break the layout of a call
    /// list, and [`Refusal::StandsTwice`] where two keys of a tree stand at one position or a reserved
    /// bucket stands twice.
    pub fn read(bytes: &[u8]) -> Result<CallList, Refusal> {
        let list = CallListRef::read(bytes)?;
        let of_tree = |tree| list.keys(tree).map(move |key| (tree, key));
        let keys = Tree::STORED.into_iter().flat_map(of_tree);
        Ok(CallList {
            head: list.head(),
            keys: keys
                .map(|(tree, key)| ((tree, key.position), key.to_key()))
                .collect(),
            reserved: list.reserved().collect(),
            pieces: list.pieces().collect(),
            released: list.released().collect(),
        })
    }
}

#[cfg(test)]
mod tests {
    use super::{Call, CallList, Head, Piece, Released};
    use crate::fields::put;
    use crate::head::Roots;
    use crate::key::{key_type, Key, Position, Tree};
    use crate::kinds::{Bucket, DeviceSector, FileSector};
    use crate::refusal::Refusal;

    /// A list with every part set.
    fn list() -> CallList {
        let mut list = CallList::new(Head {
            call: Call::Release,
            bucket_sectors: 128,
            block_sectors: 8,
            checksum_option: 3,
            roots: Roots::from_bits(5).expect("bits below 8"),
            journal_reserve: 4,
            batch: 5,
            journal: 6,
            inode: 7,
            base: FileSector(8),
        });
        list.insert_run(Bucket(30)..Bucket(70));
        list.insert_run(Bucket(0)..Bucket(20));
        for tree in [Tree::BucketGens, Tree::Alloc, Tree::Lru] {
            let mut key = Key::new(key_type::ALLOC_V4, Position::new(1, 9));
            key.value = vec![3; 64];
            list.insert(tree, key);
        }
        list.reserve(Bucket(300));
        list.reserve(Bucket(2));
        list.released = vec![Released {
            first: DeviceSector(1 << 40),
            sectors: 96,
        }];
        list
    }

    /// A list is read again, and so is its volume.
    #[test]
    fn round_trip() {
        let list = list();
        assert_eq!(CallList::read(&list.to_bytes()), Ok(list.clone()));
        let volume = list.volume();
        assert!(volume.released.is_empty());
        assert_eq!(CallList::read(&volume.to_bytes()), Ok(volume));
        let mut placing = list.asking(Call::Place);
        placing.pieces.push(Piece::plain(9, u64::MAX));
        assert_eq!(CallList::read(&placing.to_bytes()), Ok(placing));
    }

    /// The bytes of a head: docs/FORMAT.md, "Call list".
    #[test]
    fn head_bytes() {
        let bytes = list().to_bytes();
        let head = [
            1, 39, 0, 2, 128, 0, 8, 0, 3, 5, 4, 0, 0, 0, 5, 0, 0, 0, 6, 0, 0, 0, 0, 0, 0, 0, 7, 0,
            0, 0, 0, 0, 0, 0, 8, 0, 0, 0, 0, 0, 0, 0,
        ];
        assert_eq!(bytes[..42], head);
    }

    /// Keys and reserved buckets are given in order.
    #[test]
    fn order() {
        let list = list();
        let ends: Vec<u64> = list
            .keys(Tree::Freespace)
            .map(|k| k.position.offset)
            .collect();
        assert_eq!(ends, [20, 70]);
        assert_eq!(list.keys(Tree::Backpointers).count(), 0);
        assert_eq!(
            list.reserved().collect::<Vec<_>>(),
            [Bucket(2), Bucket(300)]
        );
    }

    /// Keys and reserved buckets are taken out again.
    #[test]
    fn removal() {
        let mut list = list();
        let end = Position::of_run(Bucket(20));
        assert_eq!(list.remove(Tree::Freespace, end).map(|k| k.size), Some(20));
        assert_eq!(list.key(Tree::Freespace, end), None);
        assert!(list.unreserve(Bucket(2)) && !list.unreserve(Bucket(2)));
        assert!(!list.reserve(Bucket(300)));
    }

    /// Each break of the layout is an error.
    #[test]
    fn broken_lists() {
        let good = list().to_bytes();
        let mut lists: Vec<Vec<u8>> = (0..42).map(|n| good[..n].to_vec()).collect();
        lists.push([&good[..42], &good].concat());
        for (at, byte) in [(3, 0), (3, 4), (9, 8), (1, 38), (0, 0), (0, 2)] {
            let mut bad = good.clone();
            bad[at] = byte;
            lists.push(bad);
        }
        for (tag, body) in [(0, 37), (64, 3), (65, 12), (66, 11), (67, 0), (76, 0)] {
            let mut bad = good.clone();
            put(&mut bad, tag, &[&vec![0; body]]);
            lists.push(bad);
        }
        for bad in lists {
            assert_eq!(CallList::read(&bad), Err(Refusal::BrokenLayout));
        }
    }

    /// Fields in any order give the list, and bytes that are in order; one that stands twice is refused.
    #[test]
    fn any_order() {
        let list = list();
        let bytes = list.to_bytes();
        let (head, rest) = bytes.split_at(42);
        let mixed = [rest, head].concat();
        let read = CallList::read(&mixed);
        assert_eq!(read.as_ref().map(CallList::to_bytes), Ok(bytes.clone()));
        assert_eq!(read, Ok(list));
        let mut twice = mixed;
        put(&mut twice, 64, &[&300u32.to_le_bytes()]);
        assert_eq!(CallList::read(&twice), Err(Refusal::StandsTwice));
    }

    /// Every stored list is read just where the model reads it, and gives the bytes of its sorted form.
    #[test]
    fn stored_lists() {
        for name in ["place", "release", "discard", "sort"] {
            let path = format!("{}/../vectors/{name}.txt", env!("CARGO_MANIFEST_DIR"));
            let text = std::fs::read_to_string(&path).expect("the vectors are there");
            for v in lists::vectors::calls(&text) {
                let due = match lists::call_list::CallList::read(&v.list) {
                    None => Err(Refusal::BrokenLayout),
                    Some(list) if list.stands_twice() => Err(Refusal::StandsTwice),
                    Some(_) => Ok(lists::sort::sorted_form(&v.list).expect("whole fields")),
                };
                let read = CallList::read(&v.list).map(|list| list.to_bytes());
                assert_eq!(read, due, "{}", v.id);
            }
        }
    }
}
