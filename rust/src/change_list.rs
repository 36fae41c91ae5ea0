//! Change lists, which the calls write and apply reads.

use crate::change_list_ref::{ChangeField, ChangeListRef};
use crate::fields::{put, Body, BrokenLayout};
use crate::key::{Key, Tree};
use crate::kinds::{Bucket, DeviceSector};

/// The tags beside those of the trees.
pub(crate) mod tag {
    pub(crate) const ROOT: u8 = 70;
    pub(crate) const TAKEN: u8 = 71;
    pub(crate) const PLACED: u8 = 72;
    pub(crate) const ROW: u8 = 73;
    pub(crate) const FILE_SECTORS: u8 = 74;
    pub(crate) const UNRESERVED: u8 = 75;
    pub(crate) const END: u8 = 76;
}

/// A root that a change makes.
#[derive(Debug, Clone, Copy, PartialEq, Eq, Hash)]
#[repr(u8)]
pub enum Root {
    /// The LRU tree's.
    Lru = 10,
    /// The need-discard tree's.
    NeedDiscard = 12,
    /// The bucket generations' tree's.
    BucketGens = 14,
}

impl Root {
    /// The root of an id.
    pub fn from_id(id: u8) -> Option<Root> {
        let roots = [Root::Lru, Root::NeedDiscard, Root::BucketGens];
        roots.into_iter().find(|&root| root as u8 == id)
    }
}

/// Where a piece was placed.
#[derive(Debug, Clone, Copy, PartialEq, Eq, Hash)]
pub struct Placed {
    /// Its first sector.
    pub first: DeviceSector,
    /// How many sectors it takes.
    pub stored_sectors: u16,
    /// Its bucket.
    pub bucket: Bucket,
    /// The bucket's generation.
    pub generation: u8,
}

impl Placed {
    /// The placed piece in a field's body.
    pub(crate) fn read(mut body: Body) -> Result<Placed, BrokenLayout> {
        let placed = Placed {
            first: DeviceSector(body.u64()?),
            stored_sectors: body.u16()?,
            bucket: Bucket(body.u32()?),
            generation: body.u8()?,
        };
        body.end()?;
        Ok(placed)
    }

    /// Append the placed piece's field.
    fn put(&self, out: &mut Vec<u8>) {
        let parts: [&[u8]; 4] = [
            &self.first.0.to_le_bytes(),
            &self.stored_sectors.to_le_bytes(),
            &self.bucket.0.to_le_bytes(),
            &[self.generation],
        ];
        put(out, tag::PLACED, &parts);
    }
}

/// What a change adds to an accounting row.
#[derive(Debug, Clone, Copy, PartialEq, Eq, Hash)]
pub enum Counters {
    /// The one counter of the user sectors' row.
    One(i64),
    /// The three counters of any other row.
    Three([i64; 3]),
}

/// An accounting row.
#[derive(Debug, Clone, Copy, PartialEq, Eq, Hash)]
pub struct Row {
    /// The first part of its place.
    pub inode: u64,
    /// The second part of its place.
    pub offset: u64,
    /// What is added to its counters.
    pub counters: Counters,
}

impl Row {
    /// The row in a field's body of 24 or 40 bytes.
    pub(crate) fn read(mut body: Body) -> Result<Row, BrokenLayout> {
        let one = body.len() == 24;
        let row = Row {
            inode: body.u64()?,
            offset: body.u64()?,
            counters: if one {
                Counters::One(body.i64()?)
            } else {
                Counters::Three([body.i64()?, body.i64()?, body.i64()?])
            },
        };
        body.end()?;
        Ok(row)
    }

    /// Append the row's field.
    fn put(&self, out: &mut Vec<u8>) {
        let (inode, offset) = (self.inode.to_le_bytes(), self.offset.to_le_bytes());
        match self.counters {
            Counters::One(n) => put(out, tag::ROW, &[&inode, &offset, &n.to_le_bytes()]),
            Counters::Three(n) => {
                let [a, b, c] = n.map(i64::to_le_bytes);
                put(out, tag::ROW, &[&inode, &offset, &a, &b, &c]);
            }
        }
    }
}

/// One batch of a change list.
#[derive(Debug, Clone, PartialEq, Eq, Default)]
pub struct Batch {
    /// The keys, tree after tree, within a tree as they were queued.
    pub keys: Vec<(Tree, Key)>,
    /// The roots made.
    pub roots: Vec<Root>,
    /// The buckets taken, which become reserved.
    pub taken: Vec<Bucket>,
    /// Where the pieces were placed, in the order of the requests.
    pub placed: Vec<Placed>,
    /// The accounting rows.
    pub rows: Vec<Row>,
    /// How many file sectors a placement holds: one number there, none elsewhere.
    pub file_sectors: Vec<u64>,
    /// The buckets discarded, which are reserved no longer.
    pub unreserved: Vec<Bucket>,
}

impl Batch {
    /// Take a field other than the last.
    fn take(&mut self, field: ChangeField) {
        match field {
            ChangeField::Key(tree, key) => self.keys.push((tree, key.to_key())),
            ChangeField::Root(root) => self.roots.push(root),
            ChangeField::Taken(bucket) => self.taken.push(bucket),
            ChangeField::Placed(placed) => self.placed.push(placed),
            ChangeField::Row(row) => self.rows.push(row),
            ChangeField::FileSectors(sectors) => self.file_sectors.push(sectors),
            ChangeField::Unreserved(bucket) => self.unreserved.push(bucket),
            ChangeField::End => (),
        }
    }

    /// Append the batch: ascending tags, queue order within a tree.
    fn put(&self, out: &mut Vec<u8>) {
        for tree in Tree::ALL {
            for (_, key) in self.keys.iter().filter(|(t, _)| *t == tree) {
                key.put(tree, out);
            }
        }
        for root in &self.roots {
            put(out, tag::ROOT, &[&[*root as u8]]);
        }
        for bucket in &self.taken {
            put(out, tag::TAKEN, &[&bucket.0.to_le_bytes()]);
        }
        for placed in &self.placed {
            placed.put(out);
        }
        for row in &self.rows {
            row.put(out);
        }
        for sectors in &self.file_sectors {
            put(out, tag::FILE_SECTORS, &[&sectors.to_le_bytes()]);
        }
        for bucket in &self.unreserved {
            put(out, tag::UNRESERVED, &[&bucket.0.to_le_bytes()]);
        }
        put(out, tag::END, &[]);
    }
}

/// A change list: its batches, in order.
#[derive(Debug, Clone, PartialEq, Eq, Default)]
pub struct ChangeList {
    /// The batches.
    pub batches: Vec<Batch>,
}

impl ChangeList {
    /// Where the pieces of all batches were placed.
    pub fn placed(&self) -> impl Iterator<Item = &Placed> {
        self.batches.iter().flat_map(|batch| &batch.placed)
    }

    /// The list's bytes.
    ///
    /// # Panics
    /// Where a key's value has more than 65,498 bytes.
    pub fn to_bytes(&self) -> Vec<u8> {
        let mut out = Vec::new();
        for batch in &self.batches {
            batch.put(&mut out);
        }
        out
    }

    /// The list in `bytes`. [`ChangeListRef`] reads a list without copying it.
    ///
    /// # Errors
    /// Where the bytes break the layout of a change list.
    pub fn read(bytes: &[u8]) -> Result<ChangeList, BrokenLayout> {
        let mut list = ChangeList::default();
        let mut open = Batch::default();
        for field in ChangeListRef::read(bytes)?.fields() {
            match field {
                ChangeField::End => list.batches.push(std::mem::take(&mut open)),
                field => open.take(field),
            }
        }
        Ok(list)
    }
}

#[cfg(test)]
mod tests {
    use super::{Batch, ChangeList, Counters, Placed, Root, Row};
    use crate::fields::{put, BrokenLayout};
    use crate::key::{key_type, Key, Position, Tree};
    use crate::kinds::{Bucket, DeviceSector};

    /// A batch with every part set.
    fn batch() -> Batch {
        let mut extent = Key::new(key_type::EXTENT, Position::new(4_096, 128));
        extent.position.snapshot = u32::MAX;
        extent.value = vec![9; 24];
        let row = |counters| Row {
            inode: 3 << 56,
            offset: 5,
            counters,
        };
        Batch {
            keys: vec![
                (Tree::Extents, extent),
                (
                    Tree::Alloc,
                    Key::new(key_type::ALLOC_V4, Position::new(0, 9)),
                ),
                (
                    Tree::Alloc,
                    Key::new(key_type::DELETED, Position::new(0, 8)),
                ),
            ],
            roots: vec![Root::NeedDiscard, Root::BucketGens],
            taken: vec![Bucket(9), Bucket(70_000)],
            placed: vec![Placed {
                first: DeviceSector(1_152),
                stored_sectors: 96,
                bucket: Bucket(9),
                generation: 255,
            }],
            rows: vec![
                row(Counters::One(-1)),
                row(Counters::Three([1, -2, i64::MIN])),
            ],
            file_sectors: vec![96],
            unreserved: vec![Bucket(3)],
        }
    }

    /// Lists of none, one and several batches are read again.
    #[test]
    fn round_trip() {
        let lists = [
            vec![],
            vec![Batch::default()],
            vec![batch(), Batch::default(), batch()],
        ];
        for batches in lists {
            let list = ChangeList { batches };
            assert_eq!(ChangeList::read(&list.to_bytes()), Ok(list));
        }
        assert!(ChangeList::default().to_bytes().is_empty());
    }

    /// Keys are written tree after tree, whatever order they have.
    #[test]
    fn order() {
        let mut mixed = batch();
        mixed.keys.rotate_left(1);
        let bytes = |b: Batch| ChangeList { batches: vec![b] }.to_bytes();
        assert_eq!(bytes(mixed), bytes(batch()));
    }

    /// Each break of the layout is an error.
    #[test]
    fn broken_lists() {
        let good = ChangeList {
            batches: vec![batch()],
        }
        .to_bytes();
        let mut lists: Vec<Vec<u8>> = (1..good.len()).map(|n| good[..n].to_vec()).collect();
        let fields: [(u8, usize); 12] = [
            (70, 0),
            (70, 1),
            (71, 3),
            (72, 14),
            (73, 32),
            (73, 48),
            (74, 7),
            (75, 5),
            (76, 1),
            (1, 39),
            (64, 4),
            (77, 0),
        ];
        for (tag, body) in fields {
            let mut bad = Vec::new();
            put(&mut bad, tag, &[&vec![0; body]]);
            put(&mut bad, 76, &[]);
            lists.push(bad);
        }
        let mut descends = Vec::new();
        for (tag, body) in [(75, &[0; 4][..]), (70, &[10]), (76, &[])] {
            put(&mut descends, tag, &[body]);
        }
        lists.push(descends);
        for bad in lists {
            assert_eq!(ChangeList::read(&bad), Err(BrokenLayout), "{bad:?}");
        }
    }

    /// Every stored change list is read just where the model reads it, and gives its bytes again.
    #[test]
    fn stored_lists() {
        let path = format!("{}/../vectors/apply.txt", env!("CARGO_MANIFEST_DIR"));
        let text = std::fs::read_to_string(&path).expect("the vectors are there");
        for v in lists::vectors::applies(&text) {
            let read = ChangeList::read(&v.change);
            let model = lists::change_list::read(&v.change);
            assert_eq!(read.is_ok(), model.is_some(), "{}", v.id);
            if let Ok(list) = read {
                assert_eq!(list.to_bytes(), v.change, "{}", v.id);
            }
        }
    }
}
