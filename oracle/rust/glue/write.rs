use crate::bkey::{key_type, Bkey, Bpos};
use crate::device::{BlockDevice, Reserved, Stored};
use crate::error::{Error, Result};
use crate::extent::DataExtent;
use lists::call_list::CallList;
use lists::change_list::{Batch, Placed, Row};
use std::collections::{BTreeMap, BTreeSet};

mod alloc {
    include!(concat!(env!("OUT_DIR"), "/alloc.rs"));
}

//@item src/write.rs | pub fn pos(
//@item src/write.rs | mod ids {
//@item src/write.rs | fn btree_counter_pos(
//@item src/write.rs | struct Txn {

/// Stand-in: 40 plus the value's length.
fn unpacked_bytes(k: &Bkey) -> i64 {
    40 + k.value.len() as i64
}

impl Txn {
    /// Stand-in: add an amount at a place of a row of zeros.
    fn count(&mut self, pos: Bpos, n: usize, i: usize, delta: i64) {
        self.acct.entry(pos).or_insert_with(|| vec![0; n])[i] += delta;
    }

    //@item src/write.rs | fn count_key(
    //@item src/write.rs | fn put(
    //@item src/write.rs | fn put_uncounted(
    //@item src/write.rs | fn delete_uncounted(
}

/// A piece as `allocate_data` holds it; what is stored is the checksum given for it.
pub struct Piece {
    pub file_sector: u64,
    pub sectors: u64,
    pub stored: Stored,
    pub stored_sectors: u64,
    pub compression: u8,
}

/// What the functions read of the superblock.
struct Superblock {
    block_size: u16,
}

/// What the functions read and change of a writer, filled from a call list.
pub struct Writer<D: BlockDevice> {
    dev: D,
    sb: Superblock,
    journal_seq: u64,
    reclaiming: Option<BTreeSet<u64>>,
    reserved: Reserved,
    bucket: u16,
    reserve: u32,
    batch: u32,
    trees: BTreeMap<u8, Vec<Bkey>>,
    roots: BTreeSet<u8>,
    made: Vec<u8>,
    batches: Vec<Batch>,
}

impl<D: BlockDevice> Writer<D> {
    /// A writer over the volume of a call list.
    pub fn new(dev: D, list: &CallList) -> Self {
        let roots = [(1, 10), (2, 12), (4, 14)];
        let keys = |keys: &Vec<lists::key::Key>| keys.iter().map(bkey).collect();
        Writer {
            dev,
            sb: Superblock {
                block_size: list.head.block,
            },
            journal_seq: list.head.journal,
            reclaiming: None,
            reserved: Reserved::new(&list.reserved),
            bucket: list.head.bucket,
            reserve: list.head.reserve,
            batch: list.head.batch,
            trees: list.trees.iter().map(|(&t, k)| (t, keys(k))).collect(),
            roots: roots
                .iter()
                .filter(|(bit, _)| list.head.roots & bit != 0)
                .map(|&(_, id)| id)
                .collect(),
            made: Vec::new(),
            batches: Vec::new(),
        }
    }

    /// `allocate_data`, committed: the batches of a placement.
    pub fn place(
        &mut self,
        ino: u64,
        opts: (u64, u64),
        base: u64,
        pieces: Vec<Piece>,
    ) -> Result<Vec<Batch>> {
        let mut t = Txn::default();
        let sectors = self.allocate_data(ino, opts, base, pieces, &mut t)?;
        self.commit(t)?;
        let batch = self.batches.last_mut().expect("commit adds a batch");
        batch.sectors.push(sectors);
        Ok(std::mem::take(&mut self.batches))
    }

    /// `free_and_cut`, committed: the batches of a release.
    pub fn release(&mut self, data: &[DataExtent]) -> Result<Vec<Batch>> {
        let mut t = Txn::default();
        self.free_and_cut(data, &mut t)?;
        self.commit(t)?;
        Ok(std::mem::take(&mut self.batches))
    }

    /// `discard_freed`, which commits each batch itself.
    pub fn discard(&mut self) -> Result<Vec<Batch>> {
        self.discard_freed()?;
        Ok(std::mem::take(&mut self.batches))
    }

    /// `bucket_gen` of each bucket.
    pub fn generations(&self, buckets: &[u32]) -> Result<Vec<u8>> {
        let buckets = buckets.iter().map(|&bucket| u64::from(bucket));
        buckets.map(|bucket| self.bucket_gen(bucket)).collect()
    }

    /// The bucket size of the call list.
    fn bucket_sectors(&self) -> Result<u64> {
        Ok(u64::from(self.bucket))
    }

    /// The journal reserve of the call list.
    fn reclaim_reserve(&self) -> Result<u64> {
        Ok(u64::from(self.reserve))
    }

    /// The batch of the call list.
    fn discard_batch(&self) -> Result<usize> {
        Ok(self.batch as usize)
    }

    /// The keys of a btree, read whether it has a root or not.
    fn keys(&self, id: u8) -> Result<Vec<Bkey>> {
        Ok(self.trees.get(&id).cloned().unwrap_or_default())
    }

    /// Whether a btree has a root.
    fn root(&self, id: u8) -> Result<()> {
        if self.roots.contains(&id) {
            return Ok(());
        }
        Err(Error::NotFound(format!("btree {id} has no root")))
    }

    /// Stand-in: note the id, whose root then exists.
    fn create_root(&mut self, id: u8, _t: &mut Txn) -> Result<()> {
        self.roots.insert(id);
        self.made.push(id);
        Ok(())
    }

    /// Close a batch: the transaction's keys and rows, and what was noted since the last one.
    fn commit(&mut self, t: Txn) -> Result<()> {
        let placed = self.placed(&t);
        let keys = t.keys.iter();
        let rows = t.acct.iter().filter(|(_, n)| n.iter().any(|&x| x != 0));
        self.batches.push(Batch {
            keys: keys
                .flat_map(|(&tree, keys)| keys.iter().map(move |k| (tree, key(k))))
                .collect(),
            roots: std::mem::take(&mut self.made),
            taken: std::mem::take(&mut self.reserved.taken),
            placed,
            rows: rows
                .map(|(at, numbers)| Row {
                    inode: at.inode,
                    offset: at.offset,
                    numbers: numbers.clone(),
                })
                .collect(),
            sectors: Vec::new(),
            unreserved: std::mem::take(&mut self.reserved.removed),
        });
        Ok(())
    }

    /// The pieces written to the device, each with the generation in its extent's pointer.
    fn placed(&self, t: &Txn) -> Vec<Placed> {
        let none = Vec::new();
        let extents = t.keys.get(&ids::EXTENTS).unwrap_or(&none);
        assert_eq!(extents.len(), self.dev.written().len());
        let pieces = self.dev.written().iter().zip(extents);
        pieces
            .map(|(&(sector, stored), extent)| Placed {
                sector,
                stored: stored as u16,
                bucket: (sector / u64::from(self.bucket)) as u32,
                generation: *extent.value.last().expect("an extent has a pointer"),
            })
            .collect()
    }
}

/// A key of a call list as the Rust holds it.
fn bkey(k: &lists::key::Key) -> Bkey {
    Bkey {
        key_type: k.key_type,
        size: k.size,
        version_hi: k.version_hi,
        version_lo: k.version_lo,
        pos: Bpos {
            inode: k.inode,
            offset: k.offset,
            snapshot: k.snapshot,
        },
        value: k.value.clone(),
    }
}

/// A key of the Rust as a change list holds it.
fn key(k: &Bkey) -> lists::key::Key {
    lists::key::Key {
        key_type: k.key_type,
        size: k.size,
        version_hi: k.version_hi,
        version_lo: k.version_lo,
        inode: k.pos.inode,
        offset: k.pos.offset,
        snapshot: k.pos.snapshot,
        value: k.value.clone(),
    }
}
