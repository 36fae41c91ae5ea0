use super::{ids, pos, Piece, Txn, Writer};
use crate::bkey::{key_type, Bkey, Bpos};
use crate::device::BlockDevice;
use crate::error::{Error, Result};
use crate::extent::DataExtent;
use crate::util::le64;

//@item src/write_alloc.rs | pub(super) mod aids {
//@item src/write_alloc.rs | pub(super) const MAX_EXTENT_SECTORS
//@item src/write_alloc.rs | pub(super) const DATA_USER
//@item src/write_alloc.rs | const ALLOC_FLAGS_USER
//@item src/write_alloc.rs | fn acct_replicas_user(
//@item src/write_alloc.rs | pub(super) fn acct_dev_data_type(
//@item src/write_alloc.rs | fn acct_inum(
//@item src/write_alloc.rs | pub(super) struct Planned {
//@item src/write_alloc.rs | pub(super) const NODE_RESERVE
//@item src/write_alloc.rs | fn backpointer(
//@item src/write_alloc.rs | pub(super) const DATA_NEED_DISCARD
//@item src/write_alloc.rs | const NEED_DISCARD
//@item src/write_alloc.rs | pub(super) fn acct_compression(

impl<D: BlockDevice> Writer<D> {
    //@item src/write_alloc.rs | pub(super) fn take_buckets(
    //@item src/write_alloc.rs | pub(super) fn bucket_gen(
    //@item src/write_alloc.rs | pub(super) fn write_clock(

    /// `allocate_data` with its pieces given.
    pub(super) fn allocate_data(
        &mut self,
        ino: u64,
        opts: (u64, u64),
        base: u64,
        pieces: Vec<Piece>,
        t: &mut Txn,
    ) -> Result<u64> {
        //@until src/write_alloc.rs | pub(super) fn allocate_data( | let bucket = self.bucket_sectors()?; | let sectors = (data.len() as u64)
        let sectors: u64 = pieces.iter().map(|p| p.sectors).sum();
        //@rest src/write_alloc.rs | pub(super) fn allocate_data( | let mut layout: Vec<(usize, u64)>
    }

    /// `free_and_cut` from the sum per bucket on, its extents given.
    pub(super) fn free_and_cut(&mut self, data: &[DataExtent], t: &mut Txn) -> Result<()> {
        //@until src/write_alloc.rs | pub(super) fn free_and_cut( | let bucket = self.bucket_sectors()?; | // Extents, and sectors, by the inode their
        let per_inode: std::collections::BTreeMap<u64, (i64, i64)> = Default::default();
        for e in data {
            //@until src/write_alloc.rs | pub(super) fn free_and_cut( | let compressed = e | if let Some(c) = e
        }
        //@rest src/write_alloc.rs | pub(super) fn free_and_cut( | if freed.is_empty() {
    }

    //@item src/write_alloc.rs | pub(super) fn discard_freed(
    //@item src/write_alloc.rs | fn discard_buckets(
    //@item src/write_alloc.rs | pub(super) fn empty_bucket(
}
