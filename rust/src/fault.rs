//! Volumes whose keys do not agree with each other, so that no history reaches them.

use crate::alloc_value::{data_type, LEAST};
use crate::buckets::{Alloc, Buckets, Status};
use crate::call_list_ref::CallListRef;
use crate::key::{key_type, Position, Tree};
use crate::key_ref::{KeyRef, Lookups};
use crate::kinds::Bucket;
use crate::limits::{MAX_BUCKETS, MAX_PIECE_SECTORS, MAX_VALUE};
use crate::live::Live;
use std::error::Error;
use std::fmt;

/// Why no history from a clean volume reaches a volume.
#[derive(Debug, Clone, Copy, PartialEq, Eq)]
#[non_exhaustive]
pub enum Fault {
    /// A key that no step leaves in its tree.
    StrangeKey(Tree, Position),
    /// A freespace run that ends before this bucket has no bucket.
    EmptyRun(Bucket),
    /// Two freespace runs have this bucket.
    RunsOverlap(Bucket),
    /// A piece passes its bucket's end, or has no sectors or more than 128.
    PieceOutside(Live),
    /// Two live pieces share a sector.
    PiecesOverlap(Live, Live),
    /// A live piece, or the generation record, has another generation than the bucket's alloc key.
    WrongGeneration(Bucket),
    /// The bucket's dirty count is not the sum of its live pieces' sectors.
    WrongSum(Bucket),
    /// The bucket's alloc key, the runs, the reserved buckets and the need-discard keys do not
    /// agree on whether it is free, in use or waiting.
    WrongState(Bucket),
    /// The bucket's LRU key is missing or is not that of its dirty count.
    WrongLru(Bucket),
}

impl fmt::Display for Fault {
    fn fmt(&self, f: &mut fmt::Formatter<'_>) -> fmt::Result {
        match self {
            Fault::StrangeKey(tree, at) => write!(f, "the {tree} key at {at} is none of a history"),
            Fault::EmptyRun(end) => write!(f, "the freespace run that ends at {end} is empty"),
            Fault::RunsOverlap(bucket) => write!(f, "two freespace runs have {bucket}"),
            Fault::PieceOutside(piece) => write!(f, "{piece} does not lie inside a bucket"),
            Fault::PiecesOverlap(a, b) => write!(f, "{a} and {b} overlap"),
            Fault::WrongGeneration(bucket) => write!(f, "{bucket} has two generations"),
            Fault::WrongSum(bucket) => write!(f, "{bucket} counts other sectors than its pieces'"),
            Fault::WrongState(bucket) => write!(f, "{bucket} is not in exactly one state"),
            Fault::WrongLru(bucket) => write!(f, "{bucket} has not the LRU key of its sectors"),
        }
    }
}

impl Error for Fault {}

/// The first fault of a list's volume.
pub(crate) fn check(list: &CallListRef) -> Result<(), Fault> {
    check_runs(list)?;
    check_pieces(list)?;
    check_keys(list)?;
    let buckets = list.buckets();
    check_generations(list, &buckets)?;
    check_records(list, &buckets)?;
    for (bucket, status) in buckets.iter() {
        check_bucket(bucket, status)?;
    }
    check_lru(list, &buckets)
}

/// The fault, where a test fails.
fn require(holds: bool, fault: Fault) -> Result<(), Fault> {
    if holds {
        Ok(())
    } else {
        Err(fault)
    }
}

/// Freespace keys are runs from bucket 0 or later, have buckets and share none.
fn check_runs(list: &CallListRef) -> Result<(), Fault> {
    let mut last = Bucket(0);
    for key in list.keys(Tree::Freespace) {
        let strange = Fault::StrangeKey(Tree::Freespace, key.position);
        let run = key.run().ok_or(strange)?;
        require(u64::from(key.size) <= key.position.offset, strange)?;
        require(!run.is_empty(), Fault::EmptyRun(run.end))?;
        require(last <= run.start, Fault::RunsOverlap(run.start))?;
        last = run.end;
    }
    Ok(())
}

/// Backpointers name pieces that lie inside their buckets and do not overlap.
fn check_pieces(list: &CallListRef) -> Result<(), Fault> {
    let bucket_sectors = list.head().bucket_sectors;
    let mut last: Option<Live> = None;
    for key in list.keys(Tree::Backpointers) {
        let strange = Fault::StrangeKey(Tree::Backpointers, key.position);
        let piece = Live::of_backpointer(key).ok_or(strange)?;
        require(is_inside(piece, bucket_sectors), Fault::PieceOutside(piece))?;
        if let Some(last) = last {
            require(last.end() <= piece.first, Fault::PiecesOverlap(last, piece))?;
        }
        last = Some(piece);
    }
    Ok(())
}

/// A piece has 1 to 128 sectors, all in one bucket.
fn is_inside(piece: Live, bucket_sectors: u16) -> bool {
    let bucket = piece.bucket(bucket_sectors);
    let offset = piece.first.offset(bucket_sectors).unwrap_or(u16::MAX);
    (1..=MAX_PIECE_SECTORS).contains(&piece.sectors)
        && u32::from(offset) + u32::from(piece.sectors) <= u32::from(bucket_sectors)
        && bucket.is_some_and(|bucket| bucket.0 < MAX_BUCKETS)
}

/// The keys of the other trees have the forms that steps give them.
fn check_keys(list: &CallListRef) -> Result<(), Fault> {
    let set = |key: KeyRef| key.key_type == key_type::SET;
    check_tree(list, Tree::Alloc, is_alloc)?;
    check_tree(list, Tree::Lru, set)?;
    check_tree(list, Tree::NeedDiscard, set)?;
    check_tree(list, Tree::BucketGens, is_record)
}

/// All keys of a tree have a form.
fn check_tree(list: &CallListRef, tree: Tree, form: fn(KeyRef) -> bool) -> Result<(), Fault> {
    let strange = list.keys(tree).find(|&key| !form(key));
    strange.map_or(Ok(()), |key| Err(Fault::StrangeKey(tree, key.position)))
}

/// An alloc key of a bucket that is free, holds user data or waits.
fn is_alloc(key: KeyRef) -> bool {
    let known = [data_type::FREE, data_type::USER, data_type::NEED_DISCARD];
    let of_bucket = key.position.inode == 0 && key.position.offset < u64::from(MAX_BUCKETS);
    key.key_type == key_type::ALLOC_V4
        && of_bucket
        && key.value.len() >= LEAST
        && key.data_type().is_some_and(|it| known.contains(&it))
}

/// A whole record of 256 generations.
fn is_record(key: KeyRef) -> bool {
    key.key_type == key_type::BUCKET_GENS && key.position.inode == 0 && key.value.len() == MAX_VALUE
}

/// Live pieces have the generations of their buckets' alloc keys.
fn check_generations(list: &CallListRef, buckets: &Buckets) -> Result<(), Fault> {
    let bucket_sectors = list.head().bucket_sectors;
    for piece in list.live() {
        let bucket = piece.bucket(bucket_sectors).unwrap_or_default();
        let alloc = buckets.get(bucket).alloc;
        let agrees = alloc.is_some_and(|alloc| alloc.generation == piece.generation);
        require(agrees, Fault::WrongGeneration(bucket))?;
    }
    Ok(())
}

/// Generation records have the generations of the alloc keys; a missing record is one of zeros.
fn check_records(list: &CallListRef, buckets: &Buckets) -> Result<(), Fault> {
    let mut records = Lookups::new(list.keys(Tree::BucketGens));
    for (bucket, status) in buckets.iter() {
        let record = records.at(Position::of_generations(bucket));
        let byte = bucket.0 as usize % MAX_VALUE;
        let generation = record.map_or(0, |record| record.value[byte]);
        let agrees = |alloc: Alloc| alloc.generation == generation;
        require(
            status.alloc.is_none_or(agrees),
            Fault::WrongGeneration(bucket),
        )?;
    }
    Ok(())
}

/// The bucket's sum is right, and all that is said of it fits one state: in use and waiting buckets
/// are reserved and in no run, a discarded one is free.
fn check_bucket(bucket: Bucket, status: &Status) -> Result<(), Fault> {
    let dirty = status.alloc.map_or(0, |alloc| alloc.dirty_sectors);
    let exact = u64::from(dirty) == status.live_sectors;
    require(exact, Fault::WrongSum(bucket))?;
    let taken = status.reserved && !status.in_run;
    let (pieces, keys) = (status.pieces > 0, status.need_discard);
    let fits = match status.alloc.map(|alloc| alloc.data_type) {
        None => !pieces && keys == 0,
        Some(data_type::FREE) => !pieces && keys == 0 && status.is_free(),
        Some(data_type::USER) => pieces && keys == 0 && taken,
        _ => !pieces && keys == 1 && taken,
    };
    require(fits, Fault::WrongState(bucket))
}

/// Each part-filled bucket has the LRU key of its dirty count, and there is no other.
fn check_lru(list: &CallListRef, buckets: &Buckets) -> Result<(), Fault> {
    let bucket_sectors = list.head().bucket_sectors;
    let part_filled =
        |status: &Status| (1..u64::from(bucket_sectors)).contains(&status.live_sectors);
    let mut listed = vec![false; buckets.len()];
    for key in list.keys(Tree::Lru) {
        let strange = Fault::StrangeKey(Tree::Lru, key.position);
        let bucket = key.bucket().ok_or(strange)?;
        let status = buckets.get(bucket);
        require(part_filled(&status), strange)?;
        let due = Position::of_lru(bucket, status.live_sectors as u32, bucket_sectors);
        require(key.position == due, Fault::WrongLru(bucket))?;
        listed[bucket.0 as usize] = true;
    }
    for (bucket, status) in buckets.iter() {
        let is_listed = listed[bucket.0 as usize];
        require(is_listed || !part_filled(status), Fault::WrongLru(bucket))?;
    }
    Ok(())
}
