//! The number that the order of docs/FORMAT.md, "Refusals", gives a call, written from its source alone.
//!
//! Refusal 2 is `CallList::read` with the call's own tests here, and 22 is `CallList::stands_twice`. The
//! model gives numbers and the answer's length, which 21 needs, and none of the answer's bytes, but for
//! those of sort (`sort`).

use crate::call_list::{
    CallList, Place, Release, ALLOC, BUCKET_GENS, DISCARD, FREESPACE, NEED_DISCARD, PLACE, RELEASE,
};
use crate::key::Key;
use crate::lru_root;
use crate::sort::sort;
use std::collections::{BTreeMap, BTreeSet};

/// Generations, apply and sort among the calls, where a number stands for each: no call byte is one of
/// these.
pub const GENERATIONS: u8 = 253;
pub const APPLY: u8 = 254;
pub const SORT: u8 = 255;

/// Four-byte sums that a release's scratch holds.
pub const SUMS: usize = 65_536;
/// Buckets are numbered below this.
pub const BUCKETS: u64 = 65_536;
/// The most keys of a tree.
pub const KEYS: usize = 4_096;
/// The most reserved buckets.
pub const RESERVED: usize = 4_096;
/// The most requests.
pub const REQUESTS: usize = 1_024;
/// The largest journal reserve.
pub const RESERVE: u32 = 65_536;
/// The base file sector is below this.
pub const BASE: u64 = 1 << 40;
/// The longest extent, in sectors.
pub const EXTENT: u64 = 128;
/// Buckets kept back by every placement.
pub const KEPT: u64 = 32;

/// Bytes of a key's field without its value, and of the other fields.
const KEY_FIELD: usize = 40;
const ROOT_FIELD: usize = 4;
const BUCKET_FIELD: usize = 7;
const PLACED_FIELD: usize = 18;
const ROW1_FIELD: usize = 27;
const ROW3_FIELD: usize = 43;
const SECTORS_FIELD: usize = 11;
const END_FIELD: usize = 3;

/// The number that `call`, or sort, answers to `list`, its scratch of `scratch` sums and its output of
/// `out` bytes; 0 where it accepts.
pub fn verdict(call: u8, list: &[u8], scratch: usize, out: usize) -> u32 {
    if call == SORT {
        return sort(list, out).0;
    }
    if call == RELEASE && scratch < SUMS {
        return 1;
    }
    let Some(l) = CallList::read(list) else {
        return 2;
    };
    if l.head.call != call || l.holds_others_requests() {
        return 2;
    }
    if l.stands_twice() {
        return 22;
    }
    if passes_a_limit(&l) {
        return 3;
    }
    let outcome = match call {
        PLACE => place(&l),
        RELEASE => release(&l),
        _ => discard(&l),
    };
    match outcome {
        Err(number) => number,
        Ok(length) if length > out => 21,
        Ok(_) => 0,
    }
}

/// The length of the answer to an accepted call.
pub fn answer_length(l: &CallList) -> Option<usize> {
    match l.head.call {
        PLACE => place(l).ok(),
        RELEASE => release(l).ok(),
        DISCARD => discard(l).ok(),
        _ => None,
    }
}

/// Refusal 3, of call lists and volumes.
pub fn passes_a_limit(l: &CallList) -> bool {
    l.trees.values().any(|keys| keys.len() > KEYS)
        || l.reserved.len() > RESERVED
        || l.requests() > REQUESTS
        || l.reserved.iter().any(|&b| u64::from(b) >= BUCKETS)
        || l.keys(ALLOC)
            .iter()
            .any(|k| k.inode == 0 && k.offset >= BUCKETS)
        || l.keys(NEED_DISCARD)
            .iter()
            .any(|k| k.key_type == 25 && k.offset >= BUCKETS)
        || runs(l).any(|k| k.offset > BUCKETS)
        || l.head.reserve > RESERVE
        || l.head.base >= BASE
}

/// The freespace runs: type 25 at inode 0.
pub fn runs(l: &CallList) -> impl Iterator<Item = &Key> {
    l.keys(FREESPACE)
        .iter()
        .filter(|k| k.key_type == 25 && k.inode == 0)
}

/// A run's first bucket, a start below 0 read as 0.
pub fn start(run: &Key) -> u64 {
    run.offset.saturating_sub(u64::from(run.size))
}

/// A placement's refusals 4 to 13, or its answer's length.
fn place(l: &CallList) -> Result<usize, u32> {
    let bucket = u64::from(l.head.bucket);
    let block = u64::from(l.head.block).max(1);
    let option = l.head.checksum;
    refuse(4, bucket == 0)?;
    refuse(5, option > 3)?;
    refuse(6, l.places.iter().any(|p| !listed(p.kind)))?;
    refuse(7, option == 0 && l.places.iter().any(|p| p.kind != 0))?;
    refuse(
        8,
        !bucket.is_multiple_of(block) || !EXTENT.is_multiple_of(block),
    )?;
    refuse(9, l.places.iter().any(|p| !piece_stands(p, bucket, block)))?;
    refuse(10, runs_overlap(l))?;
    let dirty = next_fit(&l.places, bucket);
    let wanted = dirty.len() as u64 + KEPT + u64::from(l.head.reserve);
    refuse(11, free(l) < wanted)?;
    let queued = walk(l, dirty.len())?;
    Ok(place_length(l, &dirty, &queued))
}

/// The number, where its test fails.
fn refuse(number: u32, fails: bool) -> Result<(), u32> {
    if fails {
        Err(number)
    } else {
        Ok(())
    }
}

/// Whether a kind is one of extent.rs's `compression`.
fn listed(kind: u8) -> bool {
    matches!(kind, 0 | 2 | 3 | 4 | 5)
}

/// Refusal 9 of one piece.
fn piece_stands(p: &Place, bucket: u64, block: u64) -> bool {
    let (file, stored) = (u64::from(p.file), u64::from(p.stored));
    let alike = match p.kind {
        0 | 5 => file == stored,
        _ => file != stored,
    };
    (1..=EXTENT.min(bucket)).contains(&file)
        && (1..=file).contains(&stored)
        && file.is_multiple_of(block)
        && stored.is_multiple_of(block)
        && alike
}

/// Whether a bucket stands in two runs.
pub fn runs_overlap(l: &CallList) -> bool {
    let mut covered = vec![false; BUCKETS as usize];
    for run in runs(l) {
        for b in start(run)..run.offset {
            if std::mem::replace(&mut covered[b as usize], true) {
                return true;
            }
        }
    }
    false
}

/// The sectors that each bucket of the layout holds, in order: next fit.
pub fn next_fit(places: &[Place], bucket: u64) -> Vec<u64> {
    let mut buckets: Vec<u64> = Vec::new();
    for p in places {
        let stored = u64::from(p.stored);
        match buckets.last_mut() {
            Some(used) if *used + stored <= bucket => *used += stored,
            _ => buckets.push(stored),
        }
    }
    buckets
}

/// The unreserved buckets in all runs.
pub fn free(l: &CallList) -> u64 {
    let reserved: BTreeSet<u64> = l.reserved.iter().map(|&b| u64::from(b)).collect();
    runs(l)
        .map(|run| {
            (start(run)..run.offset)
                .filter(|b| !reserved.contains(b))
                .count() as u64
        })
        .sum()
}

/// The walk until `n` buckets are taken: 12, 13 or the lengths of the freespace keys queued.
fn walk(l: &CallList, n: usize) -> Result<Vec<usize>, u32> {
    let reserved: BTreeSet<u64> = l.reserved.iter().map(|&b| u64::from(b)).collect();
    let used: BTreeSet<u64> = l
        .keys(ALLOC)
        .iter()
        .filter(|k| k.inode == 0 && k.value.len() >= 16 && k.value[14] != 0)
        .map(|k| k.offset)
        .collect();
    let mut queued = Vec::new();
    let mut taken = 0;
    for run in runs(l) {
        if taken == n {
            break;
        }
        refuse(12, run.offset < u64::from(run.size))?;
        let mut next = start(run);
        while next < run.offset && taken < n {
            if !reserved.contains(&next) {
                refuse(13, used.contains(&next))?;
                taken += 1;
            }
            next += 1;
        }
        // A run walked to its end is deleted; a shortened one keeps its value.
        let value = if next == run.offset {
            0
        } else {
            run.value.len()
        };
        queued.push(KEY_FIELD + value);
    }
    Ok(queued)
}

/// A placement's length: `dirty` are the sectors of each bucket, `queued` the freespace keys.
fn place_length(l: &CallList, dirty: &[u64], queued: &[usize]) -> usize {
    let bucket = u64::from(l.head.bucket);
    let entry = match l.head.checksum {
        0 => 0,
        1 => 8,
        _ => 16,
    };
    let piece = (KEY_FIELD + entry + 8) + (KEY_FIELD + 32) + PLACED_FIELD;
    let part_filled = dirty.iter().filter(|&&d| d < bucket).count();
    let kinds: BTreeSet<u8> = l.places.iter().map(|p| p.kind).collect();
    let kinds = kinds.iter().filter(|&&kind| kind != 0).count();
    let root = lru_root::wanted(dirty, bucket) && !lru_root::exists(l);
    let rows = if l.places.is_empty() {
        0
    } else {
        ROW1_FIELD + (4 + kinds) * ROW3_FIELD
    };
    l.places.len() * piece
        + dirty.len() * (KEY_FIELD + 64 + BUCKET_FIELD)
        + part_filled * KEY_FIELD
        + queued.iter().sum::<usize>()
        + usize::from(root) * ROOT_FIELD
        + rows
        + SECTORS_FIELD
        + END_FIELD
}

/// A release's refusals 4 and 14 to 19, or its answer's length.
fn release(l: &CallList) -> Result<usize, u32> {
    let bucket = u64::from(l.head.bucket);
    refuse(4, bucket == 0)?;
    refuse(14, l.releases.iter().any(|r| !released_stands(r, bucket)))?;
    let mut sums: BTreeMap<u64, u64> = BTreeMap::new();
    for r in &l.releases {
        *sums.entry(r.sector / bucket).or_default() += u64::from(r.sectors);
    }
    if sums.is_empty() {
        return Ok(END_FIELD);
    }
    let mut length = l.releases.len() * KEY_FIELD + ROW1_FIELD + ROW3_FIELD + END_FIELD;
    let mut emptied = false;
    for (&b, &sum) in &sums {
        let (empties, keys) = release_bucket(l, b, sum)?;
        length += keys;
        emptied |= empties;
    }
    if emptied {
        let wanted = [2, 4].iter().filter(|&bit| l.head.roots & bit == 0).count();
        length += ROW3_FIELD + wanted * ROOT_FIELD;
    }
    Ok(length)
}

/// Refusal 14 of one piece.
fn released_stands(r: &Release, bucket: u64) -> bool {
    let sectors = u64::from(r.sectors);
    (1..=EXTENT).contains(&sectors)
        && r.sector % bucket + sectors <= bucket
        && r.sector / bucket < BUCKETS
}

/// Refusals 15 to 19 of one bucket, or whether it is emptied and the bytes of its keys.
fn release_bucket(l: &CallList, b: u64, sum: u64) -> Result<(bool, usize), u32> {
    let bucket = u64::from(l.head.bucket);
    let alloc = find(l, ALLOC, b).ok_or(15u32)?;
    refuse(16, alloc.value.len() < 56)?;
    let dirty = crate::fields::number(&alloc.value, 16, 4);
    refuse(17, dirty > bucket)?;
    refuse(18, sum > dirty)?;
    let old_lru = if dirty < bucket { KEY_FIELD } else { 0 };
    let length = KEY_FIELD + alloc.value.len() + old_lru + KEY_FIELD;
    if sum < dirty {
        return Ok((false, length));
    }
    let record = find(l, BUCKET_GENS, b / 256).filter(|k| k.key_type == 30);
    let record = record.map_or(256, |k| k.value.len());
    refuse(19, record <= (b % 256) as usize)?;
    Ok((true, length + KEY_FIELD + record))
}

/// The key of a tree at inode 0 and an offset, of any type.
fn find(l: &CallList, tree: u8, offset: u64) -> Option<&Key> {
    let keys = l.keys(tree);
    let at = keys.binary_search_by_key(&(0, offset, 0), Key::position);
    at.ok().map(|i| &keys[i])
}

/// A discard's refusal 20, or its answer's length.
fn discard(l: &CallList) -> Result<usize, u32> {
    refuse(20, l.head.batch == 0)?;
    let freed = discarded(l);
    let mut length = 0;
    for batch in freed.chunks(l.head.batch as usize) {
        let joined = batch
            .windows(2)
            .filter(|w| w[0].offset + 1 == w[1].offset)
            .count();
        length += batch
            .iter()
            .map(|a| KEY_FIELD + a.value.len())
            .sum::<usize>()
            + batch.len() * (KEY_FIELD + BUCKET_FIELD)
            + (batch.len() - joined) * KEY_FIELD
            + 2 * ROW3_FIELD
            + END_FIELD;
    }
    Ok(length)
}

/// The alloc keys of the buckets that a discard takes, in alloc order.
pub fn discarded(l: &CallList) -> Vec<&Key> {
    let waiting: BTreeSet<u64> = l
        .keys(NEED_DISCARD)
        .iter()
        .filter(|k| k.key_type == 25)
        .map(|k| k.offset)
        .collect();
    l.keys(ALLOC)
        .iter()
        .filter(|k| {
            k.key_type == 27
                && k.inode == 0
                && waiting.contains(&k.offset)
                && k.value.len() >= 56
                && k.value[14] == 9
                && k.value[12] < 16
        })
        .collect()
}
