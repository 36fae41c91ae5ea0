//! Lists at the limits, made again from their seed: 4,096 keys in a tree, 4,096 reserved buckets,
//! 1,024 requests.

use crate::call_list::{
    CallList, Head, Place, Release, ALLOC, BACKPOINTERS, BUCKET_GENS, FREESPACE, LRU, NEED_DISCARD,
    PLACE, RELEASE, TREES,
};
use crate::generate::{alloc_value, piece};
use crate::key::Key;
use crate::model::{KEYS, REQUESTS, RESERVED};
use crate::rng::Rng;

/// The seed of the stored limits.
pub const SEED: u64 = 374;
/// How many lists a call has.
pub const LISTS: u64 = 14;

/// The `index`-th list at the limits of a call, and what it is.
pub fn list(seed: u64, call: u8, index: u64) -> (CallList, &'static str) {
    let mut rng = Rng::new(seed ^ u64::from(call) << 32 ^ index << 16);
    let mut l = CallList {
        head: head(&mut rng, call),
        ..CallList::default()
    };
    let what = match call {
        PLACE => place(&mut rng, &mut l, index),
        RELEASE => release(&mut rng, &mut l, index),
        _ => discard(&mut rng, &mut l, index),
    };
    (l, what)
}

/// Tag 1 of a list at the limits.
fn head(rng: &mut Rng, call: u8) -> Head {
    Head {
        call,
        bucket: rng.pick(&[64, 128, 256]),
        block: rng.pick(&[0, 1, 8]),
        checksum: rng.from_to(1, 3) as u8,
        roots: rng.below(8) as u8,
        reserve: 0,
        batch: rng.pick(&[1, 100, u32::MAX]),
        journal: rng.draw(),
        inode: rng.draw(),
        base: rng.below(1 << 40),
    }
}

/// A placement at the limits.
fn place(rng: &mut Rng, l: &mut CallList, index: u64) -> &'static str {
    if index == 11 {
        l.head.bucket = 65_535;
        l.head.block = 1;
    }
    let count = if index == 6 { 700 } else { REQUESTS };
    pieces(rng, l, count, index.is_multiple_of(2));
    match index {
        6 => empty_runs(l, count),
        7 => one_run(l),
        _ => many_runs(rng, l),
    }
    match index {
        0 => "4,096 runs, 1,024 pieces",
        1 => {
            reserve_from(l, 0, 3);
            "4,096 runs, 4,096 reserved buckets in them"
        }
        2 => {
            allocs_elsewhere(rng, l);
            "4,096 alloc keys that the clock reads"
        }
        3 => {
            generations(rng, l);
            "4,096 generation keys"
        }
        4 => {
            fill(rng, l, LRU, 32);
            fill(rng, l, BACKPOINTERS, 32);
            "4,096 LRU keys and backpointers"
        }
        5 => {
            full(rng, l, 200);
            "every tree full, 4,096 reserved"
        }
        6 => {
            fill(rng, l, NEED_DISCARD, 0);
            "4,096 runs, most of them empty and walked"
        }
        7 => {
            reserve_from(l, 0, 1);
            fill(rng, l, ALLOC, 64);
            "one run of all buckets, the first 4,096 reserved"
        }
        8 => {
            use_last_taken(l, count);
            fill(rng, l, ALLOC, 16);
            "the last bucket of the walk is used"
        }
        9 => {
            l.head.reserve = free_over(l) as u32 + 1;
            "one free bucket short"
        }
        10 => {
            let at = l.keys(FREESPACE).last().map_or(0, |k| k.offset);
            l.insert(FREESPACE, Key::at(24, 0, at + 1));
            "4,097 freespace keys"
        }
        11 => {
            fill(rng, l, BUCKET_GENS, 256);
            "1,024 pieces in few large buckets"
        }
        12 => {
            let last = l.places[REQUESTS - 1].clone();
            l.places.push(last);
            "1,025 requests"
        }
        _ => {
            reserve_one_more(l);
            "4,097 reserved buckets"
        }
    }
}

/// `count` pieces, of whole buckets where asked and possible.
fn pieces(rng: &mut Rng, l: &mut CallList, count: usize, whole: bool) {
    let block = u64::from(l.head.block).max(1);
    let most = u64::from(l.head.bucket).min(128);
    for _ in 0..count {
        let mut p = piece(rng, l.head.checksum, block, most);
        if whole {
            p = Place {
                file: most as u16,
                stored: most as u16,
                kind: rng.pick(&[0, 5]),
                ..p
            };
        }
        l.places.push(p);
    }
}

/// 4,096 runs of 1 to 8 buckets.
fn many_runs(rng: &mut Rng, l: &mut CallList) {
    let mut at = 0;
    for _ in 0..KEYS {
        at += rng.below(4);
        let mut run = Key::at(25, 0, at + rng.from_to(1, 8));
        run.size = (run.offset - at) as u32;
        at = run.offset;
        l.trees.entry(FREESPACE).or_default().push(run);
    }
}

/// 4,096 runs of which most are empty, with just the buckets that `count` whole ones want.
fn empty_runs(l: &mut CallList, count: usize) {
    let needed = count + 32;
    for i in 0..KEYS {
        let mut run = Key::at(25, 0, i as u64 * 16 + 1);
        run.size = u32::from(i >= KEYS - needed);
        l.trees.entry(FREESPACE).or_default().push(run);
    }
}

/// One run of all buckets.
fn one_run(l: &mut CallList) {
    let mut run = Key::at(25, 0, 65_536);
    run.size = 65_536;
    l.insert(FREESPACE, run);
}

/// Reserve 4,096 buckets, `step` apart.
fn reserve_from(l: &mut CallList, first: u32, step: u32) {
    l.reserved = (0..RESERVED as u32).map(|i| first + i * step).collect();
}

/// Reserve 4,097 buckets.
fn reserve_one_more(l: &mut CallList) {
    l.reserved = (0..=RESERVED as u32).collect();
}

/// 4,096 alloc keys at inode 1 and of buckets past the runs, with any clock.
fn allocs_elsewhere(rng: &mut Rng, l: &mut CallList) {
    while l.keys(ALLOC).len() < KEYS {
        let (inode, bucket) = (rng.below(2), rng.below(25_000));
        let key = Key {
            value: alloc_value(rng, 64, 0, 4, 0),
            ..Key::at(rng.pick(&[27, 26]), inode, bucket + 40_000)
        };
        l.insert(ALLOC, key);
    }
}

/// 256 generation records at inode 0, whole and short, and keys of other inodes: 4,096 in all.
fn generations(rng: &mut Rng, l: &mut CallList) {
    for group in 0..256 {
        let length = rng.pick(&[256, 256, 100, 1]);
        let key = Key {
            value: rng.bytes(length),
            ..Key::at(rng.pick(&[30, 30, 29]), 0, group)
        };
        l.insert(BUCKET_GENS, key);
    }
    fill(rng, l, BUCKET_GENS, 256);
}

/// Fill a tree to 4,096 keys that no call takes for its own.
fn fill(rng: &mut Rng, l: &mut CallList, tree: u8, most: u64) {
    let mut at = 0;
    while l.keys(tree).len() < KEYS {
        at += rng.from_to(1, 9);
        let length = rng.below(most + 1) as usize;
        let key = Key {
            size: rng.below(9) as u32,
            value: rng.bytes(length),
            ..Key::at(22, 1 + at / 900, at)
        };
        l.insert(tree, key);
    }
}

/// Fill every tree and the reserved buckets, the latter past bucket 60,000.
fn full(rng: &mut Rng, l: &mut CallList, most: u64) {
    for tree in TREES {
        fill(rng, l, tree, most);
    }
    reserve_from(l, 61_440, 1);
}

/// A used alloc key at the last bucket that the placement takes.
fn use_last_taken(l: &mut CallList, count: usize) {
    let bucket = u64::from(l.head.bucket);
    let n = crate::model::next_fit(&l.places[..count], bucket).len();
    let taken = crate::generate::first_free(l, n);
    let mut value = vec![0; 16];
    value[14] = 4;
    l.insert(
        ALLOC,
        Key {
            value,
            ..Key::at(27, 0, taken[n - 1])
        },
    );
}

/// The free buckets over those that the placement wants.
fn free_over(l: &CallList) -> u64 {
    let n = crate::model::next_fit(&l.places, u64::from(l.head.bucket)).len() as u64;
    crate::model::free(l) - n - 32
}

/// A release at the limits.
fn release(rng: &mut Rng, l: &mut CallList, index: u64) -> &'static str {
    let spread = match index {
        3 => 1,
        4 => 0,
        _ => 60,
    };
    if index == 4 {
        l.head.bucket = 65_535;
    }
    let empties = match index {
        0 | 3 | 6 | 8 | 9 => 1,
        1 => u64::MAX,
        _ => 2,
    };
    releases(rng, l, spread, empties, if index == 6 { 256 } else { 64 });
    if index != 4 {
        fill(rng, l, ALLOC, 64);
    }
    match index {
        0 => "1,024 buckets emptied, 4,096 alloc keys",
        1 => "1,024 buckets that stay, 4,096 alloc keys",
        2 => {
            records(rng, l);
            "half emptied, 4,096 generation keys"
        }
        3 => "1,024 neighbouring buckets emptied: records continued",
        4 => {
            fill(rng, l, BUCKET_GENS, 256);
            "1,024 pieces of one bucket, 4,096 generation keys"
        }
        5 => {
            records(rng, l);
            full(rng, l, 200);
            "every tree full, 4,096 reserved"
        }
        6 => "alloc values of 256 bytes",
        7 => {
            fill(rng, l, LRU, 8);
            fill(rng, l, BACKPOINTERS, 32);
            fill(rng, l, NEED_DISCARD, 8);
            "4,096 LRU keys, backpointers and need-discard keys"
        }
        8 => {
            free_too_much(l);
            "the last bucket frees more than it holds"
        }
        9 => {
            short_last_record(l);
            "the last bucket's generation record is too short"
        }
        10 => {
            l.insert(ALLOC, Key::at(22, u64::MAX, 0));
            "4,097 alloc keys"
        }
        11 => {
            let last = l.releases[REQUESTS - 1].clone();
            l.releases.push(last);
            "1,025 requests"
        }
        12 => {
            reserve_one_more(l);
            "4,097 reserved buckets"
        }
        _ => {
            l.releases.reverse();
            "1,024 requests from the highest bucket down"
        }
    }
}

/// 1,024 requests in buckets `spread` apart at most; one in `empties` buckets is emptied.
fn releases(rng: &mut Rng, l: &mut CallList, spread: u64, empties: u64, length: usize) {
    let bucket = u64::from(l.head.bucket);
    let mut b = rng.below(200);
    let mut held = 0;
    for i in 0..REQUESTS as u64 {
        let sectors = if spread == 0 { 63 } else { rng.from_to(1, 64) };
        let offset = if spread == 0 { i * 63 } else { 0 };
        l.releases.push(Release {
            sector: b * bucket + offset,
            sectors: sectors as u16,
        });
        held += sectors;
        if spread != 0 || i + 1 == REQUESTS as u64 {
            let stays = empties != 1 && (empties == u64::MAX || rng.one_in(empties));
            let dirty = if stays { held + 1 } else { held };
            let dirty = dirty.min(bucket) as u32;
            let gen = rng.below(256) as u8;
            let key = Key {
                value: alloc_value(rng, length, gen, 4, dirty),
                ..Key::at(27, 0, b)
            };
            l.insert(ALLOC, key);
            held = 0;
            b += rng.from_to(1, spread.max(1));
        }
    }
}

/// Whole generation records of every second group, and keys of other inodes: 4,096 in all.
fn records(rng: &mut Rng, l: &mut CallList) {
    for group in (0..256).step_by(2) {
        let key = Key {
            value: rng.bytes(256),
            ..Key::at(30, 0, group)
        };
        l.insert(BUCKET_GENS, key);
    }
    fill(rng, l, BUCKET_GENS, 256);
}

/// The highest bucket released.
fn last_bucket(l: &CallList) -> u64 {
    let bucket = u64::from(l.head.bucket);
    l.releases
        .iter()
        .map(|r| r.sector / bucket)
        .max()
        .unwrap_or(0)
}

/// Lower the dirty sectors of the highest bucket released.
fn free_too_much(l: &mut CallList) {
    let b = last_bucket(l);
    let keys = l.trees.entry(ALLOC).or_default();
    if let Some(k) = keys.iter_mut().find(|k| k.inode == 0 && k.offset == b) {
        k.value[16..20].copy_from_slice(&0u32.to_le_bytes());
    }
}

/// A generation record of the highest bucket released, without its byte.
fn short_last_record(l: &mut CallList) {
    let b = last_bucket(l);
    l.insert(
        BUCKET_GENS,
        Key {
            value: vec![1; (b % 256) as usize],
            ..Key::at(30, 0, b / 256)
        },
    );
}

/// A discard at the limits.
fn discard(rng: &mut Rng, l: &mut CallList, index: u64) -> &'static str {
    let (buckets, step) = match index {
        2 => (KEYS, 2),
        3 => (KEYS / 2, 1),
        4 | 11 => (KEYS, 15),
        _ => (KEYS, 1),
    };
    waiting(rng, l, buckets, step, index);
    match index {
        0 => {
            l.head.batch = u32::MAX;
            "4,096 neighbouring buckets in one batch"
        }
        1 => {
            l.head.batch = 1;
            "4,096 batches"
        }
        2 => {
            l.head.batch = 7;
            "4,096 buckets apart, batches of 7"
        }
        3 => {
            second_keys(l);
            "two need-discard keys of each of 2,048 buckets"
        }
        4 => "some buckets do not qualify",
        5 => {
            full(rng, l, 200);
            "every tree full, 4,096 reserved"
        }
        6 => "alloc values of 256 bytes",
        7 => {
            reserve_from(l, 0, 2);
            "4,096 reserved buckets"
        }
        8 => {
            l.head.batch = 0;
            "batch 0"
        }
        9 => {
            l.insert(NEED_DISCARD, Key::at(24, u64::MAX, 1));
            "4,097 need-discard keys"
        }
        10 => "every generation is 16 or more",
        11 => {
            l.head.batch = 100;
            "batches of 100, some buckets do not qualify"
        }
        12 => {
            reserve_one_more(l);
            "4,097 reserved buckets"
        }
        _ => "the last 4,096 buckets",
    }
}

/// Waiting buckets, each with its alloc and its need-discard key.
fn waiting(rng: &mut Rng, l: &mut CallList, buckets: usize, step: u64, index: u64) {
    let mut b = if index == 13 {
        65_536 - KEYS as u64
    } else {
        rng.below(100)
    };
    let journal = l.head.journal >> 1;
    for _ in 0..buckets {
        let gen = match index {
            10 => rng.from_to(16, 255),
            4 | 11 => rng.below(20),
            _ => rng.below(16),
        };
        let data_type = match index {
            4 | 11 => rng.pick(&[9, 9, 9, 4]),
            _ => 9,
        };
        let length = if index == 6 { 256 } else { rng.pick(&[56, 64]) };
        let key = Key {
            value: alloc_value(rng, length, gen as u8, data_type, 0),
            ..Key::at(27, 0, b)
        };
        l.insert(ALLOC, key);
        l.insert(NEED_DISCARD, Key::at(25, journal + b % 3, b));
        b += if step <= 2 {
            step
        } else {
            rng.from_to(1, step)
        };
    }
}

/// A second need-discard key of each bucket.
fn second_keys(l: &mut CallList) {
    let first: Vec<Key> = l.keys(NEED_DISCARD).to_vec();
    for key in first {
        l.insert(NEED_DISCARD, Key::at(25, key.inode ^ 5, key.offset));
    }
}
