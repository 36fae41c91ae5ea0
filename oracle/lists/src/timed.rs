//! The lists that the benchmark times: each call with few and with many requests, on a volume with
//! nothing but what the call needs and on one at the limits, whose every tree is full.

use crate::call_list::{CallList, ALLOC, DISCARD, FREESPACE, NEED_DISCARD, PLACE, RELEASE};
use crate::change_list::{self, Batch};
use crate::key::Key;
use crate::limits;
use crate::model::BUCKETS;
use std::collections::BTreeSet;

/// The list at the limits whose every tree is full and that has 4,096 reserved buckets.
const FULL: u64 = 5;
/// The data type of a bucket in use, which no discard takes.
const USER: u8 = 4;
/// Where an alloc value has its data type.
const DATA_TYPE: usize = 14;

/// The volume of a timed call.
#[derive(Debug, Clone, Copy, PartialEq, Eq)]
pub enum Volume {
    /// What the call needs and nothing else.
    Bare,
    /// 4,096 keys a tree and 4,096 reserved buckets.
    Full,
}

/// The list of a call with `count` requests, or `count` waiting buckets where it is a discard.
pub fn list(call: u8, volume: Volume, count: usize) -> CallList {
    match call {
        PLACE => placement(volume, count),
        RELEASE => release(volume, count),
        _ => discard(volume, count),
    }
}

/// A placement; the bare volume is one run of all buckets.
fn placement(volume: Volume, count: usize) -> CallList {
    let mut l = full(PLACE);
    l.places.truncate(count);
    if volume == Volume::Bare {
        clear(&mut l, &[]);
        let mut run = Key::at(25, 0, BUCKETS);
        run.size = BUCKETS as u32;
        l.insert(FREESPACE, run);
    }
    l
}

/// A release; the bare volume has the alloc keys of the released buckets.
fn release(volume: Volume, count: usize) -> CallList {
    let mut l = full(RELEASE);
    l.releases.truncate(count);
    if volume == Volume::Bare {
        let bucket = u64::from(l.head.bucket);
        let released: BTreeSet<u64> = l.releases.iter().map(|r| r.sector / bucket).collect();
        clear(&mut l, &[ALLOC]);
        let keys = l.trees.entry(ALLOC).or_default();
        keys.retain(|k| k.inode == 0 && released.contains(&k.offset));
    }
    l
}

/// A discard of one batch; the bare volume has the alloc and need-discard keys of the waiting
/// buckets, and in the full one all other buckets with a need-discard key are in use.
fn discard(volume: Volume, count: usize) -> CallList {
    let mut l = full(DISCARD);
    l.head.batch = u32::MAX;
    let step = l.keys(NEED_DISCARD).len() / count;
    let waiting: BTreeSet<u64> = l
        .keys(NEED_DISCARD)
        .iter()
        .step_by(step)
        .take(count)
        .map(|k| k.offset)
        .collect();
    if volume == Volume::Bare {
        clear(&mut l, &[ALLOC, NEED_DISCARD]);
        for tree in [ALLOC, NEED_DISCARD] {
            let keys = l.trees.entry(tree).or_default();
            keys.retain(|k| waiting.contains(&k.offset));
        }
    }
    let keys = l.trees.entry(ALLOC).or_default();
    for key in keys.iter_mut().filter(|k| !waiting.contains(&k.offset)) {
        if key.inode == 0 {
            key.value[DATA_TYPE] = USER;
        }
    }
    l
}

/// The call's list at the limits.
fn full(call: u8) -> CallList {
    limits::list(limits::SEED, call, FULL).0
}

/// Leave only some trees, and no reserved bucket.
fn clear(l: &mut CallList, kept: &[u8]) {
    l.trees.retain(|tree, _| kept.contains(tree));
    l.reserved.clear();
}

/// A volume whose trees are full.
pub fn volume() -> CallList {
    full(PLACE).volume()
}

/// A change of one batch that replaces `count` keys of a volume, spread evenly over its trees.
pub fn change(volume: &CallList, count: usize) -> Vec<u8> {
    let keys = || {
        volume
            .trees
            .iter()
            .flat_map(|(&t, keys)| keys.iter().map(move |k| (t, k)))
    };
    let step = keys().count() / count;
    let replaced = keys().step_by(step).take(count).map(|(tree, key)| {
        let mut key = key.clone();
        key.version_lo ^= 1;
        (tree, key)
    });
    let batch = Batch {
        keys: replaced.collect(),
        ..Batch::default()
    };
    change_list::bytes(&[batch])
}

#[cfg(test)]
mod tests {
    use super::{list, Volume};
    use crate::call_list::{DISCARD, PLACE, RELEASE, TREES};
    use crate::model::{discarded, verdict, KEYS, RESERVED, SUMS};

    /// Each list is accepted and holds as many requests, keys and reserved buckets as it says.
    #[test]
    fn lists_are_what_they_say() {
        for call in [PLACE, RELEASE, DISCARD] {
            for volume in [Volume::Bare, Volume::Full] {
                for count in [1, 1_024] {
                    let l = list(call, volume, count);
                    assert_eq!(verdict(call, &l.bytes(), SUMS, usize::MAX), 0);
                    let asked = match call {
                        DISCARD => discarded(&l).len(),
                        _ => l.requests(),
                    };
                    assert_eq!(asked, count);
                    if volume == Volume::Full {
                        assert!(TREES.iter().all(|&t| l.keys(t).len() == KEYS));
                        assert_eq!(l.reserved.len(), RESERVED);
                    }
                }
            }
        }
    }
}
