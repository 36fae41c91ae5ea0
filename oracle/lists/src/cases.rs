//! The worked cases of docs/FORMAT.md and its printed case as call lists.

use crate::call_list::{
    CallList, Head, Place, Release, ALLOC, DISCARD, FREESPACE, NEED_DISCARD, PLACE, RELEASE,
};
use crate::key::Key;

/// The cases by name.
pub fn cases() -> Vec<(&'static str, CallList)> {
    vec![
        ("p1", placement(&[96, 96, 64], 200)),
        ("p2", placement(&[64, 64, 1], 200)),
        ("p3-accepted", placement(&[], 32)),
        ("p3-refused", placement(&[], 31)),
        ("p4", case_4()),
        ("p5", placement(&[96], 33)),
        ("p6", release_of(128, 96, 255, 96)),
        ("p7-accepted", release_of(128, 96, 3, 96)),
        ("p7-refused", release_of(128, 96, 3, 97)),
        ("p8-discarded", waiting(&[(3, 15)], 1)),
        ("p8-waits", waiting(&[(3, 16)], 1)),
        ("p9", placement(&[128], 33)),
        ("p10-batch-3", waiting(&[(3, 1), (4, 1), (6, 1)], 3)),
        ("p10-batch-1", waiting(&[(3, 1), (4, 1), (6, 1)], 1)),
        ("printed", printed()),
    ]
}

/// Tag 1 with bucket and block sectors and nothing chosen.
fn head(call: u8, bucket: u16) -> Head {
    Head {
        call,
        bucket,
        block: 1,
        checksum: 1,
        batch: 1,
        journal: 9,
        inode: 1,
        ..Head::default()
    }
}

/// A placement of pieces of kind 0 in buckets of 128, with one run of `free` buckets.
fn placement(stored: &[u16], free: u32) -> CallList {
    let mut l = CallList {
        head: head(PLACE, 128),
        ..CallList::default()
    };
    for &sectors in stored {
        l.places.push(Place {
            file: sectors,
            stored: sectors,
            kind: 0,
            checksum: 0,
        });
    }
    let mut run = Key::at(25, 0, u64::from(free));
    run.size = free;
    l.insert(FREESPACE, run);
    l
}

/// The run of case 4, and a second one for the buckets that a placement keeps back.
fn case_4() -> CallList {
    let mut l = placement(&[128, 128, 128], 0);
    l.trees.remove(&FREESPACE);
    for (end, size) in [(20, 10), (60, 30)] {
        let mut run = Key::at(25, 0, end);
        run.size = size;
        l.insert(FREESPACE, run);
    }
    l.reserve(12);
    l
}

/// A release of `freed` sectors of bucket 5, which holds `held`.
fn release_of(bucket: u16, held: u32, gen: u8, freed: u16) -> CallList {
    let mut l = CallList {
        head: head(RELEASE, bucket),
        ..CallList::default()
    };
    l.insert(ALLOC, alloc(5, 0x23, gen, 4, held));
    l.releases.push(Release {
        sector: 5 * u64::from(bucket),
        sectors: freed,
    });
    l
}

/// An alloc key of 64 bytes.
fn alloc(bucket: u64, flags: u8, gen: u8, data_type: u8, dirty: u32) -> Key {
    let mut value = vec![0; 64];
    value[8] = flags;
    value[12] = gen;
    value[13] = gen;
    value[14] = data_type;
    value[16..20].copy_from_slice(&dirty.to_le_bytes());
    value[24] = 1;
    value[32] = 1;
    Key {
        value,
        ..Key::at(27, 0, bucket)
    }
}

/// A discard of buckets that wait, each with its generation.
fn waiting(buckets: &[(u64, u8)], batch: u32) -> CallList {
    let mut l = CallList {
        head: head(DISCARD, 8),
        ..CallList::default()
    };
    l.head.batch = batch;
    for &(bucket, gen) in buckets {
        l.insert(ALLOC, alloc(bucket, 0x21, gen, 9, 0));
        l.insert(NEED_DISCARD, Key::at(25, 8, bucket));
    }
    l
}

/// The printed case of docs/FORMAT.md, "The program bucketlines".
fn printed() -> CallList {
    let mut l = waiting(&[], 1);
    let mut key = Key::at(27, 0, 5);
    for word in [7, 0x0009_0303_0000_0021u64, 0, 1, 1, 0, 8, 0] {
        key.value.extend_from_slice(&word.to_le_bytes());
    }
    l.insert(ALLOC, key);
    l.insert(NEED_DISCARD, Key::at(25, 8, 5));
    l
}
