//! The sizes at which a call changes its tables: a list of at most 3,072 bytes is read with a short
//! one, and a discard of at most 64 alloc and 16 need-discard keys searches these. Keys that a call
//! does not look at leave its answer as it is on both sides of each size, in any order of the fields.

use lists::call_list::{CallList, ALLOC, BUCKET_GENS, DISCARD, LRU, NEED_DISCARD, PLACE, RELEASE};
use lists::key::{Key, KEY_BYTES, VALUE_MAX};
use lists::order::shuffled;
use lists::rng::Rng;
use lists::timed::{self, Volume};
use zerglaz::{Bucket, SUMS};

/// Bytes of a key's field with no value.
const LEAST: usize = 3 + KEY_BYTES;
/// The longest list that is read with a short table.
const SHORT: usize = 3_072;

/// The change list of a call, which accepts, in this order and in some others.
fn answer(call: u8, list: &[u8]) -> Vec<u8> {
    let answer = answer_to(call, list);
    let mut rng = Rng::new(list.len() as u64);
    for _ in 0..3 {
        assert_eq!(answer_to(call, &shuffled(&mut rng, list)), answer);
    }
    answer
}

/// The change list of a call, which accepts.
fn answer_to(call: u8, list: &[u8]) -> Vec<u8> {
    let mut out = vec![0; 1 << 20];
    let written = match call {
        PLACE => zerglaz::place(list, &mut out),
        RELEASE => zerglaz::release(list, &mut vec![9; SUMS], &mut out),
        _ => zerglaz::discard(list, &mut out),
    };
    out.truncate(written.expect("an accepted list"));
    out
}

/// The list with LRU keys, which no call looks at, that make it `len` bytes long.
fn padded(list: &CallList, len: usize) -> Vec<u8> {
    let mut l = list.clone();
    let mut left = len - l.bytes().len();
    while left > 0 {
        let most = left.min(LEAST + VALUE_MAX);
        let rest = left - most;
        let take = if rest > 0 && rest < LEAST {
            most - LEAST
        } else {
            most
        };
        let mut key = Key::at(1, 1 << 40, left as u64);
        key.value = vec![7; take - LEAST];
        l.insert(LRU, key);
        left -= take;
    }
    assert_eq!(l.bytes().len(), len);
    l.bytes()
}

#[test]
fn short_and_long_lists() {
    for call in [PLACE, RELEASE, DISCARD] {
        for count in [1, 8] {
            let list = timed::list(call, Volume::Bare, count);
            let due = answer(call, &list.bytes());
            for len in [SHORT - 1, SHORT, SHORT + 1, SHORT + LEAST] {
                assert_eq!(
                    answer(call, &padded(&list, len)),
                    due,
                    "call {call}, {len} bytes"
                );
            }
        }
    }
}

#[test]
fn few_and_many_waiting_keys() {
    for count in 1..=18 {
        let mut list = timed::list(DISCARD, Volume::Bare, count);
        let due = answer(DISCARD, &list.bytes());
        for bucket in 0..20 {
            list.insert(NEED_DISCARD, Key::at(1, 5, bucket));
        }
        assert_eq!(
            answer(DISCARD, &list.bytes()),
            due,
            "{count} waiting, more need-discard keys"
        );
        for bucket in 0..65 {
            list.insert(ALLOC, Key::at(27, 1, bucket));
        }
        assert_eq!(
            answer(DISCARD, &list.bytes()),
            due,
            "{count} waiting, more alloc keys"
        );
    }
}

#[test]
fn generations_of_short_and_long_volumes() {
    let mut volume = timed::list(PLACE, Volume::Bare, 1).volume();
    for group in [0, 1, 3, 255, 256] {
        let mut key = Key::at(30, 0, group);
        key.value = (0..=255).collect();
        volume.insert(BUCKET_GENS, key);
    }
    let buckets = [0, 9, 300, 600, 1_000, 65_535].map(Bucket);
    let due = zerglaz::generations(&volume.bytes(), &buckets).expect("accepted");
    assert_eq!(due.generations, [0, 9, 44, 0, 232, 255]);
    for len in [SHORT - 1, SHORT, SHORT + 1, SHORT + LEAST] {
        let padded = padded(&volume, len);
        let mut rng = Rng::new(len as u64);
        for volume in [shuffled(&mut rng, &padded), padded] {
            let found = zerglaz::generations(&volume, &buckets);
            assert_eq!(found.as_ref(), Ok(&due), "{len} bytes");
        }
    }
}
