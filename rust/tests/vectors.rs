//! Replays `vectors/` through the archive: number, length, all of the output with guards around it,
//! and a release's scratch. Each accepted answer also in an output one byte short and in an empty one,
//! and each list and volume in other orders of its fields.

mod common;

use common::ARCHIVE;
use lists::call_list::{DISCARD, PLACE, RELEASE};
use lists::generations::Generations;
use lists::lent::Due;
use lists::model::{verdict, SORT, SUMS};
use lists::order::{shuffled, without_requests};
use lists::rng::Rng;
use lists::vectors::{self, Held, Vector};
use lists::{apply, changes, generations, limits, past_limits};
use std::collections::BTreeMap;
use zerglaz::{Bucket, ChangeListRef};

/// In how many other orders each list is tried.
const ORDERS: usize = 3;

/// A file of `vectors/`.
fn file(name: &str) -> String {
    let path = format!("{}/../vectors/{name}.txt", env!("CARGO_MANIFEST_DIR"));
    std::fs::read_to_string(&path).unwrap_or_else(|e| panic!("{path}: {e}"))
}

/// What a stored number and its bytes make due.
fn due(number: u32, bytes: &[u8]) -> Due<'_> {
    Due { number, bytes }
}

/// Replay a call's file.
fn replay(call: u8, name: &str) {
    let mut rng = Rng::new(u64::from(call));
    let vectors = vectors::calls(&file(name));
    for v in &vectors {
        let due = due(v.number, &v.answer);
        let held = ARCHIVE.hold(call, &v.list, v.scratch, v.out, due);
        held.unwrap_or_else(|why| panic!("{}: {why}", v.id));
        for _ in 0..ORDERS {
            let other = shuffled(&mut rng, &v.list);
            let held = ARCHIVE.hold(call, &other, v.scratch, v.out, due);
            held.unwrap_or_else(|why| panic!("{}, in another order: {why}", v.id));
        }
        if v.number == 0 {
            let held = ARCHIVE.hold_rooms(call, &v.list, &v.answer);
            held.unwrap_or_else(|why| panic!("{}: {why}", v.id));
        }
    }
    println!("{name}: {} vectors", vectors.len());
    assert!(vectors.len() > 200, "{name}");
}

#[test]
fn place() {
    replay(PLACE, "place");
}

#[test]
fn release() {
    replay(RELEASE, "release");
}

#[test]
fn discard() {
    replay(DISCARD, "discard");
}

#[test]
fn sort() {
    replay(SORT, "sort");
}

/// A sorted form is its own.
#[test]
fn sorted_again() {
    let accepted = vectors::calls(&file("sort")).into_iter();
    let accepted: Vec<Vector> = accepted.filter(|v| v.number == 0).collect();
    for v in &accepted {
        let held = ARCHIVE.hold_rooms(SORT, &v.answer, &v.answer);
        held.unwrap_or_else(|why| panic!("{}: {why}", v.id));
    }
    assert!(accepted.len() > 80);
}

#[test]
fn apply_vectors() {
    let mut rng = Rng::new(4);
    let vectors = vectors::applies(&file("apply"));
    for v in &vectors {
        let due = due(v.number, &v.next);
        let held = ARCHIVE.hold_apply(&v.volume, &v.change, v.out, due);
        held.unwrap_or_else(|why| panic!("{}: {why}", v.id));
        for _ in 0..ORDERS {
            let other = shuffled(&mut rng, &v.volume);
            let held = ARCHIVE.hold_apply(&other, &v.change, v.out, due);
            held.unwrap_or_else(|why| panic!("{}, in another order: {why}", v.id));
        }
        if v.number == 0 {
            let held = ARCHIVE.hold_apply_rooms(&v.volume, &v.change, &v.next);
            held.unwrap_or_else(|why| panic!("{}: {why}", v.id));
        }
    }
    println!("apply: {} vectors", vectors.len());
    assert!(vectors.len() > 200);
}

#[test]
fn generations_vectors() {
    let mut rng = Rng::new(6);
    let vectors = vectors::generations(&file("generations"));
    for v in &vectors {
        let held = ARCHIVE.hold_generations(&v.volume, &v.buckets, v.out, &v.answer);
        held.unwrap_or_else(|why| panic!("{}: {why}", v.id));
        for _ in 0..ORDERS {
            let other = shuffled(&mut rng, &v.volume);
            let held = ARCHIVE.hold_generations(&other, &v.buckets, v.out, &v.answer);
            held.unwrap_or_else(|why| panic!("{}, in another order: {why}", v.id));
        }
        if v.answer.number == 0 {
            let held = ARCHIVE.hold_generations_rooms(&v.volume, &v.buckets, &v.answer);
            held.unwrap_or_else(|why| panic!("{}: {why}", v.id));
        }
    }
    println!("generations: {} vectors", vectors.len());
    assert!(vectors.len() > 200);
}

/// The generations of the buckets that a stored placement takes are those that it gives its pieces.
#[test]
fn generations_of_placements() {
    let accepted = vectors::calls(&file("place")).into_iter();
    let (mut pieces, mut above_0) = (0, 0);
    for v in accepted.filter(|v| v.number == 0) {
        let change = ChangeListRef::read(&v.answer).expect("a change list");
        let placed = change
            .placed()
            .map(|piece| (piece.bucket, piece.generation));
        let placed: BTreeMap<Bucket, u8> = placed.collect();
        let buckets: Vec<Bucket> = placed.keys().copied().collect();
        let found = zerglaz::generations(&without_requests(&v.list), &buckets);
        let found = found.expect("buckets that ascend").generations;
        assert!(placed.values().eq(&found), "{}", v.id);
        pieces += found.len();
        above_0 += found.iter().filter(|&&generation| generation > 0).count();
    }
    assert!(pieces > 400 && above_0 > 50, "{above_0} of {pieces}");
}

/// The stored scratch of a release may be longer than the sums and its list refused: every number of
/// a release is met with sums past those that are cleared.
#[test]
fn longer_scratches() {
    let vectors: Vec<Vector> = vectors::calls(&file("release"));
    for v in vectors.iter().filter(|v| v.number != 1) {
        let due = due(v.number, &v.answer);
        let held = ARCHIVE.hold(RELEASE, &v.list, SUMS + 1_000, v.out, due);
        held.unwrap_or_else(|why| panic!("{}: {why}", v.id));
    }
}

/// The bytes of a call at the limits, made by the archive where the stored number is 0.
fn answer_at_the_limits(call: u8, list: &[u8], length: usize) -> Vec<u8> {
    let mut out = vec![0; length];
    let answer = match call {
        PLACE => zerglaz::place(list, &mut out),
        RELEASE => zerglaz::release(list, &mut vec![0; SUMS], &mut out),
        _ => zerglaz::discard(list, &mut out),
    };
    assert_eq!(answer, Ok(length));
    out
}

/// Lists at the limits, in order and in another: the answers are stored by length and digest, and the
/// list in order is the sorted form of both.
#[test]
fn calls_at_the_limits() {
    let mut rng = Rng::new(22);
    for v in vectors::limits(&file("limits")) {
        let (list, what) = limits::list(limits::SEED, v.call, v.index);
        let list = list.bytes();
        assert_eq!(Held::of(&list), v.list, "{what}");
        let other = shuffled(&mut rng, &list);
        let held = if v.number == 0 {
            let answer = answer_at_the_limits(v.call, &list, v.answer.length);
            assert_eq!(Held::of(&answer), v.answer, "{what}");
            let other = ARCHIVE.hold_rooms(v.call, &other, &answer);
            ARCHIVE.hold_rooms(v.call, &list, &answer).and(other)
        } else {
            let due = Due::refused(v.number);
            let other = ARCHIVE.hold(v.call, &other, SUMS, 100, due);
            let held = ARCHIVE.hold(v.call, &list, SUMS, 100, due);
            held.and(other).map(|()| 1)
        };
        held.unwrap_or_else(|why| panic!("{what}: {why}"));
        let due = match v.number {
            3 => Due::refused(3),
            _ => Due::accepted(&list),
        };
        for bytes in [&list, &other] {
            let held = ARCHIVE.hold(SORT, bytes, 0, list.len(), due);
            held.unwrap_or_else(|why| panic!("{what}, sorted: {why}"));
        }
    }
}

/// Volumes and changes at the limits: the next volumes are stored by length and digest.
#[test]
fn applies_at_the_limits() {
    for v in vectors::apply_limits(&file("apply-limits")) {
        let (volume, change) = changes::at_the_limits(limits::SEED, v.index);
        assert_eq!(Held::of(&volume), v.volume, "{}", v.index);
        assert_eq!(Held::of(&change), v.change, "{}", v.index);
        let (number, next) = apply::apply(&volume, &change, usize::MAX);
        assert_eq!((number, Held::of(&next)), (v.number, v.next), "{}", v.index);
        for volume in [shuffled(&mut Rng::new(v.index), &volume), volume] {
            let held = if number == 0 {
                let held = ARCHIVE.hold_apply_rooms(&volume, &change, &next);
                held.map(|_| ())
            } else {
                ARCHIVE.hold_apply(&volume, &change, 100, Due::refused(number))
            };
            held.unwrap_or_else(|why| panic!("{}: {why}", v.index));
        }
    }
}

/// Lists and volumes past the limits, in any order: 22 where something stands twice, and else 3.
#[test]
fn past_the_limits() {
    for call in [PLACE, RELEASE, DISCARD] {
        for index in 0..past_limits::LISTS {
            let (list, what) = past_limits::list(1, call, index);
            let due = Due::refused(verdict(call, &list, SUMS, 0));
            assert!(due.number == 22 || due.number == 3, "{what}");
            for call in [call, SORT] {
                let held = ARCHIVE.hold(call, &list, SUMS, 100, due);
                held.unwrap_or_else(|why| panic!("{what}: {why}"));
            }
            let (volume, _) = past_limits::volume(1, call, index);
            let (number, next) = apply::apply(&volume, &[], usize::MAX);
            let due = self::due(number, &next);
            let held = ARCHIVE.hold_apply(&volume, &[], next.len(), due);
            held.unwrap_or_else(|why| panic!("{what}, applied: {why}"));
            let due = generations::generations(&volume, &[0, 256], 2);
            let held = ARCHIVE.hold_generations(&volume, &[0, 256], 2, &due);
            held.unwrap_or_else(|why| panic!("{what}, generations: {why}"));
        }
    }
}

/// One key that stands twice is found at every rank at which a reader may end one stretch of keys and begin
/// the next, within the limits and past them.
#[test]
fn twice_at_any_rank() {
    let due = Due::refused(22);
    let mut tried = 0;
    for keys in [70u64, 4_095, 4_096, 5_000] {
        let step = if keys < 100 { 1 } else { 128 };
        for border in (0..keys).step_by(step) {
            for rank in [border.saturating_sub(1), border, border + 1] {
                let list = past_limits::twice_at(1, keys, rank.min(keys - 1));
                let held = match tried % 3 {
                    0 => ARCHIVE.hold(DISCARD, &list, 0, 9, due),
                    1 => ARCHIVE.hold(SORT, &list, 0, list.len(), due),
                    _ => ARCHIVE.hold_apply(&list, &[], list.len(), due),
                };
                held.unwrap_or_else(|why| panic!("{keys} keys, rank {rank}: {why}"));
                if tried % 4 == 2 {
                    let held = ARCHIVE.hold_generations(&list, &[7], 9, &Generations::refused(22));
                    held.unwrap_or_else(|why| panic!("{keys} keys, rank {rank}: {why}"));
                }
                tried += 1;
            }
        }
    }
    assert!(tried > 400);
}
