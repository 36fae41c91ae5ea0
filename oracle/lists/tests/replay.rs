//! Replays `vectors/` without the Rust text: the model gives each number, in any order of the fields
//! too, each answer decodes, and the lists at the limits are made again.

use lists::apply::apply;
use lists::call_list::{CallList, DISCARD, PLACE, RELEASE};
use lists::change_list::{self, Batch};
use lists::generations::generations;
use lists::model::{answer_length, verdict, GENERATIONS, KEYS, SORT, SUMS};
use lists::order::shuffled;
use lists::rng::Rng;
use lists::sort::{sort, sorted_form};
use lists::spoil::numbers;
use lists::vectors::{self, Held, Vector};
use lists::{changes, limits};
use std::collections::{BTreeMap, BTreeSet};

/// The calls that write change lists, and their files.
const CALLS: [(u8, &str); 3] = [(PLACE, "place"), (RELEASE, "release"), (DISCARD, "discard")];
/// All calls on one list, and their files.
const ON_LISTS: [(u8, &str); 4] = [CALLS[0], CALLS[1], CALLS[2], (SORT, "sort")];

/// A file of `vectors/`.
fn file(name: &str) -> String {
    let path = format!("{}/../../vectors/{name}.txt", env!("CARGO_MANIFEST_DIR"));
    std::fs::read_to_string(&path).unwrap_or_else(|e| panic!("{path}: {e}"))
}

/// The model gives each vector's number, as its list stands and in other orders, and a refused one has no
/// answer.
#[test]
fn numbers_of_calls() {
    let mut rng = Rng::new(9);
    for (call, name) in ON_LISTS {
        for v in vectors::calls(&file(name)) {
            let number = |list: &[u8]| verdict(call, list, v.scratch, v.out);
            assert_eq!(number(&v.list), v.number, "{}", v.id);
            for _ in 0..4 {
                assert_eq!(number(&shuffled(&mut rng, &v.list)), v.number, "{}", v.id);
            }
            assert!(v.number == 0 || v.answer.is_empty(), "{}", v.id);
        }
    }
}

/// Lists of one sorted form have one answer, and some stand in two orders.
#[test]
fn one_answer_in_every_order() {
    for (call, name) in ON_LISTS {
        let mut answers: BTreeMap<Vec<u8>, Vec<u8>> = BTreeMap::new();
        let mut again = 0;
        for v in vectors::calls(&file(name)) {
            if v.number == 0 {
                let form = sorted_form(&v.list).expect("whole fields");
                let before = answers.insert(form, v.answer.clone());
                again += usize::from(before.is_some());
                assert!(before.is_none_or(|answer| answer == v.answer), "{}", v.id);
            }
        }
        assert!(again >= 20 || call == SORT, "{name}: {again}");
    }
}

/// A sorted form is the model's, by fields and by what is read, and its own sorted form.
#[test]
fn sorted_forms() {
    for v in vectors::calls(&file("sort")) {
        assert_eq!(sort(&v.list, v.out), (v.number, v.answer.clone()));
        if v.number == 0 {
            let read = CallList::read(&v.list).expect("a call list");
            assert_eq!(read.bytes(), v.answer, "{}", v.id);
            let again = sort(&v.answer, v.answer.len());
            assert_eq!(again, (0, v.answer), "{}", v.id);
        }
    }
}

/// Each answer decodes, has the model's length, fits the output and can be applied.
#[test]
fn answers_decode() {
    for (_, name) in CALLS {
        for v in vectors::calls(&file(name)).iter().filter(|v| v.number == 0) {
            let batches = change_list::read(&v.answer).expect("a change list");
            assert_eq!(change_list::bytes(&batches), v.answer, "{}", v.id);
            let l = CallList::read(&v.list).expect("a call list");
            assert_eq!(answer_length(&l), Some(v.answer.len()), "{}", v.id);
            assert!(v.answer.len() <= v.out, "{}", v.id);
            let (number, _) = apply(&l.volume().bytes(), &v.answer, usize::MAX);
            assert!(number == 0 || number == 3, "{}: {number}", v.id);
        }
    }
}

/// A list that is read gives the bytes of its sorted form, which most have.
#[test]
fn lists_give_their_bytes_again() {
    for (_, name) in CALLS {
        let (mut in_order, mut others) = (0, 0);
        for v in vectors::calls(&file(name)) {
            let Some(l) = CallList::read(&v.list) else {
                continue;
            };
            let form = sorted_form(&v.list).expect("whole fields");
            assert_eq!(l.bytes(), form, "{}", v.id);
            match form == v.list {
                true => in_order += 1,
                false => others += 1,
            }
        }
        assert!(
            in_order > 150 && others > 60,
            "{name}: {in_order}, {others}"
        );
    }
}

/// The files hold enough vectors of every kind, under different names.
#[test]
fn vectors_are_enough() {
    for (call, name) in ON_LISTS {
        let vectors = vectors::calls(&file(name));
        let names: BTreeSet<&String> = vectors.iter().map(|v| &v.id).collect();
        assert_eq!(names.len(), vectors.len());
        assert!(vectors.len() >= 120, "{name}");
        let accepted = vectors.iter().filter(|v| v.number == 0);
        assert!(accepted.filter(|v| v.list.len() <= 400).count() >= 30);
        assert!(vectors.iter().filter(|v| v.number != 0).count() >= 25);
        for number in numbers(call) {
            assert!(vectors.iter().any(|v| v.number == *number), "{number}");
        }
    }
}

/// Apply gives each apply vector's number and next volume, its volume in any order.
#[test]
fn applies() {
    let mut rng = Rng::new(10);
    for v in vectors::applies(&file("apply")) {
        let due = (v.number, v.next);
        assert_eq!(apply(&v.volume, &v.change, v.out), due, "{}", v.id);
        for _ in 0..4 {
            let other = shuffled(&mut rng, &v.volume);
            assert_eq!(apply(&other, &v.change, v.out), due, "{}", v.id);
        }
    }
}

/// Generations gives each generations vector's answer, its volume in any order.
#[test]
fn generations_of_vectors() {
    let mut rng = Rng::new(12);
    for v in vectors::generations(&file("generations")) {
        let answer = |volume: &[u8]| generations(volume, &v.buckets, v.out);
        assert_eq!(answer(&v.volume), v.answer, "{}", v.id);
        for _ in 0..4 {
            let other = shuffled(&mut rng, &v.volume);
            assert_eq!(answer(&other), v.answer, "{}", v.id);
        }
        let due = if v.answer.number == 0 {
            v.buckets.len()
        } else {
            0
        };
        assert_eq!(v.answer.bytes.len(), due, "{}", v.id);
        assert!(due > 0 || v.answer.visited == 0, "{}", v.id);
    }
}

/// The generations vectors are enough: of every number, many short ones, and some in another order.
#[test]
fn generations_are_enough() {
    let vectors = vectors::generations(&file("generations"));
    let names: BTreeSet<&String> = vectors.iter().map(|v| &v.id).collect();
    assert_eq!(names.len(), vectors.len());
    for number in numbers(GENERATIONS) {
        let met = vectors.iter().filter(|v| v.answer.number == *number);
        assert!(met.count() >= 10, "{number}");
    }
    let accepted = || vectors.iter().filter(|v| v.answer.number == 0);
    let short = accepted().filter(|v| v.volume.len() <= 400);
    assert!(short.count() >= 100);
    let told = accepted().filter(|v| v.answer.bytes.iter().any(|&b| b != 0));
    assert!(told.count() >= 60);
    let in_other_orders = vectors.iter().filter(|v| v.id.contains("-order-"));
    assert!(in_other_orders.count() >= 20);
}

/// The lists at the limits are made again, with their numbers, in another order too, and their answers'
/// lengths.
#[test]
fn limits_are_made_again() {
    let mut rng = Rng::new(11);
    let mut full = [0; 4];
    for v in vectors::limits(&file("limits")) {
        let (list, what) = limits::list(limits::SEED, v.call, v.index);
        let bytes = list.bytes();
        assert_eq!(Held::of(&bytes), v.list, "{what}");
        let number = verdict(v.call, &bytes, SUMS, v.answer.length);
        assert_eq!(number, v.number, "{what}");
        let other = shuffled(&mut rng, &bytes);
        let number = verdict(v.call, &other, SUMS, v.answer.length);
        assert_eq!(number, v.number, "{what}, in another order");
        if number == 0 {
            assert_eq!(answer_length(&list), Some(v.answer.length), "{what}");
        }
        if list.trees.values().any(|keys| keys.len() == KEYS) {
            full[usize::from(v.call)] += 1;
        }
    }
    assert!(full[1..].iter().all(|&n| n >= 8), "{full:?}");
}

/// The applies at the limits are made again, with their numbers and next volumes.
#[test]
fn apply_limits_are_made_again() {
    for v in vectors::apply_limits(&file("apply-limits")) {
        let (volume, change) = changes::at_the_limits(limits::SEED, v.index);
        assert_eq!(Held::of(&volume), v.volume);
        assert_eq!(Held::of(&change), v.change);
        let (number, next) = apply(&volume, &change, usize::MAX);
        assert_eq!((number, Held::of(&next)), (v.number, v.next));
    }
}

/// The stored vector of one of the worked cases.
fn case(name: &str) -> Vector {
    let mut found = None;
    for (_, file_name) in CALLS {
        let vectors = vectors::calls(&file(file_name));
        found = found.or(vectors.into_iter().find(|v| v.id == name));
    }
    found.unwrap_or_else(|| panic!("{name} is stored"))
}

/// The batches of an accepted case.
fn batches(name: &str) -> Vec<Batch> {
    let v = case(name);
    assert_eq!(v.number, 0, "{name}");
    change_list::read(&v.answer).expect("a change list")
}

/// The (bucket, offset) of each piece placed in buckets of 128.
fn layout(b: &Batch) -> Vec<(u32, u64)> {
    b.placed
        .iter()
        .map(|p| (p.bucket, p.sector % 128))
        .collect()
}

/// The words of the first queued key of a tree.
fn words(b: &Batch, tree: u8) -> Vec<u64> {
    let (_, key) = b.keys.iter().find(|(t, _)| *t == tree).expect("a key");
    let word = |w: &[u8]| u64::from_le_bytes(w.try_into().expect("8 bytes"));
    key.value.chunks_exact(8).map(word).collect()
}

/// The freespace runs queued, by end and size.
fn queued_runs(batches: &[Batch]) -> Vec<(u64, u32)> {
    let keys = batches.iter().flat_map(|b| &b.keys);
    keys.filter(|(tree, key)| *tree == 11 && key.key_type == 25)
        .map(|(_, key)| (key.offset, key.size))
        .collect()
}

/// P cases 1 to 5 and 9: placements.
#[test]
fn placement_cases() {
    let p1 = &batches("p1")[0];
    assert_eq!(layout(p1), [(0, 0), (1, 0), (2, 0)]);
    assert_eq!(p1.roots, [10]);
    let p2 = &batches("p2")[0];
    assert_eq!(layout(p2), [(0, 0), (0, 64), (1, 0)]);
    assert_eq!(case("p3-accepted").number, 0);
    assert_eq!(case("p3-refused").number, 11);
    let p4 = batches("p4");
    assert_eq!(p4[0].taken, [10, 11, 13]);
    assert_eq!(queued_runs(&p4), [(20, 6)]);
    let p5 = &batches("p5")[0];
    let lru = p5.keys.iter().find(|(tree, _)| *tree == 10);
    assert_eq!(lru.expect("an LRU key").1.inode, (1 << 61) + 1_610_612_736);
    assert_eq!(words(&batches("p9")[0], 0)[0], 0x500_fffe);
}

/// P cases 6 and 7: releases.
#[test]
fn release_cases() {
    assert_eq!(words(&batches("p6")[0], 4)[1], 0x0009_0000_0000_0021);
    assert_eq!(words(&batches("p7-accepted")[0], 4)[2] as u32, 0);
    assert_eq!(case("p7-refused").number, 18);
}

/// P cases 8 and 10: discards.
#[test]
fn discard_cases() {
    assert_eq!(batches("p8-discarded")[0].unreserved, [3]);
    assert!(case("p8-waits").answer.is_empty());
    assert_eq!(queued_runs(&batches("p10-batch-3")), [(5, 2), (7, 1)]);
    assert_eq!(
        queued_runs(&batches("p10-batch-1")),
        [(4, 1), (5, 1), (7, 1)]
    );
}

/// The printed case of docs/FORMAT.md, "The program bucketlines".
#[test]
fn printed_discard() {
    let b = &batches("printed")[0];
    assert_eq!(words(b, 4), [0, 0x0000_0303_0000_0020, 0, 1, 1, 0, 0, 0]);
    let keys: Vec<_> = b
        .keys
        .iter()
        .map(|(tree, k)| (*tree, k.key_type, k.inode, k.offset, k.size))
        .collect();
    assert_eq!(
        keys,
        [(4, 27, 0, 5, 0), (11, 25, 0, 6, 1), (12, 0, 8, 5, 0)]
    );
    let rows: Vec<_> = b
        .rows
        .iter()
        .map(|r| (r.inode, r.numbers.clone()))
        .collect();
    let expected = [
        (0x0300_0000_0000_0000, vec![1, 0, 0]),
        (0x0300_0900_0000_0000, vec![-1, 0, 0]),
    ];
    assert_eq!(rows, expected);
    assert_eq!(b.unreserved, [5]);
}
