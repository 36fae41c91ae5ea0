//! Random histories through the archive, their lists in any order: each number is the model's, each
//! answer is applied by the archive and by the model with the same bytes, the buckets' generations are the
//! model's, and demand 3 is counted on the volume after each step.

mod common;

use common::ARCHIVE;
use lists::apply::apply;
use lists::call_list::RELEASE;
use lists::generations::generations;
use lists::history::{History, Tally};
use lists::lent::Due;
use lists::model::{verdict, SORT, SUMS};
use lists::order::without_requests;
use lists::rng::Rng;
use lists::sort::sort;
use std::collections::BTreeSet;
use zerglaz::limits::RETIRED_GENERATION;
use zerglaz::{CallListRef, ChangeListRef};

/// How many histories, and how many steps each has.
const HISTORIES: u64 = 80;
const STEPS: u64 = 50;

/// A call with a scratch and an output of some length: the change list, or none where it refuses.
fn call(rng: &mut Rng, call: u8, list: &[u8]) -> Option<Vec<u8>> {
    let scratch = if rng.one_in(20) { SUMS - 1 } else { SUMS + 3 };
    let room = rng.pick(&[1 << 20, 1 << 20, 1 << 20, 400]);
    let mut out = vec![0; room];
    let answer = match call {
        1 => zerglaz::place(list, &mut out),
        RELEASE => zerglaz::release(list, &mut vec![9; scratch], &mut out),
        _ => zerglaz::discard(list, &mut out),
    };
    let number = answer.map_or_else(|refusal| refusal.number(), |_| 0);
    assert_eq!(number, verdict(call, list, scratch, room));
    hold_sort(list);
    hold_generations(list);
    out.truncate(answer.ok()?);
    hold_apply(list, &out);
    Some(out)
}

/// The archive's sorted form is the model's.
fn hold_sort(list: &[u8]) {
    let (number, sorted) = sort(list, usize::MAX);
    let due = Due {
        number,
        bytes: &sorted,
    };
    let held = ARCHIVE.hold(SORT, list, 0, list.len(), due);
    held.unwrap_or_else(|why| panic!("sort: {why}"));
}

/// The archive's generations of the first buckets and of the last are the model's.
fn hold_generations(list: &[u8]) {
    let volume = without_requests(list);
    let buckets: Vec<u32> = (0..300).chain([512, 65_535]).collect();
    let due = generations(&volume, &buckets, buckets.len());
    let held = ARCHIVE.hold_generations(&volume, &buckets, buckets.len(), &due);
    held.unwrap_or_else(|why| panic!("generations: {why}"));
}

/// The archive's apply gives the model's next volume, or its number, the list without its requests
/// standing as it does; that volume passes the checks of `Volume::open`.
fn hold_apply(list: &[u8], change: &[u8]) {
    let volume = without_requests(list);
    let (number, next) = apply(&volume, change, usize::MAX);
    let due = Due {
        number,
        bytes: &next,
    };
    let held = ARCHIVE.hold_apply(&volume, change, next.len() + 9, due);
    held.unwrap_or_else(|why| panic!("apply: {why}"));
    if number == 0 {
        let next = CallListRef::read(&next).expect("a volume");
        next.check().expect("what a history reaches is opened");
    }
}

#[test]
fn demand_3() {
    let mut sum = Tally::default();
    for seed in 0..HISTORIES {
        let mut history = History::new(seed);
        let mut rng = Rng::new(seed);
        for step in 0..STEPS {
            let made = history.step(&mut |byte, list| call(&mut rng, byte, list));
            made.unwrap_or_else(|why| panic!("history {seed}, step {step}: {why}"));
        }
        sum.add(&history.tally);
    }
    println!("{HISTORIES} histories of {STEPS} steps: {sum:?}");
    assert!(sum.placed > 300 && sum.released > 300 && sum.discarded > 300 && sum.refused > 300);
    assert!(sum.highest_generation > 0);
    assert!(sum.in_order > 500 && sum.in_order < HISTORIES * STEPS / 2);
}

/// One long history, in which buckets come round often: until they have had every generation but
/// the one at which they retire.
#[test]
fn a_long_history() {
    let mut history = History::new(7);
    let mut rng = Rng::new(7);
    let mut uses: BTreeSet<(u32, u8)> = BTreeSet::new();
    for step in 0..1_500 {
        let made = history.step(&mut |byte, list| {
            let change = call(&mut rng, byte, list)?;
            let placed = ChangeListRef::read(&change)
                .expect("a change list")
                .placed();
            uses.extend(placed.map(|piece| (piece.bucket.0, piece.generation)));
            Some(change)
        });
        made.unwrap_or_else(|why| panic!("step {step}: {why}"));
    }
    let buckets: BTreeSet<u32> = uses.iter().map(|&(bucket, _)| bucket).collect();
    let (uses, buckets) = (uses.len(), buckets.len());
    println!(
        "1,500 steps, {buckets} buckets used {uses} times: {:?}",
        history.tally
    );
    assert!(history.tally.placed > 200 && history.tally.released > 400);
    assert!(history.tally.discarded > 200 && history.tally.refused > 400);
    assert_eq!(history.tally.highest_generation, RETIRED_GENERATION - 1);
    assert!(
        uses >= 10 * buckets,
        "each bucket is used ten times, on average"
    );
}
