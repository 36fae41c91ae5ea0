//! Each call on lists at the limits, in order and in another, in a thread that has 512 KiB of stack in
//! all: the bound that the header gives. A call that takes more ends the test's process. Each answer is
//! the stored one, or the model's, so that the lists that are to be accepted run through the whole call.
//! Then lists past the limits, which are refused 22 or 3.

use lists::call_list::{DISCARD, PLACE, RELEASE};
use lists::generations::Generations;
use lists::model::{verdict, SORT};
use lists::order::shuffled;
use lists::rng::Rng;
use lists::vectors::{self, Held};
use lists::{changes, limits, past_limits};
use zerglaz::limits::{MAX_BUCKETS_ASKED, MAX_CALL_LIST, MAX_CHANGE, MAX_VOLUME};
use zerglaz::{Bucket, Refusal, SUMS};

/// The bound that the header gives.
const STACK: usize = 512 * 1024;

/// What a call answers: its number, and its bytes by length and digest.
type Answer = (u32, Held);

/// Make a call in a thread of that stack, with this much room.
fn within(
    room: usize,
    call: impl FnOnce(&mut [u8]) -> Result<usize, Refusal> + Send + 'static,
) -> Answer {
    in_thread(move || {
        let mut out = vec![0; room];
        match call(&mut out) {
            Ok(length) => (0, Held::of(&out[..length])),
            Err(refusal) => (refusal.number(), Held::of(&[])),
        }
    })
}

/// Do something in a thread of that stack.
fn in_thread<T: Send + 'static>(work: impl FnOnce() -> T + Send + 'static) -> T {
    let thread = std::thread::Builder::new().stack_size(STACK).spawn(work);
    thread.expect("a thread").join().expect("no panic")
}

/// The text of a file of `vectors/`.
fn file(name: &str) -> String {
    let path = format!("{}/../vectors/{name}.txt", env!("CARGO_MANIFEST_DIR"));
    std::fs::read_to_string(&path).unwrap_or_else(|e| panic!("{path}: {e}"))
}

/// A call on a list and an output.
type Make = fn(&[u8], &mut [u8]) -> Result<usize, Refusal>;

/// Hold a call to all of its stored answers at the limits, of which so many are accepted, in order and in
/// another, and to its numbers past the limits.
fn hold(call: u8, accepted: usize, make: Make) {
    let stored = vectors::limits(&file("limits"));
    let stored: Vec<_> = stored.into_iter().filter(|v| v.call == call).collect();
    assert_eq!(stored.len() as u64, limits::LISTS);
    assert_eq!(stored.iter().filter(|v| v.number == 0).count(), accepted);
    for v in stored {
        let (list, what) = limits::list(limits::SEED, call, v.index);
        let list = list.bytes();
        let other = shuffled(&mut Rng::new(v.index), &list);
        for list in [list, other] {
            let answer = within(MAX_CHANGE, move |out| make(&list, out));
            assert_eq!(answer, (v.number, v.answer), "{what}");
        }
    }
    for index in 0..past_limits::LISTS {
        let (list, what) = past_limits::list(limits::SEED, call, index);
        let number = verdict(call, &list, SUMS, 0);
        let answer = within(0, move |out| make(&list, out));
        assert_eq!(answer, (number, Held::of(&[])), "{what}");
    }
}

#[test]
fn place() {
    hold(PLACE, 9, zerglaz::place);
}

#[test]
fn release() {
    hold(RELEASE, 9, |list, out| {
        zerglaz::release(list, &mut vec![0; SUMS], out)
    });
}

#[test]
fn discard() {
    hold(DISCARD, 11, zerglaz::discard);
}

#[test]
fn apply() {
    let stored = vectors::apply_limits(&file("apply-limits"));
    assert_eq!(stored.len() as u64, changes::LIMITS);
    assert_eq!(stored.iter().filter(|v| v.number == 0).count(), 5);
    for v in stored {
        let (volume, change) = changes::at_the_limits(limits::SEED, v.index);
        let other = shuffled(&mut Rng::new(v.index), &volume);
        for volume in [volume, other] {
            let change = change.clone();
            let answer = within(MAX_VOLUME, move |out| zerglaz::apply(&volume, &change, out));
            assert_eq!(answer, (v.number, v.next), "{}", v.index);
        }
    }
    for index in 0..past_limits::LISTS {
        let (volume, what) = past_limits::volume(limits::SEED, PLACE, index);
        let (number, next) = lists::apply::apply(&volume, &[], MAX_VOLUME);
        let answer = within(MAX_VOLUME, move |out| zerglaz::apply(&volume, &[], out));
        assert_eq!(answer, (number, Held::of(&next)), "{what}");
    }
}

/// The lists of every call, in order and in another, and past the limits.
#[test]
fn sort() {
    for call in [PLACE, RELEASE, DISCARD] {
        for index in 0..limits::LISTS {
            let (list, what) = limits::list(limits::SEED, call, index);
            let list = list.bytes();
            let (number, sorted) = lists::sort::sort(&list, MAX_CALL_LIST);
            let other = shuffled(&mut Rng::new(index), &list);
            for list in [list, other] {
                let answer = within(MAX_CALL_LIST, move |out| zerglaz::sort(&list, out));
                assert_eq!(answer, (number, Held::of(&sorted)), "{what}");
            }
        }
        for index in 0..past_limits::LISTS {
            let (list, what) = past_limits::list(limits::SEED, call, index);
            let number = verdict(SORT, &list, 0, 0);
            let answer = within(0, move |out| zerglaz::sort(&list, out));
            assert_eq!(answer, (number, Held::of(&[])), "{what}");
        }
    }
}

/// Hold generations to the model on a volume, with as many buckets as may be asked for, from the first
/// record to the last, and with one more. Gives whether the former are accepted.
fn hold_generations(volume: &[u8], what: &str) -> bool {
    let spread: Vec<u32> = (0..=MAX_BUCKETS_ASKED as u32).map(|i| i * 63).collect();
    let numbers = [MAX_BUCKETS_ASKED, MAX_BUCKETS_ASKED + 1].map(|count| {
        let due = lists::generations::generations(volume, &spread[..count], MAX_BUCKETS_ASKED);
        let buckets: Vec<Bucket> = spread[..count].iter().copied().map(Bucket).collect();
        let volume = volume.to_vec();
        let found = in_thread(move || zerglaz::generations(&volume, &buckets));
        let found = found.map(|found| (found.generations, found.visited));
        let number = due.number;
        assert_eq!(answered(due), found.map_err(Refusal::number), "{what}");
        number
    });
    assert_ne!(numbers[1], 0, "{what}");
    numbers[0] == 0
}

/// The generations and the keys visited, or the number.
fn answered(due: Generations) -> Result<(Vec<u8>, usize), u32> {
    match due.number {
        0 => Ok((due.bytes, due.visited)),
        number => Err(number),
    }
}

/// The volumes of every call's lists, in order and in another, and past the limits.
#[test]
fn generations() {
    let mut accepted = 0;
    for call in [PLACE, RELEASE, DISCARD] {
        for index in 0..limits::LISTS {
            let (list, what) = limits::list(limits::SEED, call, index);
            let volume = list.volume().bytes();
            let other = shuffled(&mut Rng::new(index), &volume);
            for volume in [volume, other] {
                accepted += usize::from(hold_generations(&volume, what));
            }
        }
        for index in 0..past_limits::LISTS {
            let (volume, what) = past_limits::volume(limits::SEED, call, index);
            hold_generations(&volume, what);
        }
    }
    assert!(accepted > 60);
}
