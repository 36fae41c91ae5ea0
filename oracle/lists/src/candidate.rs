//! The stream of candidates: a list with its scratch and output, from one seed each.

use crate::call_list::{PLACE, RELEASE};
use crate::generate::{list, whole_in_all, Size};
use crate::model::{SORT, SUMS};
use crate::order::{doubled, shuffled};
use crate::rng::Rng;
use crate::spoil::{damage, numbers, spoil};

/// A call to make, or a sort: the list, the scratch's sums and what is asked of the output.
#[derive(Debug, Clone, PartialEq, Eq)]
pub struct Candidate {
    pub call: u8,
    pub list: Vec<u8>,
    pub scratch: usize,
    pub room: Room,
}

/// The output's length beside the answer's.
#[derive(Debug, Clone, Copy, PartialEq, Eq)]
pub enum Room {
    /// As long as the answer.
    Exact,
    /// Longer by so much.
    Over(usize),
    /// Shorter by so much, or empty.
    Under(usize),
}

/// The candidate of a seed: `wanted` is 0 for an accepted list, or the number to spoil towards. A list
/// to sort names any call, and stands in any order.
pub fn candidate(seed: u64, call: u8, size: Size, wanted: u32) -> Candidate {
    let mut rng = Rng::new(seed ^ u64::from(call) << 56 ^ u64::from(wanted) << 48);
    let named = match call {
        SORT => rng.from_to(1, 3) as u8,
        call => call,
    };
    let mut l = list(&mut rng, named, size);
    if wanted != 0 {
        spoil(&mut rng, &mut l, wanted);
        // A second fault at times, so that the order of refusals is seen.
        if rng.one_in(4) {
            let others: Vec<u32> = numbers(call).iter().copied().filter(|&n| n != 22).collect();
            let second = rng.pick(&others);
            spoil(&mut rng, &mut l, second);
        }
    }
    let mut list = l.bytes();
    if wanted == 2 || (wanted == 1 && rng.one_in(3)) {
        list = damage(&mut rng, &list);
    }
    if wanted == 22 {
        list = doubled(&mut rng, &list);
    }
    if call == SORT && !rng.one_in(8) {
        list = shuffled(&mut rng, &list);
    }
    Candidate {
        call,
        list,
        scratch: scratch(&mut rng, call, wanted),
        room: room(&mut rng, wanted),
    }
}

/// The `i`-th candidate of a call: half of them accepted ones, the others spoilt towards each number,
/// both in every size.
pub fn nth(call: u8, i: u64, seed: u64) -> Candidate {
    let numbers = numbers(call);
    let wanted = match i % 2 {
        0 => 0,
        _ => numbers[(i / 32) as usize % numbers.len()],
    };
    candidate(seed.wrapping_add(i), call, Size::nth(i / 2), wanted)
}

/// The `i`-th placement on which the Rust's rule for the LRU root differs, in every size.
pub fn nth_whole_in_all(i: u64, seed: u64) -> Candidate {
    let mut rng = Rng::new(seed.wrapping_add(i) ^ u64::from(PLACE) << 56);
    let list = whole_in_all(&mut rng, Size::nth(i)).bytes();
    Candidate {
        call: PLACE,
        list,
        scratch: 0,
        room: room(&mut rng, 0),
    }
}

/// A release's scratch: long enough unless 1 is wanted.
fn scratch(rng: &mut Rng, call: u8, wanted: u32) -> usize {
    match (call, wanted) {
        (RELEASE, 1) => rng.pick(&[0, 1, 1_024, SUMS - 1]),
        (RELEASE, _) => rng.pick(&[SUMS, SUMS, SUMS + 1, SUMS + 100]),
        _ => 0,
    }
}

/// The output: too short where 21 is wanted.
fn room(rng: &mut Rng, wanted: u32) -> Room {
    match (wanted, rng.below(3)) {
        (21, 0) => Room::Under(usize::MAX),
        (21, _) => Room::Under(rng.from_to(1, 4) as usize),
        (_, 0) => Room::Exact,
        _ => Room::Over(rng.from_to(1, 100) as usize),
    }
}

impl Candidate {
    /// The same call, its list in another order.
    pub fn shuffled(&self, rng: &mut Rng) -> Candidate {
        Candidate {
            list: shuffled(rng, &self.list),
            ..self.clone()
        }
    }
}

impl Room {
    /// The output's length for an answer of `answer` bytes.
    pub fn length(self, answer: usize) -> usize {
        match self {
            Room::Exact => answer,
            Room::Over(by) => answer + by,
            Room::Under(by) => answer.saturating_sub(by),
        }
    }
}
