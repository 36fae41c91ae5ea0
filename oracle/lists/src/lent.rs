//! The six calls on outputs and scratches that are watched: each is lent filled with a pattern and
//! with guards on both sides, and afterwards held to what one outcome leaves of it.

use crate::call_list::{PLACE, RELEASE};
use crate::generations::Generations;
use crate::model::{SORT, SUMS};

/// Bytes before and after a lent output, and sums before and after a lent scratch.
const GUARD: usize = 64;
/// What stands in `written`, or in `visited`, before a call.
const UNWRITTEN: usize = 0xdead_beef;

/// A call on a list and an output, by number and `written`.
pub type OnList = fn(&[u8], &mut [u8], &mut usize) -> u32;

/// A call on a volume, buckets and an output, by number and `visited`.
pub type OnBuckets = fn(&[u8], &[u32], &mut [u8], &mut usize) -> u32;

/// The six calls under test.
#[derive(Clone, Copy)]
pub struct Calls {
    pub place: OnList,
    pub release: fn(&[u8], &mut [u32], &mut [u8], &mut usize) -> u32,
    pub discard: OnList,
    pub apply: fn(&[u8], &[u8], &mut [u8], &mut usize) -> u32,
    pub sort: OnList,
    pub generations: OnBuckets,
}

/// What a call is to answer: the number, and the bytes where it is 0.
#[derive(Clone, Copy)]
pub struct Due<'a> {
    pub number: u32,
    pub bytes: &'a [u8],
}

impl<'a> Due<'a> {
    /// An accepted answer.
    pub fn accepted(bytes: &'a [u8]) -> Due<'a> {
        Due { number: 0, bytes }
    }

    /// A refusal.
    pub fn refused(number: u32) -> Due<'a> {
        Due { number, bytes: &[] }
    }
}

impl Calls {
    /// Make a call, or a sort, with a scratch of `scratch` sums and an output of `out` bytes, and hold its
    /// whole outcome to what is due.
    pub fn hold(&self, call: u8, list: &[u8], scratch: usize, out: usize, due: Due) -> Held {
        match call {
            RELEASE => self.hold_release(list, scratch, out, due),
            PLACE => watch(out, due, |out, written| (self.place)(list, out, written)),
            SORT => watch(out, due, |out, written| (self.sort)(list, out, written)),
            _ => watch(out, due, |out, written| (self.discard)(list, out, written)),
        }
    }

    /// Make an apply with an output of `out` bytes, and hold its whole outcome to what is due.
    pub fn hold_apply(&self, volume: &[u8], change: &[u8], out: usize, due: Due) -> Held {
        watch(out, due, |out, written| {
            (self.apply)(volume, change, out, written)
        })
    }

    /// Look generations up with an output of `out` bytes, and hold the whole outcome to what is due.
    pub fn hold_generations(
        &self,
        volume: &[u8],
        buckets: &[u32],
        out: usize,
        due: &Generations,
    ) -> Held {
        let output = Due {
            number: due.number,
            bytes: &due.bytes,
        };
        watch_count(out, output, ("visited", due.visited), |out, visited| {
            (self.generations)(volume, buckets, out, visited)
        })
    }

    /// Hold a release, and its scratch too.
    fn hold_release(&self, list: &[u8], scratch: usize, out: usize, due: Due) -> Held {
        let mut sums = Lent::new(scratch, sum_at);
        watch(out, due, |out, written| {
            (self.release)(list, sums.lend(), out, written)
        })?;
        let cleared = if due.number == 1 { 0 } else { SUMS };
        sums.hold(&vec![0; cleared], sum_at)
            .map_err(|at| format!("the scratch is wrong at sum {at}"))
    }

    /// Hold an accepted call to its answer in an output as long as it, and to 21 in outputs that are
    /// one byte short and empty. Gives how many calls were made.
    pub fn hold_rooms(&self, call: u8, list: &[u8], answer: &[u8]) -> Result<u64, String> {
        in_rooms(answer, |out, due| self.hold(call, list, SUMS, out, due))
    }

    /// The same of an apply.
    pub fn hold_apply_rooms(
        &self,
        volume: &[u8],
        change: &[u8],
        next: &[u8],
    ) -> Result<u64, String> {
        in_rooms(next, |out, due| self.hold_apply(volume, change, out, due))
    }

    /// The same of generations, in an output one byte longer too.
    pub fn hold_generations_rooms(
        &self,
        volume: &[u8],
        buckets: &[u32],
        answer: &Generations,
    ) -> Result<u64, String> {
        let longer = answer.bytes.len() + 1;
        let held = self.hold_generations(volume, buckets, longer, answer);
        held.map_err(|why| format!("output one longer: {why}"))?;
        let tried = in_rooms(&answer.bytes, |out, due| match due.number {
            0 => self.hold_generations(volume, buckets, out, answer),
            number => {
                let refused = Generations::refused(number);
                self.hold_generations(volume, buckets, out, &refused)
            }
        });
        tried.map(|tried| tried + 1)
    }
}

/// Nothing, or how the outcome differs from what is due.
pub type Held = Result<(), String>;

/// An exact output, one that is a byte short and an empty one; how many were tried.
fn in_rooms(answer: &[u8], hold: impl Fn(usize, Due) -> Held) -> Result<u64, String> {
    let told = |room: &str, held: Held| held.map_err(|why| format!("output {room}: {why}"));
    told("exact", hold(answer.len(), Due::accepted(answer)))?;
    if answer.is_empty() {
        return Ok(1);
    }
    told("one short", hold(answer.len() - 1, Due::refused(21)))?;
    told("empty", hold(0, Due::refused(21)))?;
    Ok(3)
}

/// Make a call on a watched output, and hold number, `written` and output to what is due.
fn watch(length: usize, due: Due, call: impl FnOnce(&mut [u8], &mut usize) -> u32) -> Held {
    watch_count(length, due, ("written", due.bytes.len()), call)
}

/// The same of a call that tells a count, by name.
fn watch_count(
    length: usize,
    due: Due,
    (name, count): (&str, usize),
    call: impl FnOnce(&mut [u8], &mut usize) -> u32,
) -> Held {
    let mut out = Lent::new(length, byte_at);
    let mut told = UNWRITTEN;
    let number = call(out.lend(), &mut told);
    if number != due.number {
        return Err(format!("the number is {number} and {} is due", due.number));
    }
    if told != count {
        return Err(format!("{name} is {told} and {count} is due"));
    }
    out.hold(due.bytes, byte_at)
        .map_err(|at| format!("the output of {length} is wrong at byte {at}"))
}

/// A slice lent to a call, with guards around it.
struct Lent<T> {
    all: Vec<T>,
}

impl<T: Copy + PartialEq> Lent<T> {
    /// `length` items and the guards, in the pattern.
    fn new(length: usize, pattern: fn(usize) -> T) -> Lent<T> {
        Lent {
            all: (0..length + 2 * GUARD).map(pattern).collect(),
        }
    }

    /// The slice between the guards.
    fn lend(&mut self) -> &mut [T] {
        let end = self.all.len() - GUARD;
        &mut self.all[GUARD..end]
    }

    /// The slice begins with `due` and all else is as it was; or the first place that is not so,
    /// counted from the slice's start.
    fn hold(&self, due: &[T], pattern: fn(usize) -> T) -> Result<(), isize> {
        let end = GUARD + due.len();
        let as_due = |i: usize| match due.get(i.wrapping_sub(GUARD)) {
            Some(&item) => item,
            None => pattern(i),
        };
        let fits = end + GUARD <= self.all.len() && self.all[GUARD..end] == *due;
        let outside = (0..GUARD).chain(end..self.all.len());
        if fits && outside.into_iter().all(|i| self.all[i] == pattern(i)) {
            return Ok(());
        }
        let wrong = (0..self.all.len()).find(|&i| self.all[i] != as_due(i));
        Err(wrong.unwrap_or(self.all.len()) as isize - GUARD as isize)
    }
}

/// The pattern of bytes: neighbours differ.
fn byte_at(i: usize) -> u8 {
    (i.wrapping_mul(37) ^ (i >> 8)) as u8 ^ 0xa5
}

/// The pattern of sums: none is 0, neighbours differ.
fn sum_at(i: usize) -> u32 {
    i as u32 | 0x9000_0000
}

#[cfg(test)]
mod tests {
    use super::{Calls, Due, Generations, OnBuckets, OnList, RELEASE, SORT, SUMS};

    /// A discard that answers to any list with two bytes.
    fn two(_: &[u8], out: &mut [u8], written: &mut usize) -> u32 {
        *written = 0;
        if out.len() < 2 {
            return 21;
        }
        out[..2].copy_from_slice(&[8, 9]);
        *written = 2;
        0
    }

    /// Calls with this discard.
    fn calls(discard: OnList) -> Calls {
        Calls {
            place: two,
            release: |_, scratch, out, written| {
                if scratch.len() < SUMS {
                    *written = 0;
                    return 1;
                }
                scratch[..SUMS].fill(0);
                two(&[], out, written)
            },
            discard,
            apply: |_, _, out, written| two(&[], out, written),
            sort: two,
            generations: two_after_five,
        }
    }

    /// Generations that are two bytes after five keys, for any buckets.
    fn two_after_five(_: &[u8], _: &[u32], out: &mut [u8], visited: &mut usize) -> u32 {
        let number = two(&[], out, visited);
        *visited = if number == 0 { 5 } else { 0 };
        number
    }

    /// What is due of them.
    fn due_after_five() -> Generations {
        Generations {
            number: 0,
            bytes: vec![8, 9],
            visited: 5,
        }
    }

    /// A call that does what is due passes.
    #[test]
    fn what_is_due_passes() {
        let calls = calls(two);
        for call in [1, 2, 3, SORT] {
            assert_eq!(calls.hold_rooms(call, &[], &[8, 9]), Ok(3));
            let due = Due::accepted(&[8, 9]);
            assert_eq!(calls.hold(call, &[], SUMS + 9, 100, due), Ok(()));
        }
        assert_eq!(calls.hold_apply_rooms(&[], &[], &[8, 9]), Ok(3));
        let short = calls.hold(RELEASE, &[], SUMS - 1, 100, Due::refused(1));
        assert_eq!(short, Ok(()));
        let generations = calls.hold_generations_rooms(&[], &[], &due_after_five());
        assert_eq!(generations, Ok(4));
    }

    /// Another number, byte or length, and any byte changed past the answer, is told.
    #[test]
    fn faults_of_outputs_are_told() {
        let faults: [OnList; 5] = [
            |list, out, written| two(list, out, written) + 2,
            |list, out, written| {
                let number = two(list, out, written);
                out[1] = 7;
                number
            },
            |list, out, written| {
                let number = two(list, out, written);
                *out.last_mut().expect("room") ^= 1;
                number
            },
            |list, out, written| {
                let number = two(list, out, written);
                *written = 3;
                number
            },
            |_, _, _| 0,
        ];
        for fault in faults {
            let due = Due::accepted(&[8, 9]);
            assert!(calls(fault).hold(3, &[], 0, 10, due).is_err());
            let sort = Calls {
                sort: fault,
                ..calls(two)
            };
            assert!(sort.hold(SORT, &[], 0, 10, due).is_err());
        }
    }

    /// A refusal that changes the output or leaves `written` is told.
    #[test]
    fn faults_of_refusals_are_told() {
        let faults: [OnList; 2] = [
            |_, out, written| {
                *written = 0;
                out[0] ^= 1;
                2
            },
            |_, _, _| 2,
        ];
        for fault in faults {
            let held = calls(fault).hold(3, &[], 0, 10, Due::refused(2));
            assert!(held.is_err());
        }
    }

    /// A sum that is left, and one changed past those that are cleared, is told.
    #[test]
    fn faults_of_scratches_are_told() {
        let left = |_: &[u8], scratch: &mut [u32], out: &mut [u8], written: &mut usize| {
            scratch[..SUMS - 1].fill(0);
            two(&[], out, written)
        };
        let past = |_: &[u8], scratch: &mut [u32], out: &mut [u8], written: &mut usize| {
            scratch[..SUMS + 1].fill(0);
            two(&[], out, written)
        };
        let due = Due::accepted(&[8, 9]);
        for (release, at) in [(left as _, SUMS - 1), (past as _, SUMS)] {
            let calls = Calls {
                release,
                ..calls(two)
            };
            let held = calls.hold(RELEASE, &[], SUMS + 5, 10, due);
            assert_eq!(held, Err(format!("the scratch is wrong at sum {at}")));
        }
    }

    /// Generations with another number, byte or count, with a byte changed past them, or refused with the
    /// output changed or `visited` left, are told.
    #[test]
    fn faults_of_generations_are_told() {
        let hold = |generations: OnBuckets, due: &Generations| {
            let calls = Calls {
                generations,
                ..calls(two)
            };
            calls.hold_generations(&[], &[], 10, due)
        };
        let accepted: [OnBuckets; 4] = [
            |_, _, out, visited| two(&[], out, visited),
            |volume, buckets, out, visited| two_after_five(volume, buckets, out, visited) + 2,
            |volume, buckets, out, visited| {
                let number = two_after_five(volume, buckets, out, visited);
                out[1] = 7;
                number
            },
            |volume, buckets, out, visited| {
                let number = two_after_five(volume, buckets, out, visited);
                out[2] ^= 1;
                number
            },
        ];
        for fault in accepted {
            assert!(hold(fault, &due_after_five()).is_err());
        }
        let refused: [OnBuckets; 2] = [
            |_, _, out, visited| {
                *visited = 0;
                out[0] ^= 1;
                2
            },
            |_, _, _, _| 2,
        ];
        for fault in refused {
            assert!(hold(fault, &Generations::refused(2)).is_err());
        }
    }
}
