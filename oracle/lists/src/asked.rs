//! Volumes and buckets whose generations are looked up, from a seed.

use crate::call_list::{CallList, BUCKET_GENS, PLACED, RELEASED};
use crate::candidate::Room;
use crate::fields::put;
use crate::generate::{list, Size};
use crate::generations::TOGETHER;
use crate::key::{Key, VALUE_MAX};
use crate::model::{BUCKETS, GENERATIONS};
use crate::order::{doubled, shuffled};
use crate::rng::Rng;
use crate::spoil::{damage, numbers, spoil};
use std::collections::BTreeSet;

/// Buckets at the ends of records and at the ends of all.
const BORDERS: [u32; 12] = [
    0, 1, 254, 255, 256, 257, 511, 512, 65_279, 65_280, 65_534, 65_535,
];

/// Generations to look up.
#[derive(Debug, Clone, PartialEq, Eq)]
pub struct Asked {
    pub volume: Vec<u8>,
    pub buckets: Vec<u32>,
    pub room: Room,
}

/// The volume and buckets of a seed: `wanted` is 0, 2, 22, 3 or 21.
pub fn asked(seed: u64, size: Size, wanted: u32) -> Asked {
    let mut rng = Rng::new(seed ^ 5 << 56 ^ u64::from(wanted) << 48);
    let mut volume = volume(&mut rng, size);
    let mut buckets = buckets(&mut rng, &volume, size);
    let mut faults = vec![wanted];
    // A second fault at times, so that the order of refusals is seen.
    if wanted != 0 && rng.one_in(4) {
        faults.push(rng.pick(numbers(GENERATIONS)));
    }
    if faults.contains(&3) {
        pass_a_limit(&mut rng, &mut volume, &mut buckets);
    }
    let mut volume = volume.bytes();
    if faults.contains(&22) {
        volume = doubled(&mut rng, &volume);
    }
    if faults.contains(&2) {
        break_layout(&mut rng, &mut volume, &mut buckets);
    }
    if faults.contains(&21) && buckets.is_empty() {
        buckets.push(rng.pick(&BORDERS));
    }
    let room = room(&mut rng, faults.contains(&21));
    Asked {
        volume,
        buckets,
        room,
    }
}

/// The `i`-th volume and buckets: half of them accepted ones, the others spoilt towards each number, both
/// in every size.
pub fn nth(i: u64, seed: u64) -> Asked {
    let numbers = numbers(GENERATIONS);
    let wanted = match i % 2 {
        0 => 0,
        _ => numbers[(i / 32) as usize % numbers.len()],
    };
    asked(seed.wrapping_add(i), Size::nth(i / 2), wanted)
}

impl Asked {
    /// The same buckets, the volume in another order.
    pub fn shuffled(&self, rng: &mut Rng) -> Asked {
        Asked {
            volume: shuffled(rng, &self.volume),
            ..self.clone()
        }
    }

    /// The output's length.
    pub fn out(&self) -> usize {
        self.room.length(self.buckets.len())
    }
}

/// The output: too short where that is wanted, and else exact, longer or much longer.
fn room(rng: &mut Rng, short: bool) -> Room {
    match (short, rng.below(3)) {
        (true, 0) => Room::Under(usize::MAX),
        (true, _) => Room::Under(rng.from_to(1, 3) as usize),
        (_, 0) => Room::Exact,
        (_, 1) => Room::Over(1),
        _ => Room::Over(rng.from_to(2, 300) as usize),
    }
}

/// A volume of any call, most with generation keys and nothing else, the others with some of all.
fn volume(rng: &mut Rng, size: Size) -> CallList {
    let call = rng.from_to(1, 3) as u8;
    let mut volume = list(rng, call, size).volume();
    if !rng.one_in(4) {
        volume.trees.clear();
        volume.reserved.clear();
    }
    let most = size.choose(6, 30, 400);
    let count = match rng.below(12) {
        0 => 0,
        1 => 1,
        2 => most,
        _ => rng.from_to(1, most),
    };
    let near = rng.pick(&[0, 0, 0, 1, 100, 255]);
    let spread = rng.pick(&[size.choose(2, 5, 256), size.choose(5, 30, 256), 256]);
    let longest = rng.pick(&[size.choose(20, 40, 100), size.choose(60, 256, 200), 256]);
    let mut room = size.room().saturating_sub(volume.bytes().len());
    for _ in 0..count {
        let key = generation_key(rng, near, spread, longest as usize);
        let bytes = 40 + key.value.len();
        if bytes <= room {
            room -= bytes;
            volume.insert(BUCKET_GENS, key);
        }
    }
    volume
}

/// A generation key: most at the place of a record, from `near` on, and of a record's type.
fn generation_key(rng: &mut Rng, near: u64, spread: u64, longest: usize) -> Key {
    let place = (near + rng.below(spread)) % 256;
    let (inode, offset) = match rng.below(16) {
        0 => (rng.pick(&[1, 1, 2, 256, 1 << 32, u64::MAX]), place),
        1 => (rng.from_to(1, 3), rng.pick(&[0, 255, 256, u64::MAX])),
        // Past the last record, and alike in the lowest bytes.
        2 => (0, place + rng.pick(&[256, 1 << 16, 1 << 32, 1 << 63])),
        3 => (0, rng.pick(&[255, 256, 257, u64::MAX])),
        _ => (0, place),
    };
    let key_type = match rng.one_in(7) {
        true => rng.pick(&[0, 25, 27, 29, 31, 255]),
        false => 30,
    };
    let length = match rng.below(5) {
        0 => rng.pick(&[0, 1, longest.saturating_sub(1)]),
        1 => longest,
        _ => rng.below(longest as u64 + 1) as usize,
    };
    Key {
        size: rng.pick(&[0, 0, 4, u32::MAX]),
        version_hi: rng.pick(&[0, 0, 7]),
        version_lo: rng.pick(&[0, 0, 1 << 40]),
        value: rng.bytes(length),
        ..Key::at(key_type, inode, offset)
    }
}

/// Ascending buckets: neighbours, some near each other, some far apart, at the borders of records, around
/// the last bytes of the volume's keys, or some of each.
fn buckets(rng: &mut Rng, volume: &CallList, size: Size) -> Vec<u32> {
    let most = size.choose(8, 60, TOGETHER as u64);
    let count = match rng.below(12) {
        0 => 0,
        1 | 2 => 1,
        3 | 4 => most,
        _ => rng.from_to(1, most),
    };
    let ends = last_bytes(volume);
    let start = match rng.below(4) {
        0 => rng.below(BUCKETS) as u32,
        1 | 2 if !ends.is_empty() => near_end(rng, &ends),
        _ => rng.pick(&BORDERS),
    };
    let start = start.min((BUCKETS - 3 * count) as u32);
    let how = rng.below(12);
    let mut buckets: BTreeSet<u32> = (0..count)
        .map(|i| match (how, rng.below(6)) {
            (0, _) => start + i as u32,
            (1, _) | (2..=4, 0) => start + rng.below(3 * count) as u32,
            (5, _) | (2..=4, 1) => rng.pick(&BORDERS),
            (7.., _) | (2..=4, 2..=4) if !ends.is_empty() => near_end(rng, &ends),
            _ => rng.below(BUCKETS) as u32,
        })
        .collect();
    // As many as there can be, where so many were asked.
    let mut next = 0;
    while count == most && buckets.len() < most as usize {
        buckets.insert(next);
        next += 1;
    }
    buckets.into_iter().collect()
}

/// The buckets of the last bytes of the keys that stand where records do.
fn last_bytes(volume: &CallList) -> Vec<u32> {
    let keys = volume.keys(BUCKET_GENS).iter();
    keys.filter(|key| key.inode == 0 && key.offset < 256)
        .map(|key| key.offset as u32 * 256 + key.value.len().saturating_sub(1) as u32)
        .collect()
}

/// A bucket at, after or before one of these.
fn near_end(rng: &mut Rng, ends: &[u32]) -> u32 {
    let end = rng.pick(ends);
    let before = match rng.below(4) {
        0 => return (end + 1).min(65_535),
        1 => 0,
        2 => rng.below(9),
        _ => rng.below(VALUE_MAX as u64),
    };
    end.saturating_sub(before as u32)
}

/// Pass a limit of the volume, or of the buckets by their number or by one of them.
fn pass_a_limit(rng: &mut Rng, volume: &mut CallList, buckets: &mut Vec<u32>) {
    match rng.below(4) {
        0 | 1 => {
            spoil(rng, volume, 3);
            *volume = volume.volume();
        }
        2 => buckets.push(rng.pick(&[65_536, 65_537, 1 << 24, 1 << 31, u32::MAX])),
        _ => {
            let count = TOGETHER as u32 + rng.pick(&[1, 1, 1, 2, 100]);
            let step = rng.pick(&[1, 1, 7, 60, 64]);
            let start = rng.pick(&[0, 1, 255, 3_000]);
            *buckets = (0..count).map(|i| start + i * step).collect();
        }
    }
}

/// Break the layout of the volume, put requests into it, or let buckets not ascend.
fn break_layout(rng: &mut Rng, volume: &mut Vec<u8>, buckets: &mut Vec<u32>) {
    match rng.below(6) {
        0 => put(volume, PLACED, &rng.bytes(13)),
        1 => put(volume, RELEASED, &rng.bytes(10)),
        2 => descend(rng, buckets),
        3 => repeat(rng, buckets),
        _ => *volume = damage(rng, volume),
    }
}

/// Let a bucket stand twice, side by side.
fn repeat(rng: &mut Rng, buckets: &mut Vec<u32>) {
    if buckets.is_empty() {
        buckets.push(rng.pick(&BORDERS));
    }
    let at = some_place(rng, buckets.len());
    buckets.insert(at, buckets[at]);
}

/// Let a bucket come before a lower one.
fn descend(rng: &mut Rng, buckets: &mut Vec<u32>) {
    while buckets.len() < 2 {
        buckets.push(65_534 + buckets.len() as u32);
    }
    let at = some_place(rng, buckets.len() - 1);
    match rng.below(3) {
        0 => buckets.reverse(),
        _ => buckets.swap(at, at + 1),
    }
}

/// A place among so many: the first, the last or any.
fn some_place(rng: &mut Rng, places: usize) -> usize {
    match rng.below(3) {
        0 => 0,
        1 => places - 1,
        _ => rng.below(places as u64) as usize,
    }
}

#[cfg(test)]
mod tests {
    use super::{asked, nth};
    use crate::call_list::{CallList, BUCKET_GENS};
    use crate::generate::Size;
    use crate::generations::{generations, TOGETHER};
    use crate::model::GENERATIONS;
    use crate::spoil::numbers;
    use std::collections::BTreeMap;

    /// What is wanted is met most of the time, and an accepted volume is as large as it says.
    #[test]
    fn wanted_numbers() {
        for &wanted in [0].iter().chain(numbers(GENERATIONS)) {
            let mut met = 0;
            for seed in 0..200 {
                let size = Size::nth(seed);
                let a = asked(seed, size, wanted);
                let number = generations(&a.volume, &a.buckets, a.out()).number;
                met += u64::from(number == wanted);
                assert!(wanted != 0 || number == 0 && a.volume.len() <= size.room());
            }
            assert!(met >= 100, "{wanted}: {met}");
        }
    }

    /// Among the accepted ones there are volumes without keys and with some hundred, no buckets and
    /// 1,024, generations that are 0 and ones that are not, and walks to the end and short of it.
    #[test]
    fn every_kind() {
        let mut met: BTreeMap<&str, u64> = BTreeMap::new();
        for i in 0..2_000 {
            let a = nth(2 * i, 1);
            let answer = generations(&a.volume, &a.buckets, usize::MAX);
            let volume = CallList::read(&a.volume).expect("a volume");
            let keys = volume.keys(BUCKET_GENS).len();
            let mut count = |kind, is| *met.entry(kind).or_default() += u64::from(is);
            count("no keys", keys == 0);
            count("200 keys", keys > 200);
            count("no buckets", a.buckets.is_empty());
            count("1,024 buckets", a.buckets.len() == TOGETHER);
            count("a generation", answer.bytes.iter().any(|&b| b != 0));
            count("no generation", answer.bytes.iter().all(|&b| b == 0));
            count("all visited", keys > 0 && answer.visited == keys);
            count("some visited", answer.visited > 0 && answer.visited < keys);
        }
        assert!(met.values().all(|&n| n >= 10), "{met:?}");
    }
}
