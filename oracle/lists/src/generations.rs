//! Generations, written from the source of docs/FORMAT.md alone: each bucket is looked up by itself in a
//! map of the generation keys, and the keys visited are counted by their positions.

use crate::call_list::{CallList, BUCKET_GENS};
use crate::key::{Key, Position};
use crate::model::{passes_a_limit, BUCKETS};
use std::collections::BTreeMap;

/// The most buckets that are looked up together.
pub const TOGETHER: usize = 1_024;
/// The type of a generation record, and how many buckets it has a byte for.
const RECORD: u8 = 30;
const IN_RECORD: u64 = 256;

/// The answer: the number, and where it is 0 a byte for each bucket and how many keys were visited.
#[derive(Debug, Clone, PartialEq, Eq, Default)]
pub struct Generations {
    pub number: u32,
    pub bytes: Vec<u8>,
    pub visited: usize,
}

/// The generation keys of a volume, by position.
type Keys = BTreeMap<Position, Key>;

impl Generations {
    /// A refusal.
    pub fn refused(number: u32) -> Generations {
        Generations {
            number,
            ..Generations::default()
        }
    }
}

/// The answer to a volume and buckets, with an output of `out` bytes.
pub fn generations(volume: &[u8], buckets: &[u32], out: usize) -> Generations {
    match keys(volume, buckets) {
        Err(number) => Generations::refused(number),
        Ok(_) if buckets.len() > out => Generations::refused(21),
        Ok(keys) => Generations {
            number: 0,
            bytes: buckets.iter().map(|&b| generation(&keys, b)).collect(),
            visited: visited(&keys, buckets),
        },
    }
}

/// The generation keys of a volume in which these buckets can be looked up, or 2, 22 or 3.
fn keys(volume: &[u8], buckets: &[u32]) -> Result<Keys, u32> {
    let volume = CallList::read(volume).filter(|l| l.requests() == 0);
    let volume = volume.ok_or(2u32)?;
    if buckets.windows(2).any(|pair| pair[0] >= pair[1]) {
        return Err(2);
    }
    if volume.stands_twice() {
        return Err(22);
    }
    let past = |&bucket: &u32| u64::from(bucket) >= BUCKETS;
    if passes_a_limit(&volume) || buckets.len() > TOGETHER || buckets.iter().any(past) {
        return Err(3);
    }
    let keys = volume.keys(BUCKET_GENS).iter();
    Ok(keys.map(|key| (key.position(), key.clone())).collect())
}

/// Where a bucket's record stands.
fn record_position(bucket: u32) -> Position {
    (0, u64::from(bucket) / IN_RECORD, 0)
}

/// A bucket's generation; 0 where there is no record, one of another type or one without its byte.
fn generation(keys: &Keys, bucket: u32) -> u8 {
    let record = keys.get(&record_position(bucket));
    let record = record.filter(|key| key.key_type == RECORD);
    let byte = (u64::from(bucket) % IN_RECORD) as usize;
    record.map_or(0, |key| key.value.get(byte).copied().unwrap_or(0))
}

/// How many keys are visited: those up to the last bucket's record, and one past it if there is one.
fn visited(keys: &Keys, buckets: &[u32]) -> usize {
    buckets.last().map_or(0, |&last| {
        let up_to = keys.range(..=record_position(last)).count();
        keys.len().min(up_to + 1)
    })
}

#[cfg(test)]
mod tests {
    use super::{generations, Generations};
    use crate::asked::nth;
    use crate::call_list::{CallList, BUCKET_GENS, PLACE};
    use crate::key::Key;
    use crate::rng::Rng;

    /// A volume with two records, a key of another type where a third would be, and one elsewhere.
    fn volume() -> Vec<u8> {
        let mut l = CallList::default();
        l.head.call = PLACE;
        for (key_type, inode, offset, value) in [
            (30, 0, 0, vec![5, 6]),
            (29, 0, 1, vec![7]),
            (30, 0, 3, vec![8; 256]),
            (30, 1, 0, vec![9]),
        ] {
            let mut key = Key::at(key_type, inode, offset);
            key.value = value;
            l.insert(BUCKET_GENS, key);
        }
        l.bytes()
    }

    /// Generations and keys visited, told by hand.
    #[test]
    fn by_hand() {
        let rows: [(&[u32], &[u8], usize); 9] = [
            (&[], &[], 0),
            (&[0], &[5], 2),
            (&[1, 2], &[6, 0], 2),
            (&[256], &[0], 3),
            (&[512], &[0], 3),
            (&[0, 256, 768], &[5, 0, 8], 4),
            (&[1_023], &[8], 4),
            (&[1_024], &[0], 4),
            (&[1, 65_535], &[6, 0], 4),
        ];
        for (buckets, bytes, visited) in rows {
            let due = Generations {
                number: 0,
                bytes: bytes.to_vec(),
                visited,
            };
            assert_eq!(generations(&volume(), buckets, bytes.len()), due);
        }
    }

    /// Buckets looked up together have the generations that each has alone; a volume in another order
    /// has the same answer, and no more keys are visited than there are.
    #[test]
    fn together_and_alone() {
        let mut rng = Rng::new(23);
        let mut accepted = 0;
        for i in 0..600 {
            let asked = nth(i, 7);
            let answer = generations(&asked.volume, &asked.buckets, usize::MAX);
            let other = asked.shuffled(&mut rng);
            assert_eq!(
                generations(&other.volume, &asked.buckets, usize::MAX),
                answer
            );
            if answer.number != 0 {
                continue;
            }
            for (&bucket, &byte) in asked.buckets.iter().zip(&answer.bytes) {
                let alone = generations(&asked.volume, &[bucket], 1);
                assert_eq!((alone.number, alone.bytes), (0, vec![byte]));
                assert!(alone.visited <= answer.visited);
            }
            let volume = CallList::read(&asked.volume).expect("a volume");
            assert!(answer.visited <= volume.keys(BUCKET_GENS).len());
            accepted += 1;
        }
        assert!(accepted > 250);
    }
}
