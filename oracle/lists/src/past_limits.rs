//! Lists past the limits in any order, with and without one thing that stands twice: 22 is judged before
//! 3, however long a list is. What stands twice is the first and the last field, or among the lowest or
//! the highest keys, or at a number of keys that a reader may take at once.

use crate::call_list::{
    CallList, Place, Release, ALLOC, BACKPOINTERS, BUCKET_GENS, DISCARD, LRU, NEED_DISCARD, PLACE,
    RELEASE, RESERVED, TREES,
};
use crate::edges::base;
use crate::fields::{joined, put, split, Field};
use crate::key::Key;
use crate::model::{KEYS, REQUESTS};
use crate::order::{mixed, shuffled, without_requests};
use crate::rng::Rng;

/// How many lists a call has.
pub const LISTS: u64 = 22;

/// The `index`-th list past the limits of a call: its bytes, and what it is.
pub fn list(seed: u64, call: u8, index: u64) -> (Vec<u8>, &'static str) {
    let mut rng = Rng::new(seed ^ u64::from(call) << 40 ^ index << 20);
    let mut l = base(call);
    let what = match index {
        0..=11 => keys(&mut rng, &mut l, index),
        12..=16 => reserved(&mut l, index),
        _ => others(&mut rng, &mut l, index),
    };
    let twice = match index {
        1 | 3 | 19 => Some((LRU, 0)),
        4 => Some((LRU, KEYS as u64 - 1)),
        5 => Some((LRU, KEYS as u64)),
        6 => Some((LRU, 2 * KEYS as u64)),
        7 => Some((LRU, 11_999)),
        9 => Some((BUCKET_GENS, 4_199)),
        13 => Some((RESERVED, 2_500)),
        15 => Some((RESERVED, 65_999)),
        18 => Some((LRU, 2)),
        _ => None,
    };
    let ends = matches!(index, 1 | 13);
    let bytes = match index {
        2 | 12 => l.bytes(),
        _ => shuffled(&mut rng, &l.bytes()),
    };
    (with_twice(&mut rng, bytes, twice, ends), what)
}

/// A discard's list of so many LRU keys in any order, of which the one of this rank stands twice.
pub fn twice_at(seed: u64, keys: u64, rank: u64) -> Vec<u8> {
    let mut rng = Rng::new(seed ^ keys << 32 ^ rank);
    let mut l = base(DISCARD);
    l.trees.insert(LRU, (0..keys).map(ranked).collect());
    let list = mixed(&mut rng, &l.bytes());
    with_twice(&mut rng, list, Some((LRU, rank)), false)
}

/// A list past the limits without its requests: a volume.
pub fn volume(seed: u64, call: u8, index: u64) -> (Vec<u8>, &'static str) {
    let (list, what) = self::list(seed, call, index);
    (without_requests(&list), what)
}

/// A key of an LRU tree past the limits, by its rank there.
fn ranked(rank: u64) -> Key {
    Key::at(25, 1, rank * 3)
}

/// Lists with too many keys.
fn keys(rng: &mut Rng, l: &mut CallList, index: u64) -> &'static str {
    let count = match index {
        0..=2 => 5_000,
        3 => KEYS as u64,
        4 | 5 => 2 * KEYS as u64,
        6 | 7 => 12_000,
        8 | 9 => 4_200,
        10 => KEYS as u64 + 1,
        _ => 9_000,
    };
    let mut fill = |tree: u8, value: u64| {
        let keys = (0..count).map(|rank| {
            let length = rng.below(value + 1) as usize;
            Key {
                value: rng.bytes(length),
                ..ranked(rank)
            }
        });
        let keys: Vec<Key> = keys.collect();
        l.trees.insert(tree, keys);
    };
    match index {
        8 | 9 => TREES.iter().for_each(|&tree| fill(tree, 8)),
        _ => fill(LRU, 40),
    }
    if index == 11 {
        let keys = l.trees.entry(LRU).or_default();
        keys.iter_mut().for_each(|key| key.offset = 7);
    }
    match index {
        0 => "5,000 LRU keys",
        1 => "5,000 LRU keys, the first and the last field at one position",
        2 => "5,000 LRU keys in order",
        3 => "4,096 LRU keys and one more at a position of theirs",
        4 => "8,192 LRU keys, the 4,096th position twice",
        5 => "8,192 LRU keys, the 4,097th position twice",
        6 => "12,000 LRU keys, the 8,193rd position twice",
        7 => "12,000 LRU keys, the highest position twice",
        8 => "4,200 keys in every tree",
        9 => "4,200 keys in every tree, the last tree's highest position twice",
        10 => "4,097 LRU keys",
        _ => "9,000 LRU keys at one position",
    }
}

/// Lists with too many reserved buckets.
fn reserved(l: &mut CallList, index: u64) -> &'static str {
    let count = match index {
        12 | 13 => 5_000,
        14 | 15 => 66_000,
        _ => 4_097,
    };
    l.reserved = (0..count).collect();
    match index {
        12 => "5,000 reserved buckets in order",
        13 => "5,000 reserved buckets, the first and the last field the same",
        14 => "66,000 reserved buckets",
        15 => "66,000 reserved buckets, the highest twice",
        _ => {
            l.reserved.iter_mut().for_each(|bucket| *bucket = 11);
            "4,097 times one reserved bucket"
        }
    }
}

/// Lists with other limits passed, or with none.
fn others(rng: &mut Rng, l: &mut CallList, index: u64) -> &'static str {
    match index {
        17 | 18 => {
            many_requests(l);
            l.trees.insert(LRU, (0..9).map(ranked).collect());
        }
        19 => {
            l.head.base = 1 << 40;
            l.trees.insert(LRU, (0..KEYS as u64).map(ranked).collect());
        }
        20 => {
            let far = |i: u64| Key::at(25, i, 65_536 + i);
            l.trees.insert(NEED_DISCARD, (0..5_000).map(far).collect());
        }
        _ => {
            let any = (0..5_000).map(|_| Key::at(28, rng.draw(), rng.draw()));
            l.trees.insert(BACKPOINTERS, any.collect());
            l.trees.entry(ALLOC).or_default();
        }
    }
    match index {
        17 => "1,025 requests, or base past",
        18 => "1,025 requests, or base past, and a position twice",
        19 => "4,096 LRU keys, base past, and a position twice",
        20 => "5,000 need-discard keys past the buckets",
        _ => "5,000 backpointers at any positions",
    }
}

/// A request too many; a discard has none, and its base is past.
fn many_requests(l: &mut CallList) {
    let (place, release) = (
        Place {
            file: 8,
            stored: 8,
            kind: 0,
            checksum: 1,
        },
        Release {
            sector: 24,
            sectors: 1,
        },
    );
    match l.head.call {
        PLACE => l.places = vec![place; REQUESTS + 1],
        RELEASE => l.releases = vec![release; REQUESTS + 1],
        _ => l.head.base = 1 << 40,
    }
}

/// The list with a field of this tag and rank once more: anywhere, or the two at the list's ends.
fn with_twice(rng: &mut Rng, list: Vec<u8>, twice: Option<(u8, u64)>, ends: bool) -> Vec<u8> {
    let Some((tag, rank)) = twice else {
        return list;
    };
    let body = match tag {
        RESERVED => (rank as u32).to_le_bytes().to_vec(),
        _ => ranked(rank).body(),
    };
    let mut fields = split(&list).expect("whole fields");
    if ends {
        let mut out = Vec::new();
        put(&mut out, tag, &body);
        let same = |f: &Field| f.tag == tag && position(f) == position(&Field { tag, body: &body });
        fields.retain(|f| !same(f));
        fields.push(Field { tag, body: &body });
        out.extend(joined(fields));
        return out;
    }
    let at = rng.below(fields.len() as u64 + 1) as usize;
    fields.insert(at, Field { tag, body: &body });
    joined(fields)
}

/// The bytes of a field by which it stands in its place.
fn position<'a>(field: &Field<'a>) -> &'a [u8] {
    match field.tag {
        RESERVED => field.body,
        _ => &field.body[17..37],
    }
}

#[cfg(test)]
mod tests {
    use super::{list, volume, LISTS};
    use crate::apply::apply;
    use crate::model::{verdict, SORT, SUMS};

    /// Where something stands twice a list is refused 22, and else 3: each of them by its name.
    #[test]
    fn numbers() {
        let mut met = [0; 23];
        for call in 1..=3 {
            for index in 0..LISTS {
                let (bytes, what) = list(5, call, index);
                let twice = [
                    "twice",
                    "one position",
                    "the same",
                    "one more",
                    "4,097 times",
                ];
                let due = match twice.iter().any(|word| what.contains(word)) {
                    true => 22,
                    false => 3,
                };
                assert_eq!(verdict(call, &bytes, SUMS, 0), due, "call {call}: {what}");
                assert_eq!(verdict(SORT, &bytes, 0, 0), due, "sort: {what}");
                let (volume, _) = volume(5, call, index);
                let (number, _) = apply(&volume, &[], usize::MAX);
                // Without its requests a list may be within the limits.
                assert!(number == due || index == 17, "apply: {what}");
                met[due as usize] += 1;
            }
        }
        assert!(met[22] > 30 && met[3] > 20);
    }
}
