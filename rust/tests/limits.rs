//! The longest lists: each length that `limits` names is attained, and by one byte less of room
//! refused. The most buckets whose generations are asked for.

use lists::call_list::{
    CallList, Head, Place, Release, ALLOC, BUCKET_GENS, DISCARD, FREESPACE, NEED_DISCARD, PLACE,
    RELEASE, TREES,
};
use lists::key::Key;
use lists::model;
use lists::order::shuffled;
use lists::rng::Rng;
use std::iter::repeat;
use zerglaz::limits::{
    BASE_END, KEPT_BACK, MAX_BUCKETS, MAX_BUCKETS_ASKED, MAX_CALL_LIST, MAX_DISCARD_CHANGE,
    MAX_JOURNAL_RESERVE, MAX_KEYS, MAX_PIECE_SECTORS, MAX_PLACE_CHANGE, MAX_RELEASE_CHANGE,
    MAX_REQUESTS, MAX_RESERVED, MAX_VALUE, MAX_VOLUME,
};
use zerglaz::{ffi, Bucket, Refusal, SUMS};

/// A list of a call with buckets of 128 sectors, the longest checksum, no roots and batches of one.
fn list(call: u8) -> CallList {
    CallList {
        head: Head {
            call,
            bucket: 128,
            block: 1,
            checksum: 2,
            batch: 1,
            journal: 9,
            inode: 1,
            ..Head::default()
        },
        ..CallList::default()
    }
}

/// A key with the longest value.
fn long_key(key_type: u8, inode: u64, offset: u64) -> Key {
    Key {
        value: vec![0; MAX_VALUE],
        ..Key::at(key_type, inode, offset)
    }
}

/// An alloc key with the longest value: its generation, data type and dirty sectors.
fn alloc(bucket: u64, generation: u8, data_type: u8, dirty: u8) -> Key {
    let mut key = long_key(27, 0, bucket);
    key.value[12] = generation;
    key.value[14] = data_type;
    key.value[16] = dirty;
    key
}

/// Fill every tree with keys that no call takes for its own, and reserve the last buckets.
fn fill(list: &mut CallList) {
    for tree in TREES {
        for offset in 0.. {
            if list.keys(tree).len() == MAX_KEYS {
                break;
            }
            list.insert(tree, long_key(22, 1, offset));
        }
    }
    list.reserved = (MAX_BUCKETS - MAX_RESERVED as u32..MAX_BUCKETS).collect();
}

/// A call answers with exactly this length, and is refused where there is a byte less of room.
fn attains(length: usize, call: impl Fn(&mut [u8]) -> Result<usize, Refusal>) {
    let mut out = vec![0; length];
    assert_eq!(call(&mut out), Ok(length));
    let short = call(&mut out[1..]);
    assert_eq!(short, Err(Refusal::OutputTooShort));
}

/// The limits are those of the model, which was written apart.
#[test]
fn same_limits() {
    assert_eq!((MAX_KEYS, MAX_RESERVED), (model::KEYS, model::RESERVED));
    assert_eq!(MAX_REQUESTS, model::REQUESTS);
    assert_eq!(MAX_BUCKETS_ASKED, lists::generations::TOGETHER);
    assert_eq!(u64::from(MAX_BUCKETS), model::BUCKETS);
    assert_eq!(MAX_VALUE, lists::key::VALUE_MAX);
    assert_eq!(
        (MAX_JOURNAL_RESERVE, BASE_END),
        (model::RESERVE, model::BASE)
    );
    assert_eq!(u64::from(MAX_PIECE_SECTORS), model::EXTENT);
    assert_eq!(u64::from(KEPT_BACK), model::KEPT);
}

/// The longest volume is applied to, and a key more passes a limit.
#[test]
fn volume() {
    let mut volume = list(DISCARD);
    fill(&mut volume);
    let bytes = volume.bytes();
    assert_eq!(bytes.len(), MAX_VOLUME);
    attains(MAX_VOLUME, |out| zerglaz::apply(&bytes, &[], out));
    let other = shuffled(&mut Rng::new(2), &bytes);
    attains(MAX_VOLUME, |out| zerglaz::apply(&other, &[], out));
    volume.insert(ALLOC, long_key(22, 2, 0));
    let more = zerglaz::apply(&volume.bytes(), &[], &mut vec![0; MAX_VOLUME + 1_000]);
    assert_eq!(more, Err(Refusal::LimitPassed));
}

/// Pieces that do not go two into a bucket nor fill one, of all kinds that have a row, in sectors
/// that are no whole buckets in all.
fn pieces() -> impl Iterator<Item = Place> {
    (0..MAX_REQUESTS as u16).map(|i| Place {
        file: if i % 4 == 3 { 100 } else { 128 },
        stored: if i == 0 { 99 } else { 100 },
        kind: [2, 3, 4, 5][usize::from(i) % 4],
        checksum: u64::MAX,
    })
}

/// Runs without buckets, which are walked and deleted, and a last one that is shortened and keeps
/// its value.
fn runs() -> impl Iterator<Item = Key> {
    let empty = (1..MAX_KEYS as u64).map(|end| long_key(25, 0, end));
    let size = MAX_REQUESTS as u32 + KEPT_BACK;
    let last = Key {
        size,
        ..long_key(25, 0, 50_000)
    };
    empty.chain([last])
}

/// The longest call list is a placement, its change list is the longest of a placement, and its sorted
/// form is as long as it is.
#[test]
fn place() {
    let mut list = list(PLACE);
    list.places = pieces().collect();
    list.trees.insert(FREESPACE, runs().collect());
    fill(&mut list);
    let bytes = list.bytes();
    assert_eq!(bytes.len(), MAX_CALL_LIST);
    attains(MAX_PLACE_CHANGE, |out| zerglaz::place(&bytes, out));
    let other = shuffled(&mut Rng::new(1), &bytes);
    attains(MAX_PLACE_CHANGE, |out| zerglaz::place(&other, out));
    attains(MAX_CALL_LIST, |out| zerglaz::sort(&other, out));
    list.places.push(list.places[0].clone());
    let more = zerglaz::place(&list.bytes(), &mut vec![0; MAX_PLACE_CHANGE]);
    assert_eq!(more, Err(Refusal::LimitPassed));
}

/// Each piece is all that its bucket holds; the buckets' records have all their bytes.
#[test]
fn release() {
    let mut list = list(RELEASE);
    for bucket in 0..MAX_REQUESTS as u64 {
        let sector = bucket * 128;
        list.releases.push(Release { sector, sectors: 7 });
        list.insert(ALLOC, alloc(bucket, 3, 4, 7));
    }
    for group in 0..MAX_REQUESTS as u64 / 256 {
        list.insert(BUCKET_GENS, long_key(30, 0, group));
    }
    fill(&mut list);
    let bytes = list.bytes();
    attains(MAX_RELEASE_CHANGE, |out| {
        zerglaz::release(&bytes, &mut vec![0; SUMS], out)
    });
}

/// As many buckets wait as a tree has keys, each in a batch of its own.
#[test]
fn discard() {
    let mut list = list(DISCARD);
    for bucket in 0..MAX_KEYS as u64 {
        list.insert(ALLOC, alloc(bucket, 3, 9, 0));
        list.insert(NEED_DISCARD, long_key(25, 8, bucket));
    }
    fill(&mut list);
    let bytes = list.bytes();
    attains(MAX_DISCARD_CHANGE, |out| zerglaz::discard(&bytes, out));
}

/// The longest volume, with a record of generations for every bucket.
fn recorded() -> CallList {
    let mut volume = list(PLACE);
    for group in 0..256 {
        let mut record = long_key(30, 0, group.into());
        let buckets = group * 256..(group + 1) * 256;
        record.value = buckets.map(generation).collect();
        volume.insert(BUCKET_GENS, record);
    }
    fill(&mut volume);
    volume
}

/// The generation of a bucket there.
fn generation(bucket: u32) -> u8 {
    (bucket / 256 * 7 + bucket) as u8
}

/// The number of generations on that volume with an output of `room` bytes, and how many keys were
/// visited. The output has the generations where the number is 0, and is else as it was.
fn generations_in(room: usize, volume: &[u8], buckets: &[u32]) -> (u32, usize) {
    let (mut out, mut visited) = (vec![0xa5; room], usize::MAX);
    let number = ffi::generations(volume, buckets, &mut out, &mut visited);
    let written = if number == 0 { buckets } else { &[] };
    let written = written.iter().map(|&bucket| generation(bucket));
    assert!(out.into_iter().eq(written.chain(repeat(0xa5)).take(room)));
    (number, visited)
}

/// As many buckets as may be asked for, up to the highest: a byte for each is room enough, and the walk
/// visits every record and the key after them.
#[test]
fn generations() {
    let volume = recorded().bytes();
    assert_eq!(volume.len(), MAX_VOLUME);
    let other = shuffled(&mut Rng::new(3), &volume);
    let most: Vec<u32> = (0..MAX_BUCKETS).skip(63).step_by(64).collect();
    assert_eq!(most.len(), MAX_BUCKETS_ASKED);
    for volume in [&volume, &other] {
        let found = |room, buckets: &[u32]| generations_in(room, volume, buckets);
        for room in [MAX_BUCKETS_ASKED, MAX_BUCKETS_ASKED + 1, 5_000] {
            assert_eq!(found(room, &most), (0, 257));
        }
        for room in [0, 1, MAX_BUCKETS_ASKED - 1] {
            assert_eq!(found(room, &most), (21, 0));
        }
        assert_eq!(found(1, &[MAX_BUCKETS - 1]), (0, 257));
        assert_eq!(found(9, &[0, 1, 255]), (0, 2));
        assert_eq!(found(0, &[]), (0, 0));
        assert_eq!(found(7, &[]), (0, 0));
    }
}

/// A bucket too many and one too high pass a limit, whatever the output; buckets that do not ascend are
/// refused first, also where they are too many.
#[test]
fn too_many_buckets() {
    let mut volume = recorded();
    let bytes = volume.bytes();
    let found = |room, buckets: &[u32]| generations_in(room, &bytes, buckets);
    let mut many: Vec<u32> = (0..=MAX_BUCKETS_ASKED as u32).collect();
    for room in [0, MAX_BUCKETS_ASKED, MAX_BUCKETS_ASKED + 1] {
        assert_eq!(found(room, &many), (3, 0));
        for high in [MAX_BUCKETS, u32::MAX] {
            assert_eq!(found(room, &[high]), (3, 0));
            assert_eq!(found(room, &[0, 1, high]), (3, 0));
        }
        assert_eq!(found(room, &[MAX_BUCKETS, MAX_BUCKETS]), (2, 0));
    }
    let last = MAX_BUCKETS_ASKED;
    for wrong in [many[last - 1], 0] {
        many[last] = wrong;
        assert_eq!(found(last, &many), (2, 0));
    }
    many.reverse();
    assert_eq!(found(last, &many), (2, 0));
    assert_eq!(found(last, &[7, 7]), (2, 0));
    volume.insert(ALLOC, long_key(22, 2, 0));
    let more = volume.bytes();
    assert_eq!(generations_in(1, &more, &[0]), (3, 0));
    assert_eq!(generations_in(1, &more, &[]), (3, 0));
    assert_eq!(generations_in(1, &more, &[1, 0]), (2, 0));
}

/// The crate's own generations has room for all that may be asked for, and the same refusals.
#[test]
fn owned_generations() {
    let volume = recorded().bytes();
    let most: Vec<Bucket> = (0..MAX_BUCKETS_ASKED as u32).map(Bucket).collect();
    let found = zerglaz::generations(&volume, &most).expect("they are not too many");
    let due = most.iter().map(|bucket| generation(bucket.0));
    assert!(found.generations.into_iter().eq(due));
    assert_eq!(found.visited, 5);
    let more: Vec<Bucket> = (0..=MAX_BUCKETS_ASKED as u32).map(Bucket).collect();
    let more = zerglaz::generations(&volume, &more);
    assert_eq!(more, Err(Refusal::LimitPassed));
    let equal = zerglaz::generations(&volume, &[Bucket(9); 2_000]);
    assert_eq!(equal, Err(Refusal::BrokenLayout));
}
