//! Volumes and buckets at the edges of generations, by name: where the walk ends and what it visits, which
//! byte of which record is read, both sides of each refusal, and the order of refusals.

use crate::asked::Asked;
use crate::call_list::{CallList, Head, BUCKET_GENS, DISCARD, PLACE, RELEASE, RESERVED};
use crate::candidate::Room;
use crate::edges::{base, list_edges};
use crate::fields::put;
use crate::key::Key;

/// Generations to look up, by name.
pub type GenerationEdge = (String, Asked);
/// A key by its type, inode and offset, and the length of its value.
type Row = (u8, u64, u64, u64);

/// Records of the first four places, of 3 bytes each.
const FOUR: [Row; 4] = [(30, 0, 0, 3), (30, 0, 1, 3), (30, 0, 2, 3), (30, 0, 3, 3)];

/// The edges of generations, and of the volume's layout, limits and order.
pub fn generation_edges() -> Vec<GenerationEdge> {
    let mut edges = own_edges();
    edges.extend(volume_edges());
    edges
}

/// The edges of generations alone.
pub fn own_edges() -> Vec<GenerationEdge> {
    let mut edges = walks();
    edges.extend(other_keys());
    edges.extend(bytes());
    edges.extend(heads());
    edges.extend(buckets());
    edges.extend(outputs());
    edges.extend(orders());
    edges
}

/// A volume with these generation keys and nothing else.
fn volume(rows: &[Row]) -> CallList {
    let mut volume = CallList {
        head: Head {
            call: DISCARD,
            bucket: 8,
            batch: 1,
            ..Head::default()
        },
        ..CallList::default()
    };
    for &row in rows {
        volume.insert(BUCKET_GENS, key(row));
    }
    volume
}

/// A key with a value in which no byte is 0 and neighbours differ.
fn key((key_type, inode, offset, length): Row) -> Key {
    let byte = |i: u64| (1 + (offset % 50 * 31 + i) % 255) as u8;
    Key {
        value: (0..length).map(byte).collect(),
        ..Key::at(key_type, inode, offset)
    }
}

/// An edge with an output as long as its answer.
fn edge(name: &str, rows: &[Row], buckets: &[u32]) -> GenerationEdge {
    on(name, &volume(rows).bytes(), buckets, Room::Exact)
}

/// An edge of a volume's bytes.
fn on(name: &str, volume: &[u8], buckets: &[u32], room: Room) -> GenerationEdge {
    let asked = Asked {
        volume: volume.to_vec(),
        buckets: buckets.to_vec(),
        room,
    };
    (name.to_string(), asked)
}

/// Where the walk ends: keys before, at and past the last bucket's record.
fn walks() -> Vec<GenerationEdge> {
    let [before, at, past, further] = FOUR;
    let named = |name: &str, rows: &[Row]| edge(name, rows, &[257]);
    vec![
        named("keys before, at and two past", &FOUR),
        edge("a bucket of each record", &FOUR, &[0, 257, 514, 770]),
        edge("every second record", &FOUR, &[1, 513]),
        edge(
            "buckets between records",
            &[before, past],
            &[0, 256, 300, 512, 768],
        ),
        edge("the last key is the last bucket's record", &FOUR, &[1_023]),
        edge("the last bucket is past every key", &FOUR, &[1_024]),
        named("one key before", &[before]),
        named("one key at the record", &[at]),
        named("one key past", &[past]),
        named("two keys past", &[past, further]),
        named("keys at and two past", &[at, past, further]),
        named(
            "no record, keys before and two past",
            &[before, past, further],
        ),
        named("no keys", &[]),
        edge("keys and no buckets", &FOUR, &[]),
        edge("no keys and no buckets", &[], &[]),
        named("keys before and at", &[before, at]),
        named("keys before and past", &[before, past]),
        named("keys at and past", &[at, past]),
        named("keys before, at and past", &[before, at, past]),
        edge("two buckets of one record", &[at, past], &[256, 258]),
        edge("bucket 0 alone", &FOUR, &[0]),
        edge("bucket 65,535 alone", &FOUR, &[65_535]),
        edge("the first bucket and the last", &FOUR, &[0, 65_535]),
    ]
}

/// Keys that are no records: of other types, at other inodes, past the last record's offset.
fn other_keys() -> Vec<GenerationEdge> {
    let mut edges = Vec::new();
    for key_type in [0, 29, 31, 255] {
        let name = format!("a key of type {key_type} at the record's place");
        let rows = [(30, 0, 0, 3), (key_type, 0, 1, 3), (30, 0, 2, 3)];
        edges.push(edge(&name, &rows, &[0, 257, 512]));
        let name = format!("a key of type {key_type} past the last record");
        edges.push(edge(&name, &[(30, 0, 1, 3), (key_type, 0, 2, 3)], &[257]));
    }
    for inode in [1, 256, 1 << 32, 1 << 63, u64::MAX] {
        let name = format!("a key at inode {inode} alone");
        edges.push(edge(&name, &[(30, inode, 0, 3)], &[1]));
    }
    let elsewhere = [(30, 0, 0, 3), (30, 1, 0, 3), (30, 1, 1, 3), (30, 2, 0, 3)];
    edges.push(edge("keys at three inodes, one record", &elsewhere, &[1]));
    edges.push(edge(
        "keys at three inodes, all buckets",
        &elsewhere,
        &[1, 65_535],
    ));
    edges.push(edge(
        "keys at other inodes alone",
        &elsewhere[1..],
        &[0, 65_535],
    ));
    for offset in [256, 1 << 16, 1 << 32, 1 << 63, u64::MAX] {
        let name = format!("a key at offset {offset}, the first bucket");
        edges.push(edge(&name, &[(30, 0, offset, 3)], &[1]));
        let name = format!("a key at offset {offset}, the last bucket");
        edges.push(edge(&name, &[(30, 0, offset, 3)], &[65_535]));
    }
    let ends = [
        (30, 0, 255, 3),
        (30, 0, 256, 3),
        (30, 0, 257, 3),
        (30, 1, 0, 3),
    ];
    edges.push(edge("keys past offset 255", &ends, &[65_280, 65_535]));
    edges.push(edge(
        "keys past offset 255, no record",
        &ends[1..],
        &[65_280],
    ));
    edges
}

/// Which byte is read: the last of a record and the one after it, and the borders of records.
fn bytes() -> Vec<GenerationEdge> {
    let mut edges = Vec::new();
    for length in [0, 1, 2, 128, 255, 256] {
        let rows = [(30, 0, 1, length)];
        let end = 256 + length as u32;
        let name = format!("record of {length}, its last byte and the next");
        edges.push(edge(&name, &rows, &[end - 1, end]));
        let name = format!("record of {length}, the next byte alone");
        edges.push(edge(&name, &rows, &[end]));
    }
    let first = [(30, 0, 0, 256), (30, 0, 1, 2)];
    edges.push(edge("buckets 255 and 256", &first, &[255, 256]));
    edges.push(edge("bucket 255 alone", &first, &[255]));
    edges.push(edge("bucket 256 alone", &first, &[256]));
    let last = [(30, 0, 255, 256)];
    edges.push(edge(
        "the last record's first byte and last",
        &last,
        &[65_280, 65_535],
    ));
    edges.push(edge("the bucket before the last record", &last, &[65_279]));
    edges
}

/// Heads that change nothing: every call's byte, every root, bucket sectors 0.
fn heads() -> Vec<GenerationEdge> {
    let named = |name: &str, change: &dyn Fn(&mut Head)| {
        let mut volume = volume(&FOUR);
        change(&mut volume.head);
        on(name, &volume.bytes(), &[1, 514], Room::Exact)
    };
    vec![
        named("volume of a placement", &|head| head.call = PLACE),
        named("volume of a release", &|head| head.call = RELEASE),
        named("volume of a discard", &|head| head.call = DISCARD),
        named("every root", &|head| head.roots = 7),
        named("bucket sectors 0 and batch 0", &|head| {
            (head.bucket, head.batch) = (0, 0);
        }),
    ]
}

/// Both sides of what refuses buckets: 2 where they do not ascend, 3 where they are too many or too high.
fn buckets() -> Vec<GenerationEdge> {
    let named = |name: &str, buckets: &[u32]| edge(name, &FOUR, buckets);
    let many = |count: u32| -> Vec<u32> { (0..count).collect() };
    let apart = |count: u32| -> Vec<u32> { (0..count).map(|i| i * 60).collect() };
    let high = |first: u32| -> Vec<u32> { (first..=first + 2).collect() };
    vec![
        named("buckets equal", &[5, 5]),
        named("buckets equal, the first two of three", &[5, 5, 6]),
        named("buckets equal, the last two of three", &[4, 5, 5]),
        named("bucket 0 twice", &[0, 0]),
        named("buckets descend", &[6, 5]),
        named("buckets descend in the lowest byte alone", &[511, 512]),
        named("buckets descend, the last of three", &[4, 6, 5]),
        named("buckets descend to 0", &[65_535, 0]),
        named("buckets descend from past the last", &[u32::MAX, 0]),
        named("a bucket twice, apart", &[4, 5, 4]),
        named("neighbouring buckets", &[4, 5, 6]),
        named("1,024 buckets", &many(1_024)),
        named("1,025 buckets", &many(1_025)),
        named("1,024 buckets apart", &apart(1_024)),
        named("1,025 buckets apart", &apart(1_025)),
        named(
            "1,026 buckets, the last two equal",
            &[many(1_025), vec![1_024]].concat(),
        ),
        named(
            "1,026 buckets, the last descends",
            &[many(1_025), vec![7]].concat(),
        ),
        named("buckets up to 65,535", &high(65_533)),
        named("buckets up to 65,536", &high(65_534)),
        named("bucket 65,536 alone", &[65_536]),
        named("bucket 65,536 after bucket 0", &[0, 65_536]),
        named("bucket 4,294,967,295 alone", &[u32::MAX]),
        named("bucket 2 to the 31", &[1, 1 << 31]),
    ]
}

/// Both sides of refusal 21.
fn outputs() -> Vec<GenerationEdge> {
    let bytes = volume(&FOUR).bytes();
    let three = |name: &str, room: Room| on(name, &bytes, &[1, 257, 514], room);
    let all: Vec<u32> = (0..1_024).collect();
    vec![
        three("output exact", Room::Exact),
        three("output one short", Room::Under(1)),
        three("output empty", Room::Under(3)),
        three("output one longer", Room::Over(1)),
        three("output longer", Room::Over(100)),
        on("one bucket, output empty", &bytes, &[1], Room::Under(1)),
        on("no buckets, output of 9", &bytes, &[], Room::Over(9)),
        on(
            "1,024 buckets, output one short",
            &bytes,
            &all,
            Room::Under(1),
        ),
        on(
            "1,024 buckets, output one longer",
            &bytes,
            &all,
            Room::Over(1),
        ),
    ]
}

/// The order of refusals: 2, 22, 3, 21, by volumes and buckets that meet two of them.
fn orders() -> Vec<GenerationEdge> {
    let good = volume(&FOUR).bytes();
    let twice = with(&good, BUCKET_GENS, &key((29, 0, 1, 2)).body());
    let reserved = with(
        &with(&good, RESERVED, &[7, 0, 0, 0]),
        RESERVED,
        &[7, 0, 0, 0],
    );
    let mut far = volume(&FOUR);
    far.head.base = 1 << 40;
    let far_twice = with(&far.bytes(), BUCKET_GENS, &key((30, 0, 3, 3)).body());
    let far = far.bytes();
    let cut = &good[..good.len() - 1];
    let placing = with(&good, 65, &[0; 13]);
    let none: &[u32] = &[];
    let many: Vec<u32> = (0..1_025).collect();
    let short = Room::Under(1);
    let exact = |name: &str, volume: &[u8], buckets: &[u32]| on(name, volume, buckets, Room::Exact);
    vec![
        exact("volume cut, buckets equal", cut, &[5, 5]),
        exact("volume cut, no buckets", cut, none),
        exact("volume with a request, no buckets", &placing, none),
        exact("position twice, no buckets", &twice, none),
        exact("position twice, bucket past", &twice, &[1, 65_536]),
        exact("base past, no buckets", &far, none),
        exact(
            "2 before 22: buckets equal, position twice",
            &twice,
            &[5, 5],
        ),
        exact(
            "2 before 22: volume cut, position twice",
            &twice[..twice.len() - 1],
            &[5],
        ),
        exact(
            "2 before 3: buckets past and equal",
            &good,
            &[65_536, 65_536],
        ),
        exact("2 before 3: base past, buckets descend", &far, &[6, 5]),
        exact("2 before 3: volume cut, bucket past", cut, &[65_536]),
        exact("2 before 3: volume cut, 1,025 buckets", cut, &many),
        on(
            "2 before 21: buckets equal, output short",
            &good,
            &[5, 5],
            short,
        ),
        on(
            "2 before 21: a request, output short",
            &placing,
            &[5],
            short,
        ),
        exact(
            "22 before 3: position twice, bucket past",
            &twice,
            &[65_536],
        ),
        exact("22 before 3: position twice, 1,025 buckets", &twice, &many),
        exact("22 before 3: position twice, base past", &far_twice, &[5]),
        exact(
            "22 before 3: reserved twice, bucket past",
            &reserved,
            &[65_536],
        ),
        on(
            "22 before 21: position twice, output short",
            &twice,
            &[5],
            short,
        ),
        on(
            "22 before 21: reserved twice, output short",
            &reserved,
            &[5],
            short,
        ),
        on(
            "3 before 21: bucket past, output short",
            &good,
            &[65_536],
            short,
        ),
        on(
            "3 before 21: 1,025 buckets, output short",
            &good,
            &many,
            short,
        ),
        on("3 before 21: base past, output short", &far, &[5], short),
        exact(
            "all four",
            &far_twice[..far_twice.len() - 1],
            &[65_536, 65_536],
        ),
        on("22, 3 and 21", &far_twice, &[65_536], short),
    ]
}

/// A list with one more field at its end.
fn with(list: &[u8], tag: u8, body: &[u8]) -> Vec<u8> {
    let mut list = list.to_vec();
    put(&mut list, tag, body);
    list
}

/// The edges of a volume's layout, limits and order, and its own requests, which break it; the volume
/// has two records, and a key elsewhere.
pub fn volume_edges() -> Vec<GenerationEdge> {
    let mut volume = base(RELEASE).volume();
    for row in [(30, 0, 0, 5), (30, 0, 1, 2), (30, 1, 0, 1)] {
        volume.insert(BUCKET_GENS, key(row));
    }
    let mut edges = list_edges(&volume);
    for (call, name) in [(PLACE, "placement"), (RELEASE, "release")] {
        edges.push((format!("{name} with its requests"), base(call).bytes()));
    }
    edges.push(("discard without requests".into(), base(DISCARD).bytes()));
    let named = |(name, volume): (String, Vec<u8>)| {
        on(
            &format!("volume {name}"),
            &volume,
            &[3, 256, 300],
            Room::Exact,
        )
    };
    edges.into_iter().map(named).collect()
}

#[cfg(test)]
mod tests {
    use super::generation_edges;
    use crate::generations::{generations, Generations};
    use std::collections::BTreeMap;

    /// The answers to the edges, by name.
    fn answers() -> BTreeMap<String, Generations> {
        let edges = generation_edges().into_iter();
        edges
            .map(|(name, a)| (name, generations(&a.volume, &a.buckets, a.out())))
            .collect()
    }

    /// Each name is its own, and each number is met.
    #[test]
    fn names_and_numbers() {
        let answers = answers();
        assert_eq!(answers.len(), generation_edges().len());
        for (number, least) in [(0, 80), (2, 40), (22, 30), (3, 15), (21, 4)] {
            let met = answers.values().filter(|a| a.number == number).count();
            assert!(met >= least, "{number}: {met}");
        }
        for (name, answer) in &answers {
            let first = name.split_once(" before ").map(|(first, _)| first);
            if let Some(number) = first.and_then(|first| first.parse::<u32>().ok()) {
                assert_eq!(answer.number, number, "{name}");
            }
        }
    }

    /// What the walk visits at its edges.
    #[test]
    fn visited() {
        let answers = answers();
        for (name, visited) in [
            ("no keys and no buckets", 0),
            ("keys and no buckets", 0),
            ("no keys", 0),
            ("one key before", 1),
            ("one key at the record", 1),
            ("one key past", 1),
            ("two keys past", 1),
            ("keys at and two past", 2),
            ("no record, keys before and two past", 2),
            ("keys before, at and two past", 3),
            ("the last key is the last bucket's record", 4),
            ("the last bucket is past every key", 4),
            ("keys at three inodes, one record", 2),
            ("keys at three inodes, all buckets", 2),
            ("keys at other inodes alone", 1),
            ("keys past offset 255", 2),
            ("keys past offset 255, no record", 1),
            ("a key of type 29 at the record's place", 3),
            ("a key at offset 256, the last bucket", 1),
        ] {
            let answer = &answers[name];
            assert_eq!((answer.number, answer.visited), (0, visited), "{name}");
        }
    }

    /// Which generations are 0: those of a short record, of another type and of another place.
    #[test]
    fn zeros() {
        let answers = answers();
        for (name, zeros) in [
            ("record of 1, its last byte and the next", [false, true]),
            ("record of 255, its last byte and the next", [false, true]),
            ("record of 0, its last byte and the next", [true, true]),
            ("buckets 255 and 256", [false, false]),
            ("the last record's first byte and last", [false, false]),
            ("keys past offset 255", [false, true]),
            ("keys at other inodes alone", [true, true]),
        ] {
            let bytes = &answers[name].bytes;
            let zero: Vec<bool> = bytes.iter().map(|&byte| byte == 0).collect();
            assert_eq!(zero, zeros, "{name}");
        }
    }
}
