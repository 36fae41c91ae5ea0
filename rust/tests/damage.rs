//! Small valid lists, damaged in every place: each call's number is the one that the plain model counts,
//! which shares no code with it. Of generations the whole outcome is.

mod common;

use common::ARCHIVE;
use lists::call_list::{DISCARD, PLACE, RELEASE};
use lists::generations::generations;
use lists::model::{verdict, SORT};
use lists::vectors::{self, applies, calls, hex, GenerationsVector};
use zerglaz::{Refusal, SUMS};

/// How many lists of each kind are damaged, and how long they may be.
const LISTS: usize = 10;
const LONGEST: usize = 260;
/// The room of every output: no damage to so short a list asks for more.
const ROOM: usize = 1 << 20;

/// The text of a file of vectors.
fn text(name: &str) -> String {
    let path = format!("{}/../vectors/{name}.txt", env!("CARGO_MANIFEST_DIR"));
    std::fs::read_to_string(path).expect(name)
}

/// Every damaged copy of a list: each byte changed to a few values, the list cut at each length, a
/// field twice, beside itself and at both ends, a field left out, each two fields swapped, and the fields
/// turned round and reversed.
fn damaged(list: &[u8]) -> Vec<Vec<u8>> {
    let mut out = Vec::new();
    for i in 0..list.len() {
        let old = list[i];
        let (more, less) = (old.wrapping_add(1), old.wrapping_sub(1));
        for new in [0, 1, 255, more, less, old ^ 0x80, old ^ 2] {
            let mut l = list.to_vec();
            l[i] = new;
            out.push(l);
        }
    }
    for n in 0..=list.len() {
        out.push(list[..n].to_vec());
    }
    let fields = fields(list);
    for i in 0..fields.len() {
        for at in [0, i, fields.len()] {
            let mut twice = fields.clone();
            twice.insert(at, fields[i].clone());
            out.push(twice.concat());
        }
        let mut without = fields.clone();
        without.remove(i);
        out.push(without.concat());
        for j in i + 1..fields.len() {
            let mut swapped = fields.clone();
            swapped.swap(i, j);
            out.push(swapped.concat());
        }
        let mut turned = fields.clone();
        turned.rotate_left(i);
        out.push(turned.concat());
        turned.reverse();
        out.push(turned.concat());
    }
    out
}

/// A valid list's fields, each with its tag and length.
fn fields(list: &[u8]) -> Vec<Vec<u8>> {
    let (mut out, mut at) = (Vec::new(), 0);
    while at < list.len() {
        let length = u16::from_le_bytes([list[at + 1], list[at + 2]]);
        let end = at + 3 + usize::from(length);
        out.push(list[at..end].to_vec());
        at = end;
    }
    out
}

/// A call's number.
fn number(answer: Result<usize, Refusal>) -> u32 {
    answer.map_or_else(Refusal::number, |_| 0)
}

/// Hold a call to the model on every damaged copy of some lists; 0 and 2 must be met.
fn hold(
    name: &str,
    lists: &[Vec<u8>],
    mut call: impl FnMut(&[u8]) -> u32,
    model: impl Fn(&[u8]) -> u32,
) {
    assert_eq!(lists.len(), LISTS, "{name}");
    let mut met = [0usize; 23];
    for list in lists {
        assert_eq!((call(list), model(list)), (0, 0), "{name}: the list itself");
        for l in damaged(list) {
            let (found, wanted) = (call(&l), model(&l));
            assert_eq!(found, wanted, "{name}: {}", hex(&l));
            met[found as usize] += 1;
        }
    }
    let all: usize = met.iter().sum();
    println!(
        "{name}: {all} lists, {} accepted, {} refused 2, {} refused 22",
        met[0], met[2], met[22]
    );
    assert!(met[0] > 0 && met[2] > 0, "{name}: {met:?}");
}

/// Hold a call to the model on damaged copies of the lists that it accepts.
fn hold_call(name: &str, call: u8) {
    let vectors = calls(&text(name)).into_iter();
    let lists = vectors.filter(|v| v.number == 0 && v.list.len() <= LONGEST);
    let lists: Vec<Vec<u8>> = lists.map(|v| v.list).take(LISTS).collect();
    let (mut out, mut scratch) = (vec![0; ROOM], vec![0; SUMS]);
    let made = |l: &[u8]| match call {
        PLACE => number(zerglaz::place(l, &mut out)),
        RELEASE => number(zerglaz::release(l, &mut scratch, &mut out)),
        SORT => number(zerglaz::sort(l, &mut out)),
        _ => number(zerglaz::discard(l, &mut out)),
    };
    hold(name, &lists, made, |l| verdict(call, l, SUMS, ROOM));
}

#[test]
fn place() {
    hold_call("place", PLACE);
}

#[test]
fn release() {
    hold_call("release", RELEASE);
}

#[test]
fn discard() {
    hold_call("discard", DISCARD);
}

#[test]
fn sort() {
    hold_call("sort", SORT);
}

/// Hold apply to the model where its volume is damaged, and where its change list is.
#[test]
fn apply() {
    let vectors = applies(&text("apply")).into_iter();
    let vectors: Vec<_> = vectors.filter(|v| v.number == 0).collect();
    let mut out = vec![0; ROOM];
    let volumes = vectors.iter().map(|v| v.volume.clone());
    let volumes: Vec<_> = volumes.filter(|v| v.len() <= LONGEST).take(LISTS).collect();
    let made = |l: &[u8]| number(zerglaz::apply(l, &[], &mut out));
    hold("volume", &volumes, made, |l| {
        lists::apply::apply(l, &[], ROOM).0
    });

    let changes = vectors.iter().map(|v| v.change.clone());
    let changes = changes.filter(|c| (30..=LONGEST).contains(&c.len()));
    let changes: Vec<_> = changes.take(LISTS).collect();
    let volume = &vectors[0].volume;
    let made = |l: &[u8]| number(zerglaz::apply(volume, l, &mut out));
    hold("change", &changes, made, |l| {
        lists::apply::apply(volume, l, ROOM).0
    });
}

/// The number of generations, whose whole outcome is the model's.
fn looked_up(volume: &[u8], buckets: &[u32]) -> u32 {
    let due = generations(volume, buckets, buckets.len());
    let held = ARCHIVE.hold_generations(volume, buckets, buckets.len(), &due);
    held.unwrap_or_else(|why| panic!("{buckets:?}, {}: {why}", hex(volume)));
    due.number
}

/// Stored generations of a few buckets in a short volume, not all of them 0.
fn recorded() -> Vec<GenerationsVector> {
    let vectors = vectors::generations(&text("generations")).into_iter();
    let some = vectors.filter(|v| v.buckets.len() > 1 && v.answer.bytes.iter().any(|&g| g > 0));
    let short = some.filter(|v| v.volume.len() <= LONGEST && v.buckets.len() < 20);
    short.take(LISTS).collect()
}

/// Hold generations to the model where its volume is damaged.
#[test]
fn generations_of_damaged_volumes() {
    let buckets = [0, 1, 2, 255, 256, 511, 512, 65_535];
    let volumes: Vec<_> = recorded().into_iter().map(|v| v.volume).collect();
    let made = |volume: &[u8]| looked_up(volume, &buckets);
    hold("generations", &volumes, made, |volume| {
        generations(volume, &buckets, buckets.len()).number
    });
}

/// Every damaged copy of some buckets: each changed to a few others, twice, left out, and each two
/// swapped.
fn damaged_buckets(buckets: &[u32]) -> Vec<Vec<u32>> {
    let mut out = Vec::new();
    for (i, &old) in buckets.iter().enumerate() {
        let (more, less) = (old.wrapping_add(1), old.wrapping_sub(1));
        for new in [
            0,
            more,
            less,
            old ^ 256,
            old ^ 1 << 16,
            65_535,
            65_536,
            u32::MAX,
        ] {
            let mut changed = buckets.to_vec();
            changed[i] = new;
            out.push(changed);
        }
        let mut twice = buckets.to_vec();
        twice.insert(i, old);
        out.push(twice);
        let mut without = buckets.to_vec();
        without.remove(i);
        out.push(without);
        for j in i + 1..buckets.len() {
            let mut swapped = buckets.to_vec();
            swapped.swap(i, j);
            out.push(swapped);
        }
    }
    out
}

/// Hold generations to the model where its buckets are damaged.
#[test]
fn generations_of_damaged_buckets() {
    let mut met = [0usize; 23];
    for v in recorded() {
        assert_eq!(looked_up(&v.volume, &v.buckets), 0, "{}", v.id);
        for buckets in damaged_buckets(&v.buckets) {
            met[looked_up(&v.volume, &buckets) as usize] += 1;
        }
    }
    println!(
        "buckets: {} accepted, {} refused 2, {} refused 3",
        met[0], met[2], met[3]
    );
    assert!(met[0] > 0 && met[2] > 0 && met[3] > 0, "{met:?}");
}
