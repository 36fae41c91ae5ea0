//! calls [ROUNDS]: how long the calls take through the archive on lists at the limits, beside a copy of
//! the bytes that they read: medians in nanoseconds and their ratio. Of several rounds over all rows each
//! row has the least median. Place too on lists that are refused once all of
//! them is read. Apply with changes of 1, 64 and 1,024 keys, and with what each call of 1,024 wrote. Sort,
//! generations of 1, 32 and 1,024 buckets, and the crate's two readers. Lists past the limits, which are
//! refused 3 and 22.
//!
//! Each list and volume is timed in order and, under `in any order`, with its fields in an order that a
//! fixed seed chose. Under `the library's sort` stands how long the stable sort of Rust's library takes to
//! put the places of these fields in order, a `usize` each, by tag and position; what is written there is
//! the number of places. A second table has how many such sorts the other order costs, for 100 places and more.

use lists::call_list::{BUCKET_GENS, DISCARD, PLACE, RELEASE, RESERVED};
use lists::key::Key;
use lists::order::mixed;
use lists::rng::Rng;
use lists::timed::{self, Volume};
use lists::{limits, past_limits};
use std::hint::black_box;
use std::time::Instant;
use zerglaz::limits::{MAX_BUCKETS, MAX_KEYS, MAX_REQUESTS, MAX_VALUE};
use zerglaz::{Bucket, CallList, CallListRef, DeviceSector, Position, Refusal, Tree, SUMS};

/// How often each piece of work is timed.
const REPETITIONS: usize = 31;
/// Bytes of a page.
const PAGE: usize = 4_096;
/// The seed of the other orders.
const ORDER: u64 = 1;
/// Lists of fewer places cost too little to tell what another order costs.
const FEW: usize = 100;
/// What the names of rows end with: those of lists in another order, and those of the library's sort.
const OTHER: &str = ", in any order";
const SORT: &str = ", the library's sort";

/// Nanoseconds of each repetition, sorted.
fn times(mut work: impl FnMut()) -> Vec<u64> {
    let mut times: Vec<u64> = (0..REPETITIONS)
        .map(|_| {
            let start = Instant::now();
            work();
            start.elapsed().as_nanos() as u64
        })
        .collect();
    times.sort_unstable();
    times
}

/// Times of a copy. It lands half a page off its source's place in a page: at a distance of 16 bytes
/// a copy can take over ten times as long, and the rows could not be compared.
fn copy_times(read: &[u8]) -> Vec<u64> {
    let mut room = vec![0; read.len() + PAGE];
    let wanted = read.as_ptr() as usize + PAGE / 2;
    let pad = wanted.wrapping_sub(room.as_ptr() as usize) % PAGE;
    let to = &mut room[pad..pad + read.len()];
    times(|| {
        to.copy_from_slice(black_box(read));
        black_box(&mut *to);
    })
}

/// Bytes in and out, and times in nanoseconds: the call's median, tenth and nine tenths, and a copy's median.
struct Row {
    name: String,
    read: usize,
    written: usize,
    made: u64,
    low: u64,
    high: u64,
    copied: u64,
}

/// The rows so far, each once.
#[derive(Default)]
struct Table(Vec<Row>);

impl Table {
    /// Time a call, and a copy of what it reads; the row of an earlier round stays where its median is less.
    fn time(&mut self, name: &str, read: &[u8], mut call: impl FnMut() -> usize) {
        let written = call();
        let made = times(|| {
            black_box(call());
        });
        let copied = copy_times(read);
        let row = Row {
            name: name.to_owned(),
            read: read.len(),
            written,
            made: made[REPETITIONS / 2],
            low: made[REPETITIONS / 10],
            high: made[REPETITIONS * 9 / 10],
            copied: copied[REPETITIONS / 2].max(1),
        };
        match self.0.iter_mut().find(|earlier| earlier.name == name) {
            Some(earlier) if earlier.made <= row.made => {}
            Some(earlier) => *earlier = row,
            None => self.0.push(row),
        }
    }

    /// The median of a row.
    fn median(&self, name: &str) -> Option<u64> {
        let row = self.0.iter().find(|row| row.name == name)?;
        Some(row.made)
    }

    /// All rows.
    fn print(&self) {
        println!(
            "| what | bytes read | written | median ns | a tenth to nine tenths | copy ns | ratio |"
        );
        println!("|---|---|---|---|---|---|---|");
        for row in &self.0 {
            let ratio = row.made as f64 / row.copied as f64;
            let Row {
                name,
                read,
                written,
                made,
                low,
                high,
                copied,
            } = row;
            println!("| {name} | {read} | {written} | {made} | {low} to {high} | {copied} | {ratio:.1} |");
        }
    }

    /// What each list costs in order and in another order, beside the library's sort.
    fn print_orders(&self) {
        println!(
            "| what | places | in order ns | in any order ns | the library's sort ns | sorts |"
        );
        println!("|---|---|---|---|---|---|");
        for sort in &self.0 {
            let Some(name) = sort.name.strip_suffix(SORT).filter(|_| sort.written >= FEW) else {
                continue;
            };
            let other = self.median(&format!("{name}{OTHER}"));
            let (Some(made), Some(other)) = (self.median(name), other) else {
                continue;
            };
            let sorts = (other as f64 - made as f64) / sort.made as f64;
            let (places, sort) = (sort.written, sort.made);
            println!("| {name} | {places} | {made} | {other} | {sort} | {sorts:.2} |");
        }
    }
}

/// Three rows of a call: on a list in order, on the same in another order, and the library's sort of the
/// places of the latter. What else the call reads counts as read.
fn rows(
    table: &mut Table,
    name: &str,
    list: &[u8],
    more: &[u8],
    mut call: impl FnMut(&[u8]) -> usize,
) {
    let other = mixed(&mut Rng::new(ORDER), list);
    assert_eq!(call(list), call(&other), "{name}");
    for (order, list) in [("", list), (OTHER, &other)] {
        let read = [list, more].concat();
        table.time(&format!("{name}{order}"), &read, || call(black_box(list)));
    }
    library_sort(table, name, &other);
}

/// A row of the library's stable sort of the places of a list's fields.
fn library_sort(table: &mut Table, name: &str, list: &[u8]) {
    let places = places(list);
    let mut sorted = places.clone();
    table.time(&format!("{name}{SORT}"), list, || {
        sorted.copy_from_slice(&places);
        let list = black_box(list);
        sorted.sort_by_key(|&place| stands(list, place));
        black_box(&mut sorted).len()
    });
    assert!(sorted.is_sorted_by_key(|&place| stands(list, place)));
}

/// Where the fields of a list begin.
fn places(list: &[u8]) -> Vec<usize> {
    let mut places = Vec::new();
    let mut at = 0;
    while at < list.len() {
        places.push(at);
        at += 3 + usize::from(u16::from_le_bytes([list[at + 1], list[at + 2]]));
    }
    places
}

/// Where a field stands in a sorted list: its tag, then a key's position or a reserved bucket's number.
fn stands(list: &[u8], place: usize) -> (u8, u64, u64) {
    let word = |at: usize| u64::from_le_bytes(list[at..at + 8].try_into().expect("a word"));
    match list[place] {
        RESERVED => {
            let number = list[place + 3..place + 7].try_into().expect("a number");
            (RESERVED, u32::from_le_bytes(number).into(), 0)
        }
        tag if Tree::from_tag(tag).is_some() => (tag, word(place + 20), word(place + 28)),
        tag => (tag, 0, 0),
    }
}

/// The lists at the limits that a call accepts.
fn calls(table: &mut Table, call: u8, name: &str) {
    let mut out = vec![0; 1 << 21];
    let mut scratch = vec![0; SUMS];
    for index in 0..limits::LISTS {
        let (list, what) = limits::list(limits::SEED, call, index);
        let list = list.bytes();
        let mut made = |list: &[u8]| match call {
            PLACE => zerglaz::place(list, &mut out),
            RELEASE => zerglaz::release(list, &mut scratch, &mut out),
            _ => zerglaz::discard(list, &mut out),
        };
        if made(&list).is_ok() {
            let accepted = |list: &[u8]| made(list).expect("accepted before");
            rows(table, &format!("{name}: {what}"), &list, &[], accepted);
        }
    }
}

/// A placement that is refused.
fn refused_by(list: &[u8], due: Refusal) -> usize {
    assert_eq!(zerglaz::place(list, &mut []), Err(due));
    0
}

/// Lists with one request too many, which are refused 3 once all of them is read: so all that is timed
/// is reading.
fn refused(table: &mut Table) {
    for (name, volume) in [
        ("bare volume", Volume::Bare),
        ("every tree full", Volume::Full),
    ] {
        let mut list = timed::list(PLACE, volume, MAX_REQUESTS);
        list.places.push(list.places[0].clone());
        let name = format!("place, refused 3: {name}");
        rows(table, &name, &list.bytes(), &[], |list| {
            refused_by(list, Refusal::LimitPassed)
        });
    }
}

/// Lists past the limits, where nothing stands twice and where one thing does.
fn past_the_limits(table: &mut Table) {
    for (index, number, due) in [
        (0, 3, Refusal::LimitPassed),
        (1, 22, Refusal::StandsTwice),
        (8, 3, Refusal::LimitPassed),
        (9, 22, Refusal::StandsTwice),
        (14, 3, Refusal::LimitPassed),
        (15, 22, Refusal::StandsTwice),
    ] {
        let (list, what) = past_limits::list(ORDER, PLACE, index);
        let list = mixed(&mut Rng::new(ORDER), &list);
        let name = format!("place, refused {number}: {what}");
        table.time(&name, &list, || refused_by(black_box(&list), due));
        library_sort(table, &name, &list);
    }
}

/// A volume whose trees are full, and changes of a few, some and many keys.
fn applies(table: &mut Table) {
    let volume = timed::volume();
    let bytes = volume.bytes();
    let mut out = vec![0; bytes.len()];
    for count in [1, 64, 1_024] {
        let change = timed::change(&volume, count);
        let name = format!("apply: every tree full, keys replaced: {count}");
        rows(table, &name, &bytes, &[], |volume| {
            let next = zerglaz::apply(volume, black_box(&change), &mut out);
            next.expect("it is accepted")
        });
    }
}

/// What each call of 1,024 wrote, applied to its own volume.
fn followed(table: &mut Table) {
    let mut change = vec![0; 1 << 21];
    let mut scratch = vec![0; SUMS];
    for (call, name) in [(PLACE, "place"), (RELEASE, "release"), (DISCARD, "discard")] {
        let list = timed::list(call, Volume::Bare, 1_024);
        let (volume, list) = (list.volume().bytes(), list.bytes());
        let written = match call {
            PLACE => zerglaz::place(&list, &mut change),
            RELEASE => zerglaz::release(&list, &mut scratch, &mut change),
            _ => zerglaz::discard(&list, &mut change),
        };
        let change = &change[..written.expect("it is accepted")];
        let mut out = vec![0; volume.len() + change.len()];
        let name = format!("apply: what a {name} of 1,024 wrote");
        rows(table, &name, &volume, change, |volume| {
            let next = zerglaz::apply(volume, black_box(change), &mut out);
            next.expect("it is accepted")
        });
    }
}

/// The sorted form of a short list, of one with many requests and of one whose trees are full.
fn sorts(table: &mut Table) {
    for (name, volume, count) in [
        ("one release, bare volume", Volume::Bare, 1),
        ("1,024 releases, bare volume", Volume::Bare, 1_024),
        ("1,024 releases, every tree full", Volume::Full, 1_024),
    ] {
        let list = timed::list(RELEASE, volume, count).bytes();
        let mut out = vec![0; list.len()];
        rows(table, &format!("sort: {name}"), &list, &[], |list| {
            let sorted = zerglaz::sort(list, &mut out);
            sorted.expect("it is accepted")
        });
    }
}

/// Generations of buckets up to the last one, over 4,096 generation keys: with a record for each bucket,
/// and with none, so that the first key ends the walk. Records stand at inode 0 and at offsets up to 255,
/// and snapshots are 0: at most 256 keys stand where a record does or before it, and no walk visits more
/// than 257. With no buckets all that is timed is reading.
fn generations(table: &mut Table) {
    for (name, records) in [("256 records", 256), ("no record", 0)] {
        let volume = recorded(records);
        for count in [0, 1, 32, 1_024] {
            let buckets = spread(count);
            let looked_up = |volume: &[u8]| {
                let found = zerglaz::generations(volume, black_box(&buckets));
                found.expect("it is accepted")
            };
            let visited = looked_up(&volume).visited;
            let asked = format!("buckets: {count}, keys visited: {visited}");
            let name = format!("generations: {name}, {asked}");
            rows(table, &name, &volume, &[], |volume| {
                looked_up(volume).generations.len()
            });
        }
    }
}

/// A volume with 4,096 generation keys of 256 bytes: so many records, and the others past all of them.
fn recorded(records: u64) -> Vec<u8> {
    let mut volume = timed::list(PLACE, Volume::Bare, 1).volume();
    for at in 0..MAX_KEYS as u64 {
        let key = Key {
            value: vec![at as u8; MAX_VALUE],
            ..Key::at(30, u64::from(at >= records), at)
        };
        volume.insert(BUCKET_GENS, key);
    }
    volume.bytes()
}

/// So many buckets, as far apart as they can be, the last of all among them.
fn spread(count: u32) -> Vec<Bucket> {
    let bucket = |i| Bucket(i * (MAX_BUCKETS / count) - 1);
    (1..=count).map(bucket).collect()
}

/// The same volume read into a list of its own and where it stands, and one key of each looked up.
fn readings(table: &mut Table) {
    let bytes = timed::volume().bytes();
    let at = Position::of_backpointer(DeviceSector(1));
    rows(table, "CallList: every tree full", &bytes, &[], |volume| {
        let list = CallList::read(volume).expect("a volume");
        usize::from(list.key(Tree::Backpointers, at).is_some())
    });
    rows(
        table,
        "CallListRef: every tree full",
        &bytes,
        &[],
        |volume| {
            let list = CallListRef::read(volume).expect("a volume");
            usize::from(list.key(Tree::Backpointers, at).is_some())
        },
    );
}

fn main() {
    // Cargo gives `--bench` too.
    let rounds = std::env::args().find_map(|word| word.parse().ok());
    let mut table = Table::default();
    for _ in 0..rounds.unwrap_or(1) {
        calls(&mut table, PLACE, "place");
        calls(&mut table, RELEASE, "release");
        calls(&mut table, DISCARD, "discard");
        refused(&mut table);
        past_the_limits(&mut table);
        applies(&mut table);
        followed(&mut table);
        sorts(&mut table);
        generations(&mut table);
        readings(&mut table);
    }
    table.print();
    println!();
    table.print_orders();
}
