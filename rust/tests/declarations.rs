//! Each of the six functions that `src/ffi.rs` and `include/zerglaz.h` declare, held to answers
//! that are written out here by hand from docs/FORMAT.md and its source; and the header's names,
//! version and limits, held to the crate's.

mod common;

use common::ARCHIVE;
use lists::generations::Generations;
use lists::lent::Due;
use lists::model::SORT;
use zerglaz::{
    key_type, limits, Batch, Bucket, Call, CallList, ChangeList, Counters, DeviceSector, Head, Key,
    Piece, Placed, Position, Refusal, Released, Root, Row, Tree, SUMS,
};

/// The bytes of words, each little-endian.
fn words(words: &[u64]) -> Vec<u8> {
    words.iter().flat_map(|word| word.to_le_bytes()).collect()
}

/// A key of a type and a value.
fn key(key_type: u8, position: Position, value: Vec<u8>) -> Key {
    Key {
        value,
        ..Key::new(key_type, position)
    }
}

/// A row at offset 0.
fn row(inode: u64, counters: Counters) -> Row {
    Row {
        inode,
        offset: 0,
        counters,
    }
}

/// A list of a call with bucket sectors, checksum option 1, batch 1 and journal number 9.
fn list(call: Call, bucket_sectors: u16) -> CallList {
    CallList::new(Head {
        call,
        bucket_sectors,
        block_sectors: 1,
        checksum_option: 1,
        batch: 1,
        journal: 9,
        inode: 1,
        ..Head::default()
    })
}

/// Hold a call to one batch, in outputs of every kind.
fn hold(list: &CallList, batch: Batch) {
    let answer = ChangeList {
        batches: vec![batch],
    };
    let held = ARCHIVE.hold_rooms(list.head.call as u8, &list.to_bytes(), &answer.to_bytes());
    assert_eq!(held, Ok(3));
}

/// The keys of worked case 9: the extent, the bucket's alloc key, the run that is left, the backpointer.
fn keys_of_place() -> Vec<(Tree, Key)> {
    let mut extent = key(
        key_type::EXTENT,
        Position::new(1, 128),
        words(&[0x500_fffe, 1]),
    );
    extent.position.snapshot = u32::MAX;
    extent.size = 128;
    let alloc = words(&[9, 0x0004_0000_0000_0023, 128, 1, 1, 0, 0, 0]);
    let alloc = key(key_type::ALLOC_V4, Position::of_alloc(Bucket(0)), alloc);
    let back = words(&[0x0004_0000, 128 | u64::from(u32::MAX) << 32, 128, 1]);
    let at = Position::of_backpointer(DeviceSector(0));
    vec![
        (Tree::Extents, extent),
        (Tree::Alloc, alloc),
        (Tree::Freespace, Key::run(Bucket(1)..Bucket(33))),
        (Tree::Backpointers, key(key_type::BACKPOINTER, at, back)),
    ]
}

/// Worked case 9: one piece of 128 sectors fills bucket 0.
#[test]
fn place() {
    let mut list = list(Call::Place, 128);
    list.insert_run(Bucket(0)..Bucket(33));
    list.pieces.push(Piece::plain(128, 0));
    let batch = Batch {
        keys: keys_of_place(),
        taken: vec![Bucket(0)],
        placed: vec![Placed {
            first: DeviceSector(0),
            stored_sectors: 128,
            bucket: Bucket(0),
            generation: 0,
        }],
        rows: vec![
            row(0x0204_0101_0000_0000, Counters::One(128)),
            row(0x0300_0000_0000_0000, Counters::Three([-1, 0, 0])),
            row(0x0300_0400_0000_0000, Counters::Three([1, 128, 0])),
            row(0x05ff_ffff_ff00_0000, Counters::Three([1, 56, 128])),
            row(0x0801_0000_0000_0000, Counters::Three([1, 128, 128])),
        ],
        file_sectors: vec![128],
        ..Batch::default()
    };
    hold(&list, batch);
}

/// Worked case 7: bucket 5 holds 96 sectors, and freeing 96 empties it.
#[test]
fn release() {
    let mut list = list(Call::Release, 128);
    let at = Position::of_alloc(Bucket(5));
    let held = words(&[0, 0x0004_0303_0000_0023, 96, 1, 1, 0, 0, 0]);
    list.insert(Tree::Alloc, key(key_type::ALLOC_V4, at, held));
    let first = Bucket(5).first_sector(128);
    list.released.push(Released { first, sectors: 96 });
    let emptied = words(&[0, 0x0009_0404_0000_0021, 0, 1, 1, 0, 9, 0]);
    let mut generations = vec![0; 256];
    generations[5] = 4;
    let lru = Position::new((1 << 61) + 1_610_612_736, 5);
    let waits = Position::of_need_discard(9, Bucket(5));
    let back = Position::of_backpointer(first);
    let gens = Position::of_generations(Bucket(5));
    hold(
        &list,
        Batch {
            keys: vec![
                (Tree::Alloc, key(key_type::ALLOC_V4, at, emptied)),
                (Tree::Lru, Key::new(key_type::DELETED, lru)),
                (Tree::NeedDiscard, Key::new(key_type::SET, waits)),
                (Tree::Backpointers, Key::new(key_type::DELETED, back)),
                (
                    Tree::BucketGens,
                    key(key_type::BUCKET_GENS, gens, generations),
                ),
            ],
            roots: vec![Root::NeedDiscard, Root::BucketGens],
            rows: vec![
                row(0x0204_0101_0000_0000, Counters::One(-96)),
                row(0x0300_0400_0000_0000, Counters::Three([-1, -96, -32])),
                row(0x0300_0900_0000_0000, Counters::Three([1, 0, 0])),
            ],
            ..Batch::default()
        },
    );
}

/// The printed case of docs/FORMAT.md, "The program bucketlines".
#[test]
fn discard() {
    let mut list = list(Call::Discard, 8);
    let at = Position::of_alloc(Bucket(5));
    let waits = Position::of_need_discard(8, Bucket(5));
    let before = words(&[7, 0x0009_0303_0000_0021, 0, 1, 1, 0, 8, 0]);
    let after = words(&[0, 0x0000_0303_0000_0020, 0, 1, 1, 0, 0, 0]);
    list.insert(Tree::Alloc, key(key_type::ALLOC_V4, at, before));
    list.insert(Tree::NeedDiscard, Key::new(key_type::SET, waits));
    hold(
        &list,
        Batch {
            keys: vec![
                (Tree::Alloc, key(key_type::ALLOC_V4, at, after)),
                (Tree::Freespace, Key::run(Bucket(5)..Bucket(6))),
                (Tree::NeedDiscard, Key::new(key_type::DELETED, waits)),
            ],
            rows: vec![
                row(0x0300_0000_0000_0000, Counters::Three([1, 0, 0])),
                row(0x0300_0900_0000_0000, Counters::Three([-1, 0, 0])),
            ],
            unreserved: vec![Bucket(5)],
            ..Batch::default()
        },
    );
}

/// A change that puts, replaces and deletes keys, makes a root, and takes and gives back buckets.
#[test]
fn apply() {
    let mut volume = list(Call::Discard, 8);
    volume.insert_run(Bucket(0)..Bucket(20));
    volume.insert_run(Bucket(30)..Bucket(40));
    volume.reserve(Bucket(2));
    let alloc = key(
        key_type::ALLOC_V4,
        Position::of_alloc(Bucket(9)),
        vec![7; 64],
    );
    let deleted = Key::new(key_type::DELETED, Position::of_run(Bucket(20)));
    let shorter = Key::run(Bucket(35)..Bucket(40));
    let change = ChangeList {
        batches: vec![Batch {
            keys: vec![
                (Tree::Alloc, alloc.clone()),
                (Tree::Freespace, deleted),
                (Tree::Freespace, shorter.clone()),
            ],
            roots: vec![Root::NeedDiscard],
            taken: vec![Bucket(9)],
            unreserved: vec![Bucket(2)],
            ..Batch::default()
        }],
    };
    let mut next = list(Call::Discard, 8);
    next.insert(Tree::Alloc, alloc);
    next.insert(Tree::Freespace, shorter);
    next.head.roots.need_discard = true;
    next.reserve(Bucket(9));
    let (volume, change) = (volume.to_bytes(), change.to_bytes());
    let held = ARCHIVE.hold_apply_rooms(&volume, &change, &next.to_bytes());
    assert_eq!(held, Ok(3));
}

/// The bytes of a field.
fn field(tag: u8, body: &[u8]) -> Vec<u8> {
    let length = (body.len() as u16).to_le_bytes();
    [&[tag], &length[..], body].concat()
}

/// A list whose fields stand in no order: two pieces to place around two runs, a need-discard key, two
/// reserved buckets and the head. Its sorted form is written out by hand.
#[test]
fn sort() {
    let mut head = vec![1, 128, 0, 1, 0, 1, 0];
    head.extend([0; 4 + 4 + 8 + 8 + 8]);
    let head = field(1, &head);
    let key = |tag, size, inode: u8, offset: u8| {
        let mut body = vec![25, size, 0, 0, 0];
        body.extend([0; 4 + 8 + 8 + 8 + 4]);
        body[17] = inode;
        body[25] = offset;
        field(tag, &body)
    };
    let piece = |sectors| field(65, &[sectors, 0, sectors, 0, 0, 7, 0, 0, 0, 0, 0, 0, 0]);
    let reserved = |low| field(64, &[low, 1, 0, 0]);
    let (low_run, high_run, waits) = (key(11, 40, 0, 40), key(11, 5, 0, 90), key(12, 0, 9, 3));
    let list = [
        piece(96),
        high_run.clone(),
        reserved(9),
        waits.clone(),
        head.clone(),
        reserved(2),
        low_run.clone(),
        piece(64),
    ];
    let sorted = [
        head,
        low_run,
        high_run,
        waits,
        reserved(2),
        reserved(9),
        piece(96),
        piece(64),
    ];
    let (list, sorted) = (list.concat(), sorted.concat());
    assert_eq!(ARCHIVE.hold_rooms(SORT, &list, &sorted), Ok(3));
    assert_eq!(ARCHIVE.hold_rooms(SORT, &sorted, &sorted), Ok(3));
    let mut change = vec![0; limits::MAX_PLACE_CHANGE];
    let length = zerglaz::place(&sorted, &mut change).expect("room");
    change.truncate(length);
    assert_eq!(ARCHIVE.hold_rooms(1, &list, &change), Ok(3));
}

/// A volume of any call, its fields in no order, with records of buckets 0 and 1 and of 512 to 767, a key
/// of another type where the record of bucket 256 would stand, and keys past these.
fn recorded(call: Call) -> Vec<u8> {
    let volume = list(call, 8);
    let key = |key_type: u8, inode: u8, offset: u8, value: &[u8]| {
        let mut body = vec![0; 37];
        (body[0], body[17], body[25]) = (key_type, inode, offset);
        field(14, &[&body, value].concat())
    };
    let whole: Vec<u8> = (0..=255).collect();
    let fields = [
        key(30, 1, 0, &[40]),
        key(30, 0, 2, &whole),
        volume.to_bytes(),
        key(29, 0, 1, &[30]),
        key(30, 0, 9, &[]),
        key(30, 0, 0, &[10, 20]),
    ];
    fields.concat()
}

/// The bytes of records, 0 where there is none or it is too short, and how many keys were visited: those
/// up to the one past the last bucket's record.
#[test]
fn generations() {
    let rows: [(&[u32], &[u8], usize); 8] = [
        (&[], &[], 0),
        (&[0], &[10], 2),
        (&[0, 1, 2, 255], &[10, 20, 0, 0], 2),
        (&[1, 256, 511], &[20, 0, 0], 3),
        (&[512, 513, 767], &[0, 1, 255], 4),
        (&[768], &[0], 4),
        (&[1, 600, 2_304], &[20, 88, 0], 5),
        (&[65_535], &[0], 5),
    ];
    for call in [Call::Place, Call::Release, Call::Discard] {
        let volume = recorded(call);
        for (buckets, bytes, visited) in rows {
            let answer = Generations {
                number: 0,
                bytes: bytes.to_vec(),
                visited,
            };
            let rooms = if buckets.is_empty() { 2 } else { 4 };
            let held = ARCHIVE.hold_generations_rooms(&volume, buckets, &answer);
            assert_eq!(held, Ok(rooms), "{buckets:?}");
            let buckets: Vec<Bucket> = buckets.iter().copied().map(Bucket).collect();
            let found = zerglaz::generations(&volume, &buckets).expect("they ascend");
            assert_eq!((&found.generations[..], found.visited), (bytes, visited));
        }
    }
}

/// The numbers of generations on that volume, each before the next: a request or buckets that do not
/// ascend, a record twice, a bucket past the limit, and a short output.
#[test]
fn refused_generations() {
    let (high, equal) = ([0, 65_536], [3, 3]);
    let once = recorded(Call::Release);
    let twice = [&once[..], &field(14, &[0; 37])].concat();
    let request = [&twice[..], &field(66, &[0; 10])].concat();
    let far = [&once[..], &field(64, &[0, 0, 1, 0])].concat();
    let rows: [(&[u8], &[u32], u32); 10] = [
        (&request, &[0], 2),
        (&request, &[], 2),
        (&twice, &equal, 2),
        (&once, &[65_536, 1], 2),
        (&twice, &high, 22),
        (&twice, &[], 22),
        (&far, &[], 3),
        (&far, &[1, 0], 2),
        (&once, &high, 3),
        (&once, &[0, 1], 21),
    ];
    for (volume, buckets, number) in rows {
        let due = Generations::refused(number);
        for room in [0, 1] {
            let held = ARCHIVE.hold_generations(volume, buckets, room, &due);
            assert_eq!(held, Ok(()), "{buckets:?}");
        }
    }
}

/// A run or a reserved bucket that stands twice, at both ends of a list, is refused after the layout and
/// before the limits, by each function.
#[test]
fn doubles() {
    let run = field(11, &[0; 37]);
    let bucket = field(64, &[0, 0, 1, 0]);
    for (call, byte) in [(Call::Place, 1), (Call::Release, 2), (Call::Discard, 3)] {
        let once = list(call, 8).to_bytes();
        for twice in [&run, &bucket] {
            let mut twice = [twice, &once[..], twice].concat();
            let due = Due::refused(22);
            assert_eq!(ARCHIVE.hold(byte, &twice, SUMS, 100, due), Ok(()));
            assert_eq!(ARCHIVE.hold(SORT, &twice, 0, 1_000, due), Ok(()));
            assert_eq!(ARCHIVE.hold_apply(&twice, &[], 1_000, due), Ok(()));
            let refused = Generations::refused(22);
            let held = ARCHIVE.hold_generations(&twice, &[7], 9, &refused);
            assert_eq!(held, Ok(()));
            let broken = Due::refused(2);
            assert_eq!(ARCHIVE.hold_apply(&twice, &[76], 1_000, broken), Ok(()));
            twice.push(0);
            assert_eq!(ARCHIVE.hold(byte, &twice, SUMS, 100, broken), Ok(()));
            assert_eq!(ARCHIVE.hold(SORT, &twice, 0, 1_000, broken), Ok(()));
        }
        // Once it passes a limit, or does nothing.
        let once = [&bucket, &once[..]].concat();
        let due = Due::refused(3);
        assert_eq!(ARCHIVE.hold(byte, &once, SUMS, 100, due), Ok(()));
        assert_eq!(ARCHIVE.hold(SORT, &once, 0, 1_000, due), Ok(()));
    }
}

/// Each function refuses with its own numbers, through the crate's own calls too.
#[test]
fn refusals() {
    let mut out = [7; 100];
    let mut short = vec![3; SUMS - 1];
    let mut scratch = vec![3; SUMS];
    let empty = zerglaz::release(&[], &mut short, &mut out);
    assert_eq!(empty, Err(Refusal::ScratchTooShort));
    assert!(short.iter().all(|&sum| sum == 3));
    let place = list(Call::Place, 0).to_bytes();
    assert_eq!(
        zerglaz::place(&place, &mut out),
        Err(Refusal::NoBucketSectors)
    );
    let another = zerglaz::release(&place, &mut scratch, &mut out);
    assert_eq!(another, Err(Refusal::BrokenLayout));
    assert!(scratch.iter().all(|&sum| sum == 0));
    let mut discard = list(Call::Discard, 8);
    discard.head.batch = 0;
    let discard = discard.to_bytes();
    assert_eq!(zerglaz::discard(&discard, &mut out), Err(Refusal::NoBatch));
    assert_eq!(
        zerglaz::apply(&place, &[76], &mut out),
        Err(Refusal::BrokenLayout)
    );
    let next = zerglaz::apply(&place, &[], &mut out[..41]);
    assert_eq!(next, Err(Refusal::OutputTooShort));
    let sorted = zerglaz::sort(&place, &mut out[..41]);
    assert_eq!(sorted, Err(Refusal::OutputTooShort));
    let twice = [&place[..], &field(64, &[0; 4]), &field(64, &[0; 4])].concat();
    assert_eq!(zerglaz::sort(&twice, &mut out), Err(Refusal::StandsTwice));
    let generations = zerglaz::generations(&twice, &[Bucket(1)]);
    assert_eq!(generations, Err(Refusal::StandsTwice));
    let generations = zerglaz::generations(&place, &[Bucket(1), Bucket(1)]);
    assert_eq!(generations, Err(Refusal::BrokenLayout));
    let generations = zerglaz::generations(&place, &[Bucket(1), Bucket(65_536)]);
    assert_eq!(generations, Err(Refusal::LimitPassed));
    assert_eq!(out, [7; 100]);
}

/// Empty slices may be lent for everything.
#[test]
fn empty_slices() {
    for call in 1..=3 {
        let number = if call == 2 { 1 } else { 2 };
        let held = ARCHIVE.hold(call, &[], 0, 0, Due::refused(number));
        assert_eq!(held, Ok(()));
    }
    assert_eq!(ARCHIVE.hold_apply(&[], &[], 0, Due::refused(2)), Ok(()));
    assert_eq!(ARCHIVE.hold(SORT, &[], 0, 0, Due::refused(2)), Ok(()));
    let refused = Generations::refused(2);
    assert_eq!(ARCHIVE.hold_generations(&[], &[], 0, &refused), Ok(()));
}

/// The C header, its blanks made single.
fn header() -> String {
    let path = format!("{}/../include/zerglaz.h", env!("CARGO_MANIFEST_DIR"));
    let text = std::fs::read_to_string(&path).expect("the header is there");
    text.split_whitespace().collect::<Vec<_>>().join(" ")
}

/// A refusal's name in the header.
fn c_name(refusal: Refusal) -> String {
    let mut name = "ZERGLAZ".to_string();
    for letter in format!("{refusal:?}").chars() {
        if letter.is_uppercase() {
            name.push('_');
        }
        name.push(letter.to_ascii_uppercase());
    }
    name
}

/// The header has each refusal by name and number, and no other number.
#[test]
fn header_names_the_refusals() {
    let header = header();
    let list = header.split("enum zerglaz_refusal {").nth(1);
    let list = list
        .and_then(|rest| rest.split('}').next())
        .expect("the enum");
    let numbers = list.matches(" = ").count();
    assert_eq!(numbers, 1 + Refusal::ALL.len());
    assert!(list.contains("ZERGLAZ_ACCEPTED = 0,"));
    for refusal in Refusal::ALL {
        let (name, number) = (c_name(refusal), refusal.number());
        let end = if number == 22 { " " } else { "," };
        assert!(list.contains(&format!(" {name} = {number}{end}")), "{name}");
    }
    assert_eq!(number("SUMS"), SUMS);
}

/// What the header's macro of a name is defined to be.
fn macro_of(name: &str) -> String {
    let header = header();
    let defined = header.split(&format!("#define ZERGLAZ_{name} ")).nth(1);
    let word = defined.and_then(|rest| rest.split(' ').next());
    word.unwrap_or_else(|| panic!("the header defines ZERGLAZ_{name}"))
        .to_string()
}

/// The number that the header's macro of a name is defined to be.
fn number(name: &str) -> usize {
    let word = macro_of(name);
    word.parse()
        .unwrap_or_else(|_| panic!("ZERGLAZ_{name} is {word}"))
}

/// The header's version is the crate's.
#[test]
fn header_has_the_version() {
    let version = env!("CARGO_PKG_VERSION");
    assert_eq!(zerglaz::VERSION, version);
    assert_eq!(macro_of("VERSION"), format!("\"{version}\""));
    let parts = ["VERSION_MAJOR", "VERSION_MINOR", "VERSION_PATCH"].map(macro_of);
    assert_eq!(parts.join("."), version);
}

/// The header's limits are the crate's.
#[test]
fn header_has_the_limits() {
    let due = [
        ("MAX_KEYS", limits::MAX_KEYS),
        ("MAX_RESERVED", limits::MAX_RESERVED),
        ("MAX_REQUESTS", limits::MAX_REQUESTS),
        ("MAX_BUCKETS", limits::MAX_BUCKETS as usize),
        ("MAX_BUCKETS_ASKED", limits::MAX_BUCKETS_ASKED),
        ("MAX_VALUE", limits::MAX_VALUE),
        ("MAX_VOLUME", limits::MAX_VOLUME),
        ("MAX_CALL_LIST", limits::MAX_CALL_LIST),
        ("MAX_PLACE_CHANGE", limits::MAX_PLACE_CHANGE),
        ("MAX_RELEASE_CHANGE", limits::MAX_RELEASE_CHANGE),
        ("MAX_DISCARD_CHANGE", limits::MAX_DISCARD_CHANGE),
    ];
    for (name, limit) in due {
        assert_eq!(number(name), limit, "ZERGLAZ_{name}");
    }
}

/// What a history and a live piece are, and the caller's duties, in the words that every page has.
const DUTIES: &str = "A history is a list of place, release and discard calls; each reads the volume \
    last reached, of which nothing but field 1, requests and the order of fields has changed. A \
    piece is live from its applied placement to the applied release that names it by first sector and length. \
    1. The history starts from a clean volume. \
    2. A release names pieces that are live, none twice. \
    3. An accepted change is applied whole before the next call, and data is written only to places \
    whose change is applied. \
    4. A refused apply drops its change. \
    5. Bucket sectors stay. ";

/// The crate's documentation has the duties word for word.
#[test]
fn documentation_lists_the_duties() {
    let path = format!("{}/src/lib.rs", env!("CARGO_MANIFEST_DIR"));
    let text = std::fs::read_to_string(&path).expect("the crate's root");
    let lines = text.lines().filter_map(|line| line.strip_prefix("//!"));
    let words: Vec<&str> = lines.flat_map(str::split_whitespace).collect();
    assert!(words.join(" ").contains(DUTIES));
}

/// The header has the declarations that `src/ffi.rs` has.
#[test]
fn header_declares_the_calls() {
    let header = header();
    let answer = "uint8_t *out, size_t out_len, size_t *written);";
    let list = "const uint8_t *list, size_t list_len";
    let declarations = [
        format!("uint32_t zerglaz_place({list}, {answer}"),
        format!("uint32_t zerglaz_release({list}, uint32_t *scratch, size_t scratch_len, {answer}"),
        format!("uint32_t zerglaz_discard({list}, {answer}"),
        format!(
            "uint32_t zerglaz_apply(const uint8_t *volume, size_t volume_len, \
             const uint8_t *change, size_t change_len, {answer}"
        ),
        format!("uint32_t zerglaz_sort({list}, {answer}"),
        "uint32_t zerglaz_generations(const uint8_t *volume, size_t volume_len, \
         const uint32_t *buckets, size_t buckets_len, uint8_t *out, size_t out_len, \
         size_t *visited);"
            .to_string(),
    ];
    for declaration in declarations {
        assert!(header.contains(&declaration), "{declaration}");
    }
}
