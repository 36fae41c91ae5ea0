//! Lists and answers at the program's two lengths, and standard inputs of other kinds.

use bucketlines::due::{self, LONGEST, OUTPUT};
use bucketlines::lines;
use bucketlines::program::{in_repository, printed, printed_from, printed_on};
use bucketlines::stored::{told, vector};
use lists::call_list::{CallList, Place, BACKPOINTERS, FREESPACE, PLACE};
use lists::key::{Key, VALUE_MAX};
use lists::model::answer_length;
use lists::order::shuffled;
use lists::rng::Rng;
use std::io::Write;
use std::process::Stdio;
use std::time::Duration;

/// Bytes of a key's field without its value.
const KEY_FIELD: usize = 40;

/// A list made as long as `length` by backpointers, which no call reads.
fn padded(list: &[u8], length: usize) -> Vec<u8> {
    let mut list = CallList::read(list).expect("a list");
    let mut missing = length - list.bytes().len();
    let mut offset = 1 << 48;
    while missing > 0 {
        let field = next_field(missing);
        let mut key = Key::at(28, 0, offset);
        key.value = vec![7; field - KEY_FIELD];
        list.insert(BACKPOINTERS, key);
        missing -= field;
        offset += 65_536;
    }
    list.bytes()
}

/// The length of a key's field that leaves nothing, or enough for another key.
fn next_field(missing: usize) -> usize {
    let longest = KEY_FIELD + VALUE_MAX;
    if missing > longest && missing < longest + KEY_FIELD {
        return longest - KEY_FIELD;
    }
    longest.min(missing)
}

/// Lists of exactly 32,768 bytes have the answer of the short list; with a byte more they are
/// refused 3.
#[test]
fn longest_list() {
    for (file, id) in [
        ("place", "p1"),
        ("place", "p3-refused"),
        ("release", "p7-accepted"),
        ("release", "p7-refused"),
        ("discard", "printed"),
    ] {
        let v = vector(file, id);
        let list = padded(&v.list, LONGEST);
        assert_eq!(list.len(), LONGEST, "{id}");
        assert_eq!(due::number(&list), v.number, "{id}");
        assert_eq!(printed(&list), told(&v), "{id}");
        let other = shuffled(&mut Rng::new(22), &list);
        assert_eq!(printed(&other), told(&v), "{id}, in another order");
        let longer = padded(&v.list, LONGEST + 1);
        assert_eq!(longer.len(), LONGEST + 1, "{id}");
        assert_eq!(printed(&longer), "refused 3\n", "{id}");
    }
}

/// Where a list is too long, that is said before what its bytes are.
#[test]
fn too_long_and_broken() {
    let mut list = padded(&vector("place", "p1").list, LONGEST);
    list.pop();
    assert_eq!(printed(&list), "refused 2\n");
    list.extend([0, 0]);
    assert_eq!(printed(&list), "refused 3\n");
    for length in [LONGEST, LONGEST + 1, 65_535, 65_536, 65_537, 1 << 20] {
        let due = if length > LONGEST {
            "refused 3\n"
        } else {
            "refused 2\n"
        };
        assert_eq!(printed(&vec![0; length]), due, "{length}");
    }
}

/// No bytes, and too few for a call byte.
#[test]
fn empty() {
    for list in [&[][..], &[1], &[1, 39], &[1, 39, 0]] {
        assert_eq!(printed(list), "refused 2\n", "{list:?}");
    }
    assert_eq!(printed_on(Stdio::null()), "refused 2\n");
}

/// A placement of single sectors whose answer is as long as asked: the run that is begun keeps its value.
fn answered_in(length: usize) -> Vec<u8> {
    let v = vector("place", "p9");
    let mut list = CallList::read(&v.list).expect("a list");
    assert_eq!(list.head.call, PLACE);
    let mut run = Key::at(25, 0, 4_096);
    run.size = 4_096;
    list.trees.insert(FREESPACE, vec![run]);
    list.places.clear();
    let room = |list: &CallList| length.checked_sub(answer_length(list).expect("accepted"));
    while room(&list).is_some_and(|left| left > VALUE_MAX) {
        list.places.push(Place {
            file: 1,
            stored: 1,
            kind: 0,
            checksum: 5,
        });
    }
    let left = room(&list).expect("a piece adds less than a value may hold");
    list.trees.get_mut(&FREESPACE).expect("a run")[0].value = vec![9; left];
    assert_eq!(answer_length(&list), Some(length));
    list.bytes()
}

/// An answer of exactly 65,536 bytes is printed; one of a byte more is refused 21.
#[test]
fn longest_answer() {
    let list = answered_in(OUTPUT);
    let answer = due::answer(&list);
    assert!(list.len() <= LONGEST && answer.len() == OUTPUT);
    assert_eq!(printed(&list), lines::accepted(&answer));
    let list = answered_in(OUTPUT + 1);
    assert!(list.len() <= LONGEST);
    assert_eq!(printed(&list), "refused 21\n");
}

/// A list that arrives in pieces, with pauses.
#[test]
fn in_pieces() {
    let v = vector("place", "p1");
    let written = printed_from(|input| {
        for piece in v.list.chunks(29) {
            input.write_all(piece)?;
            std::thread::sleep(Duration::from_millis(5));
        }
        Ok(())
    });
    assert_eq!(written, told(&v));
}

/// A list in a file.
#[test]
fn from_a_file() {
    let crate_of = |file: &str| in_repository("crates/bucketlines").join(file);
    let list = std::fs::File::open(crate_of("stdin")).expect("stdin");
    let lines = std::fs::read_to_string(crate_of("stdout")).expect("stdout");
    assert_eq!(printed_on(list), lines);
}
