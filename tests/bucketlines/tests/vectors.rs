//! Every stored vector, and lists of the generator, against all that the program prints, as they stand
//! and in another order of their fields.

use bucketlines::due::{self, call_of, LONGEST, OUTPUT};
use bucketlines::program::printed;
use bucketlines::stored::{text, told, vector, vectors};
use lists::call_list::{DISCARD, PLACE, RELEASE};
use lists::fields::joined;
use lists::order::shuffled;
use lists::rng::Rng;
use lists::vectors::Vector;
use std::collections::BTreeSet;

/// The calls with their files.
const FILES: [(u8, &str); 3] = [(PLACE, "place"), (RELEASE, "release"), (DISCARD, "discard")];

/// Lists of the generator for each call.
const GENERATED: u64 = 300;

/// Whether a vector's outcome is the program's too: its list and answer are short enough, neither
/// its scratch nor its output decides, and its list does not name another call, which may accept it.
fn holds(v: &Vector, call: u8) -> bool {
    let fits = v.list.len() <= LONGEST && v.answer.len() <= OUTPUT;
    let named = call_of(&v.list);
    let names_another = (PLACE..=DISCARD).contains(&named) && named != call;
    fits && v.number != 1 && v.number != 21 && !names_another
}

/// Hold the program to the vectors of a call, and each list in another order too. Gives the numbers met.
fn hold(call: u8, name: &str) -> BTreeSet<u32> {
    let mut rng = Rng::new(u64::from(call));
    let (mut told_by_vectors, mut others, mut met) = (0, 0, BTreeSet::new());
    for v in vectors(name) {
        let due = if holds(&v, call) {
            told_by_vectors += 1;
            met.insert(v.number);
            told(&v)
        } else {
            others += 1;
            due::lines(&v.list)
        };
        assert_eq!(printed(&v.list), due, "{name}: {}", v.id);
        let other = shuffled(&mut rng, &v.list);
        assert_eq!(printed(&other), due, "{name}: {}, in another order", v.id);
    }
    println!(
        "{name}: {told_by_vectors} vectors tell what is due, {others} more are judged by the model"
    );
    met
}

/// Every place vector.
#[test]
fn place() {
    let met = hold(PLACE, "place");
    let due = (0..=13).filter(|&n| n != 1).chain([22]);
    assert!(met.into_iter().eq(due));
}

/// Every release vector.
#[test]
fn release() {
    let met = hold(RELEASE, "release");
    let due = [0, 2, 3, 4].into_iter().chain(14..=19).chain([22]);
    assert!(met.into_iter().eq(due));
}

/// Every discard vector.
#[test]
fn discard() {
    let met = hold(DISCARD, "discard");
    assert!(met.into_iter().eq([0, 2, 3, 20, 22]));
}

/// An accepted answer that is longer than the program's output is refused 21.
#[test]
fn long_answers() {
    let long = |v: &Vector| v.list.len() <= LONGEST && v.answer.len() > OUTPUT;
    let long: Vec<Vector> = vectors("place").into_iter().filter(long).collect();
    assert!(!long.is_empty());
    for v in long {
        assert_eq!(printed(&v.list), "refused 21\n", "{}", v.id);
    }
}

/// The lists at the limits; most are too long.
#[test]
fn limits() {
    for v in lists::vectors::limits(&text("limits")) {
        let (list, _) = lists::limits::list(lists::limits::SEED, v.call, v.index);
        let list = list.bytes();
        assert_eq!(printed(&list), due::lines(&list), "{} {}", v.call, v.index);
    }
}

/// Every list to sort, which names any call.
#[test]
fn lists_to_sort() {
    for v in vectors("sort") {
        assert_eq!(printed(&v.list), due::lines(&v.list), "{}", v.id);
    }
}

/// Lists of the generator, accepted ones and spoilt ones, in order and in another.
#[test]
fn generated() {
    let mut rng = Rng::new(88);
    for (call, name) in FILES {
        for i in 0..GENERATED {
            let list = lists::candidate::nth(call, i, 88).list;
            let due = due::lines(&list);
            assert_eq!(printed(&list), due, "{name} {i}");
            let other = shuffled(&mut rng, &list);
            assert_eq!(printed(&other), due, "{name} {i}, in another order");
        }
    }
}

/// The call byte is read in field 1, wherever that stands: first, last and between; with no field 1, with
/// two and with one that names no call a list is refused 2.
#[test]
fn call_byte() {
    for (file, id) in [("place", "p1"), ("release", "p6"), ("discard", "printed")] {
        let v = vector(file, id);
        let fields = lists::fields::split(&v.list).expect("whole fields");
        for at in 0..fields.len() {
            let mut moved = fields.clone();
            let head = moved.remove(0);
            moved.insert(at, head);
            assert_eq!(printed(&joined(moved.clone())), told(&v), "{id} {at}");
            moved.insert(fields.len() - at, head);
            assert_eq!(printed(&joined(moved)), "refused 2\n", "{id} {at}");
        }
        assert_eq!(printed(&v.list[42..]), "refused 2\n", "{id}");
        for byte in [0, 4, 255] {
            let mut last = [&v.list[42..], &v.list[..42]].concat();
            last[v.list.len() - 39] = byte;
            assert_eq!(printed(&last), "refused 2\n", "{id} {byte}");
        }
    }
}

/// The printed case of docs/FORMAT.md, "The program bucketlines", and the lines that it shows.
#[test]
fn printed_example() {
    let text = "\
4 27 0 5 0 0000000000000000 0000030300000020 0000000000000000 0000000000000001 0000000000000001 0000000000000000 0000000000000000 0000000000000000
11 25 0 6 1
12 0 8 5 0
row 0300000000000000 0000000000000000 1 0 0
row 0300090000000000 0000000000000000 -1 0 0
unreserved 5
end
";
    assert_eq!(printed(&vector("discard", "printed").list), text);
}
