//! The stored answers are the Rust's.

use lists::limits;
use lists::vectors::{self, Held};
use oracle::compare::{accepted, disagreement};
use oracle::generations::due;
use oracle::run;

/// A file of `vectors/`.
fn file(name: &str) -> String {
    let path = format!("{}/../../vectors/{name}.txt", env!("CARGO_MANIFEST_DIR"));
    std::fs::read_to_string(&path).unwrap_or_else(|e| panic!("{path}: {e}"))
}

/// Each accepted vector's answer is the Rust's, but for the LRU root where its rule differs, and on no vector do model and Rust disagree.
#[test]
fn stored_answers() {
    oracle::quiet_panics();
    for name in ["place", "release", "discard"] {
        for v in vectors::calls(&file(name)) {
            let outcome = run(&v.list);
            assert_eq!(disagreement(&v.list, &outcome), None, "{}", v.id);
            if v.number == 0 {
                assert_eq!(accepted(&v.list, &outcome), Some(v.answer), "{}", v.id);
            }
        }
    }
}

/// Each accepted generation is the Rust's.
#[test]
fn stored_generations() {
    for v in vectors::generations(&file("generations")) {
        let answer = due(&v.volume, &v.buckets).expect("model and Rust agree");
        match v.answer.number {
            0 => assert_eq!(answer, v.answer, "{}", v.id),
            21 => assert!(answer.bytes.len() > v.out, "{}", v.id),
            number => assert_eq!(answer.number, number, "{}", v.id),
        }
    }
}

/// Each accepted answer at the limits has the stored length and digest.
#[test]
fn answers_at_the_limits() {
    oracle::quiet_panics();
    for v in vectors::limits(&file("limits")) {
        let (list, what) = limits::list(limits::SEED, v.call, v.index);
        let outcome = run(&list.bytes());
        assert_eq!(disagreement(&list.bytes(), &outcome), None, "{what}");
        match accepted(&list.bytes(), &outcome) {
            Some(answer) if v.number == 0 => assert_eq!(Held::of(&answer), v.answer, "{what}"),
            _ => assert!(v.number != 0, "{what}"),
        }
    }
}
