//! The stored vectors.

use crate::lines;
use crate::program::in_repository;
use lists::vectors::{calls, Vector};

/// The text of a file of vectors.
pub fn text(name: &str) -> String {
    let path = in_repository("vectors").join(format!("{name}.txt"));
    std::fs::read_to_string(path).expect(name)
}

/// The vectors of a call's file.
pub fn vectors(name: &str) -> Vec<Vector> {
    calls(&text(name))
}

/// A vector by its file and id.
pub fn vector(name: &str, id: &str) -> Vector {
    let found = vectors(name).into_iter().find(|v| v.id == id);
    found.expect(id)
}

/// What a vector makes the program print: the lines of its own answer, or its own number.
pub fn told(v: &Vector) -> String {
    match v.number {
        0 => lines::accepted(&v.answer),
        number => lines::refused(number),
    }
}
