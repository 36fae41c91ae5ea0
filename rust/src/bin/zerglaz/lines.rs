//! The lines of a change list, as the program bucketlines prints them: docs/FORMAT.md, "The program
//! bucketlines".

use std::fmt::Write;
use zerglaz::{BrokenLayout, ChangeField, ChangeListRef, Counters, KeyRef, Placed, Row, Tree};

/// A line for each field of a change list.
pub fn lines(change: &[u8]) -> Result<String, BrokenLayout> {
    let list = ChangeListRef::read(change)?;
    Ok(list.fields().map(|field| line(field) + "\n").collect())
}

/// The line of a field.
fn line(field: ChangeField) -> String {
    match field {
        ChangeField::Key(tree, key) => key_line(tree, key),
        ChangeField::Root(root) => format!("root {}", root as u8),
        ChangeField::Taken(bucket) => format!("taken {}", bucket.0),
        ChangeField::Placed(placed) => placed_line(placed),
        ChangeField::Row(row) => row_line(row),
        ChangeField::FileSectors(sectors) => format!("sectors {sectors}"),
        ChangeField::Unreserved(bucket) => format!("unreserved {}", bucket.0),
        ChangeField::End => "end".to_string(),
    }
}

/// Tree, type, inode, offset, size, and the value's words, the last filled with zeros.
fn key_line(tree: Tree, key: KeyRef) -> String {
    let (inode, offset) = (key.position.inode, key.position.offset);
    let (tag, key_type, size) = (tree.tag(), key.key_type, key.size);
    let mut line = format!("{tag} {key_type} {inode} {offset} {size}");
    for bytes in key.value.chunks(8) {
        let mut word = [0; 8];
        word[..bytes.len()].copy_from_slice(bytes);
        write!(line, " {:016x}", u64::from_le_bytes(word)).expect("a string takes all");
    }
    line
}

/// Device sector, stored sectors, bucket, generation.
fn placed_line(placed: Placed) -> String {
    let (first, stored) = (placed.first.0, placed.stored_sectors);
    let (bucket, generation) = (placed.bucket.0, placed.generation);
    format!("placed {first} {stored} {bucket} {generation}")
}

/// Inode and offset in hexadecimal, and the signed numbers.
fn row_line(row: Row) -> String {
    let place = format!("row {:016x} {:016x}", row.inode, row.offset);
    match row.counters {
        Counters::One(n) => format!("{place} {n}"),
        Counters::Three([a, b, c]) => format!("{place} {a} {b} {c}"),
    }
}
