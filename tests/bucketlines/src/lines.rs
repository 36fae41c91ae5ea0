//! The lines of a change list, written from the source of docs/FORMAT.md, "The program bucketlines",
//! alone: a line a field.

use lists::fields::{number, split, Field};
use lists::key::Key;

/// The lines of an accepted call's answer.
pub fn accepted(answer: &[u8]) -> String {
    let fields = split(answer).expect("an answer has whole fields");
    fields.iter().map(|field| line(field) + "\n").collect()
}

/// The line of a refusal.
pub fn refused(number: u32) -> String {
    format!("refused {number}\n")
}

/// The line of a field, by its tag.
fn line(field: &Field) -> String {
    let body = field.body;
    match field.tag {
        70 => format!("root {}", body[0]),
        71 => format!("taken {}", number(body, 0, 4)),
        72 => placed(body),
        73 => row(body),
        74 => format!("sectors {}", number(body, 0, 8)),
        75 => format!("unreserved {}", number(body, 0, 4)),
        76 => "end".to_string(),
        tree => key(tree, &Key::read(body).expect("a key's body")),
    }
}

/// Tree, type, inode, offset, size, and the value's words, the last filled with zeros.
fn key(tree: u8, key: &Key) -> String {
    let place = format!("{} {} {}", key.inode, key.offset, key.size);
    let mut line = format!("{tree} {} {place}", key.key_type);
    for bytes in key.value.chunks(8) {
        let mut word = [0; 8];
        word[..bytes.len()].copy_from_slice(bytes);
        line += &format!(" {:016x}", u64::from_le_bytes(word));
    }
    line
}

/// Device sector, stored sectors, bucket, generation.
fn placed(body: &[u8]) -> String {
    let (sector, stored) = (number(body, 0, 8), number(body, 8, 2));
    format!(
        "placed {sector} {stored} {} {}",
        number(body, 10, 4),
        body[14]
    )
}

/// Inode and offset in hexadecimal, and the signed numbers.
fn row(body: &[u8]) -> String {
    let mut line = format!(
        "row {:016x} {:016x}",
        number(body, 0, 8),
        number(body, 8, 8)
    );
    for at in (16..body.len()).step_by(8) {
        line += &format!(" {}", number(body, at, 8) as i64);
    }
    line
}
