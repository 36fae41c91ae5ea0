//! Call lists as hexadecimal text: a line a field, its parts by blanks, and before it what it says.
//! From `#` to a line's end is a comment.

use lists::fields::{number, split, Field};

/// A field's name, and its parts with their lengths in bytes.
struct Shape {
    name: &'static str,
    parts: &'static [(&'static str, usize)],
}

const HEAD: &[(&str, usize)] = &[
    ("call", 1),
    ("bucket sectors", 2),
    ("block sectors", 2),
    ("checksum option", 1),
    ("roots", 1),
    ("journal reserve", 4),
    ("batch", 4),
    ("journal number", 8),
    ("inode", 8),
    ("base", 8),
];
const KEY: &[(&str, usize)] = &[
    ("type", 1),
    ("size", 4),
    ("version high", 4),
    ("version low", 8),
    ("inode", 8),
    ("offset", 8),
    ("snapshot", 4),
];
const PIECE: &[(&str, usize)] = &[
    ("file sectors", 2),
    ("stored sectors", 2),
    ("kind", 1),
    ("checksum", 8),
];
const RELEASED: &[(&str, usize)] = &[("device sector", 8), ("sectors", 2)];

/// The shape of a field, by its tag.
fn shape(tag: u8) -> Shape {
    let (name, parts) = match tag {
        1 => ("head", HEAD),
        4 => ("alloc key", KEY),
        10 => ("LRU key", KEY),
        11 => ("freespace key", KEY),
        12 => ("need-discard key", KEY),
        13 => ("backpointer key", KEY),
        14 => ("generations key", KEY),
        64 => ("reserved", &[("bucket", 4)][..]),
        65 => ("piece to place", PIECE),
        66 => ("piece to release", RELEASED),
        _ => panic!("no call list has tag {tag}"),
    };
    Shape { name, parts }
}

/// The text of a list, under a title.
pub fn text(title: &str, list: &[u8]) -> String {
    let fields = split(list).expect("a list has whole fields");
    let fields: String = fields.iter().map(field).collect();
    format!("# {title}\n{fields}")
}

/// A field: what it says, and its bytes.
fn field(field: &Field) -> String {
    let shape = shape(field.tag);
    let length = field.body.len() as u16;
    let mut said = Vec::new();
    let mut bytes = vec![hex(&[field.tag]), hex(&length.to_le_bytes())];
    let mut at = 0;
    for (name, n) in shape.parts {
        said.push(format!("{name} {}", number(field.body, at, *n)));
        bytes.push(hex(&field.body[at..at + n]));
        at += n;
    }
    let value = &field.body[at..];
    if !value.is_empty() {
        said.push(format!("value of {} bytes", value.len()));
        bytes.extend(value.chunks(8).map(hex));
    }
    format!(
        "# {}: {}\n{}\n",
        shape.name,
        said.join(", "),
        bytes.join(" ")
    )
}

/// Bytes in hexadecimal.
fn hex(bytes: &[u8]) -> String {
    bytes.iter().map(|byte| format!("{byte:02x}")).collect()
}

/// The bytes of a text.
pub fn bytes(text: &str) -> Vec<u8> {
    let uncommented = text.lines().filter_map(|line| line.split('#').next());
    let digits: String = uncommented.flat_map(str::split_whitespace).collect();
    lists::vectors::unhex(&digits)
}
