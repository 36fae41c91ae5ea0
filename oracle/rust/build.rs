//! Takes the Rust's own functions out of the folder that RUST names, unchanged, into OUT_DIR.
//!
//! Each file of `glue/` is copied to OUT_DIR; a line of it that begins with `//@` names text of
//! the folder and is replaced by that text:
//!
//!     //@item  FILE | ITEM                 the item that begins with ITEM, to its closing brace
//!     //@until FILE | ITEM | FIRST | NEXT  of that item, the lines from FIRST to before NEXT
//!     //@rest  FILE | ITEM | FIRST         of that item, the lines from FIRST to before its brace
//!
//! ITEM must begin exactly one line of the file, FIRST and NEXT exactly one line of the item;
//! else the build stops. OUT_DIR/taken.txt lists the lines taken.

use std::fmt::Write;
use std::path::{Path, PathBuf};

/// The files of `glue/`.
const GLUE: [&str; 5] = ["util.rs", "bkey.rs", "extent.rs", "write.rs", "alloc.rs"];

/// A file of the folder, by lines.
struct Source {
    name: String,
    lines: Vec<String>,
}

fn main() {
    println!("cargo:rerun-if-env-changed=RUST");
    let Some(folder) = std::env::var_os("RUST") else {
        panic!("RUST is not set: RUST=dir names the folder of the Rust text");
    };
    let folder = PathBuf::from(folder);
    assert!(
        folder.is_absolute(),
        "RUST must be an absolute path, not {}",
        folder.display()
    );
    let out = PathBuf::from(std::env::var_os("OUT_DIR").expect("cargo sets OUT_DIR"));
    let mut taken = String::new();
    for name in GLUE {
        println!("cargo:rerun-if-changed=glue/{name}");
        let glue = read(&Path::new("glue").join(name));
        let text = fill(name, &glue, &folder, &mut taken);
        std::fs::write(out.join(name), text).expect("OUT_DIR is written");
    }
    std::fs::write(out.join("taken.txt"), taken).expect("OUT_DIR is written");
}

/// The lines of a file.
fn read(path: &Path) -> Vec<String> {
    let text = std::fs::read_to_string(path)
        .unwrap_or_else(|e| panic!("{} is not read: {e}", path.display()));
    text.lines().map(str::to_string).collect()
}

/// A glue file with each `//@` line replaced by the text it names.
fn fill(glue: &str, lines: &[String], folder: &Path, taken: &mut String) -> String {
    let mut out = String::new();
    for line in lines {
        match line.trim_start().strip_prefix("//@") {
            None => writeln!(out, "{line}").expect("a string takes text"),
            Some(directive) => out.push_str(&take(glue, directive, folder, taken)),
        }
    }
    out
}

/// The text that one directive names; its lines are noted in `taken`.
fn take(glue: &str, directive: &str, folder: &Path, taken: &mut String) -> String {
    let (verb, rest) = directive.split_once(' ').expect("a directive has a verb");
    let parts: Vec<&str> = rest.split(" | ").map(str::trim).collect();
    let path = folder.join(parts[0]);
    println!("cargo:rerun-if-changed={}", path.display());
    let source = Source {
        name: parts[0].to_string(),
        lines: read(&path),
    };
    let item = source.item(parts[1]);
    let (first, last) = match (verb, parts.len()) {
        ("item", 2) => item,
        ("until", 4) => (source.line(item, parts[2]), source.line(item, parts[3]) - 1),
        ("rest", 3) => (source.line(item, parts[2]), item.1 - 1),
        _ => panic!("glue/{glue}: the directive `{directive}` is not known"),
    };
    assert!(first <= last, "{}: nothing between anchors", source.name);
    let name = parts[1].trim_end_matches(['(', '{', ' ']);
    writeln!(taken, "{} {}-{} {name}", source.name, first + 1, last + 1).expect("noted");
    let mut text = String::new();
    for line in &source.lines[first..=last] {
        writeln!(text, "{line}").expect("a string takes text");
    }
    text
}

impl Source {
    /// The first and last line of the item that begins with `text`: to the brace at its indent,
    /// one line where that ends with `;` or `}`, and from an attribute directly above it.
    fn item(&self, text: &str) -> (usize, usize) {
        let first = self.line((0, self.lines.len() - 1), text);
        let indent = self.lines[first].len() - self.lines[first].trim_start().len();
        let one_line = self.lines[first].ends_with(';') || self.lines[first].ends_with('}');
        let brace = format!("{}}}", " ".repeat(indent));
        let last = if one_line {
            first
        } else {
            let found = (first..self.lines.len()).find(|&i| self.lines[i] == brace);
            found.unwrap_or_else(|| panic!("{}: `{text}` has no end", self.name))
        };
        let attribute = first > 0 && self.lines[first - 1].trim_start().starts_with("#[");
        (first - usize::from(attribute), last)
    }

    /// The one line within `range` that begins with `text`, indents aside.
    fn line(&self, range: (usize, usize), text: &str) -> usize {
        let found: Vec<usize> = (range.0..=range.1)
            .filter(|&i| self.lines[i].trim_start().starts_with(text))
            .collect();
        match found.as_slice() {
            [one] => *one,
            other => panic!(
                "{}: `{text}` begins {} lines and must begin one",
                self.name,
                other.len()
            ),
        }
    }
}
