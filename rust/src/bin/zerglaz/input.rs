//! Lists from files and the standard input, in bytes or in hexadecimal text.

use crate::failure::Failure;
use std::fmt::Write;
use std::io::{self, Read};

/// How many bytes stand on a line of hexadecimal text.
const LINE: usize = 32;

/// The list in a file; `-` is the standard input.
pub fn read(file: &str) -> Result<Vec<u8>, Failure> {
    let bytes = match file {
        "-" => read_standard_input(),
        file => std::fs::read(file),
    };
    let name = if file == "-" { "standard input" } else { file };
    let bytes = bytes.map_err(|error| Failure::File(name.into(), error))?;
    if is_text(&bytes) {
        return unhex(&bytes);
    }
    Ok(bytes)
}

/// All of the standard input.
fn read_standard_input() -> io::Result<Vec<u8>> {
    let mut bytes = Vec::new();
    io::stdin().lock().read_to_end(&mut bytes)?;
    Ok(bytes)
}

/// Whether bytes are text. The third byte of a list of bytes is 0 or 1, the high byte of its first
/// field's length, and such bytes stand in no text.
fn is_text(bytes: &[u8]) -> bool {
    bytes.iter().all(|&byte| byte > 1)
}

/// The bytes of a hexadecimal text, where `#` begins a comment.
fn unhex(text: &[u8]) -> Result<Vec<u8>, Failure> {
    let mut bytes = Vec::new();
    let mut high = None;
    let lines = text.split(|&byte| byte == b'\n');
    for (at, line) in (1..).zip(lines) {
        let digits = line.iter().take_while(|&&byte| byte != b'#');
        for &digit in digits.filter(|byte| !byte.is_ascii_whitespace()) {
            let digit = char::from(digit).to_digit(16).ok_or(Failure::Text(at))?;
            match high.take() {
                Some(high) => bytes.push((high << 4 | digit) as u8),
                None => high = Some(digit),
            }
        }
        // A byte's two digits stand on one line.
        if high.is_some() {
            return Err(Failure::Text(at));
        }
    }
    Ok(bytes)
}

/// The hexadecimal text of a list.
pub fn hex_text(list: &[u8]) -> String {
    let mut text = String::with_capacity(list.len() * 2 + list.len() / LINE + 1);
    for line in list.chunks(LINE) {
        for byte in line {
            write!(text, "{byte:02x}").expect("a string takes all");
        }
        text.push('\n');
    }
    text
}

#[cfg(test)]
mod tests {
    use super::{hex_text, is_text, unhex};
    use crate::failure::Failure;

    /// The bytes of a text, or the line that is none.
    fn bytes(text: &str) -> Result<Vec<u8>, usize> {
        assert!(is_text(text.as_bytes()));
        unhex(text.as_bytes()).map_err(|failure| match failure {
            Failure::Text(line) => line,
            other => panic!("{other}"),
        })
    }

    /// Digits, blanks and comments.
    #[test]
    fn texts() {
        assert_eq!(bytes(""), Ok(vec![]));
        assert_eq!(
            bytes("# 01\r\n01 27\t00\n FF # ä\nab"),
            Ok(vec![1, 39, 0, 255, 171])
        );
        assert_eq!(bytes("01\n0g"), Err(2));
        assert_eq!(bytes("012 # 3\n"), Err(1));
    }

    /// A list's text gives the list again.
    #[test]
    fn round_trip() {
        let list: Vec<u8> = (0..=255).collect();
        assert!(!is_text(&list));
        assert_eq!(bytes(&hex_text(&list)), Ok(list));
        assert_eq!(hex_text(&[]), "");
    }
}
