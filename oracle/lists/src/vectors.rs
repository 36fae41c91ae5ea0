//! The files of `vectors/`: a line a vector, fields parted by blanks, bytes in hexadecimal, `-`
//! for no bytes; lines that begin with `#` are comments.

use crate::generations::Generations;

/// A stored call: place.txt, release.txt, discard.txt.
#[derive(Debug, Clone, PartialEq, Eq)]
pub struct Vector {
    pub id: String,
    pub scratch: usize,
    pub out: usize,
    pub number: u32,
    pub list: Vec<u8>,
    pub answer: Vec<u8>,
}

/// A stored apply: apply.txt.
#[derive(Debug, Clone, PartialEq, Eq)]
pub struct ApplyVector {
    pub id: String,
    pub out: usize,
    pub number: u32,
    pub volume: Vec<u8>,
    pub change: Vec<u8>,
    pub next: Vec<u8>,
}

/// Stored generations: generations.txt.
#[derive(Debug, Clone, PartialEq, Eq)]
pub struct GenerationsVector {
    pub id: String,
    pub out: usize,
    pub volume: Vec<u8>,
    pub buckets: Vec<u32>,
    pub answer: Generations,
}

/// A call at the limits, by lengths and digests: limits.txt.
#[derive(Debug, Clone, PartialEq, Eq)]
pub struct LimitVector {
    pub call: u8,
    pub index: u64,
    pub number: u32,
    pub list: Held,
    pub answer: Held,
}

/// An apply at the limits, by lengths and digests: apply-limits.txt.
#[derive(Debug, Clone, PartialEq, Eq)]
pub struct ApplyLimitVector {
    pub index: u64,
    pub number: u32,
    pub volume: Held,
    pub change: Held,
    pub next: Held,
}

/// Bytes held by their length and digest.
#[derive(Debug, Clone, Copy, PartialEq, Eq)]
pub struct Held {
    pub length: usize,
    pub digest: u64,
}

impl Held {
    /// The length and digest of bytes.
    pub fn of(bytes: &[u8]) -> Held {
        Held {
            length: bytes.len(),
            digest: crate::digest::fnv1a(bytes),
        }
    }
}

impl std::fmt::Display for Held {
    fn fmt(&self, f: &mut std::fmt::Formatter<'_>) -> std::fmt::Result {
        write!(f, "{} {:016x}", self.length, self.digest)
    }
}

impl std::fmt::Display for Vector {
    fn fmt(&self, f: &mut std::fmt::Formatter<'_>) -> std::fmt::Result {
        let (list, answer) = (hex(&self.list), hex(&self.answer));
        let (id, scratch, out) = (&self.id, self.scratch, self.out);
        write!(f, "{id} {scratch} {out} {} {list} {answer}", self.number)
    }
}

impl std::fmt::Display for ApplyVector {
    fn fmt(&self, f: &mut std::fmt::Formatter<'_>) -> std::fmt::Result {
        let (volume, change) = (hex(&self.volume), hex(&self.change));
        let (id, out, number) = (&self.id, self.out, self.number);
        write!(
            f,
            "{id} {out} {number} {volume} {change} {}",
            hex(&self.next)
        )
    }
}

impl std::fmt::Display for GenerationsVector {
    fn fmt(&self, f: &mut std::fmt::Formatter<'_>) -> std::fmt::Result {
        let (id, out, answer) = (&self.id, self.out, &self.answer);
        let buckets: Vec<u8> = self.buckets.iter().flat_map(|b| b.to_le_bytes()).collect();
        let (volume, buckets) = (hex(&self.volume), hex(&buckets));
        write!(f, "{id} {out} {} {} ", answer.number, answer.visited)?;
        write!(f, "{volume} {buckets} {}", hex(&answer.bytes))
    }
}

impl std::fmt::Display for LimitVector {
    fn fmt(&self, f: &mut std::fmt::Formatter<'_>) -> std::fmt::Result {
        let (call, index, number) = (self.call, self.index, self.number);
        write!(f, "{call} {index} {number} {} {}", self.list, self.answer)
    }
}

impl std::fmt::Display for ApplyLimitVector {
    fn fmt(&self, f: &mut std::fmt::Formatter<'_>) -> std::fmt::Result {
        let (index, number) = (self.index, self.number);
        let (volume, change, next) = (self.volume, self.change, self.next);
        write!(f, "{index} {number} {volume} {change} {next}")
    }
}

/// The vectors of a call's file.
pub fn calls(text: &str) -> Vec<Vector> {
    let line = |w: Vec<&str>| Vector {
        id: w[0].to_string(),
        scratch: whole(w[1]),
        out: whole(w[2]),
        number: whole(w[3]),
        list: unhex(w[4]),
        answer: unhex(w[5]),
    };
    lines(text, 6).map(line).collect()
}

/// The vectors of apply.txt.
pub fn applies(text: &str) -> Vec<ApplyVector> {
    let line = |w: Vec<&str>| ApplyVector {
        id: w[0].to_string(),
        out: whole(w[1]),
        number: whole(w[2]),
        volume: unhex(w[3]),
        change: unhex(w[4]),
        next: unhex(w[5]),
    };
    lines(text, 6).map(line).collect()
}

/// The vectors of generations.txt.
pub fn generations(text: &str) -> Vec<GenerationsVector> {
    let line = |w: Vec<&str>| GenerationsVector {
        id: w[0].to_string(),
        out: whole(w[1]),
        volume: unhex(w[4]),
        buckets: numbers(&unhex(w[5])),
        answer: Generations {
            number: whole(w[2]),
            bytes: unhex(w[6]),
            visited: whole(w[3]),
        },
    };
    lines(text, 7).map(line).collect()
}

/// The vectors of limits.txt.
pub fn limits(text: &str) -> Vec<LimitVector> {
    let line = |w: Vec<&str>| LimitVector {
        call: whole(w[0]),
        index: whole(w[1]),
        number: whole(w[2]),
        list: held(w[3], w[4]),
        answer: held(w[5], w[6]),
    };
    lines(text, 7).map(line).collect()
}

/// The vectors of apply-limits.txt.
pub fn apply_limits(text: &str) -> Vec<ApplyLimitVector> {
    let line = |w: Vec<&str>| ApplyLimitVector {
        index: whole(w[0]),
        number: whole(w[1]),
        volume: held(w[2], w[3]),
        change: held(w[4], w[5]),
        next: held(w[6], w[7]),
    };
    lines(text, 8).map(line).collect()
}

/// The lines that are no comments, in words, each with `words` of them.
fn lines(text: &str, words: usize) -> impl Iterator<Item = Vec<&str>> {
    text.lines()
        .filter(|line| !line.starts_with('#'))
        .map(move |line| {
            let w: Vec<&str> = line.split(' ').collect();
            assert_eq!(w.len(), words, "a line has {words} words: {line:.60}");
            w
        })
}

/// A whole number.
fn whole<T: std::str::FromStr>(word: &str) -> T {
    match word.parse() {
        Ok(x) => x,
        Err(_) => panic!("`{word}` is no whole number"),
    }
}

/// The numbers of four bytes each.
fn numbers(bytes: &[u8]) -> Vec<u32> {
    let number = |b: &[u8]| u32::from_le_bytes(b.try_into().expect("four bytes"));
    bytes.chunks(4).map(number).collect()
}

/// A length and a digest.
fn held(length: &str, digest: &str) -> Held {
    Held {
        length: whole(length),
        digest: u64::from_str_radix(digest, 16).expect("a digest is hexadecimal"),
    }
}

/// Bytes in hexadecimal, `-` for none.
pub fn hex(bytes: &[u8]) -> String {
    if bytes.is_empty() {
        return "-".to_string();
    }
    let digits = b"0123456789abcdef";
    bytes
        .iter()
        .flat_map(|&b| [digits[usize::from(b >> 4)], digits[usize::from(b & 15)]])
        .map(char::from)
        .collect()
}

/// The bytes of a hexadecimal word.
pub fn unhex(word: &str) -> Vec<u8> {
    if word == "-" {
        return Vec::new();
    }
    let digit = |c: u8| char::from(c).to_digit(16).expect("a hexadecimal digit") as u8;
    word.as_bytes()
        .chunks(2)
        .map(|pair| digit(pair[0]) << 4 | digit(pair[1]))
        .collect()
}
