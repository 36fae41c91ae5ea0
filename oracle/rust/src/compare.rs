//! The Rust's function and the plain model on the same list.

use crate::{run, Outcome};
use lists::apply::apply;
use lists::call_list::{call_byte, CallList, ALLOC};
use lists::change_list;
use lists::fields::{put, split};
use lists::key::Key;
use lists::lru_root;
use lists::model::{answer_length, verdict, SUMS};
use lists::sort::sort;

/// The Rust's texts, each with the number whose refusal it is.
pub const TEXTS: [(u32, &str); 10] = [
    (4, "bucket size 0"),
    (5, "data checksum option"),
    (6, "compression option"),
    (7, "compression without a data checksum"),
    (8, "blocks do not divide the bucket"),
    (11, "free buckets are needed and only"),
    (12, "a freespace run before bucket 0"),
    (13, "is free and has an alloc key"),
    (15, "has data and no alloc key"),
    (18, "frees more than it holds"),
];

/// The number whose refusal a text of the Rust is.
pub fn number_of(text: &str) -> Option<u32> {
    TEXTS
        .iter()
        .find(|(_, part)| text.contains(part))
        .map(|(number, _)| *number)
}

/// Whether a refusal is one that is added to the Rust's (docs/DIFFERENCES.md).
pub fn added(call: u8, number: u32) -> bool {
    matches!(number, 1..=3 | 6 | 9 | 10 | 14 | 16 | 17 | 19..=22)
        || (number == 4 && call == lists::call_list::RELEASE)
}

/// The model's number with a long scratch and output, for the call that the list names.
pub fn number(list: &[u8]) -> u32 {
    verdict(call_byte(list), list, SUMS, usize::MAX)
}

/// Whether a list of this number is left out of the comparison: what is refused 2 or 22 cannot be given
/// to the Rust, and it has none of the limits of 3.
pub fn left_out(number: u32) -> bool {
    matches!(number, 2 | 3 | 22)
}

/// How the model differs on a list and on the same list in another order, if it does: they have one
/// number and one sorted form.
pub fn told_apart(list: &[u8], other: &[u8]) -> Option<String> {
    let numbers = (number(list), number(other));
    if numbers.0 != numbers.1 {
        return Some(format!("in another order the model gives {numbers:?}"));
    }
    let sorted = (sort(list, usize::MAX), sort(other, usize::MAX));
    (sorted.0 != sorted.1).then(|| "in another order it has another sorted form".into())
}

/// Whether a list is accepted and the Rust's answer to it lacks the LRU root.
pub fn root_differs(list: &[u8]) -> bool {
    number(list) == 0 && CallList::read(list).is_some_and(|l| lru_root::differs(&l))
}

/// The answer that is due where the model and the Rust accept a list.
pub fn accepted(list: &[u8], outcome: &Outcome) -> Option<Vec<u8>> {
    match outcome {
        Outcome::Accepted(answer) if number(list) == 0 => due(&CallList::read(list)?, answer).ok(),
        _ => None,
    }
}

/// The answer that is due to an accepted list: the Rust's, byte for byte, but that it names the LRU root
/// where the Rust's rule differs; there the Rust's is held to naming no root at all.
fn due(l: &CallList, answer: &[u8]) -> Result<Vec<u8>, String> {
    if !lru_root::differs(l) {
        return Ok(answer.to_vec());
    }
    let mut batches = change_list::read(answer).unwrap_or_default();
    if change_list::bytes(&batches) != answer {
        return Err("the Rust's answer is not what its batches give".into());
    }
    match &mut batches[..] {
        [batch] if batch.roots.is_empty() => batch.roots.push(lru_root::LRU_ROOT),
        _ => return Err("the Rust's answer is not one batch that names no root".into()),
    }
    Ok(change_list::bytes(&batches))
}

/// How the Rust's outcome disagrees with the model's number, if it does.
pub fn disagreement(list: &[u8], outcome: &Outcome) -> Option<String> {
    let l = CallList::read(list)?;
    let number = number(list);
    let wrong = match (number, outcome) {
        (0, Outcome::Accepted(answer)) => {
            return match due(&l, answer) {
                Ok(answer) => malformed(&l, &answer),
                Err(why) => Some(why),
            }
        }
        (n, _) if left_out(n) => return None,
        (0, _) => true,
        (n, Outcome::Refused(text)) => !agrees(n, added(l.head.call, n), number_of(text)),
        (15 | 18, Outcome::Panicked) => !short_value(&l),
        (n, Outcome::Panicked) => !added(l.head.call, n),
        (n, _) => !added(l.head.call, n),
    };
    wrong.then(|| format!("the model gives {number} and the Rust {outcome:?}"))
}

/// Whether a text's number goes with the model's: the same, or a later one where the model's is
/// added; 12 and 13, and 15 to 19, are decided by bucket and not by number.
fn agrees(model: u32, added: bool, text: Option<u32>) -> bool {
    match text {
        None => false,
        Some(t) if !added => t == model,
        Some(t) => t >= model || (15..=19).contains(&model) && t >= 15,
    }
}

/// Whether a freed bucket's alloc value is below 24 bytes, on which a release panics first.
fn short_value(l: &CallList) -> bool {
    let bucket = u64::from(l.head.bucket);
    let freed = |k: &Key| l.releases.iter().any(|r| r.sector / bucket == k.offset);
    let short = |k: &Key| k.inode == 0 && k.value.len() < 24;
    l.keys(ALLOC).iter().any(|k| short(k) && freed(k))
}

/// How an accepted answer is malformed, if it is.
fn malformed(l: &CallList, answer: &[u8]) -> Option<String> {
    let Some(batches) = change_list::read(answer) else {
        return Some("the answer breaks a change list's layout".into());
    };
    if change_list::bytes(&batches) != answer {
        return Some("the answer is not what its batches give".into());
    }
    if answer_length(l) != Some(answer.len()) {
        return Some(format!(
            "the model's length is {:?}, the answer's {}",
            answer_length(l),
            answer.len()
        ));
    }
    let descends = |b: &change_list::Batch| {
        let at = |r: &change_list::Row| (r.inode, r.offset);
        b.rows.windows(2).any(|w| at(&w[0]) >= at(&w[1]))
    };
    if batches.iter().any(descends) {
        return Some("rows do not ascend".into());
    }
    let (refused, _) = apply(&l.volume().bytes(), answer, usize::MAX);
    (refused != 0 && refused != 3).then(|| format!("apply refuses the answer with {refused}"))
}

/// A list with fields left out while `disagrees` still holds of it.
pub fn shrink(list: &[u8], disagrees: impl Fn(&[u8]) -> bool) -> Vec<u8> {
    let mut fields: Vec<(u8, Vec<u8>)> = split(list)
        .unwrap_or_default()
        .iter()
        .map(|f| (f.tag, f.body.to_vec()))
        .collect();
    let mut width = fields.len().max(1);
    while width > 0 {
        let mut i = 0;
        while i < fields.len() {
            let mut fewer = fields.clone();
            fewer.drain(i..(i + width).min(fields.len()));
            if disagrees(&joined(&fewer)) {
                fields = fewer;
            } else {
                i += width;
            }
        }
        width /= 2;
    }
    joined(&fields)
}

/// The bytes of fields.
fn joined(fields: &[(u8, Vec<u8>)]) -> Vec<u8> {
    let mut out = Vec::new();
    for (tag, body) in fields {
        put(&mut out, *tag, body);
    }
    out
}

/// Whether model and Rust disagree on a list.
pub fn disagrees(list: &[u8]) -> bool {
    disagreement(list, &run(list)).is_some()
}
