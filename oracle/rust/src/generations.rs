//! The Rust's `bucket_gen` and the plain model on the same volume and buckets.

use crate::compare::shrink;
use crate::Ready;
use lists::asked::Asked;
use lists::generations::{generations, Generations};

/// The answer that is due in an output that is long enough: the model's, whose generations are the Rust's
/// where it accepts. What is refused is left out: its volume cannot be given to the Rust, or the Rust has
/// no such limit.
pub fn due(volume: &[u8], buckets: &[u32]) -> Result<Generations, String> {
    let answer = generations(volume, buckets, usize::MAX);
    if answer.number != 0 {
        return Ok(answer);
    }
    let ready = Ready::read(volume).ok_or("the volume cannot be given to the Rust")?;
    let by_the_rust = ready.generations(buckets)?;
    let pairs = answer.bytes.iter().zip(&by_the_rust);
    let apart = pairs.zip(buckets).find(|((here, there), _)| here != there);
    match apart {
        Some(((here, there), bucket)) => Err(format!(
            "the model gives bucket {bucket} generation {here} and the Rust {there}"
        )),
        None if by_the_rust.len() != buckets.len() => Err("the Rust gives another count".into()),
        None => Ok(answer),
    }
}

/// The same buckets in a volume of fewer fields, and then fewer of the buckets, while `fails` still holds.
pub fn smallest(asked: &Asked, fails: impl Fn(&Asked) -> bool) -> Asked {
    let with_volume = |volume: &[u8]| Asked {
        volume: volume.to_vec(),
        ..asked.clone()
    };
    let shrunk = shrink(&asked.volume, |volume| fails(&with_volume(volume)));
    let mut small = Some(with_volume(&shrunk))
        .filter(&fails)
        .unwrap_or(asked.clone());
    let mut at = 0;
    while at < small.buckets.len() {
        let mut fewer = small.clone();
        fewer.buckets.remove(at);
        match fails(&fewer) {
            true => small = fewer,
            false => at += 1,
        }
    }
    small
}
