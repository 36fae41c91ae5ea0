//! The lines of buckets with their generations.

use zerglaz::{Bucket, Generations};

/// A line for each bucket, and a last one with how many keys were visited.
pub fn lines(buckets: &[Bucket], found: &Generations) -> String {
    let line = |(bucket, generation)| format!("{bucket} generation {generation}\n");
    let lines: String = buckets.iter().zip(&found.generations).map(line).collect();
    lines + &format!("visited {}\n", found.visited)
}
