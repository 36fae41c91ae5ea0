//! The LRU root of a placement: which lists want it, and on which of them the Rust, which goes by the
//! stored sectors in all, names no root (docs/DIFFERENCES.md).

use crate::call_list::{CallList, PLACE};
use crate::model::next_fit;

/// The root's id.
pub const LRU_ROOT: u8 = 10;
/// Its bit among the roots that exist.
const LRU_BIT: u8 = 1;

/// Whether buckets that hold these sectors want the root: one of them is part filled.
pub fn wanted(dirty: &[u64], bucket: u64) -> bool {
    dirty.iter().any(|&sectors| sectors < bucket)
}

/// Whether they do by the Rust's rule: in all they hold no multiple of the bucket.
pub fn wanted_by_total(dirty: &[u64], bucket: u64) -> bool {
    !dirty.iter().sum::<u64>().is_multiple_of(bucket)
}

/// Whether the root exists already.
pub fn exists(l: &CallList) -> bool {
    l.head.roots & LRU_BIT != 0
}

/// Whether the answer to an accepted list names the root and the Rust's does not.
pub fn differs(l: &CallList) -> bool {
    let bucket = u64::from(l.head.bucket);
    if l.head.call != PLACE || bucket == 0 || exists(l) {
        return false;
    }
    let dirty = next_fit(&l.places, bucket);
    wanted(&dirty, bucket) && !wanted_by_total(&dirty, bucket)
}

#[cfg(test)]
mod tests {
    use super::*;

    /// All lists of so many pieces of 1 to `bucket` sectors.
    fn pieces(count: usize, bucket: u64) -> Vec<Vec<u64>> {
        let mut all = vec![Vec::new()];
        for _ in 0..count {
            let longer = |one: &Vec<u64>| {
                let one = one.clone();
                (1..=bucket).map(move |sectors| [&one[..], &[sectors]].concat())
            };
            all = all.iter().flat_map(longer).collect();
        }
        all
    }

    /// What each bucket of a layout holds.
    fn dirty(stored: &[u64], bucket: u64) -> Vec<u64> {
        let place = |&sectors: &u64| crate::edges::piece(sectors as u16, sectors as u16, 0);
        next_fit(&stored.iter().map(place).collect::<Vec<_>>(), bucket)
    }

    /// Up to two pieces the rules agree, with three they differ from buckets of 2 on; and what the total
    /// wants is always wanted.
    #[test]
    fn smallest_difference() {
        for bucket in 1..=6 {
            for count in 0..=4 {
                let differ = |stored: &Vec<u64>| {
                    let dirty = dirty(stored, bucket);
                    let (here, total) = (wanted(&dirty, bucket), wanted_by_total(&dirty, bucket));
                    assert!(here || !total, "{stored:?} in {bucket}");
                    here != total
                };
                let found = pieces(count, bucket).iter().filter(|s| differ(s)).count();
                assert_eq!(found > 0, count >= 3 && bucket >= 2, "{count} in {bucket}");
            }
        }
    }
}
