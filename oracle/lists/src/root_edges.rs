//! Placements at the edges of the LRU root: which buckets are part filled, and what they hold in all.

use crate::call_list::CallList;
use crate::edges::{edge, piece, Edge};

/// The edges of a placement's LRU root, by name; `base` has buckets of 8 sectors and no root.
pub fn root_edges(base: &CallList) -> Vec<Edge> {
    let placing = |name: &str, roots: u8, bucket: u16, stored: &[u16]| {
        edge(base, &format!("root of {name}"), |l| {
            l.head.roots = roots;
            l.head.bucket = bucket;
            l.places = stored.iter().map(|&s| piece(s, s, 0)).collect();
        })
    };
    vec![
        placing("three part filled, whole in all", 0, 8, &[6, 6, 4]),
        placing(
            "three part filled, whole in all, it exists",
            1,
            8,
            &[6, 6, 4],
        ),
        placing(
            "three part filled, whole in all, others exist",
            6,
            8,
            &[6, 6, 4],
        ),
        placing("the smallest whole in all", 0, 2, &[1, 2, 1]),
        placing("three alike, whole in all", 0, 3, &[2, 2, 2]),
        placing("the first part filled, not whole in all", 0, 8, &[1, 8]),
        placing("the last part filled, not whole in all", 0, 8, &[8, 1]),
        placing("two full buckets", 0, 8, &[8, 8]),
        placing("a bucket filled by two pieces", 0, 8, &[3, 5]),
        placing("no piece", 0, 8, &[]),
    ]
}
