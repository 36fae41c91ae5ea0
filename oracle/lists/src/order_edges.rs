//! Lists at the edges of the order of fields and of refusal 22, by name: each order that a reader may
//! take for the only one, and what stands twice beside what only seems to.

use crate::call_list::{
    CallList, Release, ALLOC, FREESPACE, LRU, NEED_DISCARD, PLACE, RELEASE, RESERVED, TREES,
};
use crate::edges::{edge, field_edge, piece, run, Edge};
use crate::key::Key;

/// A list's fields, by tag and body.
type Fields = Vec<(u8, Vec<u8>)>;
/// A change of a key, by name.
type Change = (&'static str, fn(&mut Key));

/// The edges of the order and of what stands twice, over a list of whichever call.
pub fn order_edges(base: &CallList) -> Vec<Edge> {
    let mut edges = orders(base);
    edges.extend(requests(base));
    edges.extend(doubles(base));
    edges.extend(no_doubles(base));
    edges.extend(before_and_after(base));
    edges
}

/// Orders of the same fields, and breaks of the layout in them.
fn orders(base: &CallList) -> Vec<Edge> {
    let unsigned = [
        (1 << 63, 0),
        (1, u64::MAX),
        (1, 1 << 63),
        (1, 256),
        (1, 1),
        (0, u64::MAX),
    ];
    let mut edges = vec![
        field_edge(base, "fields reversed", |f| f.reverse()),
        field_edge(base, "tag 1 in the middle", |f| f.swap(0, 2)),
        field_edge(base, "last field first", |f| f.rotate_right(1)),
        field_edge(base, "reserved buckets first", |f| {
            f.sort_by_key(|f| f.0 != RESERVED);
        }),
        field_edge(base, "tag 1 twice, apart", |f| f.push(f[0].clone())),
        field_edge(base, "tag 1 last and short", |f| {
            f.rotate_left(1);
            let last = f.len() - 1;
            f[last].1.pop();
        }),
        field_edge(
            base,
            "fields reversed, the first of a tag that is none",
            |f| {
                f.reverse();
                f.insert(0, (63, vec![0; 4]));
            },
        ),
        field_edge(base, "fields reversed, snapshot 1", |f| {
            f[1].1[33] = 1;
            f.reverse();
        }),
        field_edge(base, "keys that descend as unsigned numbers", |f| {
            for (inode, offset) in unsigned {
                f.push((LRU, Key::at(25, inode, offset).body()));
            }
        }),
    ];
    for call in [0, 1, 2, 3, 4, 255] {
        let name = format!("tag 1 last, call byte {call}");
        edges.push(field_edge(base, &name, |f| {
            f[0].1[0] = call;
            f.rotate_left(1);
        }));
    }
    edges
}

/// Two requests of the list's call, between which all else stands, in both orders.
fn requests(base: &CallList) -> Vec<Edge> {
    let mut with_two = base.clone();
    match base.head.call {
        _ if base.requests() == 0 => return Vec::new(),
        PLACE => with_two.places = vec![piece(8, 8, 0), piece(3, 3, 5)],
        _ => {
            with_two.releases = [(24, 5), (29, 3)]
                .map(|(sector, sectors)| Release { sector, sectors })
                .to_vec();
        }
    }
    vec![
        edge(&with_two, "two requests", |_| ()),
        field_edge(&with_two, "two requests, the first before all", |f| {
            let second = f.len() - 2;
            let request = f.remove(second);
            f.insert(0, request);
        }),
        field_edge(&with_two, "two requests, the second before all", |f| {
            f.rotate_right(1);
        }),
        field_edge(&with_two, "request twice, apart", |f| {
            let last = f.len() - 1;
            f.insert(0, f[last].clone());
        }),
    ]
}

/// What stands twice: in each tree, with every difference beside the position, near and apart.
fn doubles(base: &CallList) -> Vec<Edge> {
    let mut edges = Vec::new();
    for tree in TREES {
        let name = format!("tree {tree}, a position twice");
        edges.push(field_edge(base, &name, |f| add(f, tree, &[9, 9])));
        let name = format!("tree {tree}, a position twice, apart");
        edges.push(field_edge(base, &name, |f| {
            add(f, tree, &[9]);
            f.insert(0, (tree, key(9)));
        }));
    }
    let changes: [Change; 5] = [
        ("type", |k| k.key_type = 24),
        ("size", |k| k.size = 1 << 24),
        ("version high", |k| k.version_hi = 1),
        ("version low", |k| k.version_lo = 1 << 56),
        ("value", |k| k.value = vec![7; 256]),
    ];
    for (name, change) in changes {
        let name = format!("a position twice, another {name}");
        edges.push(field_edge(base, &name, |f| {
            let mut other = Key::at(25, 9, 9);
            change(&mut other);
            add(f, LRU, &[8, 9, 10]);
            f.insert(1, (LRU, other.body()));
        }));
    }
    edges.push(field_edge(base, "a position three times", |f| {
        add(f, LRU, &[9, 9, 9])
    }));
    edges.push(field_edge(base, "a position twice, types 0 and 25", |f| {
        add(f, LRU, &[9]);
        f.insert(0, (LRU, Key::at(0, 9, 9).body()));
    }));
    edges.push(field_edge(base, "reserved bucket twice, apart", |f| {
        let bucket = f.iter().find(|f| f.0 == RESERVED).cloned();
        f.insert(0, bucket.expect("the base list has one"));
    }));
    edges
}

/// What only seems to stand twice.
fn no_doubles(base: &CallList) -> Vec<Edge> {
    let with = |name: &str, tree: u8, positions: &[(u64, u64)]| {
        field_edge(base, name, |f| {
            for &(inode, offset) in positions {
                f.push((tree, Key::at(25, inode, offset).body()));
            }
        })
    };
    let mut edges = vec![
        with("one offset at two inodes", NEED_DISCARD, &[(9, 7), (8, 7)]),
        with("two offsets at one inode", LRU, &[(9, 7), (9, 6)]),
        with(
            "inodes that differ in the highest byte",
            LRU,
            &[(9 | 1 << 63, 7), (9, 7)],
        ),
        with(
            "offsets that differ in the highest byte",
            LRU,
            &[(9, 7 | 1 << 63), (9, 7)],
        ),
        with("inode and offset changed over", LRU, &[(9, 7), (7, 9)]),
    ];
    edges.push(field_edge(base, "one position in every tree", |f| {
        for tree in TREES {
            f.insert(1, (tree, key(9)));
        }
    }));
    edges.push(edge(
        base,
        "a reserved bucket and keys of its number",
        |l| {
            l.reserve(9);
            l.insert(LRU, Key::at(25, 9, 9));
            l.insert(FREESPACE, run(9, 0));
        },
    ));
    edges
}

/// 22 after 2, and before 3 and all other numbers.
fn before_and_after(base: &CallList) -> Vec<Edge> {
    let twice = |f: &mut Fields| add(f, LRU, &[9, 9]);
    let mut edges = vec![
        field_edge(base, "a position twice and layout broken", |f| {
            twice(f);
            f[0].1[6] = 8;
        }),
        field_edge(base, "a position twice and another call", |f| {
            twice(f);
            f[0].1[0] = f[0].1[0] % 3 + 1;
        }),
        field_edge(base, "a position twice and bucket 0", |f| {
            twice(f);
            f[0].1[1..3].fill(0);
        }),
        field_edge(base, "a position twice and batch 0", |f| {
            twice(f);
            f[0].1[11..15].fill(0);
        }),
        field_edge(base, "a position twice and base past", |f| {
            twice(f);
            f[0].1[38] = 1;
        }),
        field_edge(base, "fields reversed, base past", |f| {
            f[0].1[38] = 1;
            f.reverse();
        }),
        field_edge(base, "alloc key past, twice", |f| {
            for _ in 0..2 {
                f.push((ALLOC, Key::at(27, 0, 65_536).body()));
            }
        }),
    ];
    for bucket in [65_536u32, u32::MAX] {
        let name = format!("reserved bucket {bucket} twice");
        edges.push(field_edge(base, &name, |f| {
            f.push((RESERVED, bucket.to_le_bytes().to_vec()));
            f.insert(0, (RESERVED, bucket.to_le_bytes().to_vec()));
        }));
    }
    if base.head.call == RELEASE {
        edges.push(field_edge(base, "alloc key of the bucket twice", |f| {
            let alloc = f.iter().find(|f| f.0 == ALLOC).cloned();
            f.push(alloc.expect("a release's base has one"));
        }));
    }
    edges
}

/// The body of a key of type 25 at inode 9.
fn key(offset: u64) -> Vec<u8> {
    Key::at(25, 9, offset).body()
}

/// Add keys of a tree at the list's end.
fn add(fields: &mut Fields, tree: u8, offsets: &[u64]) {
    fields.extend(offsets.iter().map(|&offset| (tree, key(offset))));
}

#[cfg(test)]
mod tests {
    use super::order_edges;
    use crate::edges::base;
    use crate::model::{verdict, SUMS};
    use std::collections::BTreeMap;

    /// Each name says what its list meets: 22 where something stands twice and nothing comes before
    /// it, 0 where it only seems to.
    #[test]
    fn numbers() {
        for call in 1..=3 {
            let numbers: BTreeMap<String, u32> = order_edges(&base(call))
                .into_iter()
                .map(|(name, list)| (name, verdict(call, &list, SUMS, usize::MAX)))
                .collect();
            for name in [
                "fields reversed",
                "one offset at two inodes",
                "inodes that differ in the highest byte",
                "one position in every tree",
                "keys that descend as unsigned numbers",
            ] {
                assert_eq!(numbers[name], 0, "call {call}, {name}");
            }
            assert_eq!(numbers["a position twice and layout broken"], 2);
            assert_eq!(numbers["fields reversed, base past"], 3);
            let twice = |name: &str| name.contains("position twice") || name.contains("three");
            for (name, number) in &numbers {
                let broken = name.contains("broken") || name.contains("another call");
                if twice(name) && !broken {
                    assert_eq!(*number, 22, "call {call}, {name}");
                }
            }
            let met = |n: u32| numbers.values().filter(|&&number| number == n).count();
            assert!(met(0) >= 10 && met(2) >= 6 && met(22) >= 20);
        }
    }
}
