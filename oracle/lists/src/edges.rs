//! Lists at the edges of the rules of docs/FORMAT.md: each way to break the layout, both sides of each
//! limit, and both sides of each refusal, by name. Some are accepted and some refused. Those of the order
//! of fields and of refusal 22 are in `order_edges`.

use crate::call_list::{
    CallList, Head, Place, Release, ALLOC, BUCKET_GENS, FREESPACE, LRU, NEED_DISCARD, PLACE,
    RELEASE,
};
use crate::fields::{joined, put, split};
use crate::key::Key;
use crate::order_edges::order_edges;
use crate::root_edges::root_edges;

/// A list by name.
pub type Edge = (String, Vec<u8>);

/// The edges of a call; then those of the order of its fields, and last those of a placement's LRU root.
pub fn edges(call: u8) -> Vec<Edge> {
    let base = base(call);
    let mut edges = layout_edges(&base);
    edges.extend(limit_edges(&base));
    edges.extend(match call {
        PLACE => place_edges(&base),
        RELEASE => release_edges(&base),
        _ => discard_edges(&base),
    });
    edges.extend(order_edges(&base));
    if call == PLACE {
        edges.extend(root_edges(&base));
    }
    edges
}

/// The edges that lists of every call have: of the layout, of the limits and of the order.
pub fn list_edges(base: &CallList) -> Vec<Edge> {
    let mut edges = layout_edges(base);
    edges.extend(limit_edges(base));
    edges.extend(order_edges(base));
    edges
}

/// A small accepted list of a call, with a key in three trees and two reserved buckets.
pub fn base(call: u8) -> CallList {
    let mut l = CallList {
        head: Head {
            call,
            bucket: 8,
            block: 1,
            checksum: 1,
            batch: 1,
            journal: 9,
            inode: 4_096,
            ..Head::default()
        },
        ..CallList::default()
    };
    l.insert(FREESPACE, run(50, 40));
    l.insert(LRU, Key::at(25, 1 << 61, 3));
    l.reserve(7);
    l.reserve(70);
    match call {
        PLACE => l.places.push(piece(8, 8, 0)),
        RELEASE => {
            l.insert(ALLOC, alloc(3, 4, 8));
            l.releases.push(Release {
                sector: 24,
                sectors: 8,
            });
        }
        _ => {
            l.insert(ALLOC, alloc(3, 9, 0));
            l.insert(NEED_DISCARD, Key::at(25, 8, 3));
        }
    }
    l
}

/// A run by its end and size.
pub(crate) fn run(end: u64, size: u32) -> Key {
    Key {
        size,
        ..Key::at(25, 0, end)
    }
}

/// A piece to place.
pub(crate) fn piece(file: u16, stored: u16, kind: u8) -> Place {
    Place {
        file,
        stored,
        kind,
        checksum: 0x1122_3344_5566_7788,
    }
}

/// An alloc key of 56 bytes, generation 3.
fn alloc(bucket: u64, data_type: u8, dirty: u32) -> Key {
    let mut value = vec![0; 56];
    value[8] = 0x23;
    value[12] = 3;
    value[13] = 3;
    value[14] = data_type;
    value[16..20].copy_from_slice(&dirty.to_le_bytes());
    Key {
        value,
        ..Key::at(27, 0, bucket)
    }
}

/// A list changed, by name.
pub(crate) fn edge(base: &CallList, name: &str, change: impl Fn(&mut CallList)) -> Edge {
    let mut l = base.clone();
    change(&mut l);
    (name.to_string(), l.bytes())
}

/// A list with its fields changed, by name.
pub(crate) fn field_edge(
    base: &CallList,
    name: &str,
    change: impl Fn(&mut Vec<(u8, Vec<u8>)>),
) -> Edge {
    let bytes = base.bytes();
    let mut fields: Vec<(u8, Vec<u8>)> = split(&bytes)
        .expect("a base list has fields")
        .iter()
        .map(|f| (f.tag, f.body.to_vec()))
        .collect();
    change(&mut fields);
    let mut out = Vec::new();
    for (tag, body) in fields {
        put(&mut out, tag, &body);
    }
    (name.to_string(), out)
}

/// The place of the first field of a tag.
fn first(fields: &[(u8, Vec<u8>)], tag: u8) -> usize {
    fields
        .iter()
        .position(|f| f.0 == tag)
        .expect("the base list has the tag")
}

/// Each way to break the layout, and what does not break it.
fn layout_edges(base: &CallList) -> Vec<Edge> {
    let bytes = base.bytes();
    let (tag, body) = match base.head.call {
        PLACE => (66, vec![0; 10]),
        _ => (65, vec![0; 13]),
    };
    let mut edges = vec![
        edge(base, "base", |_| ()),
        ("empty list".to_string(), Vec::new()),
        ("one byte".to_string(), vec![1]),
        ("two bytes".to_string(), vec![1, 39]),
        (
            "last byte cut".to_string(),
            bytes[..bytes.len() - 1].to_vec(),
        ),
        ("byte added".to_string(), [&bytes[..], &[70]].concat()),
        (
            "empty field added".to_string(),
            [&bytes[..], &[66, 0, 0]].concat(),
        ),
        field_edge(base, "no tag 1", |f| drop(f.remove(0))),
        field_edge(base, "tag 1 twice", |f| f.insert(1, f[0].clone())),
        field_edge(base, "tag 1 last", |f| f.rotate_left(1)),
        field_edge(base, "tag 1 short", |f| f[0].1.truncate(38)),
        field_edge(base, "tag 1 long", |f| f[0].1.push(0)),
        field_edge(base, "tag 0 first", |f| f.insert(0, (0, vec![0; 37]))),
        field_edge(base, "request of another call", |f| {
            f.push((tag, body.clone()))
        }),
        field_edge(base, "key of 36 bytes", |f| f[1].1.truncate(36)),
        field_edge(base, "key of 293 bytes", |f| f[1].1.resize(293, 1)),
        field_edge(base, "key of 294 bytes", |f| f[1].1.resize(294, 1)),
        field_edge(base, "key twice", |f| f.insert(1, f[1].clone())),
        field_edge(base, "snapshot 1", |f| f[1].1[33] = 1),
        field_edge(base, "snapshot 2 to the 31", |f| f[1].1[36] = 128),
        field_edge(base, "trees swapped", |f| f.swap(1, 2)),
        field_edge(base, "reserved short", |f| {
            let i = first(f, 64);
            f[i].1.truncate(3);
        }),
        field_edge(base, "reserved long", |f| {
            let i = first(f, 64);
            f[i].1.push(0);
        }),
        field_edge(base, "reserved twice", |f| {
            let i = first(f, 64);
            f.insert(i, f[i].clone());
        }),
        field_edge(base, "reserved descends", |f| {
            let i = first(f, 64);
            f.swap(i, i + 1);
        }),
        edge(base, "key of type 0", |l| l.insert(LRU, Key::at(0, 5, 5))),
    ];
    for tag in [0, 2, 3, 5, 15, 63, 67, 70, 76, 77, 255] {
        let name = format!("tag {tag} added");
        edges.push(field_edge(base, &name, |f| f.push((tag, vec![0; 37]))));
    }
    for call in [0, 1, 2, 3, 4, 255] {
        let name = format!("call byte {call}");
        edges.push(field_edge(base, &name, |f| f[0].1[0] = call));
    }
    for bit in 0..8 {
        let name = format!("root bit {bit}");
        edges.push(field_edge(base, &name, |f| f[0].1[6] = 1 << bit));
    }
    if base.requests() > 0 {
        edges.push(field_edge(base, "request short", |f| {
            let last = f.len() - 1;
            f[last].1.pop();
        }));
        edges.push(field_edge(base, "request long", |f| {
            let last = f.len() - 1;
            f[last].1.push(0);
        }));
    }
    edges.push(edge(base, "keys descend by inode", |l| {
        let keys = l.trees.entry(LRU).or_default();
        keys.push(Key::at(25, 1, 9));
    }));
    edges.push(edge(base, "keys descend by offset", |l| {
        let keys = l.trees.entry(LRU).or_default();
        keys.push(Key::at(25, 1 << 61, 2));
    }));
    edges
}

/// Both sides of each limit, those of counts aside.
fn limit_edges(base: &CallList) -> Vec<Edge> {
    let mut edges = Vec::new();
    for past in [0u64, 1] {
        let at = |what: &str| format!("{what}, {}", if past == 0 { "last" } else { "past" });
        let bucket = 65_535 + past;
        edges.push(edge(base, &at("reserved bucket"), |l| {
            l.reserve(bucket as u32)
        }));
        edges.push(edge(base, &at("alloc key"), |l| {
            l.insert(ALLOC, Key::at(26, 0, bucket));
        }));
        edges.push(edge(base, &at("need-discard key"), |l| {
            l.insert(NEED_DISCARD, Key::at(25, 77, bucket));
        }));
        edges.push(edge(base, &at("run"), |l| {
            l.insert(FREESPACE, run(65_536 + past, 3));
        }));
        edges.push(edge(base, &at("empty run"), |l| {
            l.insert(FREESPACE, run(65_536 + past, 0));
        }));
        edges.push(edge(base, &at("base"), |l| {
            l.head.base = (1 << 40) - 1 + past;
        }));
        edges.push(edge(base, &at("journal reserve"), |l| {
            l.head.reserve = 65_536 + past as u32;
        }));
    }
    edges.push(edge(base, "alloc key past, inode 1", |l| {
        l.insert(ALLOC, Key::at(27, 1, 65_536));
    }));
    edges.push(edge(base, "need-discard key past, type 24", |l| {
        l.insert(NEED_DISCARD, Key::at(24, 77, 65_536));
    }));
    edges.push(edge(base, "run past, inode 1", |l| {
        l.insert(FREESPACE, Key::at(25, 1, 65_537));
    }));
    edges.push(edge(base, "limit passed and layout broken", |l| {
        l.head.base = 1 << 40;
        l.head.roots = 8;
    }));
    edges
}

/// Both sides of a placement's refusals, and their order.
fn place_edges(base: &CallList) -> Vec<Edge> {
    let mut edges = vec![
        edge(base, "bucket 0", |l| l.head.bucket = 0),
        edge(base, "bucket 0, option 4", |l| {
            l.head.bucket = 0;
            l.head.checksum = 4;
        }),
        edge(base, "6 at the last, 7 at the first", |l| {
            l.head.checksum = 0;
            l.places = vec![piece(8, 8, 5), piece(8, 8, 1)];
        }),
        edge(base, "7 before 8", |l| {
            l.head.checksum = 0;
            l.head.block = 3;
            l.places = vec![piece(8, 4, 2)];
        }),
        edge(base, "8 before 9", |l| {
            l.head.block = 3;
            l.places = vec![piece(0, 0, 0)];
        }),
        edge(base, "block 3 divides the bucket alone", |l| {
            l.head.bucket = 9;
            l.head.block = 3;
        }),
        edge(base, "block 16 divides 128 alone", |l| l.head.block = 16),
        edge(base, "block 256", |l| {
            l.head.bucket = 512;
            l.head.block = 256;
        }),
        edge(base, "block 0", |l| l.head.block = 0),
    ];
    for option in 0..=4 {
        let name = format!("option {option}");
        edges.push(edge(base, &name, |l| l.head.checksum = option));
    }
    for kind in 0..=6 {
        let name = format!("kind {kind}, sectors equal");
        edges.push(edge(base, &name, |l| l.places = vec![piece(8, 8, kind)]));
        let name = format!("kind {kind}, sectors unequal");
        edges.push(edge(base, &name, |l| l.places = vec![piece(8, 7, kind)]));
        let name = format!("kind {kind}, option 0");
        edges.push(edge(base, &name, |l| {
            l.head.checksum = 0;
            l.places = vec![piece(8, 8, kind)];
        }));
    }
    for (file, stored, kind) in [
        (0, 0, 0),
        (1, 1, 0),
        (8, 0, 3),
        (9, 9, 0),
        (8, 9, 3),
        (8, 1, 4),
    ] {
        let name = format!("file {file}, stored {stored}, kind {kind}");
        edges.push(edge(base, &name, |l| {
            l.places = vec![piece(8, 8, 0), piece(file, stored, kind)];
        }));
    }
    for (file, stored, block) in [
        (128, 128, 128),
        (129, 129, 1),
        (2, 2, 4),
        (8, 6, 4),
        (8, 4, 4),
    ] {
        let name = format!("bucket 256, block {block}, file {file}, stored {stored}");
        let kind = if file == stored { 0 } else { 2 };
        edges.push(edge(base, &name, |l| {
            l.head.bucket = 256;
            l.head.block = block;
            l.places = vec![piece(file, stored, kind)];
        }));
    }
    edges.extend(run_edges(base));
    edges.extend(walk_edges(base));
    edges
}

/// Overlap and shortage: refusals 10 and 11.
fn run_edges(base: &CallList) -> Vec<Edge> {
    let with = |name: &str, runs: &[(u64, u32)]| {
        edge(base, name, |l| {
            l.trees.remove(&FREESPACE);
            for &(end, size) in runs {
                l.insert(FREESPACE, run(end, size));
            }
        })
    };
    let mut edges = vec![
        with("runs touch", &[(30, 20), (50, 20)]),
        with("runs share a bucket", &[(30, 20), (50, 21)]),
        with("empty run inside a run", &[(30, 0), (50, 40)]),
        with("run inside a run", &[(30, 1), (50, 40)]),
        with("run that ends at 0, size 5", &[(0, 5), (50, 40)]),
        with("empty run that ends at 0", &[(0, 0), (50, 40)]),
        with("runs share bucket 0", &[(1, 9), (50, 60)]),
        with("33 free", &[(34, 34)]),
        with("32 free", &[(33, 33)]),
        with("no runs", &[]),
        with("one run of all buckets", &[(65_536, 65_536)]),
    ];
    for (name, key_type, inode) in [("run of type 24", 24, 0), ("run at inode 1", 25, 1)] {
        edges.push(edge(base, name, |l| {
            l.trees.remove(&FREESPACE);
            let mut key = run(50, 40);
            (key.key_type, key.inode) = (key_type, inode);
            l.insert(FREESPACE, key);
        }));
    }
    for (places, reserve) in [(0, 8), (0, 9), (1, 7), (1, 8)] {
        let name = format!("40 free, {places} needed, reserve {reserve}");
        edges.push(edge(base, &name, |l| {
            l.head.reserve = reserve;
            l.places = vec![piece(8, 8, 0); places];
        }));
    }
    edges
}

/// The walk: refusals 12 and 13.
fn walk_edges(base: &CallList) -> Vec<Edge> {
    let before_0 = |l: &mut CallList| {
        l.trees.remove(&FREESPACE);
        l.insert(FREESPACE, run(3, 4));
        l.insert(FREESPACE, run(50, 40));
    };
    let mut edges = vec![
        edge(base, "run before bucket 0", before_0),
        edge(base, "run before bucket 0, nothing needed", |l| {
            before_0(l);
            l.places.clear();
        }),
        edge(base, "run before bucket 0, all of it reserved", |l| {
            before_0(l);
            l.reserved = vec![0, 1, 2];
        }),
        edge(base, "run before bucket 0, a used bucket in it", |l| {
            before_0(l);
            l.insert(ALLOC, alloc(0, 4, 8));
        }),
        edge(base, "bucket 10 is reserved", |l| l.reserve(10)),
        edge(base, "bucket 11 is reserved", |l| l.reserve(11)),
        edge(base, "bucket 10 is reserved and used", |l| {
            l.reserve(10);
            l.insert(ALLOC, alloc(10, 4, 8));
        }),
        edge(base, "bucket 11 is used and not reached", |l| {
            l.insert(ALLOC, alloc(11, 4, 8));
        }),
        edge(base, "run of one bucket, then a used one", |l| {
            l.insert(FREESPACE, run(2, 1));
            l.insert(ALLOC, alloc(10, 4, 8));
        }),
        edge(
            base,
            "run of one bucket, then a used one, two needed",
            |l| {
                l.insert(FREESPACE, run(2, 1));
                l.insert(ALLOC, alloc(10, 4, 8));
                l.places.push(piece(8, 8, 0));
            },
        ),
        edge(base, "empty run that is walked", |l| {
            l.insert(FREESPACE, run(2, 0));
        }),
        edge(base, "empty run past the walk", |l| {
            l.insert(FREESPACE, run(60, 0));
        }),
        edge(base, "used at inode 1", |l| {
            let mut key = alloc(10, 4, 8);
            key.inode = 1;
            l.insert(ALLOC, key);
        }),
    ];
    for (length, data_type, key_type) in [(15, 4, 27), (16, 4, 27), (16, 0, 27), (16, 1, 9)] {
        let name = format!("alloc value of {length}, type {data_type}, key type {key_type}");
        edges.push(edge(base, &name, |l| {
            let mut key = alloc(10, data_type, 8);
            key.value.truncate(length);
            key.key_type = key_type;
            l.insert(ALLOC, key);
        }));
    }
    for (length, key_type, inode) in [(10, 30, 0), (11, 30, 0), (11, 29, 0), (11, 30, 1)] {
        let name = format!("generations of {length}, type {key_type}, inode {inode}");
        edges.push(edge(base, &name, |l| {
            let mut key = Key::at(key_type, inode, 0);
            key.value = vec![200; length];
            l.insert(BUCKET_GENS, key);
        }));
    }
    for (length, key_type, clock) in [(39, 27, 5), (40, 27, 5), (40, 26, 5), (40, 27, 0)] {
        let name = format!("clock {clock} in {length} bytes of type {key_type}, inode 3");
        edges.push(edge(base, &name, |l| {
            let mut key = Key::at(key_type, 3, 1);
            key.value = vec![0; length];
            key.value[32] = clock;
            l.insert(ALLOC, key);
        }));
    }
    edges
}

/// Both sides of a release's refusals, and their order.
fn release_edges(base: &CallList) -> Vec<Edge> {
    let mut edges = vec![
        edge(base, "bucket 0", |l| l.head.bucket = 0),
        edge(base, "bucket 0, no requests", |l| {
            l.head.bucket = 0;
            l.releases.clear();
        }),
        edge(base, "no requests", |l| l.releases.clear()),
        edge(base, "14 at the last, 15 at the first", |l| {
            l.trees.remove(&ALLOC);
            let far = Release {
                sector: u64::MAX,
                sectors: 1,
            };
            l.releases.push(far);
        }),
        edge(base, "no alloc key", |l| drop(l.trees.remove(&ALLOC))),
        edge(base, "alloc key at inode 1", |l| {
            l.trees.entry(ALLOC).or_default()[0].inode = 1;
        }),
        edge(base, "alloc key of type 20", |l| {
            l.trees.entry(ALLOC).or_default()[0].key_type = 20;
        }),
        edge(base, "the same piece twice", |l| {
            l.releases.push(l.releases[0].clone())
        }),
        edge(base, "halves that overlap", |l| {
            let half = Release {
                sector: 25,
                sectors: 4,
            };
            l.releases = vec![half.clone(), half];
        }),
    ];
    for (sector, sectors) in [
        (24, 0),
        (25, 8),
        (31, 1),
        (31, 2),
        (524_280, 8),
        (524_288, 8),
    ] {
        let name = format!("sector {sector}, {sectors} sectors");
        edges.push(edge(base, &name, |l| {
            l.insert(ALLOC, alloc(65_535, 4, 8));
            l.releases = vec![Release { sector, sectors }];
        }));
    }
    for sectors in [128, 129] {
        let name = format!("bucket 256, {sectors} sectors");
        edges.push(edge(base, &name, |l| {
            l.head.bucket = 256;
            l.trees.insert(ALLOC, vec![alloc(3, 4, 200)]);
            l.releases = vec![Release {
                sector: 768,
                sectors,
            }];
        }));
    }
    for length in [0, 19, 20, 23, 24, 55, 56] {
        let name = format!("alloc value of {length}");
        edges.push(edge(base, &name, |l| {
            l.trees.entry(ALLOC).or_default()[0].value.truncate(length);
        }));
    }
    for (dirty, sectors) in [
        (7, 7),
        (7, 8),
        (8, 7),
        (8, 8),
        (9, 8),
        (0, 1),
        (u32::MAX, 8),
    ] {
        let name = format!("dirty {dirty}, {sectors} freed");
        edges.push(edge(base, &name, |l| {
            l.trees.insert(ALLOC, vec![alloc(3, 4, dirty)]);
            l.releases[0].sectors = sectors;
        }));
    }
    for (length, key_type, inode) in [(0, 30, 0), (3, 30, 0), (4, 30, 0), (3, 29, 0), (3, 30, 1)] {
        let name = format!("generations of {length}, type {key_type}, inode {inode}");
        edges.push(edge(base, &name, |l| {
            let mut key = Key::at(key_type, inode, 0);
            key.value = vec![200; length];
            l.insert(BUCKET_GENS, key);
        }));
    }
    edges.extend(bucket_order_edges(base));
    edges
}

/// The lowest bucket decides among 15 to 19, and in it the lowest number.
fn bucket_order_edges(base: &CallList) -> Vec<Edge> {
    let both = |l: &mut CallList| {
        let second = Release {
            sector: 40,
            sectors: 8,
        };
        l.releases.insert(0, second);
    };
    vec![
        edge(base, "two buckets emptied, one record", |l| {
            both(l);
            l.insert(ALLOC, alloc(5, 4, 8));
        }),
        edge(base, "one of two buckets stays", |l| {
            both(l);
            l.insert(ALLOC, alloc(5, 9, 8));
            l.releases[0].sectors = 3;
        }),
        edge(base, "19 in bucket 3, 15 in bucket 5", |l| {
            both(l);
            l.insert(BUCKET_GENS, Key::at(30, 0, 0));
        }),
        edge(base, "18 in bucket 3, 16 in bucket 5", |l| {
            both(l);
            l.trees.insert(ALLOC, vec![alloc(3, 4, 7)]);
            let mut key = alloc(5, 4, 8);
            key.value.truncate(30);
            l.insert(ALLOC, key);
        }),
        edge(base, "18 in bucket 3, 16 in bucket 5 of 20 bytes", |l| {
            both(l);
            l.trees.insert(ALLOC, vec![alloc(3, 4, 7)]);
            let mut key = alloc(5, 4, 8);
            key.value.truncate(20);
            l.insert(ALLOC, key);
        }),
        edge(base, "17 and not 18 in bucket 3", |l| {
            l.trees.insert(ALLOC, vec![alloc(3, 4, 9)]);
            l.releases = vec![l.releases[0].clone(), l.releases[0].clone()];
        }),
    ]
}

/// Both sides of what a discard takes, and of its batches.
fn discard_edges(base: &CallList) -> Vec<Edge> {
    let with = |name: &str, change: &dyn Fn(&mut Key)| {
        edge(base, name, |l| {
            change(&mut l.trees.entry(ALLOC).or_default()[0])
        })
    };
    let mut edges = vec![
        edge(base, "batch 0", |l| l.head.batch = 0),
        edge(base, "batch 0, nothing waiting", |l| {
            l.head.batch = 0;
            l.trees.clear();
        }),
        edge(base, "nothing waiting", |l| l.trees.clear()),
        with("generation 15", &|k| k.value[12] = 15),
        with("generation 16", &|k| k.value[12] = 16),
        with("type 4", &|k| k.value[14] = 4),
        with("value of 55", &|k| k.value.truncate(55)),
        with("value of 256", &|k| k.value.resize(256, 7)),
        with("key type 26", &|k| k.key_type = 26),
        with("inode 1", &|k| k.inode = 1),
        with("dirty 5", &|k| k.value[16] = 5),
        with("all bytes set", &|k| {
            k.value.iter_mut().for_each(|b| *b = 255);
            k.value[12] = 0;
            k.value[14] = 9;
        }),
        with("size and versions", &|k| {
            (k.size, k.version_hi, k.version_lo) = (1, 2, 3);
        }),
        edge(base, "need-discard key of type 24", |l| {
            l.trees.entry(NEED_DISCARD).or_default()[0].key_type = 24;
        }),
        edge(base, "two need-discard keys", |l| {
            l.insert(NEED_DISCARD, Key::at(25, 2, 3));
        }),
        edge(base, "the later need-discard key of type 24", |l| {
            l.insert(NEED_DISCARD, Key::at(24, 9, 3));
        }),
        edge(base, "old run before it", |l| {
            l.insert(FREESPACE, run(3, 2))
        }),
        edge(base, "bucket reserved", |l| l.reserve(3)),
    ];
    for (second, batch) in [(4, 1), (4, 2), (5, 2), (4, u32::MAX)] {
        let name = format!("buckets 3 and {second}, batch {batch}");
        edges.push(edge(base, &name, |l| {
            l.head.batch = batch;
            l.insert(ALLOC, alloc(second, 9, 0));
            l.insert(NEED_DISCARD, Key::at(25, 1, second));
        }));
    }
    edges
}

/// The edges of apply: a volume and a change list by name; last those of the order of the volume's
/// fields.
pub fn apply_edges() -> Vec<(String, Vec<u8>, Vec<u8>)> {
    let volume = base(2).volume();
    let named = |(name, volume): Edge| -> (String, Vec<u8>, Vec<u8>) {
        (format!("volume {name}"), volume, vec![76, 0, 0])
    };
    let layout = layout_edges(&volume).into_iter();
    let limits = limit_edges(&volume).into_iter();
    let mut edges: Vec<_> = layout.chain(limits).map(named).collect();
    let order = order_edges(&volume).into_iter().map(named);
    let volume = volume.bytes();
    let own_request = base(2).bytes();
    edges.push(("volume with requests".to_string(), own_request, Vec::new()));
    for (name, fields) in changes() {
        let mut change = Vec::new();
        for (tag, body) in fields {
            put(&mut change, tag, &body);
        }
        edges.push((format!("change {name}"), volume.clone(), change));
    }
    edges.push(("change cut".to_string(), volume.clone(), vec![76, 0]));
    let past = "change past its end".to_string();
    edges.push((past, volume.clone(), vec![76, 1, 0]));
    edges.extend(order);
    edges.extend(change_order(&volume));
    edges
}

/// Change lists over a volume that stands in another order, or in which a bucket stands twice.
fn change_order(volume: &[u8]) -> Vec<(String, Vec<u8>, Vec<u8>)> {
    let mut fields = split(volume).expect("a base list has fields");
    fields.reverse();
    let reversed = joined(fields.iter().copied());
    let bucket = fields.iter().find(|f| f.tag == 64).copied();
    fields.push(bucket.expect("a base list has one"));
    let twice = joined(fields);
    let deleted = Key::at(0, 0, 50).body();
    let mut change = Vec::new();
    put(&mut change, 11, &deleted);
    put(&mut change, 71, &[9, 0, 0, 0]);
    put(&mut change, 75, &[7, 0, 0, 0]);
    put(&mut change, 76, &[]);
    let mut far = Vec::new();
    put(&mut far, 71, &[0, 0, 1, 0]);
    put(&mut far, 76, &[]);
    let named = |name: &str, volume: &[u8], change: &[u8]| {
        (name.to_string(), volume.to_vec(), change.to_vec())
    };
    vec![
        named("volume reversed, a change", &reversed, &change),
        named("volume reversed, change cut", &reversed, &change[..9]),
        named("volume reversed, bucket 65,536 taken", &reversed, &far),
        named("bucket twice, a change", &twice, &change),
        named("bucket twice, change cut", &twice, &change[..9]),
        named("bucket twice, bucket 65,536 taken", &twice, &far),
    ]
}

/// The fields of a change list, by name.
type Change = (String, Vec<(u8, Vec<u8>)>);

/// Change lists at the edges of their layout and of what apply carries over.
fn changes() -> Vec<Change> {
    let end = || (76, Vec::new());
    let key = |key_type, inode, offset, snapshot| {
        let mut key = Key::at(key_type, inode, offset);
        key.snapshot = snapshot;
        key.value = vec![5; 3];
        key.body()
    };
    let named = |name: &str, fields: Vec<(u8, Vec<u8>)>| (name.to_string(), fields);
    let mut changes = vec![
        named("of no bytes", vec![]),
        named("76 alone", vec![end()]),
        named("76 twice", vec![end(), end()]),
        named("76 with a body", vec![(76, vec![0])]),
        named("without 76", vec![(71, vec![9, 0, 0, 0])]),
        named("key after 76", vec![end(), (4, key(27, 0, 9, 0)), end()]),
        named(
            "tags descend",
            vec![(71, vec![9, 0, 0, 0]), (70, vec![10]), end()],
        ),
        named(
            "tree 0, snapshot set",
            vec![(0, key(6, 1, 8, u32::MAX)), end()],
        ),
        named("tree 0, snapshot 0", vec![(0, key(6, 1, 8, 0)), end()]),
        named("tree 4, snapshot set", vec![(4, key(27, 0, 8, 1)), end()]),
        named(
            "keys out of order",
            vec![(4, key(27, 0, 9, 0)), (4, key(27, 0, 8, 0)), end()],
        ),
        named("key replaced", vec![(11, key(25, 0, 50, 0)), end()]),
        named("key deleted", vec![(11, key(0, 0, 50, 0)), end()]),
        named(
            "key deleted, then put",
            vec![(11, key(0, 0, 50, 0)), (11, key(25, 0, 50, 0)), end()],
        ),
        named(
            "key put, then deleted",
            vec![(11, key(25, 0, 49, 0)), (11, key(0, 0, 49, 0)), end()],
        ),
        named("no such key deleted", vec![(11, key(0, 0, 48, 0)), end()]),
        named("bucket taken", vec![(71, vec![9, 0, 0, 0]), end()]),
        named("bucket taken twice", vec![(71, vec![7, 0, 0, 0]), end()]),
        named("bucket unreserved", vec![(75, vec![7, 0, 0, 0]), end()]),
        named(
            "no such bucket unreserved",
            vec![(75, vec![8, 0, 0, 0]), end()],
        ),
        named(
            "taken and unreserved",
            vec![(71, vec![9, 0, 0, 0]), (75, vec![9, 0, 0, 0]), end()],
        ),
        named("bucket 65,536 taken", vec![(71, vec![0, 0, 1, 0]), end()]),
        named(
            "bucket 65,536 taken, then back",
            vec![(71, vec![0, 0, 1, 0]), end(), (75, vec![0, 0, 1, 0]), end()],
        ),
        named("alloc key 65,536", vec![(4, key(1, 0, 65_536, 0)), end()]),
        named(
            "alloc key 65,536 deleted",
            vec![(4, key(0, 0, 65_536, 0)), end()],
        ),
        named("74 twice", vec![(74, vec![0; 8]), (74, vec![1; 8]), end()]),
    ];
    for id in [0, 4, 10, 11, 12, 13, 14] {
        let name = format!("root {id}");
        changes.push((name, vec![(70, vec![id]), end()]));
    }
    let lengths = [
        (70, 1),
        (71, 4),
        (72, 15),
        (73, 24),
        (73, 40),
        (74, 8),
        (75, 4),
    ];
    for (tag, length) in lengths {
        for length in [length - 1, length, length + 1] {
            let name = format!("tag {tag} of {length}");
            changes.push((name, vec![(tag, vec![10; length]), end()]));
        }
    }
    for tag in [1, 2, 5, 15, 63, 64, 65, 66, 69, 77, 255] {
        let name = format!("tag {tag}");
        changes.push((name, vec![(tag, vec![0; 37]), end()]));
    }
    changes
}
