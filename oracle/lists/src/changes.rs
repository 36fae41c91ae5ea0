//! Volumes and change lists for apply, from a seed.

use crate::call_list::{
    CallList, ALLOC, BACKPOINTERS, BUCKET_GENS, FREESPACE, LRU, NEED_DISCARD, TREES,
};
use crate::candidate::Room;
use crate::change_list::{self, Batch, Placed, Row, EXTENTS};
use crate::generate::{list, Size};
use crate::key::Key;
use crate::order::{doubled, shuffled};
use crate::rng::Rng;
use crate::spoil::{damage, spoil};

/// An apply to make.
#[derive(Debug, Clone, PartialEq, Eq)]
pub struct Applied {
    pub volume: Vec<u8>,
    pub change: Vec<u8>,
    pub room: Room,
}

/// The apply of a seed: `wanted` is 0, 2, 3, 21 or 22.
pub fn applied(seed: u64, size: Size, wanted: u32) -> Applied {
    let mut rng = Rng::new(seed ^ 4 << 56 ^ u64::from(wanted) << 48);
    let call = rng.from_to(1, 3) as u8;
    let mut volume = list(&mut rng, call, size).volume();
    let mut batches = change(&mut rng, &volume, size);
    if wanted == 3 {
        if rng.one_in(2) {
            spoil(&mut rng, &mut volume, 3);
            volume = volume.volume();
        } else {
            pass_a_limit(&mut rng, &mut batches);
        }
    }
    let (mut volume, mut change) = (volume.bytes(), change_list::bytes(&batches));
    if wanted == 2 {
        match rng.below(3) {
            0 => volume = damage(&mut rng, &volume),
            1 => change = damage_change(&mut rng, &batches),
            _ => change = damage(&mut rng, &change),
        }
    }
    if wanted == 22 {
        volume = doubled(&mut rng, &volume);
        // At times a limit is passed too, or there is no change, or the change list is broken.
        match rng.below(4) {
            0 => pass_a_limit(&mut rng, &mut batches),
            1 => batches.clear(),
            _ => (),
        }
        change = match rng.one_in(6) {
            true => damage_change(&mut rng, &batches),
            false => change_list::bytes(&batches),
        };
    }
    let room = match (wanted, rng.below(3)) {
        (21, 0) => Room::Under(usize::MAX),
        (21, _) => Room::Under(rng.from_to(1, 4) as usize),
        (_, 0) => Room::Exact,
        _ => Room::Over(rng.from_to(1, 100) as usize),
    };
    Applied {
        volume,
        change,
        room,
    }
}

impl Applied {
    /// The same apply, its volume in another order.
    pub fn shuffled(&self, rng: &mut Rng) -> Applied {
        Applied {
            volume: shuffled(rng, &self.volume),
            ..self.clone()
        }
    }
}

/// Batches over a volume: deletions, replacements and new keys, roots, buckets and rows.
fn change(rng: &mut Rng, volume: &CallList, size: Size) -> Vec<Batch> {
    let most = match size {
        Size::Small => 3,
        Size::Medium => 20,
        Size::Large => 150,
    };
    let batches = rng.pick(&[0, 1, 1, 1, 2, 3]);
    (0..batches).map(|_| batch(rng, volume, most)).collect()
}

/// One batch of up to `most` keys.
fn batch(rng: &mut Rng, volume: &CallList, most: u64) -> Batch {
    let mut b = Batch::default();
    for _ in 0..rng.below(most + 1) {
        let queued = queued_key(rng, volume);
        b.keys.push(queued);
    }
    b.keys.sort_by_key(|(tree, _)| *tree);
    for _ in 0..rng.below(3) {
        b.roots.push(rng.pick(&[10, 12, 14]));
        b.taken.push(rng.below(65_536) as u32);
        b.unreserved.push(match volume.reserved.as_slice() {
            [] => rng.below(65_536) as u32,
            reserved => rng.pick(reserved),
        });
    }
    if rng.one_in(3) {
        b.placed.push(Placed {
            sector: rng.word(),
            stored: rng.draw() as u16,
            bucket: rng.draw() as u32,
            generation: rng.draw() as u8,
        });
        let numbers = rng.pick(&[1, 3]);
        b.rows.push(Row {
            inode: rng.word(),
            offset: rng.word(),
            numbers: (0..numbers).map(|_| rng.draw() as i64).collect(),
        });
        b.sectors.push(rng.word());
    }
    b
}

/// A queued key: of a position in the volume or a new one, a deletion or not.
fn queued_key(rng: &mut Rng, volume: &CallList) -> (u8, Key) {
    let tree = rng.pick(&[
        EXTENTS,
        ALLOC,
        ALLOC,
        LRU,
        FREESPACE,
        NEED_DISCARD,
        BACKPOINTERS,
        BUCKET_GENS,
    ]);
    let present = volume.keys(tree);
    let mut key = if present.is_empty() || rng.one_in(3) {
        Key::at(0, rng.below(3), rng.below(300))
    } else {
        present[rng.below(present.len() as u64) as usize].clone()
    };
    if tree == EXTENTS {
        key.snapshot = rng.pick(&[0, u32::MAX]);
    }
    key.key_type = rng.pick(&[0, 0, 25, 27, 28, 30]);
    if key.key_type != 0 || rng.one_in(4) {
        let length = rng.pick(&[0, 8, 32, 64]);
        key.value = rng.bytes(length);
        key.size = rng.draw() as u32;
        key.version_hi = rng.draw() as u32;
        key.version_lo = rng.draw();
    }
    // A type 25 freespace key keeps its end; a need-discard key names a bucket.
    if TREES.contains(&tree) && key.offset >= 65_536 && key.key_type == 25 {
        key.key_type = 24;
    }
    (tree, key)
}

/// Pass a limit by a batch; at times a second batch takes it back.
fn pass_a_limit(rng: &mut Rng, batches: &mut Vec<Batch>) {
    let mut b = Batch::default();
    let mut back = Batch::default();
    match rng.below(4) {
        0 => {
            b.taken.push(65_536);
            back.unreserved.push(65_536);
        }
        1 => pass_by_key(&mut b, &mut back, ALLOC, Key::at(27, 0, 65_536)),
        2 => pass_by_key(&mut b, &mut back, NEED_DISCARD, Key::at(25, 7, 70_000)),
        _ => pass_by_key(&mut b, &mut back, FREESPACE, Key::at(25, 0, 65_537)),
    }
    batches.push(b);
    if rng.one_in(3) {
        batches.push(back);
    }
}

/// A key past its limit, and its deletion.
fn pass_by_key(b: &mut Batch, back: &mut Batch, tree: u8, key: Key) {
    back.keys.push((tree, Key::at(0, key.inode, key.offset)));
    b.keys.push((tree, key));
}

/// How many applies at the limits there are.
pub const LIMITS: u64 = 6;

/// The `index`-th apply at the limits: the volume of a list at the limits and a long change.
pub fn at_the_limits(seed: u64, index: u64) -> (Vec<u8>, Vec<u8>) {
    let mut rng = Rng::new(seed ^ 4 << 32 ^ index << 16);
    let call = rng.from_to(1, 3) as u8;
    let volume = crate::limits::list(seed, call, 5).0.volume();
    let mut batches: Vec<Batch> = Vec::new();
    for _ in 0..rng.from_to(1, 3) {
        batches.push(batch(&mut rng, &volume, 4_000));
    }
    match index % 3 {
        0 => only_present(&mut batches, &volume),
        1 => drain(&mut batches, &volume),
        _ => (),
    }
    (volume.bytes(), change_list::bytes(&batches))
}

/// Keep the queued keys whose positions the volume holds, so that no tree grows.
fn only_present(batches: &mut [Batch], volume: &CallList) {
    for b in batches {
        b.taken.clear();
        b.keys.retain(|(tree, key)| {
            let keys = volume.keys(*tree);
            keys.binary_search_by_key(&key.position(), Key::position)
                .is_ok()
        });
    }
}

/// Delete every key of the volume in a last batch, and unreserve every bucket.
fn drain(batches: &mut Vec<Batch>, volume: &CallList) {
    let mut last = Batch::default();
    for (&tree, keys) in &volume.trees {
        for key in keys {
            last.keys.push((tree, Key::at(0, key.inode, key.offset)));
        }
    }
    last.unreserved = volume.reserved.clone();
    batches.push(last);
}

/// A change list whose layout breaks in a way of its own.
fn damage_change(rng: &mut Rng, batches: &[Batch]) -> Vec<u8> {
    let mut out = change_list::bytes(batches);
    match rng.below(7) {
        0 => crate::fields::put(&mut out, 70, &[rng.pick(&[0, 4, 11, 13, 15])]),
        1 => crate::fields::put(&mut out, 76, &[0]),
        2 => crate::fields::put(&mut out, 72, &[0; 14]),
        3 => crate::fields::put(&mut out, 73, &[0; 32]),
        4 => {
            let mut key = Key::at(25, 0, 1);
            key.snapshot = u32::MAX;
            crate::fields::put(&mut out, LRU, &key.body());
        }
        5 => {
            crate::fields::put(&mut out, 71, &[0; 4]);
            crate::fields::put(&mut out, 70, &[10]);
        }
        _ => crate::fields::put(&mut out, 71, &[0; 4]),
    }
    if rng.one_in(2) && out.last_chunk() != Some(&[76, 0, 0]) {
        crate::fields::put(&mut out, 76, &[]);
    }
    out
}
