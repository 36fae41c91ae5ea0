//! Apply, written from the source of docs/FORMAT.md alone: a volume, its fields in any order, and a
//! change list give the next volume, which is in order.

use crate::call_list::{CallList, TREES};
use crate::change_list::{self, Batch};
use crate::key::{Key, Position};
use crate::model::passes_a_limit;
use std::collections::{BTreeMap, BTreeSet};

/// A volume's trees and reserved buckets while batches are carried over.
struct Maps {
    trees: BTreeMap<u8, BTreeMap<Position, Key>>,
    reserved: BTreeSet<u32>,
    roots: u8,
}

/// The number, and the next volume's bytes where the number is 0.
pub fn apply(volume: &[u8], change: &[u8], out: usize) -> (u32, Vec<u8>) {
    match next_volume(volume, change) {
        Err(number) => (number, Vec::new()),
        Ok(next) if next.len() > out => (21, Vec::new()),
        Ok(next) => (0, next),
    }
}

/// The next volume's bytes, or 2, 22 or 3.
fn next_volume(volume: &[u8], change: &[u8]) -> Result<Vec<u8>, u32> {
    let volume = CallList::read(volume).ok_or(2u32)?;
    if volume.requests() != 0 {
        return Err(2);
    }
    let batches = change_list::read(change).ok_or(2u32)?;
    if volume.stands_twice() {
        return Err(22);
    }
    if passes_a_limit(&volume) {
        return Err(3);
    }
    let mut maps = Maps::of(&volume);
    for batch in &batches {
        maps.carry(batch);
    }
    let next = maps.volume(&volume);
    if passes_a_limit(&next) {
        return Err(3);
    }
    Ok(next.bytes())
}

impl Maps {
    /// The maps of a volume.
    fn of(volume: &CallList) -> Maps {
        let keys = |keys: &Vec<Key>| keys.iter().map(|k| (k.position(), k.clone())).collect();
        Maps {
            trees: volume.trees.iter().map(|(&t, k)| (t, keys(k))).collect(),
            reserved: volume.reserved.iter().copied().collect(),
            roots: volume.head.roots,
        }
    }

    /// Carry one batch over, in order; tags 0 and 72 to 74 change nothing.
    fn carry(&mut self, batch: &Batch) {
        for (tree, key) in batch.keys.iter().filter(|(t, _)| TREES.contains(t)) {
            let keys = self.trees.entry(*tree).or_default();
            if key.key_type == 0 {
                keys.remove(&key.position());
            } else {
                keys.insert(key.position(), key.clone());
            }
        }
        for id in &batch.roots {
            self.roots |= match id {
                10 => 1,
                12 => 2,
                _ => 4,
            };
        }
        self.reserved.extend(batch.taken.iter());
        for bucket in &batch.unreserved {
            self.reserved.remove(bucket);
        }
    }

    /// The volume of the maps, the rest of tag 1 as it was.
    fn volume(self, old: &CallList) -> CallList {
        let mut next = CallList {
            head: old.head.clone(),
            reserved: self.reserved.into_iter().collect(),
            ..CallList::default()
        };
        next.head.roots = self.roots;
        for (tree, keys) in self.trees {
            next.trees.insert(tree, keys.into_values().collect());
        }
        next
    }
}
