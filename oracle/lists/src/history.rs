//! Random histories from clean volumes, their lists in any order, with what docs/FORMAT.md, "Clean volumes
//! and histories", claims (demand 3) counted after each step, and that a placement which queued an LRU key
//! left an LRU root.

use crate::apply::apply;
use crate::call_list::{CallList, Head, Release, ALLOC, DISCARD, FREESPACE, LRU, NEED_DISCARD};
use crate::call_list::{PLACE, RELEASE};
use crate::change_list;
use crate::fields::number;
use crate::generate::{block, piece};
use crate::key::Key;
use crate::lru_root;
use crate::model::{runs, start, EXTENT};
use crate::order::{shuffled, without_requests};
use crate::rng::Rng;
use std::collections::{BTreeMap, BTreeSet};

/// A call made with its byte and its list: the change list, or none where it refuses.
pub type Call<'a> = dyn FnMut(u8, &[u8]) -> Option<Vec<u8>> + 'a;

/// A live piece.
#[derive(Debug, Clone, PartialEq, Eq)]
pub struct Live {
    pub first: u64,
    pub length: u64,
    pub generation: u8,
}

/// What a history did.
#[derive(Debug, Clone, Default, PartialEq, Eq)]
pub struct Tally {
    pub in_order: u64,
    pub placed: u64,
    pub released: u64,
    pub discarded: u64,
    pub refused: u64,
    pub dropped: u64,
    pub highest_generation: u8,
}

impl Tally {
    /// Add what another history did.
    pub fn add(&mut self, other: &Tally) {
        self.in_order += other.in_order;
        self.placed += other.placed;
        self.released += other.released;
        self.discarded += other.discarded;
        self.refused += other.refused;
        self.dropped += other.dropped;
        self.highest_generation = self.highest_generation.max(other.highest_generation);
    }
}

/// A history under way.
pub struct History {
    rng: Rng,
    order: Rng,
    volume: CallList,
    offered: BTreeSet<u64>,
    live: Vec<Live>,
    pub tally: Tally,
}

impl History {
    /// A history of a clean volume that the seed chooses.
    pub fn new(seed: u64) -> History {
        let mut rng = Rng::new(seed);
        let volume = clean_volume(&mut rng);
        let offered = free_buckets(&volume);
        History {
            rng,
            order: Rng::new(!seed),
            volume,
            offered,
            live: Vec::new(),
            tally: Tally::default(),
        }
    }

    /// The volume reached.
    pub fn volume(&self) -> &CallList {
        &self.volume
    }

    /// The buckets that the clean volume offered.
    pub fn offered(&self) -> &BTreeSet<u64> {
        &self.offered
    }

    /// One step, its list in any order: `answer` gives a call's change list, or none where it refuses.
    /// An error says how the step breaks demand 3.
    pub fn step(&mut self, answer: &mut Call) -> Result<(), String> {
        let list = self.next_call();
        let bytes = self.in_some_order(&list);
        let Some(change) = answer(list.head.call, &bytes) else {
            self.tally.refused += 1;
            return Ok(());
        };
        let (refused, next) = apply(&without_requests(&bytes), &change, usize::MAX);
        if refused != 0 {
            self.tally.dropped += 1;
            return Ok(());
        }
        self.volume = CallList::read(&next).ok_or("apply wrote a broken volume")?;
        self.move_live(&list, &change)?;
        self.claim()
    }

    /// The list's bytes, in order once in four times.
    fn in_some_order(&mut self, list: &CallList) -> Vec<u8> {
        let bytes = list.bytes();
        if self.order.one_in(4) {
            self.tally.in_order += 1;
            return bytes;
        }
        shuffled(&mut self.order, &bytes)
    }

    /// The next call's list on the volume reached.
    fn next_call(&mut self) -> CallList {
        let call = self.rng.pick(&[PLACE, PLACE, RELEASE, RELEASE, DISCARD]);
        let mut list = self.volume.clone();
        list.head = self.next_head(call);
        match call {
            PLACE => self.add_places(&mut list),
            RELEASE => self.add_releases(&mut list),
            _ => (),
        }
        list
    }

    /// Tag 1 of the next call: all of it may change, bucket sectors excepted.
    fn next_head(&mut self, call: u8) -> Head {
        let rng = &mut self.rng;
        let old = &self.volume.head;
        Head {
            call,
            bucket: old.bucket,
            block: block(rng, u64::from(old.bucket)) as u16,
            checksum: rng.below(4) as u8,
            roots: if rng.one_in(4) {
                rng.below(8) as u8
            } else {
                old.roots
            },
            reserve: rng.pick(&[0, 0, 0, 0, 1, 3]),
            batch: rng.pick(&[0, 1, 2, 5, 100]),
            journal: rng.pick(&[old.journal, old.journal.wrapping_add(1), 7]),
            inode: rng.word(),
            base: rng.below(1 << 30),
        }
    }

    /// Pieces to place: few buckets' worth.
    fn add_places(&mut self, list: &mut CallList) {
        let bucket = u64::from(list.head.bucket);
        let block = u64::from(list.head.block).max(1);
        for _ in 0..self.rng.below(9) {
            let p = piece(&mut self.rng, list.head.checksum, block, EXTENT.min(bucket));
            list.places.push(p);
        }
    }

    /// Pieces to release: live ones, none twice.
    fn add_releases(&mut self, list: &mut CallList) {
        let mut live = self.live.clone();
        for _ in 0..self.rng.below(12) {
            if live.is_empty() {
                break;
            }
            let i = self.rng.below(live.len() as u64) as usize;
            let piece = live.swap_remove(i);
            list.releases.push(Release {
                sector: piece.first,
                sectors: piece.length as u16,
            });
        }
    }

    /// Add the placed pieces, take out the released ones.
    fn move_live(&mut self, list: &CallList, change: &[u8]) -> Result<(), String> {
        match list.head.call {
            PLACE => self.add_live(list, change)?,
            RELEASE => {
                let named = |p: &Live| {
                    list.releases
                        .iter()
                        .any(|r| r.sector == p.first && u64::from(r.sectors) == p.length)
                };
                self.live.retain(|p| !named(p));
                self.tally.released += 1;
            }
            _ => self.tally.discarded += 1,
        }
        Ok(())
    }

    /// Each request's piece: first sector and generation from its 72, length as asked. The LRU root exists
    /// where an LRU key was queued.
    fn add_live(&mut self, list: &CallList, change: &[u8]) -> Result<(), String> {
        let batches = change_list::read(change).ok_or("a broken change list")?;
        let mut keys = batches.iter().flat_map(|b| &b.keys);
        if keys.any(|(tree, _)| *tree == LRU) && !lru_root::exists(&self.volume) {
            return Err("an LRU key was queued and no LRU root exists".into());
        }
        let placed: Vec<_> = batches.iter().flat_map(|b| &b.placed).collect();
        if placed.len() != list.places.len() {
            return Err("as many 72 as requests are due".into());
        }
        for (p, request) in placed.iter().zip(&list.places) {
            self.live.push(Live {
                first: p.sector,
                length: u64::from(request.stored),
                generation: p.generation,
            });
            let highest = self.tally.highest_generation.max(p.generation);
            self.tally.highest_generation = highest;
        }
        self.tally.placed += 1;
        Ok(())
    }

    /// Demand 3 of the volume reached.
    fn claim(&self) -> Result<(), String> {
        let bucket = u64::from(self.volume.head.bucket);
        no_overlap(&self.live)?;
        let allocs: BTreeMap<u64, &Key> = self
            .volume
            .keys(ALLOC)
            .iter()
            .filter(|k| k.inode == 0)
            .map(|k| (k.offset, k))
            .collect();
        let mut sums: BTreeMap<u64, u64> = BTreeMap::new();
        for p in &self.live {
            let b = p.first / bucket;
            if p.first % bucket + p.length > bucket {
                return Err(format!("{p:?} passes its bucket's end"));
            }
            if allocs.get(&b).and_then(|k| k.value.get(12)) != Some(&p.generation) {
                return Err(format!("{p:?} has another generation than bucket {b}"));
            }
            *sums.entry(b).or_default() += p.length;
        }
        for b in allocs.keys().chain(sums.keys()) {
            let dirty = allocs.get(b).map_or(0, |k| number(&k.value, 16, 4));
            if dirty != sums.get(b).copied().unwrap_or(0) {
                return Err(format!("bucket {b} counts {dirty} dirty sectors"));
            }
        }
        self.one_state_each(&allocs, &sums)
    }

    /// Each offered bucket is exactly one of free, in use and waiting.
    fn one_state_each(
        &self,
        allocs: &BTreeMap<u64, &Key>,
        sums: &BTreeMap<u64, u64>,
    ) -> Result<(), String> {
        let free = free_buckets(&self.volume);
        let named: BTreeSet<u64> = self
            .volume
            .keys(NEED_DISCARD)
            .iter()
            .filter(|k| k.key_type == 25)
            .map(|k| k.offset)
            .collect();
        for b in &self.offered {
            let emptied = allocs.get(b).is_some_and(|k| k.value.get(14) == Some(&9));
            let states = [
                free.contains(b),
                sums.contains_key(b),
                emptied && named.contains(b),
            ];
            if states.iter().filter(|&&s| s).count() != 1 {
                return Err(format!("bucket {b}: free, in use, waiting are {states:?}"));
            }
        }
        Ok(())
    }
}

/// A clean volume: nonempty disjoint runs, any reserved buckets, no other keys.
fn clean_volume(rng: &mut Rng) -> CallList {
    let mut volume = CallList::default();
    volume.head.call = PLACE;
    volume.head.bucket = rng.pick(&[1, 2, 8, 8, 16, 64, 100, 128, 200, 256, 1024]);
    volume.head.roots = rng.below(8) as u8;
    let mut at = rng.pick(&[0, 0, 5, 250, 1_000, 65_000]);
    for _ in 0..rng.from_to(1, 5) {
        at += rng.pick(&[0, 0, 1, 7]);
        let mut run = Key::at(25, 0, at + rng.from_to(1, 60));
        run.size = (run.offset - at) as u32;
        at = run.offset;
        volume.insert(FREESPACE, run);
    }
    for _ in 0..rng.below(8) {
        volume.reserve(rng.pick(&[rng.clone().below(65_536), at - 1, at / 2]) as u32);
    }
    volume
}

/// The unreserved buckets in the runs.
fn free_buckets(volume: &CallList) -> BTreeSet<u64> {
    let reserved: BTreeSet<u64> = volume.reserved.iter().map(|&b| u64::from(b)).collect();
    runs(volume)
        .flat_map(|run| start(run)..run.offset)
        .filter(|b| !reserved.contains(b))
        .collect()
}

/// No two live pieces share a sector.
fn no_overlap(live: &[Live]) -> Result<(), String> {
    let mut sorted: Vec<&Live> = live.iter().collect();
    sorted.sort_by_key(|p| p.first);
    for w in sorted.windows(2) {
        if w[0].first + w[0].length > w[1].first {
            return Err(format!("{:?} and {:?} overlap", w[0], w[1]));
        }
    }
    Ok(())
}
