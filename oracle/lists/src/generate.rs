//! Call lists from a seed: ones that a call accepts, from small to large, before any spoiling.

use crate::call_list::{
    CallList, Head, Place, Release, ALLOC, BACKPOINTERS, BUCKET_GENS, DISCARD, FREESPACE, LRU,
    NEED_DISCARD, PLACE, RELEASE,
};
use crate::key::Key;
use crate::lru_root;
use crate::model::{next_fit, runs, start, EXTENT, KEPT, REQUESTS};
use crate::rng::Rng;
use std::collections::BTreeSet;

/// How large a list is.
#[derive(Debug, Clone, Copy, PartialEq, Eq)]
pub enum Size {
    /// At most 400 bytes.
    Small,
    /// At most about 4,000 bytes.
    Medium,
    /// At most about 60,000 bytes.
    Large,
}

impl Size {
    /// The `i`-th size: of 16 lists ten are small, five medium, one large.
    pub fn nth(i: u64) -> Size {
        match i % 16 {
            0..=9 => Size::Small,
            10..=14 => Size::Medium,
            _ => Size::Large,
        }
    }

    /// The bytes that keys, reserved buckets and requests may fill.
    pub(crate) fn room(self) -> usize {
        match self {
            Size::Small => 400,
            Size::Medium => 4_000,
            Size::Large => 60_000,
        }
    }

    /// One of three numbers, by size.
    pub(crate) fn choose(self, small: u64, medium: u64, large: u64) -> u64 {
        match self {
            Size::Small => small,
            Size::Medium => medium,
            Size::Large => large,
        }
    }
}

/// A list under construction, with the bytes left for it.
struct Builder<'a> {
    rng: &'a mut Rng,
    list: CallList,
    size: Size,
    room: usize,
}

/// A call list of `call` that it accepts, but for rare ones that turn out otherwise.
pub fn list(rng: &mut Rng, call: u8, size: Size) -> CallList {
    let mut b = Builder {
        rng,
        list: CallList::default(),
        size,
        room: size.room(),
    };
    b.head(call);
    match call {
        PLACE => b.place(),
        RELEASE => b.release(),
        _ => b.discard(),
    }
    b.others();
    b.list
}

/// A placement that wants the LRU root while its stored sectors in all are a multiple of the bucket, on
/// which the Rust's rule differs.
pub fn whole_in_all(rng: &mut Rng, size: Size) -> CallList {
    loop {
        let mut b = Builder {
            rng: &mut *rng,
            list: CallList::default(),
            size,
            room: size.room(),
        };
        b.head(PLACE);
        b.list.head.roots &= 6;
        b.pieces(size.choose(6, 60, 900));
        b.pieces_to_whole();
        if lru_root::differs(&b.list) && b.list.places.len() <= REQUESTS {
            b.around_pieces();
            b.others();
            return b.list;
        }
    }
}

/// The first `n` unreserved buckets in the runs, in run order.
pub fn first_free(list: &CallList, n: usize) -> Vec<u64> {
    let reserved: BTreeSet<u64> = list.reserved.iter().map(|&b| u64::from(b)).collect();
    runs(list)
        .flat_map(|run| start(run)..run.offset)
        .filter(|b| !reserved.contains(b))
        .take(n)
        .collect()
}

/// A piece of `kind` of at most `most` sectors, each a multiple of `block`.
pub fn piece(rng: &mut Rng, option: u8, block: u64, most: u64) -> Place {
    let blocks = most / block;
    let file = match rng.below(4) {
        0 => blocks,
        1 => 1,
        _ => rng.from_to(1, blocks),
    };
    let kinds: &[u8] = match option {
        0 => &[0],
        _ if file == 1 => &[0, 5],
        _ => &[0, 2, 3, 4, 5],
    };
    let kind = rng.pick(kinds);
    let stored = match kind {
        0 | 5 => file,
        _ => rng.from_to(1, file - 1),
    };
    Place {
        file: (file * block) as u16,
        stored: (stored * block) as u16,
        kind,
        checksum: rng.word(),
    }
}

/// A block that divides both the bucket and 128.
pub fn block(rng: &mut Rng, bucket: u64) -> u64 {
    let blocks: Vec<u64> = [1, 2, 4, 8, 16, 32, 64, 128]
        .into_iter()
        .filter(|&d| bucket.is_multiple_of(d))
        .collect();
    rng.pick(&blocks)
}

/// An alloc value of `length` bytes, at least 24, with its generation, type and dirty sectors.
pub fn alloc_value(rng: &mut Rng, length: usize, gen: u8, data_type: u8, dirty: u32) -> Vec<u8> {
    let mut v = match rng.below(3) {
        0 => rng.bytes(length),
        _ => vec![0; length],
    };
    v[8] = rng.pick(&[0x23, 0x21, 0x20, 0x03, 0xff, 0x00]);
    v[12] = gen;
    v[13] = if rng.one_in(3) {
        gen.wrapping_sub(1)
    } else {
        gen
    };
    v[14] = data_type;
    v[16..20].copy_from_slice(&dirty.to_le_bytes());
    if length >= 40 {
        v[32..40].copy_from_slice(&rng.word().to_le_bytes());
    }
    v
}

impl Builder<'_> {
    /// Tag 1 with every field chosen.
    fn head(&mut self, call: u8) {
        let rng = &mut *self.rng;
        let bucket = rng.pick(&[
            1, 2, 4, 8, 8, 16, 24, 32, 64, 96, 100, 128, 128, 192, 256, 512, 1000, 2048, 65535,
        ]);
        self.list.head = Head {
            call,
            bucket: bucket as u16,
            block: block(rng, bucket) as u16,
            checksum: rng.below(4) as u8,
            roots: rng.below(8) as u8,
            reserve: rng.pick(&[0, 0, 0, 1, 7, 100]),
            batch: rng.pick(&[1, 1, 2, 3, 8, 1000, u32::MAX]),
            journal: rng.word(),
            inode: rng.word(),
            base: rng.pick(&[0, 0, 8, 4096, (1 << 40) - 1, (1 << 32) - 64]),
        };
        if self.list.head.block == 1 && self.rng.one_in(3) {
            self.list.head.block = 0;
        }
        self.room -= 42;
    }

    /// Add a key where there is room for it.
    fn add(&mut self, tree: u8, key: Key) {
        let bytes = 40 + key.value.len();
        if bytes <= self.room {
            self.room -= bytes;
            self.list.insert(tree, key);
        }
    }

    /// Reserve a bucket where there is room for it.
    fn reserve(&mut self, bucket: u64) {
        if self.room >= 7 {
            self.room -= 7;
            self.list.reserve(bucket as u32);
        }
    }

    /// A placement: pieces, and what is around them.
    fn place(&mut self) {
        let most = self.size.choose(6, 60, 900);
        self.pieces(most);
        self.around_pieces();
    }

    /// Runs with enough free buckets for the pieces, and what the walk and the answer read.
    fn around_pieces(&mut self) {
        let n = next_fit(&self.list.places, u64::from(self.list.head.bucket)).len() as u64;
        let wanted = n + KEPT + u64::from(self.list.head.reserve);
        self.runs(wanted);
        self.fix_shortage(wanted);
        let taken = first_free(&self.list, n as usize);
        self.generations(&taken);
        self.allocs_of_placement(&taken);
    }

    /// Up to `most` pieces.
    fn pieces(&mut self, most: u64) {
        let bucket = u64::from(self.list.head.bucket);
        let block = u64::from(self.list.head.block).max(1);
        let option = self.list.head.checksum;
        let count = self.rng.from_to(0, most);
        // A third of the lists have whole buckets alone, so that no LRU root is wanted.
        let whole = bucket <= EXTENT && self.rng.one_in(3);
        for _ in 0..count {
            if self.room < 16 + 60 {
                break;
            }
            let mut p = piece(self.rng, option, block, EXTENT.min(bucket));
            if whole {
                p.file = bucket as u16;
                p.stored = if matches!(p.kind, 0 | 5) || p.stored >= p.file {
                    p.kind = p.kind.min(1) * 5;
                    p.file
                } else {
                    p.stored
                };
            }
            self.room -= 16;
            self.list.places.push(p);
        }
    }

    /// Plain pieces more, until the stored sectors in all are a multiple of the bucket or no room is left.
    fn pieces_to_whole(&mut self) {
        let bucket = u64::from(self.list.head.bucket);
        let stored: u64 = self.list.places.iter().map(|p| u64::from(p.stored)).sum();
        let mut missing = (bucket - stored % bucket) % bucket;
        while missing > 0 && self.room >= 16 + 60 {
            let sectors = missing.min(EXTENT);
            missing -= sectors;
            self.room -= 16;
            self.list.places.push(Place {
                file: sectors as u16,
                stored: sectors as u16,
                kind: 0,
                checksum: self.rng.word(),
            });
        }
    }

    /// Disjoint runs that hold `wanted` buckets, with some reserved among them.
    fn runs(&mut self, wanted: u64) {
        let extra = match self.rng.below(3) {
            0 => 0,
            1 => self.rng.from_to(1, 5),
            _ => self.rng.from_to(1, 500),
        };
        let most = self.size.choose(3, 12, 200);
        let mut left = wanted + extra;
        let gap = self.rng.pick(&[0, 1, 3, 40]);
        let mut at = self.first_bucket(left);
        let parts = self.rng.from_to(1, most);
        // Half of the lists have short runs first, which the walk deletes.
        let short = self.rng.one_in(2);
        for part in 0..parts {
            let length = if part + 1 == parts {
                left
            } else if short {
                self.rng.below(3).min(left)
            } else {
                self.rng.from_to(0, left.min(2 * left / (parts - part) + 1))
            };
            left -= length;
            at += length + self.rng.below(gap + 1);
            if at > 65_536 {
                break;
            }
            let mut run = Key::at(25, 0, at);
            run.size = length as u32;
            if self.rng.one_in(4) {
                run.version_hi = self.rng.draw() as u32;
                run.version_lo = self.rng.draw();
                let length = self.rng.below(9) as usize;
                run.value = self.rng.bytes(length);
            }
            self.add(FREESPACE, run);
        }
        if self.list.places.is_empty() && self.rng.one_in(2) {
            self.begin_before_0();
        }
        self.reserve_among_runs();
    }

    /// Let the first run begin before bucket 0: a walk for no buckets reaches none.
    fn begin_before_0(&mut self) {
        let more = self.rng.from_to(1, 9);
        let keys = self.list.trees.entry(FREESPACE).or_default();
        if let Some(run) = keys.first_mut() {
            run.size = (run.offset + more) as u32;
        }
    }

    /// The first bucket of the runs: low, beside a multiple of 256, or any.
    fn first_bucket(&mut self, buckets: u64) -> u64 {
        let most = 60_000u64.saturating_sub(buckets);
        let at = match self.rng.below(4) {
            0 => 0,
            1 => self.rng.below(12),
            2 => self.rng.pick(&[250, 256, 510, 4_090]),
            _ => self.rng.below(most + 1),
        };
        at.min(most)
    }

    /// Reserve buckets at the runs' ends, inside them and elsewhere.
    fn reserve_among_runs(&mut self) {
        let most = self.size.choose(4, 30, 400);
        let count = if self.rng.one_in(3) {
            0
        } else {
            self.rng.below(most + 1)
        };
        let covered: Vec<u64> = runs(&self.list)
            .flat_map(|run| start(run)..run.offset)
            .collect();
        for _ in 0..count {
            let bucket = match self.rng.below(4) {
                0 => self.rng.below(65_536),
                1 if !covered.is_empty() => self.rng.pick(&covered),
                _ if !covered.is_empty() => {
                    covered[self.rng.below(20.min(covered.len() as u64)) as usize]
                }
                _ => continue,
            };
            self.reserve(bucket);
        }
    }

    /// Where reserved buckets left a shortage, lengthen the last run or add one, so far as room is.
    fn fix_shortage(&mut self, wanted: u64) {
        let free = crate::model::free(&self.list);
        if free >= wanted || self.rng.one_in(12) {
            return;
        }
        let Some(keys) = self.list.trees.get_mut(&FREESPACE) else {
            return;
        };
        let missing = wanted - free;
        let last = keys.last_mut().expect("the tree has a run");
        let reserved = &self.list.reserved;
        let mut end = last.offset;
        let mut found = 0;
        while found < missing && end < 65_536 {
            found += u64::from(reserved.binary_search(&(end as u32)).is_err());
            end += 1;
        }
        last.size += (end - last.offset) as u32;
        last.offset = end;
    }

    /// Generation records of the taken buckets: whole, short, of another type or missing.
    fn generations(&mut self, buckets: &[u64]) {
        let groups: BTreeSet<u64> = buckets.iter().map(|b| b / 256).collect();
        for group in groups {
            let within: Vec<u64> = buckets
                .iter()
                .filter(|&&b| b / 256 == group)
                .map(|b| b % 256)
                .collect();
            let reach = self.rng.pick(&within) as usize + 1;
            let length = match self.rng.below(4) {
                0 => 256,
                1 => reach,
                2 => reach - 1,
                _ => reach.div_ceil(8) * 8,
            };
            let key_type = if self.rng.one_in(6) { 29 } else { 30 };
            if self.rng.one_in(4) {
                continue;
            }
            let value = self.rng.bytes(length);
            let key = Key {
                value,
                version_hi: self.rng.pick(&[0, 0, 5]),
                version_lo: self.rng.pick(&[0, 0, 9]),
                ..Key::at(key_type, 0, group)
            };
            self.add(BUCKET_GENS, key);
        }
    }

    /// Alloc keys that a placement reads: of taken buckets, of free ones past the walk, of used
    /// ones outside the runs, at other inodes, and of other types.
    fn allocs_of_placement(&mut self, taken: &[u64]) {
        let count = self.rng.below(self.size.choose(3, 15, 200));
        let past: Vec<u64> = {
            let n = taken.len() + 20;
            first_free(&self.list, n).split_off(taken.len().min(n))
        };
        for _ in 0..count {
            let (inode, bucket, free) = match self.rng.below(5) {
                0 | 1 if !taken.is_empty() => (0, self.rng.pick(taken), true),
                2 if !past.is_empty() => (0, self.rng.pick(&past), false),
                3 => (self.rng.from_to(1, 3), self.rng.below(70_000), false),
                _ => (0, self.rng.below(65_536), false),
            };
            if inode == 0 && !free && taken.contains(&bucket) {
                continue;
            }
            let key = self.alloc_of_placement(inode, bucket, free);
            self.add(ALLOC, key);
        }
    }

    /// One alloc key; a `free` one is no hindrance to taking its bucket.
    fn alloc_of_placement(&mut self, inode: u64, bucket: u64, free: bool) -> Key {
        let lengths: &[usize] = match (free, self.size) {
            (_, Size::Small) => &[40, 64, 40, 48],
            _ => &[40, 64, 64, 56, 39, 128],
        };
        let length = self.rng.pick(lengths);
        let data_type = if free {
            0
        } else {
            self.rng.pick(&[4, 9, 3, 1, 0])
        };
        let gen = self.rng.below(256) as u8;
        let mut value = alloc_value(self.rng, length, gen, data_type, 0);
        if free && self.rng.one_in(5) {
            value[14] = 4;
            value.truncate(15);
        }
        Key {
            value,
            ..Key::at(self.rng.pick(&[27, 27, 27, 26]), inode, bucket)
        }
    }

    /// A release: alloc keys of a few buckets, and requests that empty some of them.
    fn release(&mut self) {
        let most = self.size.choose(2, 12, 150);
        let count = if self.rng.one_in(20) {
            0
        } else {
            self.rng.from_to(1, most)
        };
        let group = self.rng.pick(&[0, 0, 1, 255]) * 256;
        let spread = self.rng.pick(&[4, 20, 300, 3000]);
        let mut emptied = Vec::new();
        for _ in 0..count {
            let bucket = (group + self.rng.below(spread)).min(65_535);
            if self.list.keys(ALLOC).iter().any(|k| k.offset == bucket) || self.room < 170 {
                continue;
            }
            if self.release_bucket(bucket) {
                emptied.push(bucket);
            }
        }
        self.shuffle_releases();
        self.records_of_emptied(&emptied);
    }

    /// A bucket in use with requests of it; true where they empty it.
    fn release_bucket(&mut self, bucket: u64) -> bool {
        let sectors = u64::from(self.list.head.bucket);
        let most = sectors.min(EXTENT * self.size.choose(1, 3, 4));
        let freed = self.rng.from_to(1, most);
        let empties = freed == sectors || !self.rng.one_in(3);
        let dirty = match self.rng.below(3) {
            _ if empties => freed,
            0 => sectors,
            _ => self.rng.from_to(freed + 1, sectors),
        };
        let length = self.rng.pick(match self.size {
            Size::Small => &[56, 56, 64, 57],
            _ => &[56, 64, 64, 64, 72, 256],
        });
        let gen = self.rng.pick(&[0, 1, 3, 15, 16, 254, 255]);
        let data_type = self.rng.pick(&[4, 4, 4, 9, 0]);
        let key = Key {
            size: self.rng.pick(&[0, 0, 0, 8]),
            version_hi: self.rng.pick(&[0, 0, 3]),
            version_lo: self.rng.pick(&[0, 0, 1 << 40]),
            value: alloc_value(self.rng, length, gen, data_type, dirty as u32),
            ..Key::at(self.rng.pick(&[27, 27, 27, 20]), 0, bucket)
        };
        self.add(ALLOC, key);
        self.requests_of(bucket, freed);
        if dirty < sectors && self.rng.one_in(2) {
            let inode = (1 << 61) + (dirty << 31) / sectors;
            self.add(LRU, Key::at(25, inode, bucket));
        }
        empties
    }

    /// Requests that free `freed` sectors of a bucket.
    fn requests_of(&mut self, bucket: u64, freed: u64) {
        let sectors = u64::from(self.list.head.bucket);
        let mut left = freed;
        let mut at = 0;
        while left > 0 {
            let most = left.min(EXTENT);
            let length = if self.room < 60 || self.rng.one_in(2) {
                most
            } else {
                self.rng.from_to(1.max(most / 3), most)
            };
            let offset = if self.rng.one_in(5) {
                self.rng.below(sectors - length + 1)
            } else {
                at
            };
            at += length;
            left -= length;
            self.room = self.room.saturating_sub(13);
            self.list.releases.push(Release {
                sector: bucket * sectors + offset,
                sectors: length as u16,
            });
        }
    }

    /// Put the requests in any order.
    fn shuffle_releases(&mut self) {
        let requests = &mut self.list.releases;
        if self.rng.one_in(2) {
            for i in (1..requests.len()).rev() {
                requests.swap(i, self.rng.below(i as u64 + 1) as usize);
            }
        }
    }

    /// Generation records of emptied buckets: whole, just long enough, of another type, missing.
    fn records_of_emptied(&mut self, emptied: &[u64]) {
        let groups: BTreeSet<u64> = emptied.iter().map(|b| b / 256).collect();
        for group in groups {
            let reach = emptied
                .iter()
                .filter(|&&b| b / 256 == group)
                .map(|b| b % 256 + 1)
                .max()
                .unwrap_or(0) as usize;
            let (key_type, length) = match self.rng.below(6) {
                0 => continue,
                1 => (29, self.rng.below(9) as usize),
                2 => (30, 256),
                3 => (30, (reach + 3).min(256)),
                _ => (30, reach),
            };
            let key = Key {
                size: self.rng.pick(&[0, 0, 4]),
                version_hi: self.rng.pick(&[0, 0, 7]),
                value: self.rng.bytes(length),
                ..Key::at(key_type, 0, group)
            };
            self.add(BUCKET_GENS, key);
        }
    }

    /// A discard: waiting buckets, some beside each other, and ones that do not qualify.
    fn discard(&mut self) {
        let most = self.size.choose(2, 24, 330);
        let count = self.rng.from_to(0, most);
        let mut bucket = self.rng.pick(&[0, 3, 250, 1_000, 60_000]);
        for _ in 0..count {
            bucket += self.rng.pick(&[1, 1, 1, 2, 3, 17]);
            if self.room < 140 || bucket > 65_535 {
                break;
            }
            self.waiting_bucket(bucket);
        }
        if self.rng.one_in(3) {
            let end = self.rng.pick(&[bucket, bucket + 1, bucket + 9]).min(65_536);
            let mut run = Key::at(25, 0, end);
            run.size = self.rng.below(end + 1) as u32;
            self.add(FREESPACE, run);
        }
    }

    /// One bucket with its alloc and need-discard keys, which qualifies five times in six.
    fn waiting_bucket(&mut self, bucket: u64) {
        let fault = if self.rng.one_in(6) {
            self.rng.from_to(1, 6)
        } else {
            0
        };
        let length = self.rng.pick(match self.size {
            Size::Small => &[56, 56, 60, 64],
            _ => &[56, 64, 64, 64, 120, 256],
        });
        let gen = self.rng.pick(&[0, 1, 3, 14, 15]);
        let mut alloc = Key {
            size: self.rng.pick(&[0, 0, 0, 6]),
            version_lo: self.rng.pick(&[0, 0, 2]),
            value: alloc_value(self.rng, length, gen, 9, 0),
            ..Key::at(27, 0, bucket)
        };
        let number = self.rng.word();
        let mut waiting = Key::at(25, number, bucket);
        match fault {
            1 => alloc.key_type = 26,
            2 => alloc.inode = 1,
            3 => alloc.value[12] = self.rng.pick(&[16, 17, 255]),
            4 => alloc.value[14] = self.rng.pick(&[0, 4, 8, 10]),
            5 => alloc.value.truncate(55),
            6 => waiting.key_type = 24,
            _ => (),
        }
        self.add(ALLOC, alloc);
        self.add(NEED_DISCARD, waiting);
        if self.rng.one_in(4) {
            let second = self.rng.word();
            self.add(NEED_DISCARD, Key::at(25, second, bucket));
        }
        if self.rng.one_in(2) {
            self.reserve(bucket);
        }
    }

    /// Keys that the call does not read, or must not be misled by.
    fn others(&mut self) {
        let count = self.rng.below(self.size.choose(3, 12, 120));
        for _ in 0..count {
            let (tree, mut key) = match self.rng.below(7) {
                0 => (
                    LRU,
                    Key::at(25, (1 << 61) + self.rng.below(1 << 31), self.rng.below(500)),
                ),
                1 => (BACKPOINTERS, Key::at(28, 0, self.rng.below(1 << 40))),
                2 => (
                    BUCKET_GENS,
                    Key::at(30, self.rng.from_to(1, 4), self.rng.below(300)),
                ),
                3 => (
                    FREESPACE,
                    Key::at(self.rng.pick(&[24, 26, 0]), 0, self.rng.draw()),
                ),
                4 => (
                    FREESPACE,
                    Key::at(25, self.rng.from_to(1, 9), self.rng.draw()),
                ),
                5 => (ALLOC, Key::at(27, self.rng.from_to(1, 9), self.rng.draw())),
                _ => (NEED_DISCARD, Key::at(24, self.rng.word(), self.rng.draw())),
            };
            key.size = self.rng.pick(&[0, 1, u32::MAX]);
            let length = self.rng.below(self.size.choose(41, 80, 257)) as usize;
            if tree == ALLOC && self.rng.one_in(2) {
                key.value = alloc_value(self.rng, length.max(40), 0, 4, 0);
            } else if tree == BACKPOINTERS || tree == BUCKET_GENS {
                key.value = self.rng.bytes(length);
            }
            self.add(tree, key);
        }
        let call = self.list.head.call;
        let unread = call == RELEASE || call == DISCARD;
        if unread && self.rng.one_in(3) {
            self.reserve_among_runs();
        }
    }
}
