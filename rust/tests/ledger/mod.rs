//! Random steps of a `Volume`, and the test's own account of which sectors live pieces occupy.

use lists::call_list::{CallList, ALLOC, NEED_DISCARD};
use lists::fields::number;
use lists::key::Key;
use lists::order::shuffled;
use lists::rng::Rng;
use std::collections::BTreeMap;
use zerglaz::{
    Bucket, DeviceSector, Error, FileSector, Format, Live, Options, Piece, Refusal, Volume,
};

/// A volume under way, and what the test knows of it.
pub struct Ledger {
    volume: Volume,
    bucket_sectors: u16,
    /// The buckets that the clean volume offers.
    offered: Vec<u32>,
    /// For each sector of the device, whether a live piece occupies it.
    occupied: Vec<bool>,
    live: Vec<Live>,
    deleted: Vec<Live>,
    steps: u64,
}

/// What a step came to, or how it breaks the claim.
type Made = Result<&'static str, String>;

impl Ledger {
    /// A clean volume that the seed chooses: up to four runs, and some reserved buckets.
    pub fn new(seed: u64) -> Ledger {
        let mut rng = Rng::new(seed ^ 0x5eed);
        let mut format = Format::new(rng.pick(&[8, 16, 64, 100, 128, 256]), 1);
        format.free.clear();
        let mut end = rng.pick(&[0, 0, 250, 1_000]);
        for _ in 0..rng.from_to(1, 4) {
            let start = end + rng.below(3) as u32;
            end = start + rng.from_to(12, 30) as u32;
            format.free.push(Bucket(start)..Bucket(end));
        }
        format.free.push(Bucket(end)..Bucket(end + 33));
        let reserved = (0..rng.below(6)).map(|_| Bucket(rng.below(u64::from(end)) as u32));
        format.reserved = reserved.collect();
        let runs = format.free.iter().flat_map(|run| run.start.0..run.end.0);
        let offers = |bucket: &u32| !format.reserved.contains(&Bucket(*bucket));
        let sectors = usize::from(format.bucket_sectors) * (end as usize + 33);
        Ledger {
            volume: Volume::format(&format).expect("a clean volume"),
            bucket_sectors: format.bucket_sectors,
            offered: runs.filter(offers).collect(),
            occupied: vec![false; sectors],
            live: Vec::new(),
            deleted: Vec::new(),
            steps: 0,
        }
    }

    /// No bucket is left over those that are kept back, also when all is deleted and discarded.
    pub fn is_worn_out(&self) -> bool {
        self.steps % 50 == 0 && self.offered.len() - self.volume.usage().retired as usize <= 32
    }

    /// A step, right or wrong, and the claim after it.
    pub fn step(&mut self, rng: &mut Rng) -> Made {
        self.steps += 1;
        let made = match rng.below(200) {
            0..80 => self.save(rng),
            80..150 => self.delete(rng),
            150..170 => self.delete_wrongly(rng),
            170..192 => self.discard(),
            192..199 => self.choose(rng),
            _ => self.open(rng),
        }?;
        self.same_pieces()?;
        if self.steps % 25 == 0 {
            self.claim()?;
        }
        Ok(made)
    }

    /// Save up to six pieces.
    fn save(&mut self, rng: &mut Rng) -> Made {
        let most = u64::from(self.bucket_sectors.min(128));
        let plain = |rng: &mut Rng| Piece::plain(rng.from_to(1, most) as u16, rng.draw());
        let pieces: Vec<Piece> = (0..rng.below(7)).map(|_| plain(rng)).collect();
        let base = FileSector(rng.below(1 << 30));
        let placed = match self.volume.save(rng.draw(), base, &pieces) {
            Err(Error::Refused(Refusal::TooFewFreeBuckets)) => return Ok("no room"),
            placed => placed.map_err(|error| error.to_string())?,
        };
        let asked = pieces.iter().map(|piece| piece.stored_sectors);
        if !placed.iter().map(|piece| piece.sectors).eq(asked) {
            return Err(format!("asked for {pieces:?}, placed {placed:?}"));
        }
        for piece in placed {
            self.occupy(piece)?;
            self.live.push(piece);
        }
        Ok("saved")
    }

    /// Occupy a piece's sectors, of which none may be occupied.
    fn occupy(&mut self, piece: Live) -> Result<(), String> {
        for sector in piece.first.0..piece.end().0 {
            let occupied = self.occupied.get_mut(sector as usize);
            let occupied = occupied.ok_or(format!("{piece} passes the device's end"))?;
            if std::mem::replace(occupied, true) {
                return Err(format!("{piece} overlaps a live piece"));
            }
        }
        Ok(())
    }

    /// Delete up to eight live pieces.
    fn delete(&mut self, rng: &mut Rng) -> Made {
        let mut pieces = Vec::new();
        for _ in 0..rng.from_to(1, 8).min(self.live.len() as u64) {
            let at = rng.below(self.live.len() as u64) as usize;
            pieces.push(self.live.swap_remove(at));
        }
        let deleted = self.volume.delete(&pieces);
        deleted.map_err(|error| error.to_string())?;
        for piece in &pieces {
            self.occupied[piece.first.0 as usize..piece.end().0 as usize].fill(false);
        }
        self.deleted.extend(pieces);
        Ok("deleted")
    }

    /// A deletion that names up to three live pieces, and beside them one that is not live or one
    /// of them again: refused, with no byte changed.
    fn delete_wrongly(&mut self, rng: &mut Rng) -> Made {
        let mut pieces: Vec<Live> = (0..rng.below(4))
            .filter_map(|_| self.any_of(rng, &self.live))
            .collect();
        pieces.sort();
        pieces.dedup();
        let again = if rng.one_in(4) {
            self.any_of(rng, &pieces)
        } else {
            None
        };
        let wrong = again.unwrap_or_else(|| self.dead(rng));
        pieces.insert(rng.below(pieces.len() as u64 + 1) as usize, wrong);
        let (due, told) = match again {
            Some(piece) => (Error::NamedTwice(piece), "named twice"),
            None => (Error::NotLive(wrong), "not live"),
        };
        let before = self.volume.bytes().to_vec();
        let refused = self.volume.delete(&pieces);
        if refused != Err(due) || self.volume.bytes() != before {
            return Err(format!("{pieces:?} gave {refused:?}"));
        }
        Ok(told)
    }

    /// Any of some pieces.
    fn any_of(&self, rng: &mut Rng, pieces: &[Live]) -> Option<Live> {
        (!pieces.is_empty()).then(|| rng.pick(pieces))
    }

    /// A piece that is not live: one that was deleted, one that is live but for a part, or one that
    /// never was.
    fn dead(&self, rng: &mut Rng) -> Live {
        let never = Live {
            first: DeviceSector(rng.below(self.occupied.len() as u64)),
            sectors: 129,
            generation: 0,
        };
        let live = self.any_of(rng, &self.live).unwrap_or(never);
        let mut dead = live;
        match rng.below(5) {
            0 => dead = self.any_of(rng, &self.deleted).unwrap_or(never),
            1 => dead.sectors += 1,
            2 => dead.generation = dead.generation.wrapping_add(1),
            3 => {
                dead.first.0 += 1;
                dead.sectors -= 1;
            }
            _ => dead = never,
        }
        dead
    }

    /// Discard what waits.
    fn discard(&mut self) -> Made {
        let freed = self.volume.discard().map_err(|error| error.to_string())?;
        let sectors = usize::from(self.bucket_sectors);
        for Bucket(bucket) in freed {
            let from = bucket as usize * sectors;
            if self.occupied[from..from + sectors].contains(&true) {
                return Err(format!(
                    "bucket {bucket} is discarded while a piece lives in it"
                ));
            }
        }
        Ok("discarded")
    }

    /// Choose other options and another journal number.
    fn choose(&mut self, rng: &mut Rng) -> Made {
        let options = Options {
            block_sectors: rng.below(2) as u16,
            checksum_option: rng.below(4) as u8,
            journal_reserve: rng.below(3) as u32,
            batch: rng.from_to(1, 9) as u32,
        };
        self.volume.set_journal(rng.word());
        let chosen = self.volume.set_options(options);
        chosen.map_err(|error| error.to_string())?;
        Ok("options")
    }

    /// Go on with the volume's bytes, in any order.
    fn open(&mut self, rng: &mut Rng) -> Made {
        let mixed = shuffled(rng, self.volume.bytes());
        let opened = Volume::open(&mixed).map_err(|error| error.to_string())?;
        if opened.bytes() != self.volume.bytes() {
            return Err("another order opened another volume".into());
        }
        self.volume = opened;
        Ok("opened")
    }

    /// The pieces that the volume's bytes tell are those of the test.
    fn same_pieces(&mut self) -> Result<(), String> {
        self.live.sort();
        if self.volume.live().eq(self.live.iter().copied()) {
            return Ok(());
        }
        Err("the volume tells other live pieces".into())
    }

    /// The generations that the volume tells are those of the buckets' alloc keys.
    fn same_generations(&self, list: &CallList) -> Result<(), String> {
        let buckets: Vec<Bucket> = self.offered.iter().copied().map(Bucket).collect();
        let found = self.volume.generations(&buckets);
        let found = found.map_err(|error| error.to_string())?.generations;
        for (bucket, generation) in buckets.into_iter().zip(found) {
            let of_bucket = |key: &&Key| key.offset == u64::from(bucket.0);
            let alloc = list.keys(ALLOC).iter().find(of_bucket);
            if alloc.map_or(0, |key| key.value[12]) != generation {
                return Err(format!("{bucket} is told to have generation {generation}"));
            }
        }
        Ok(())
    }

    /// The volume by its bytes, read by the model: each bucket counts its pieces' sectors, in their
    /// generation, and is in exactly one of free, in use and waiting.
    fn claim(&self) -> Result<(), String> {
        let list = CallList::read(self.volume.bytes()).ok_or("the volume is broken")?;
        self.same_generations(&list)?;
        let mut held: BTreeMap<u64, Vec<Live>> = BTreeMap::new();
        for piece in &self.live {
            let bucket = piece.first.0 / u64::from(self.bucket_sectors);
            held.entry(bucket).or_default().push(*piece);
        }
        for &bucket in &self.offered {
            let bucket = u64::from(bucket);
            let pieces = held.get(&bucket).map_or(&[][..], Vec::as_slice);
            let alloc = list.keys(ALLOC).iter().find(|key| key.offset == bucket);
            let dirty = alloc.map_or(0, |key| number(&key.value, 16, 4));
            let sum: u64 = pieces.iter().map(|piece| u64::from(piece.sectors)).sum();
            let generation = alloc.map(|key| key.value[12]);
            let agree = pieces.iter().all(|p| Some(p.generation) == generation);
            let states = states(&list, bucket, alloc, !pieces.is_empty());
            if dirty != sum || !agree || states != 1 {
                return Err(format!(
                    "bucket {bucket}: {dirty} dirty, {pieces:?}, {states} states"
                ));
            }
        }
        Ok(())
    }
}

/// In how many of free, in use and waiting a bucket is.
fn states(list: &CallList, bucket: u64, alloc: Option<&Key>, in_use: bool) -> usize {
    let in_run = |run: &Key| (run.offset - u64::from(run.size)..run.offset).contains(&bucket);
    let reserved = list.reserved.binary_search(&(bucket as u32)).is_ok();
    let free = lists::model::runs(list).any(in_run) && !reserved;
    let emptied = alloc.is_some_and(|key| key.value[14] == 9);
    let named = list
        .keys(NEED_DISCARD)
        .iter()
        .any(|key| key.offset == bucket);
    [free, in_use, emptied && named]
        .iter()
        .filter(|&&state| state)
        .count()
}
