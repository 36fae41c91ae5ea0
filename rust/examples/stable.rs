//! A stable's photographs over two seasons: they are saved and deleted in any order, some are
//! deleted twice by mistake, and the volume is closed and opened between the seasons. The program
//! keeps a device of its own, on which each sector says whose it is, and counts what it finds
//! there:
//!
//!     cargo run --release --example stable

use std::collections::BTreeMap;
use std::fmt;
use zerglaz::{Error, FileSector, Format, Live, Piece, Refusal, Volume};

/// The volume: 400 buckets of 256 sectors, which are 128 KiB.
const BUCKET_SECTORS: u16 = 256;
const BUCKETS: u32 = 400;
/// The days of a season, and what is done on each.
const DAYS: u32 = 180;
const A_DAY: u32 = 12;

/// A photograph's number, which is its inode too.
type Photograph = u64;

/// What a season came to.
#[derive(Default)]
struct Season {
    saved: u32,
    deleted: u32,
    /// Deletions of what was deleted before, all refused.
    mistakes: u32,
    /// Saves that found no room, all refused.
    full: u32,
    discarded: usize,
    /// Sectors that were written over while their photograph lived.
    overlaps: usize,
}

impl fmt::Display for Season {
    fn fmt(&self, f: &mut fmt::Formatter<'_>) -> fmt::Result {
        write!(
            f,
            "{} photographs saved, {} deleted, {} wrong deletions and {} saves without room refused, \
             {} buckets discarded, {} sectors written over",
            self.saved, self.deleted, self.mistakes, self.full, self.discarded, self.overlaps
        )
    }
}

/// The device: for each sector the photograph whose data was written there last.
struct Device(Vec<Option<Photograph>>);

impl Device {
    /// Write a photograph's piece. Gives how many of its sectors belonged to a photograph that
    /// lives.
    fn write(&mut self, piece: Live, of: Photograph, lives: impl Fn(Photograph) -> bool) -> usize {
        let sectors = &mut self.0[piece.first.0 as usize..piece.end().0 as usize];
        let taken = sectors.iter().flatten().filter(|&&other| lives(other));
        let overlaps = taken.count();
        sectors.fill(Some(of));
        overlaps
    }

    /// How many sectors of a photograph hold another's data.
    fn lost(&self, pieces: &[Live], of: Photograph) -> usize {
        let sectors = |piece: &Live| piece.first.0 as usize..piece.end().0 as usize;
        let held = pieces.iter().flat_map(|piece| &self.0[sectors(piece)]);
        held.filter(|&&holds| holds != Some(of)).count()
    }
}

/// The stable: its volume, the device, the photographs that live and those deleted, and a source of
/// numbers.
struct Stable {
    volume: Volume,
    device: Device,
    photographs: BTreeMap<Photograph, Vec<Live>>,
    deleted: Vec<Vec<Live>>,
    next: Photograph,
    state: u64,
}

impl Stable {
    /// A stable with a clean volume.
    fn new() -> Result<Stable, Error> {
        let sectors = usize::from(BUCKET_SECTORS) * BUCKETS as usize;
        Ok(Stable {
            volume: Volume::format(&Format::new(BUCKET_SECTORS, BUCKETS))?,
            device: Device(vec![None; sectors]),
            photographs: BTreeMap::new(),
            deleted: Vec::new(),
            next: 4_096,
            state: 1,
        })
    }

    /// A number below `n`: xorshift over 64 bits.
    fn below(&mut self, n: usize) -> usize {
        self.state ^= self.state << 13;
        self.state ^= self.state >> 7;
        self.state ^= self.state << 17;
        (self.state >> 11) as usize % n
    }

    /// A season: each day some photographs are saved and some deleted, and at night what was
    /// emptied is discarded.
    fn season(&mut self) -> Result<Season, Error> {
        let mut season = Season::default();
        for _ in 0..DAYS {
            for _ in 0..A_DAY {
                match self.below(10) {
                    0..=4 => self.save(&mut season)?,
                    5..=8 => self.delete(&mut season)?,
                    _ => self.delete_again(&mut season),
                }
            }
            season.discarded += self.volume.discard()?.len();
            season.overlaps += self.lost();
        }
        Ok(season)
    }

    /// Save a photograph of one to eight pieces, and write its data.
    fn save(&mut self, season: &mut Season) -> Result<(), Error> {
        let count = 1 + self.below(8);
        let pieces: Vec<Piece> = (0..count)
            .map(|_| Piece::plain(1 + self.below(128) as u16, self.state))
            .collect();
        let photograph = self.next;
        let placed = match self.volume.save(photograph, FileSector(0), &pieces) {
            Err(Error::Refused(Refusal::TooFewFreeBuckets)) => {
                season.full += 1;
                return Ok(());
            }
            placed => placed?,
        };
        for &piece in &placed {
            let lives = |other| other == photograph || self.photographs.contains_key(&other);
            season.overlaps += self.device.write(piece, photograph, lives);
        }
        self.photographs.insert(photograph, placed);
        self.next += 1;
        season.saved += 1;
        Ok(())
    }

    /// Delete any photograph.
    fn delete(&mut self, season: &mut Season) -> Result<(), Error> {
        if self.photographs.is_empty() {
            return Ok(());
        }
        let at = self.below(self.photographs.len());
        let photograph = *self.photographs.keys().nth(at).expect("one of them");
        let pieces = self.photographs.remove(&photograph).expect("its pieces");
        self.volume.delete(&pieces)?;
        self.deleted.push(pieces);
        season.deleted += 1;
        Ok(())
    }

    /// Delete once more what was deleted before, which is refused.
    fn delete_again(&mut self, season: &mut Season) {
        if self.deleted.is_empty() {
            return;
        }
        let at = self.below(self.deleted.len());
        let refused = self.volume.delete(&self.deleted[at]);
        assert!(matches!(refused, Err(Error::NotLive(_))), "{refused:?}");
        season.mistakes += 1;
    }

    /// How many sectors of living photographs hold another's data.
    fn lost(&self) -> usize {
        let lost =
            |(&photograph, pieces): (&Photograph, &Vec<Live>)| self.device.lost(pieces, photograph);
        self.photographs.iter().map(lost).sum()
    }
}

/// Two seasons on one volume, and what they came to.
fn main() -> Result<(), Error> {
    let mut stable = Stable::new()?;
    let mut overlaps = 0;
    for name in ["first season", "second season"] {
        let season = stable.season()?;
        let usage = stable.volume.usage();
        println!("{name}: {season}");
        println!(
            "  buckets: {} free, {} in use, {} waiting, of these {} retired",
            usage.free, usage.in_use, usage.waiting, usage.retired
        );
        overlaps += season.overlaps;
        // Between the seasons the volume is kept as bytes.
        stable.volume = Volume::open(stable.volume.bytes())?;
    }
    let live = stable.volume.live().count();
    let pieces: usize = stable.photographs.values().map(Vec::len).sum();
    println!("{live} pieces are live, {overlaps} overlaps");
    assert_eq!((live, overlaps), (pieces, 0));
    Ok(())
}
