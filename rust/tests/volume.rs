//! `Volume`: each step is refused whole or applied whole, deletions name live pieces, and over many
//! random steps no two pieces come to overlap.

mod ledger;

use ledger::Ledger;
use lists::rng::Rng;
use std::collections::BTreeSet;
use zerglaz::{
    apply, discard, limits, place, release, Bucket, Call, CallList, DeviceSector, Error,
    FileSector, Format, Live, Options, Piece, Placed, Refusal, Released, Usage, Volume, SUMS,
};

/// A clean volume of `buckets` buckets of 128 sectors.
fn clean(buckets: u32) -> Volume {
    Volume::format(&Format::new(128, buckets)).expect("a clean volume")
}

/// Save plain pieces of these sectors.
fn save(volume: &mut Volume, sectors: &[u16]) -> Vec<Live> {
    let pieces: Vec<Piece> = sectors.iter().map(|&n| Piece::plain(n, 7)).collect();
    let saved = volume.save(4_096, FileSector(0), &pieces);
    saved.expect("room for the pieces")
}

/// A step that is to be refused leaves every byte as it was.
fn refused<T: std::fmt::Debug + PartialEq>(
    volume: &mut Volume,
    due: Error,
    step: impl FnOnce(&mut Volume) -> Result<T, Error>,
) {
    let before = volume.bytes().to_vec();
    assert_eq!(step(volume), Err(due));
    assert!(volume.bytes() == before && volume.change().is_empty());
}

/// A piece that is deleted once is not deleted again, while its neighbour in the bucket lives.
#[test]
fn a_double_release_is_refused() {
    let mut volume = clean(40);
    let saved = save(&mut volume, &[64, 64]);
    volume.delete(&saved[..1]).expect("a live piece");
    refused(&mut volume, Error::NotLive(saved[0]), |volume| {
        volume.delete(&saved[..1])
    });
    assert!(volume.live().eq([saved[1]]));
    assert!(volume.discard().expect("nothing waits").is_empty());
    let another = save(&mut volume, &[128]);
    assert_ne!(another[0].bucket(128), saved[1].bucket(128));
}

/// The raw calls, with the volume last reached.
struct Raw(CallList);

impl Raw {
    /// Make a call on a list and apply its change; gives where its pieces were placed.
    fn step(&mut self, list: &CallList) -> Result<Vec<Placed>, Refusal> {
        let bytes = list.to_bytes();
        let mut out = vec![0; limits::MAX_CHANGE];
        let length = match list.head.call {
            Call::Place => place(&bytes, &mut out),
            Call::Release => release(&bytes, &mut vec![0; SUMS], &mut out),
            Call::Discard => discard(&bytes, &mut out),
        }?;
        let mut next = vec![0; limits::MAX_VOLUME];
        let written = apply(&list.volume().to_bytes(), &out[..length], &mut next)?;
        self.0 = CallList::read(&next[..written]).expect("a volume");
        let change = zerglaz::ChangeList::read(&out[..length]).expect("a change list");
        Ok(change.placed().copied().collect())
    }

    /// Place plain pieces.
    fn place(&mut self, sectors: &[u16]) -> Result<Vec<Placed>, Refusal> {
        let mut list = self.0.asking(Call::Place);
        list.pieces = sectors.iter().map(|&n| Piece::plain(n, 7)).collect();
        self.step(&list)
    }

    /// Release a piece, live or not.
    fn release(&mut self, piece: Placed) -> Result<Vec<Placed>, Refusal> {
        let mut list = self.0.asking(Call::Release);
        list.released.push(Released {
            first: piece.first,
            sectors: piece.stored_sectors,
        });
        self.step(&list)
    }
}

/// What follows where the second duty is not kept: the raw calls know sums and not pieces, so that
/// a second release of one piece takes the sectors of another, which then is placed over. The
/// theorem says nothing of such calls, since this release names no live piece.
#[test]
fn the_raw_calls_accept_a_double_release() {
    let clean = Format::new(128, 40).to_list().expect("a clean volume");
    let mut raw = Raw(clean);
    let placed = raw.place(&[64, 64]).expect("room");
    let (first, second) = (placed[0], placed[1]);
    assert_eq!((first.bucket, second.bucket), (Bucket(0), Bucket(0)));
    raw.release(first).expect("a live piece");
    raw.release(first)
        .expect("accepted: the bucket holds 64 sectors");
    let waiting = raw.0.alloc(Bucket(0)).expect("its alloc key");
    assert_eq!(
        (waiting.data_type(), waiting.dirty_sectors()),
        (Some(9), Some(0))
    );
    let list = raw.0.asking(Call::Discard);
    raw.step(&list).expect("the bucket waits");
    let third = raw.place(&[128]).expect("room")[0];
    let end = DeviceSector(third.first.0 + 128);
    assert!(
        third.first <= second.first && second.first < end,
        "they overlap"
    );
    // Nothing waits or is freed any more: a third release of the first is refused.
    raw.release(third).expect("a live piece");
    assert_eq!(raw.release(first), Err(Refusal::FreesMoreThanHeld));
    // Such a volume is not opened: the backpointer of the second still stands.
    let opened = Volume::open(&raw.0.to_bytes()).map(|_| ());
    assert!(matches!(opened, Err(Error::NotReached(_))), "{opened:?}");
}

/// Pieces that are not live while one of 60 sectors lies at the device's first sector, generation 0:
/// each is wrong in its first sector, its sectors or its generation.
fn not_live() -> impl Iterator<Item = Live> {
    let wrong = [
        (0, 59, 0),
        (0, 61, 0),
        (0, 0, 0),
        (0, 60, 1),
        (1, 60, 0),
        (60, 60, 0),
        (128 * 39, 60, 0),
        (1 << 48, 60, 0),
        (u64::MAX, 60, 0),
    ];
    wrong.into_iter().map(|(first, sectors, generation)| Live {
        first: DeviceSector(first),
        sectors,
        generation,
    })
}

/// Deletions that name no live piece, or one twice, are refused whole.
#[test]
fn wrong_deletions() {
    let mut volume = clean(40);
    let saved = save(&mut volume, &[60, 30, 128]);
    for wrong in not_live() {
        let due = Error::NotLive(wrong);
        refused(&mut volume, due, |volume| volume.delete(&[wrong]));
        let among = [saved[1], wrong, saved[2]];
        refused(&mut volume, due, |volume| volume.delete(&among));
        assert!(!volume.is_live(wrong));
    }
    let twice = [saved[0], saved[1], saved[0]];
    refused(&mut volume, Error::NamedTwice(saved[0]), |volume| {
        volume.delete(&twice)
    });
    assert!(saved.iter().all(|&piece| volume.is_live(piece)));
    let in_any_order = [saved[2], saved[0], saved[1]];
    volume.delete(&in_any_order).expect("live pieces");
    assert_eq!(volume.live().count(), 0);
}

/// A call's refusals, and an empty step.
#[test]
fn refusals() {
    let mut volume = clean(40);
    let piece = Piece::plain(128, 7);
    let at = FileSector(0);
    let due = Error::Refused(Refusal::TooFewFreeBuckets);
    refused(&mut volume, due, |volume| volume.save(1, at, &[piece; 9]));
    let due = Error::Refused(Refusal::LimitPassed);
    refused(&mut volume, due, |volume| {
        volume.save(1, at, &[piece; 1_025])
    });
    let far = FileSector(1 << 40);
    refused(&mut volume, due, |volume| volume.save(1, far, &[piece]));
    let due = Error::Refused(Refusal::BadPiece);
    let long = Piece::plain(129, 7);
    refused(&mut volume, due, |volume| volume.save(1, at, &[long]));
    let saved = save(&mut volume, &[1]);
    let due = Error::Refused(Refusal::LimitPassed);
    let many = vec![saved[0]; 1_025];
    refused(&mut volume, due, |volume| volume.delete(&many));
    assert_eq!(volume.save(1, at, &[]), Ok(vec![]));
    assert_eq!(volume.delete(&[]), Ok(()));
    assert_eq!(volume.discard(), Ok(vec![]));
}

/// A change that apply refuses is dropped: 4,096 live pieces are all that a volume holds.
#[test]
fn a_refused_apply_drops_its_change() {
    let mut volume = Volume::format(&Format::new(8, 6_000)).expect("a clean volume");
    let mut saved = Vec::new();
    for _ in 0..4 {
        saved.extend(save(&mut volume, &[8; limits::MAX_REQUESTS]));
    }
    assert_eq!(volume.live().count(), limits::MAX_KEYS);
    let due = Error::Dropped(Refusal::LimitPassed);
    refused(&mut volume, due, |volume| {
        volume.save(1, FileSector(0), &[Piece::plain(8, 7)])
    });
    // The volume goes on: what is deleted and discarded makes room.
    volume.delete(&saved[..1_024]).expect("live pieces");
    assert_eq!(volume.discard().expect("they wait").len(), 1_024);
    save(&mut volume, &[8]);
    assert_eq!(volume.live().count(), 3_073);
}

/// A discard whose runs would be too many is dropped, until a save has used up a run.
#[test]
fn too_many_runs() {
    let mut format = Format::new(8, 1);
    let run = |n: u32| Bucket(n * 3)..Bucket(n * 3 + 2);
    format.free = (0..limits::MAX_KEYS as u32).map(run).collect();
    let mut volume = Volume::format(&format).expect("a clean volume");
    let saved = save(&mut volume, &[8]);
    volume.delete(&saved).expect("a live piece");
    let due = Error::Dropped(Refusal::LimitPassed);
    refused(&mut volume, due, Volume::discard);
    let other = save(&mut volume, &[8]);
    assert_eq!(other[0].bucket(8), Some(Bucket(1)));
    assert_eq!(volume.discard(), Ok(vec![Bucket(0)]));
}

/// A bucket is filled sixteen times, and then retires.
#[test]
fn a_bucket_retires() {
    let mut volume = clean(33);
    for generation in 0..limits::RETIRED_GENERATION {
        let saved = save(&mut volume, &[128]);
        let got = (saved[0].bucket(128), saved[0].generation);
        assert_eq!(got, (Some(Bucket(0)), generation));
        assert_eq!(volume.usage().retired, 0);
        volume.delete(&saved).expect("a live piece");
        let last = generation + 1 == limits::RETIRED_GENERATION;
        let freed = if last { vec![] } else { vec![Bucket(0)] };
        assert_eq!(volume.discard(), Ok(freed));
    }
    let usage = volume.usage();
    assert_eq!((usage.retired, usage.waiting, usage.free), (1, 1, 32));
    let due = Error::Refused(Refusal::TooFewFreeBuckets);
    refused(&mut volume, due, |volume| {
        volume.save(1, FileSector(0), &[Piece::plain(1, 7)])
    });
}

/// What is reported of the buckets, step by step.
#[test]
fn usage() {
    let mut format = Format::new(128, 50);
    format.reserved = vec![Bucket(3), Bucket(60_000)];
    format.options.journal_reserve = 5;
    let mut volume = Volume::format(&format).expect("a clean volume");
    let start = Usage {
        free: 49,
        kept_back: 37,
        reserved: 2,
        ..Usage::default()
    };
    assert_eq!((volume.usage(), start.available()), (start, 12));
    let saved = save(&mut volume, &[128, 128, 128, 50]);
    let buckets: Vec<_> = saved.iter().filter_map(|piece| piece.bucket(128)).collect();
    assert_eq!(buckets, [0, 1, 2, 4].map(Bucket));
    let in_use = Usage {
        free: 45,
        in_use: 4,
        ..start
    };
    assert_eq!(volume.usage(), in_use);
    volume.delete(&saved[1..3]).expect("live pieces");
    let waiting = Usage {
        in_use: 2,
        waiting: 2,
        ..in_use
    };
    assert_eq!(volume.usage(), waiting);
    assert_eq!(volume.discard(), Ok(vec![Bucket(1), Bucket(2)]));
    let free = Usage {
        free: 47,
        waiting: 0,
        ..waiting
    };
    assert_eq!(volume.usage(), free);
    let small = clean(20).usage();
    assert_eq!((small.kept_back, small.available()), (20, 0));
    let status = volume.buckets().get(Bucket(4));
    assert_eq!((status.live_sectors, status.pieces), (50, 1));
}

/// A file's pieces are found by its inode, in the order of the file.
#[test]
fn pieces_of_a_file() {
    let mut volume = clean(60);
    let at = |base| FileSector(base);
    let plain = [Piece::plain(100, 7)];
    let late = volume.save(5, at(500), &plain).expect("room");
    let other = volume.save(6, at(0), &plain).expect("room");
    let early = volume.save(5, at(0), &plain).expect("room");
    assert_eq!(volume.live_of(5), [early[0], late[0]]);
    assert_eq!(volume.live_of(6), other);
    assert!(volume.live_of(7).is_empty());
}

/// A save that leaves a bucket part filled makes the LRU root, also where it stores whole buckets in all;
/// one that fills its buckets, or stores nothing, does not.
#[test]
fn the_lru_root() {
    let saves: [(&[u16], bool); 4] = [
        (&[96, 96, 64], true),
        (&[128, 1], true),
        (&[128, 64, 64], false),
        (&[], false),
    ];
    for (sectors, made) in saves {
        let mut volume = clean(40);
        save(&mut volume, sectors);
        let roots = volume.list().head().roots;
        assert_eq!(roots.lru, made, "{sectors:?}");
    }
}

/// The generations that a volume tells of its first 700 buckets.
fn generations_of(volume: &Volume) -> Vec<u8> {
    let buckets: Vec<Bucket> = (0..700).map(Bucket).collect();
    let found = volume.generations(&buckets).expect("they ascend");
    found.generations
}

/// A save gives each piece the generation that the volume tells of its bucket, and each emptying of a
/// bucket adds one, over several records.
#[test]
fn generations() {
    let mut volume = clean(700);
    let mut due = vec![0; 700];
    let at = |piece: &Live| piece.bucket(128).expect("a bucket").0 as usize;
    for round in 0..5 {
        assert_eq!(generations_of(&volume), due);
        let saved = save(&mut volume, &[128; 200]);
        assert!(saved.iter().all(|piece| piece.generation == due[at(piece)]));
        assert_eq!(generations_of(&volume), due);
        let deleted: Vec<Live> = saved.into_iter().skip(round % 2).step_by(2).collect();
        volume.delete(&deleted).expect("live pieces");
        deleted.iter().for_each(|piece| due[at(piece)] += 1);
        assert_eq!(generations_of(&volume), due);
        assert_eq!(volume.discard().expect("they wait").len(), 100);
    }
    assert!(due.contains(&3) && due[256..].contains(&1));
    let alloc = |bucket: Bucket| volume.list().alloc(bucket)?.generation();
    let told = (0..700).map(|bucket| alloc(Bucket(bucket)).unwrap_or(0));
    assert!(told.eq(due));
}

/// The records up to the one past the last bucket's are visited; no buckets visit none, and buckets that
/// do not ascend, are too many or too high are refused.
#[test]
fn visited_records() {
    let mut volume = clean(700);
    let saved = save(&mut volume, &[128; 600]);
    volume.delete(&saved).expect("live pieces");
    let visited = |buckets: &[u32]| {
        let buckets: Vec<Bucket> = buckets.iter().copied().map(Bucket).collect();
        volume.generations(&buckets).map(|found| found.visited)
    };
    let told = [&[][..], &[255], &[0, 256], &[512], &[65_535]].map(visited);
    assert_eq!(told, [0, 2, 3, 3, 3].map(Ok));
    let many: Vec<u32> = (0..1_025).collect();
    for (buckets, refusal) in [
        (&[5, 5][..], Refusal::BrokenLayout),
        (&[6, 5], Refusal::BrokenLayout),
        (&[65_536], Refusal::LimitPassed),
        (&many, Refusal::LimitPassed),
    ] {
        assert_eq!(visited(buckets), Err(Error::Refused(refusal)));
    }
}

/// Each applied step has the next journal number; a refused one leaves it.
#[test]
fn journal_numbers() {
    let mut volume = clean(40);
    assert_eq!(volume.journal(), 1);
    let saved = save(&mut volume, &[128]);
    let word = |volume: &Volume, at: usize| {
        let alloc = volume.list().alloc(Bucket(0)).expect("its alloc key");
        u64::from_le_bytes(alloc.value[at..at + 8].try_into().expect("a word"))
    };
    assert_eq!((word(&volume, 0), volume.journal()), (1, 2));
    let again = [saved[0], saved[0]];
    assert_eq!(volume.delete(&again), Err(Error::NamedTwice(saved[0])));
    assert_eq!(volume.journal(), 2);
    volume.set_journal(u64::MAX);
    volume.delete(&saved).expect("a live piece");
    assert_eq!((word(&volume, 48), volume.journal()), (u64::MAX, 0));
    assert_eq!(volume.discard(), Ok(vec![Bucket(0)]));
    assert_eq!(volume.journal(), 1);
}

/// Options that are taken.
const OPTIONS: Options = Options {
    block_sectors: 8,
    checksum_option: 3,
    journal_reserve: 8,
    batch: 1,
};

/// Options with one that is refused, and the refusal.
fn bad_options() -> [(Options, Refusal); 4] {
    let with = |change: fn(&mut Options)| {
        let mut options = OPTIONS;
        change(&mut options);
        options
    };
    [
        (
            with(|o| o.checksum_option = 4),
            Refusal::UnknownChecksumOption,
        ),
        (with(|o| o.block_sectors = 3), Refusal::BlockDoesNotDivide),
        (with(|o| o.journal_reserve = 65_537), Refusal::LimitPassed),
        (with(|o| o.batch = 0), Refusal::NoBatch),
    ]
}

/// Options are judged as the calls test, and stay where they are refused.
#[test]
fn options() {
    let mut volume = clean(40);
    volume.set_options(OPTIONS).expect("good options");
    assert_eq!(volume.options(), OPTIONS);
    for (options, refusal) in bad_options() {
        let due = Error::Refused(refusal);
        refused(&mut volume, due, |volume| volume.set_options(options));
        let format = Format {
            options,
            ..Format::new(128, 40)
        };
        let made = Volume::format(&format).map(|_| ());
        assert_eq!(made, Err(due));
    }
    // The reserve and the 32 buckets leave no room.
    let due = Error::Refused(Refusal::TooFewFreeBuckets);
    let piece = Piece::plain(8, 7);
    refused(&mut volume, due, |volume| {
        volume.save(1, FileSector(0), &[piece])
    });
}

/// The change list of a step is what the raw call gives on the same list, and the next volume what
/// apply makes of it.
#[test]
fn same_as_the_raw_calls() {
    let mut volume = clean(40);
    let mut list = CallList::read(volume.bytes()).expect("a volume");
    list.head.call = Call::Place;
    list.head.inode = 4_096;
    list.pieces = vec![Piece::plain(96, 7), Piece::plain(64, 7)];
    save(&mut volume, &[96, 64]);
    let mut out = vec![0; limits::MAX_PLACE_CHANGE];
    let length = place(&list.to_bytes(), &mut out).expect("room");
    assert_eq!(volume.change(), &out[..length]);
    let mut next = vec![0; limits::MAX_VOLUME];
    let length = apply(&list.volume().to_bytes(), volume.change(), &mut next);
    let mut next = CallList::read(&next[..length.expect("a next volume")]).expect("a volume");
    next.head.journal += 1;
    assert_eq!(volume.bytes(), next.to_bytes());
}

/// How many random steps are made in all.
const STEPS: u64 = 100_000;

/// 100,000 steps of saves and deletions in all, wrong deletions among them, on fresh volumes as
/// they wear out. After each step the sectors that live pieces occupy are counted by the test
/// itself, and the live pieces that the volume's bytes tell are those of the test.
#[test]
fn random_steps() {
    let (mut steps, mut volumes) = (0, 0);
    let mut met = BTreeSet::new();
    while steps < STEPS {
        let mut ledger = Ledger::new(volumes);
        let mut rng = Rng::new(volumes);
        while steps < STEPS && !ledger.is_worn_out() {
            let made = ledger.step(&mut rng);
            met.insert(made.unwrap_or_else(|why| panic!("volume {volumes}, step {steps}: {why}")));
            steps += 1;
        }
        volumes += 1;
    }
    println!("{steps} steps on {volumes} volumes: {met:?}");
    assert!(volumes > 10, "volumes wear out");
    let due = [
        "deleted",
        "discarded",
        "no room",
        "not live",
        "named twice",
        "opened",
        "options",
        "saved",
    ];
    assert!(met.into_iter().eq(BTreeSet::from(due)));
}
