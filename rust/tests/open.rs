//! Volumes that `Volume::open` takes, and each fault by which it refuses one.

use lists::order::{doubled, shuffled};
use lists::rng::Rng;
use zerglaz::{
    key_type, Bucket, CallList, CallListRef, DeviceSector, Error, Fault, FileSector, Format, Key,
    Live, Piece, Position, Refusal, Tree, Volume,
};

/// A volume of 60 buckets of 128 sectors: bucket 0 waits, bucket 1 was discarded, bucket 2 holds a
/// piece of 100 sectors, bucket 3 pieces of 50 and 20, and the others were never used.
fn volume() -> Volume {
    let mut volume = Volume::format(&Format::new(128, 60)).expect("a clean volume");
    let pieces = [128, 128, 100, 50, 20].map(|n| Piece::plain(n, 7));
    let saved = volume.save(9, FileSector(0), &pieces).expect("room");
    volume.delete(&saved[1..2]).expect("a live piece");
    assert_eq!(volume.discard(), Ok(vec![Bucket(1)]));
    volume.delete(&saved[..1]).expect("a live piece");
    volume
}

/// A piece of the first generation.
fn piece(first: u64, sectors: u16) -> Live {
    Live {
        first: DeviceSector(first),
        sectors,
        generation: 0,
    }
}

/// What becomes of opening the volume with a change.
fn opened(change: impl FnOnce(&mut CallList)) -> Result<(), Error> {
    let mut list = CallList::read(volume().bytes()).expect("a volume");
    change(&mut list);
    Volume::open(&list.to_bytes()).map(|_| ())
}

/// Opening the volume with a change meets this fault.
fn faulty(fault: Fault, change: impl FnOnce(&mut CallList)) {
    assert_eq!(opened(change), Err(Error::NotReached(fault)));
}

/// Change a key, which is there.
fn change_key(list: &mut CallList, tree: Tree, position: Position, change: impl FnOnce(&mut Key)) {
    let mut key = list.remove(tree, position).expect("the key");
    change(&mut key);
    list.insert(tree, key);
}

/// Change a bucket's alloc key.
fn change_alloc(list: &mut CallList, bucket: u32, change: impl FnOnce(&mut Key)) {
    change_key(
        list,
        Tree::Alloc,
        Position::of_alloc(Bucket(bucket)),
        change,
    );
}

/// Change a piece's backpointer.
fn change_piece(list: &mut CallList, first: u64, change: impl FnOnce(&mut Key)) {
    let position = Position::of_backpointer(DeviceSector(first));
    change_key(list, Tree::Backpointers, position, change);
}

/// Bytes that a volume gave are opened, and stay as they are.
#[test]
fn reached() {
    let bytes = volume().into_bytes();
    let opened = Volume::open(&bytes).expect("a volume that was reached");
    assert_eq!(opened.bytes(), bytes);
    let usage = opened.usage();
    assert_eq!((usage.free, usage.in_use, usage.waiting), (57, 2, 1));
    assert!(opened
        .live()
        .eq([piece(256, 100), piece(384, 50), piece(434, 20)]));
    let clean = Format::new(128, 60).to_list().expect("a clean volume");
    assert!(Volume::open(&clean.to_bytes()).is_ok());
    assert_eq!(opened_with_other_heads(), Ok(()));
}

/// The fields of a volume in any order open the same volume, and its bytes are in order.
#[test]
fn any_order() {
    let bytes = volume().into_bytes();
    for seed in 0..40 {
        let other = shuffled(&mut Rng::new(seed), &bytes);
        let opened = Volume::open(&other).expect("a volume that was reached");
        assert_eq!(opened.bytes(), bytes);
        let list = CallListRef::read(&other).expect("a volume");
        assert_eq!(list.check(), Ok(()));
        assert_eq!(
            (list.usage(), list.buckets()),
            (opened.usage(), opened.buckets())
        );
        assert!(list.live().eq(opened.live()));
    }
}

/// What may change between steps may change between openings.
fn opened_with_other_heads() -> Result<(), Error> {
    opened(|list| {
        list.head.journal = u64::MAX;
        list.head.checksum_option = 0;
        list.head.roots = zerglaz::Roots::default();
        list.head.inode = 77;
    })
}

/// Layout, limits and bucket sectors.
#[test]
fn refused() {
    let refused = |refusal| Err(Error::Refused(refusal));
    let open = |bytes: &[u8]| Volume::open(bytes).map(|_| ());
    let bytes = volume().into_bytes();
    assert_eq!(open(&[]), refused(Refusal::BrokenLayout));
    assert_eq!(
        open(&bytes[..bytes.len() - 1]),
        refused(Refusal::BrokenLayout)
    );
    let request = opened(|list| list.pieces.push(Piece::plain(1, 1)));
    assert_eq!(request, refused(Refusal::BrokenLayout));
    let far = opened(|list| list.insert_run(Bucket(65_000)..Bucket(65_537)));
    assert_eq!(far, refused(Refusal::LimitPassed));
    let none = opened(|list| list.head.bucket_sectors = 0);
    assert_eq!(none, refused(Refusal::NoBucketSectors));
    for seed in 0..40 {
        let twice = doubled(&mut Rng::new(seed), &bytes);
        assert_eq!(open(&twice), refused(Refusal::StandsTwice));
        let read = CallListRef::read(&twice).map(|_| ());
        assert_eq!(read, Err(Refusal::StandsTwice));
    }
}

/// Freespace keys.
#[test]
fn runs() {
    let end = |end| Position::of_run(Bucket(end));
    faulty(Fault::EmptyRun(Bucket(61)), |list| {
        list.insert_run(Bucket(61)..Bucket(61));
    });
    faulty(Fault::RunsOverlap(Bucket(59)), |list| {
        list.insert_run(Bucket(59)..Bucket(70));
    });
    faulty(Fault::StrangeKey(Tree::Freespace, end(2)), |list| {
        change_key(list, Tree::Freespace, end(2), |key| key.size = 3);
    });
    let elsewhere = Position::new(1, 70);
    faulty(Fault::StrangeKey(Tree::Freespace, elsewhere), |list| {
        list.insert(Tree::Freespace, Key::new(key_type::SET, elsewhere));
    });
}

/// Backpointers.
#[test]
fn pieces() {
    let long = piece(384, 150);
    faulty(Fault::PieceOutside(long), |list| {
        change_piece(list, 384, |key| key.value[8] = 150);
    });
    let past_the_end = piece(434, 80);
    faulty(Fault::PieceOutside(past_the_end), |list| {
        change_piece(list, 434, |key| key.value[8] = 80);
    });
    faulty(Fault::PieceOutside(piece(434, 0)), |list| {
        change_piece(list, 434, |key| key.value[8] = 0);
    });
    let overlap = Fault::PiecesOverlap(piece(384, 51), piece(434, 20));
    faulty(overlap, |list| {
        change_piece(list, 384, |key| key.value[8] = 51);
    });
    let at = Position::new(0, 7);
    faulty(Fault::StrangeKey(Tree::Backpointers, at), |list| {
        list.insert(Tree::Backpointers, Key::new(key_type::BACKPOINTER, at));
    });
}

/// Sums and generations.
#[test]
fn sums_and_generations() {
    faulty(Fault::WrongSum(Bucket(3)), |list| {
        change_alloc(list, 3, |key| key.value[16] = 71);
    });
    faulty(Fault::WrongSum(Bucket(3)), |list| {
        list.remove(
            Tree::Backpointers,
            Position::of_backpointer(DeviceSector(434)),
        );
    });
    faulty(Fault::WrongGeneration(Bucket(3)), |list| {
        change_alloc(list, 3, |key| key.value[12] = 1);
    });
    faulty(Fault::WrongGeneration(Bucket(3)), |list| {
        change_piece(list, 434, |key| key.value[3] = 1);
    });
    let record = Position::of_generations(Bucket(0));
    faulty(Fault::WrongGeneration(Bucket(1)), |list| {
        change_key(list, Tree::BucketGens, record, |key| key.value[1] = 0);
    });
    faulty(Fault::WrongGeneration(Bucket(0)), |list| {
        list.remove(Tree::BucketGens, record);
    });
    faulty(Fault::StrangeKey(Tree::BucketGens, record), |list| {
        change_key(list, Tree::BucketGens, record, |key| {
            key.value.truncate(255)
        });
    });
}

/// What is said of a bucket does not fit one state.
#[test]
fn states() {
    let wrong = |bucket| Fault::WrongState(Bucket(bucket));
    let waits = Position::of_need_discard(4, Bucket(0));
    faulty(wrong(3), |list| assert!(list.unreserve(Bucket(3))));
    faulty(wrong(3), |list| list.insert_run(Bucket(3)..Bucket(4)));
    faulty(wrong(3), |list| {
        let named = Position::of_need_discard(4, Bucket(3));
        list.insert(Tree::NeedDiscard, Key::new(key_type::SET, named));
    });
    faulty(wrong(3), |list| {
        change_alloc(list, 3, |key| key.value[14] = 9)
    });
    faulty(wrong(0), |list| {
        list.remove(Tree::NeedDiscard, waits).expect("the key");
    });
    faulty(wrong(0), |list| {
        let again = Position::of_need_discard(2, Bucket(0));
        list.insert(Tree::NeedDiscard, Key::new(key_type::SET, again));
    });
    faulty(wrong(0), |list| {
        change_alloc(list, 0, |key| key.value[14] = 4)
    });
    faulty(wrong(0), |list| list.insert_run(Bucket(0)..Bucket(1)));
    faulty(wrong(1), |list| assert!(list.reserve(Bucket(1))));
    faulty(wrong(50), |list| {
        let named = Position::of_need_discard(4, Bucket(50));
        list.insert(Tree::NeedDiscard, Key::new(key_type::SET, named));
    });
}

/// Alloc, LRU and need-discard keys that no step leaves.
#[test]
fn other_keys() {
    let at = Position::of_alloc(Bucket(3));
    faulty(Fault::StrangeKey(Tree::Alloc, at), |list| {
        change_alloc(list, 3, |key| key.value[14] = 3);
    });
    faulty(Fault::StrangeKey(Tree::Alloc, at), |list| {
        change_alloc(list, 3, |key| key.value.truncate(55));
    });
    let elsewhere = Position::new(1, 3);
    for tree in [Tree::Alloc, Tree::Lru, Tree::NeedDiscard, Tree::BucketGens] {
        faulty(Fault::StrangeKey(tree, elsewhere), |list| {
            list.insert(tree, Key::new(key_type::DELETED, elsewhere));
        });
    }
    let lru = Position::new((1 << 61) + (70 << 31) / 128, 3);
    faulty(Fault::WrongLru(Bucket(3)), |list| {
        list.remove(Tree::Lru, lru).expect("the key");
    });
    faulty(Fault::WrongLru(Bucket(3)), |list| {
        change_key(list, Tree::Lru, lru, |key| key.position.inode += 1);
    });
    let full = Position::new(1 << 61, 5);
    faulty(Fault::StrangeKey(Tree::Lru, full), |list| {
        list.insert(Tree::Lru, Key::new(key_type::SET, full));
    });
}

/// Save, delete and discard what can be, with the checks of an opening after each step.
fn use_up(volume: &mut Volume) -> Result<(), Fault> {
    for _ in 0..2 {
        while let Ok(saved) = volume.save(1, FileSector(0), &[Piece::plain(100, 7); 5]) {
            assert_eq!(saved.len(), 5);
            volume.list().check()?;
        }
        let live: Vec<Live> = volume.live().collect();
        volume.delete(&live).expect("live pieces");
        volume.list().check()?;
        volume.discard().expect("waiting buckets");
        volume.list().check()?;
    }
    Ok(())
}

/// With one bit changed the volume is refused, or it is used up without a fault: every seventh bit.
#[test]
fn changed_bits() {
    let bytes = volume().into_bytes();
    let (mut refused, mut used) = (0, 0);
    for bit in (0..bytes.len() * 8).step_by(7) {
        let mut changed = bytes.clone();
        changed[bit / 8] ^= 1 << (bit % 8);
        let Ok(mut volume) = Volume::open(&changed) else {
            refused += 1;
            continue;
        };
        // Options that place refuses are no fault.
        volume
            .set_options(zerglaz::Options::default())
            .expect("good options");
        use_up(&mut volume).unwrap_or_else(|fault| panic!("bit {bit}: {fault}"));
        used += 1;
    }
    println!("{refused} refused, {used} used");
    assert!(refused > 300 && used > 300);
}
