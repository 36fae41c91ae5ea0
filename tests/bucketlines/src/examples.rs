//! The examples: a small volume from its first piece to a bucket that is used again, two calls that
//! are refused, a second release that is not, and a list whose fields stand in another order, and twice.

use crate::due::{answer, OUTPUT};
use lists::fields::{self, split};
use zerglaz::{Bucket, Call, CallList, DeviceSector, Head, Piece, Released};

/// An example: the name of its file, a title and the list.
pub struct Example {
    pub name: &'static str,
    pub title: &'static str,
    pub list: Vec<u8>,
}

/// All of them, in order.
pub fn examples() -> Vec<Example> {
    let placed = placing(&clean(), &[96, 64]);
    let released = releasing_the_first(&after(&placed), 96);
    let discarded = after(&released).asking(Call::Discard);
    let placed_again = placing(&after(&discarded), &[96]);
    let released_twice = releasing_the_first(&after(&released), 96);
    let too_many = placing(&clean(), &[128; 9]);
    vec![
        Example {
            name: "1-place",
            title: "a photograph's two pieces, of 96 and 64 sectors, go to a clean volume of 40 free buckets of 128 sectors",
            list: placed.to_bytes(),
        },
        Example {
            name: "2-release",
            title: "the piece of 96 sectors is deleted: its bucket holds nothing more and waits for its discard",
            list: released.to_bytes(),
        },
        Example {
            name: "3-discard",
            title: "what waits is discarded: the bucket is free again",
            list: discarded.to_bytes(),
        },
        Example {
            name: "4-place-again",
            title: "another piece of 96 sectors gets that bucket, in its next generation",
            list: placed_again.to_bytes(),
        },
        Example {
            name: "5-release-twice",
            title: "right after example 2 its piece is deleted once more: refused, since nothing else holds sectors in that bucket",
            list: released_twice.to_bytes(),
        },
        Example {
            name: "6-place-too-much",
            title: "nine pieces of 128 sectors for the clean volume: 9 buckets and 32 kept back are more than 40",
            list: too_many.to_bytes(),
        },
        Example {
            name: "7-release-twice-accepted",
            title: "of a bucket's two pieces of 64 sectors the first is deleted a second time: accepted, since the other's sectors are there; the bucket counts as empty while the other lies in it",
            list: released_again().to_bytes(),
        },
        Example {
            name: "8-place-in-any-order",
            title: "the fields of example 1 in another order, its pieces in their own: the same answer",
            list: in_another_order(&placed),
        },
        Example {
            name: "9-place-joined",
            title: "two exports of the clean volume joined, both with its run of free buckets: refused",
            list: joined(&placed),
        },
    ]
}

/// The fields of a placement of two pieces on one run, from the last to the first but for the pieces.
fn in_another_order(list: &CallList) -> Vec<u8> {
    let list = list.to_bytes();
    let fields = split(&list).expect("whole fields");
    let [head, run, first, second] = fields[..] else {
        panic!("a head, a run and two pieces");
    };
    fields::joined([first, run, second, head])
}

/// A placement of two pieces on one run, which stands twice.
fn joined(list: &CallList) -> Vec<u8> {
    let list = list.to_bytes();
    let fields = split(&list).expect("whole fields");
    let run = fields[1];
    fields::joined(fields.into_iter().chain([run]))
}

/// Two pieces of 64 sectors share a bucket, and the first is released twice. The second release is
/// accepted, though no such piece is live.
fn released_again() -> CallList {
    let placed = placing(&clean(), &[64, 64]);
    let released = releasing_the_first(&after(&placed), 64);
    releasing_the_first(&after(&released), 64)
}

/// What follows: the bucket is discarded, and a piece of 96 sectors is placed.
pub fn placed_over_another() -> CallList {
    let discarded = after(&released_again()).asking(Call::Discard);
    placing(&after(&discarded), &[96])
}

/// A clean volume: 40 free buckets of 128 sectors.
fn clean() -> CallList {
    let mut volume = CallList::new(Head {
        bucket_sectors: 128,
        block_sectors: 8,
        checksum_option: 1,
        batch: 100,
        journal: 7,
        inode: 4_096,
        ..Head::default()
    });
    volume.insert_run(Bucket(0)..Bucket(40));
    volume
}

/// A list that places plain pieces of these sectors.
fn placing(volume: &CallList, sectors: &[u16]) -> CallList {
    let mut list = volume.asking(Call::Place);
    for &n in sectors {
        list.pieces.push(Piece::plain(n, 0x1234_5678));
    }
    list
}

/// A list that releases the piece of these sectors at the device's first sector.
fn releasing_the_first(volume: &CallList, sectors: u16) -> CallList {
    let mut list = volume.asking(Call::Release);
    list.released.push(Released {
        first: DeviceSector(0),
        sectors,
    });
    list
}

/// The volume that a list's answer leads to, one journal number on.
fn after(list: &CallList) -> CallList {
    let change = answer(&list.to_bytes());
    let mut out = vec![0; OUTPUT];
    let length = zerglaz::apply(&list.volume().to_bytes(), &change, &mut out);
    let length = length.expect("an answer applies to its volume");
    let mut next = CallList::read(&out[..length]).expect("apply writes a volume");
    next.head.journal += 1;
    next
}
