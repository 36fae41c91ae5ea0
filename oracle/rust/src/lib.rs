//! The Rust's own functions over call lists: a list goes in, the change list comes out as
//! docs/FORMAT.md, "Change list", orders it, or the Rust's refusal; a volume and buckets go in, their
//! generations come out. A list in another order is given to them in order, since the Rust reads its trees
//! so.

// The taken text is whole items, of which not every constant or field is read here.
#![allow(dead_code)]

mod device;
mod error;

/// Stands in for the Rust's checksums: the checksum given with the piece.
mod csum {
    /// The checksum of what is stored.
    pub fn compute(_csum_type: u8, stored: &crate::device::Stored) -> crate::error::Result<u64> {
        Ok(stored.checksum)
    }
}

mod util {
    include!(concat!(env!("OUT_DIR"), "/util.rs"));
}

mod bkey {
    include!(concat!(env!("OUT_DIR"), "/bkey.rs"));
}

mod extent {
    include!(concat!(env!("OUT_DIR"), "/extent.rs"));
}

mod write {
    include!(concat!(env!("OUT_DIR"), "/write.rs"));
}

pub mod chart;
pub mod compare;
pub mod generations;

use device::{Notes, Stored};
use extent::{DataExtent, Ptr};
use lists::call_list::{CallList, PLACE, RELEASE};
use lists::change_list::{self, Batch};
use std::cell::Cell;
use write::{Piece, Writer};

/// The lines of the Rust text that were taken, a range a line.
pub const TAKEN: &str = include_str!(concat!(env!("OUT_DIR"), "/taken.txt"));

/// What the Rust's function does with a call list.
#[derive(Debug, Clone, PartialEq, Eq)]
pub enum Outcome {
    /// The change list.
    Accepted(Vec<u8>),
    /// The text of its error.
    Refused(String),
    /// It panicked.
    Panicked,
    /// The list breaks its layout, or a position or a reserved bucket stands twice in it, which no tree
    /// and no set of the Rust can hold: there is nothing to run.
    Unreadable,
}

/// Run the Rust's function for the list's call byte.
pub fn run(list: &[u8]) -> Outcome {
    let Some(mut ready) = Ready::read(list) else {
        return Outcome::Unreadable;
    };
    RUNNING.set(true);
    let caught = std::panic::catch_unwind(std::panic::AssertUnwindSafe(|| ready.call()));
    RUNNING.set(false);
    match caught {
        Ok(Ok(batches)) => Outcome::Accepted(change_list::bytes(&batches)),
        Ok(Err(e)) => Outcome::Refused(e.text()),
        Err(_) => Outcome::Panicked,
    }
}

thread_local! {
    /// Whether the Rust's function is running.
    static RUNNING: Cell<bool> = const { Cell::new(false) };
}

/// Keep the Rust's panics from printing, since they are answers here; others print.
pub fn quiet_panics() {
    let print = std::panic::take_hook();
    std::panic::set_hook(Box::new(move |info| {
        if !RUNNING.get() {
            print(info);
        }
    }));
}

/// A call list that is read into the Rust's writer, whose function has not run yet.
pub struct Ready {
    list: CallList,
    writer: Writer<Notes>,
}

impl Ready {
    /// Read a call list, its keys in order, or none where it breaks its layout or something stands twice.
    pub fn read(list: &[u8]) -> Option<Ready> {
        let list = CallList::read(list).filter(|l| !l.stands_twice())?;
        let writer = Writer::new(Notes::default(), &list);
        Some(Ready { list, writer })
    }

    /// The batches that the Rust's function makes, or none where it refuses; no bytes are written.
    pub fn batches(&mut self) -> Option<Vec<Batch>> {
        self.call().ok()
    }

    /// The generations of buckets, each as the Rust's `bucket_gen` gives it by itself.
    pub fn generations(&self, buckets: &[u32]) -> Result<Vec<u8>, String> {
        self.writer.generations(buckets).map_err(error::Error::text)
    }

    /// Run the Rust's function: the batches of one call.
    fn call(&mut self) -> error::Result<Vec<Batch>> {
        let (list, writer) = (&self.list, &mut self.writer);
        let head = &list.head;
        match head.call {
            PLACE => {
                let opts = (u64::from(head.checksum), compression_option(list));
                writer.place(head.inode, opts, head.base, pieces(list))
            }
            RELEASE => writer.release(&released(list)),
            _ => writer.discard(),
        }
    }
}

/// The compression option for the list's kinds: that of a kind which is not listed, which no
/// option gives, else that of the first kind other than 0, else none.
fn compression_option(list: &CallList) -> u64 {
    let options: Vec<u64> = list.places.iter().map(|p| option_of(p.kind)).collect();
    let unknown = options.iter().find(|&&o| o > 3);
    let any = options.iter().find(|&&o| o != 0);
    *unknown.or(any).unwrap_or(&0)
}

/// The option that gives a kind: `allocate_data`'s own table, read backwards.
fn option_of(kind: u8) -> u64 {
    use extent::compression::{GZIP, INCOMPRESSIBLE, LZ4, NONE, ZSTD};
    match kind {
        NONE => 0,
        LZ4 | INCOMPRESSIBLE => 1,
        GZIP => 2,
        ZSTD => 3,
        other => 256 + u64::from(other),
    }
}

/// The pieces of a placement, each at the file sector where the last ended.
fn pieces(list: &CallList) -> Vec<Piece> {
    let mut at = 0;
    let mut pieces = Vec::new();
    for p in &list.places {
        pieces.push(Piece {
            file_sector: at,
            sectors: u64::from(p.file),
            stored: Stored {
                sectors: u64::from(p.stored),
                checksum: p.checksum,
            },
            stored_sectors: u64::from(p.stored),
            compression: p.kind,
        });
        at += u64::from(p.file);
    }
    pieces
}

/// The extents of a release: a pointer and a length, no crc entry.
fn released(list: &CallList) -> Vec<DataExtent> {
    list.releases
        .iter()
        .map(|r| DataExtent {
            file_start: 0,
            len: u64::from(r.sectors),
            ptr: Ptr {
                dev: 0,
                offset: r.sector,
                gen: 0,
                flags: 0,
            },
            crc: None,
            skip: 0,
        })
        .collect()
}
