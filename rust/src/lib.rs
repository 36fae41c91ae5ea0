//! Zerglaz: a verified bucket allocator for bcachefs volumes.
//!
//! A [`Volume`] saves pieces of files, deletes them, and discards the buckets that were emptied, so
//! that they can be used again:
//!
//! ```
//! use zerglaz::{Bucket, Error, FileSector, Format, Piece, Volume};
//!
//! fn main() -> Result<(), Error> {
//!     // A clean volume: 400 free buckets of 128 sectors.
//!     let mut volume = Volume::format(&Format::new(128, 400))?;
//!
//!     // Two pictures are saved, as files 4,096 and 4,097; the first is stored in two pieces.
//!     let pieces = [Piece::plain(96, 0x1234), Piece::plain(24, 0x5678)];
//!     let one = volume.save(4_096, FileSector(0), &pieces)?;
//!     let two = volume.save(4_097, FileSector(0), &[Piece::plain(64, 0x9abc)])?;
//!     for piece in one.iter().chain(&two) {
//!         // Here the program writes the piece's data to the device, from this sector on.
//!         println!("{} sectors from sector {} on", piece.sectors, piece.first.0);
//!     }
//!     assert_eq!(volume.usage().in_use, 2);
//!
//!     // The first one is deleted. Its bucket is empty, and waits for its discard.
//!     volume.delete(&one)?;
//!     assert_eq!(volume.usage().waiting, 1);
//!
//!     // To delete it again is an error, and changes nothing.
//!     assert_eq!(volume.delete(&one), Err(Error::NotLive(one[0])));
//!
//!     // The discard frees the bucket, and another picture gets it, in its next generation.
//!     assert_eq!(volume.discard()?, [Bucket(0)]);
//!     assert_eq!(volume.generations(&[Bucket(0)])?.generations, [1]);
//!     let three = volume.save(4_098, FileSector(0), &[Piece::plain(128, 0xdef0)])?;
//!     assert_eq!((three[0].bucket(128), three[0].generation), (Some(Bucket(0)), 1));
//!
//!     // The volume is kept as bytes, and opened again from them.
//!     let bytes = volume.into_bytes();
//!     let volume = Volume::open(&bytes)?;
//!     assert_eq!(volume.live_of(4_097), two);
//!     assert_eq!(volume.live().count(), 2);
//!     Ok(())
//! }
//! ```
//!
//! # What is proved
//!
//! Behind a `Volume` stand five calls on slices of bytes: [`place`], [`release`], [`discard`],
//! [`apply`] and [`generations`]. Beside them [`sort`] writes the one sorted form of a list, whose
//! fields may stand in any order. Each has one outcome over any bytes, and its code is proved to have
//! it. Accepted, it gives the answer's length, and generations how many keys it visited; the answer
//! stands at the start of the output and the rest of the output is as it was. Refused, it gives the
//! first [`Refusal`] whose test fails, and all of the output is as it was.
//!
//! In every history of these calls that keeps the duties below, of calls in any order, accepted or
//! refused, no sector is occupied by two live pieces, each live piece lies inside its bucket and
//! carries its generation, each dirty count is the sum of its live pieces' sectors, and each bucket
//! that the clean volume offers is in exactly one of free, in use, waiting: the theorem `demand3`
//! (docs/CLAIMS.md).
//!
//! # The caller's duties
//!
//! A history is a list of place, release and discard calls; each reads the volume last reached, of
//! which nothing but field 1, requests and the order of fields has changed. A piece is live from its
//! applied placement to the applied release that names it by first sector and length.
//!
//! 1. The history starts from a clean volume.
//! 2. A release names pieces that are live, none twice.
//! 3. An accepted change is applied whole before the next call, and data is written only to places
//!    whose change is applied.
//! 4. A refused apply drops its change.
//! 5. Bucket sectors stay.
//!
//! No call tests whether they are kept, and nothing is claimed of a history that breaks one. A
//! second release of a piece, for one, is accepted where other pieces hold enough sectors in its
//! bucket; the bucket can then be emptied and given to other data while a piece lies in it. In which
//! order the fields of a list stand is no part of a history.
//!
//! A [`Volume`] keeps these duties for its caller, but for what cannot be known from bytes: its
//! documentation says which part stays. It is plain Rust over the calls, tested and not proved.
//!
//! Outside all of this: what the device does with the data, power failures, the program's own
//! records of which pieces make a file, buckets that hold metadata or cached data, and the
//! compilers.
//!
//! # Limits
//!
//! [`limits`] has them as constants, with the longest volume and the longest change list of each
//! call, so that outputs can be sized once. A volume holds at most 4,096 live pieces, and at most
//! 4,096 of its buckets are ever used. A save has at most 1,024 pieces, each of at most 128 sectors
//! and one bucket, and leaves 32 buckets free, and the journal reserve. The generations of at most
//! 1,024 buckets are asked for at once.
//!
//! A bucket wears: a discard takes generations below 16, and each emptying adds one, so that a
//! bucket that was emptied sixteen times is not used again. It counts as [retired](Usage::retired).
//!
//! A call takes at most 512 KiB of stack, which is tested and not proved, and allocates nothing; the
//! bytes that [`generations`] gives are allocated for it.
//!
//! # The raw calls
//!
//! A call reads a call list: a volume, and for a placement or a release its requests. The list's
//! fields may stand in any order, as those of joined exports do; [`sort`] writes its sorted form. The
//! call writes a change list, which [`apply`] carries over into the next volume. [`generations`] reads
//! a volume, as apply does, and tells the generations of buckets. [`CallList`] and [`ChangeList`] build
//! the lists; [`CallListRef`] and [`ChangeListRef`] read them where they stand, without copying keys.
//! They are plain Rust, without proof: a list that they get wrong is refused by the calls or says
//! something else, and breaks no call's promise. docs/FORMAT.md has the format.
//!
//! ```
//! use zerglaz::{apply, generations, limits, place};
//! use zerglaz::{Bucket, Call, CallListRef, ChangeListRef, Format, Piece};
//!
//! # fn main() -> Result<(), zerglaz::Error> {
//! // The list: a clean volume, and a piece of 96 sectors to place.
//! let mut list = Format::new(128, 40).to_list()?.asking(Call::Place);
//! list.pieces.push(Piece::plain(96, 0x1234));
//! let list = list.to_bytes();
//!
//! // The call's answer is a change list.
//! let mut change = vec![0; limits::MAX_PLACE_CHANGE];
//! let length = place(&list, &mut change)?;
//! let change = &change[..length];
//! let placed = ChangeListRef::read(change)?.placed().next().expect("a piece");
//! assert_eq!((placed.bucket, placed.generation), (Bucket(0), 0));
//!
//! // Apply takes the list without its requests, and writes the next volume.
//! let mut next = vec![0; limits::MAX_VOLUME];
//! let length = apply(CallListRef::read(&list)?.volume(), change, &mut next)?;
//! let volume = CallListRef::read(&next[..length])?;
//! let alloc = volume.alloc(Bucket(0)).expect("an alloc key");
//! assert_eq!((alloc.data_type(), alloc.dirty_sectors()), (Some(4), Some(96)));
//!
//! // No bucket of this volume was ever emptied: there is no record, and no key is visited.
//! let found = generations(volume.volume(), &[Bucket(0), Bucket(39)])?;
//! assert_eq!((found.generations, found.visited), (vec![0, 0], 0));
//! # Ok(())
//! # }
//! ```
//!
//! # Platform
//!
//! The calls are in an archive, libzerglaz.a, of x86-64 code; the crate is built for no other
//! target, and only x86-64 Linux was tried. The build looks for the archive in the folder that
//! `ZERGLAZ_LIB_DIR` names, or else in target/staticlib of the repository, where
//! `tools/build zerglaz` writes it.
#![deny(unsafe_code, unsafe_op_in_unsafe_fn)]
#![warn(missing_docs)]

#[cfg(not(target_arch = "x86_64"))]
compile_error!("libzerglaz.a is x86-64 code, so zerglaz can be built for no other target");

mod alloc_value;
mod buckets;
mod buffer;
mod call_list;
mod call_list_ref;
mod calls;
mod change_list;
mod change_list_ref;
mod error;
mod fault;
#[allow(unsafe_code)]
pub mod ffi;
mod fields;
mod format;
mod head;
mod key;
mod key_ref;
mod kinds;
pub mod limits;
mod live;
mod refusal;
mod request;
mod usage;
mod volume;

pub use buckets::{Alloc, Buckets, State, Status};
pub use call_list::CallList;
pub use call_list_ref::CallListRef;
pub use calls::{apply, discard, generations, place, release, sort, Generations, SUMS};
pub use change_list::{Batch, ChangeList, Counters, Placed, Root, Row};
pub use change_list_ref::{ChangeField, ChangeListRef};
pub use error::Error;
pub use fault::Fault;
pub use fields::BrokenLayout;
pub use format::{Format, Options};
pub use head::{Call, Head, Roots};
pub use key::{key_type, Key, Position, Tree};
pub use key_ref::{KeyRef, Keys};
pub use kinds::{Bucket, DeviceSector, FileSector};
pub use live::Live;
pub use refusal::Refusal;
pub use request::{Piece, Released};
pub use usage::Usage;
pub use volume::Volume;

/// The crate's version, which is the header's and the archive's.
pub const VERSION: &str = env!("CARGO_PKG_VERSION");
