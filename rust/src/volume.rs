//! A volume that saves, deletes and discards.

use crate::buckets::Buckets;
use crate::buffer::Buffer;
use crate::call_list_ref::CallListRef;
use crate::calls::{apply, discard, generations, place, release, Generations, SUMS};
use crate::change_list_ref::ChangeListRef;
use crate::error::Error;
use crate::format::{Format, Options};
use crate::head::{Call, Head};
use crate::key::{Position, Tree};
use crate::key_ref::{KeyRef, Lookups};
use crate::kinds::{Bucket, FileSector};
use crate::limits::{
    HEAD_FIELD, MAX_CALL_LIST, MAX_CHANGE, MAX_REQUESTS, PIECE_FIELD, RELEASED_FIELD,
};
use crate::live::{extent_of, Live};
use crate::refusal::Refusal;
use crate::request::{Piece, Released};
use crate::usage::Usage;
use std::fmt;

/// A volume, with the memory that its steps need.
///
/// Each step is a call and its apply in one: [`save`](Volume::save), [`delete`](Volume::delete) and
/// [`discard`](Volume::discard) are refused whole or applied whole. After an error the volume's
/// bytes are as they were.
///
/// # What it keeps for the caller
///
/// The [caller's duties](crate#the-callers-duties) towards the calls are kept like this:
///
/// 1. [`Volume::format`] makes a clean volume and nothing else. [`Volume::open`] goes on with bytes
///    that a `Volume` gave; what it checks of them, and what it cannot, stands there.
/// 2. [`delete`](Volume::delete) names pieces that are live and none twice, or is refused by
///    [`Error::NotLive`] or [`Error::NamedTwice`] before any call is made. Live are the pieces that
///    the volume's own backpointers name: a placement writes one for each piece, and a release
///    deletes it.
/// 3. A step's change is applied whole before the step returns. To write data only to the places
///    that a save gave, and after it gave them, stays with the caller.
/// 4. Where apply refuses, the change is dropped: [`Error::Dropped`].
/// 5. Bucket sectors are chosen by [`Format`] and have no setter.
///
/// This layer is plain Rust over the proved calls. It is tested and not proved.
///
/// # Journal numbers
///
/// A step's changes carry the volume's journal number, and after each step that is applied, also
/// one that changes nothing else, the number is one higher; 2^64 − 1 is followed by 0. A program
/// with a journal of its own says by [`set_journal`](Volume::set_journal) which number comes next.
/// The claim asks nothing of these numbers.
///
/// # Memory and time
///
/// Two lists, a change list and the scratch are sized once by [`limits`](crate::limits), in all
/// about 17 MB, of which a small volume touches a part. A step costs the call and its apply, each
/// of which reads the volume's bytes. A thread that makes one needs 512 KiB of stack.
pub struct Volume {
    /// The volume; a call's requests stand after it while the call is made.
    list: Buffer,
    /// What apply writes.
    next: Buffer,
    /// The change list of the last step.
    change: Buffer,
    scratch: Box<[u32]>,
}

impl Volume {
    /// A clean volume.
    ///
    /// # Errors
    /// [`Error::NotReached`] where a run is empty or two share a bucket; [`Error::Refused`] where a
    /// limit is passed, bucket sectors are 0, or an option is one that the calls refuse.
    pub fn format(format: &Format) -> Result<Volume, Error> {
        let clean = format.to_list()?;
        let mut volume = Volume::open(&clean.to_bytes())?;
        volume.set_options(format.options)?;
        Ok(volume)
    }

    /// The volume in `bytes`, which a `Volume` gave by [`bytes`](Volume::bytes) or
    /// [`into_bytes`](Volume::into_bytes), or that is clean. Its fields may stand in any order: the
    /// volume that is opened is its sorted form.
    ///
    /// What is checked: the layout; that nothing stands twice; the limits; that bucket sectors are
    /// above 0; that runs have buckets and share none; that each live piece lies inside its bucket and
    /// has its generation, and no two overlap; that each dirty count is the sum of its live pieces'
    /// sectors; that each bucket with an alloc key is in exactly one of free, in use and waiting, and
    /// reserved where it is not free; that LRU keys and generation records are those of the buckets;
    /// and that no other key stands in any tree. Volumes that histories from clean volumes reach pass,
    /// which is tested. Journal numbers, clocks, flags and roots are not checked, and options are
    /// judged by the steps that use them.
    ///
    /// What cannot be checked, and stays with the caller: that the bytes are the last that the
    /// history reached and no older ones; that they are opened once, since two volumes of the same
    /// bytes are two histories on one device (a `Volume` cannot be cloned for the same reason); and
    /// that the device holds the data that was written. Of bytes that no history from a clean
    /// volume reached, and that pass the checks all the same, nothing is claimed.
    ///
    /// # Errors
    /// [`Error::Refused`] with the refusal of apply or [`Refusal::NoBucketSectors`];
    /// [`Error::NotReached`] with the first fault.
    pub fn open(bytes: &[u8]) -> Result<Volume, Error> {
        let mut list = Buffer::new(MAX_CALL_LIST);
        // Apply with no change tests all that a call tests of a volume, and writes its sorted form.
        list.answer(|out| apply(bytes, &[], out))?;
        let volume = Volume {
            list,
            next: Buffer::new(MAX_CALL_LIST),
            change: Buffer::new(MAX_CHANGE),
            scratch: vec![0; SUMS].into_boxed_slice(),
        };
        if volume.bucket_sectors() == 0 {
            return Err(Error::Refused(Refusal::NoBucketSectors));
        }
        volume.list().check()?;
        Ok(volume)
    }

    /// The volume's bytes: a call list without requests, in order.
    pub fn bytes(&self) -> &[u8] {
        self.list.list()
    }

    /// The volume's bytes, where no more steps are made.
    pub fn into_bytes(self) -> Vec<u8> {
        self.bytes().to_vec()
    }

    /// Saves pieces of file `inode`, which hold its data from file sector `base` on, and gives
    /// where each of them lies, in their order. The data is to be written there, and only there,
    /// once the save has returned.
    ///
    /// # Errors
    /// [`Error::Refused`] with refusals 3, 5 to 9 and 11 of a placement; [`Error::Dropped`] with
    /// [`Refusal::LimitPassed`] where the volume would have too many keys or reserved buckets.
    pub fn save(
        &mut self,
        inode: u64,
        base: FileSector,
        pieces: &[Piece],
    ) -> Result<Vec<Live>, Error> {
        self.change.clear();
        let mut requests = requests(pieces.len(), PIECE_FIELD)?;
        for piece in pieces {
            piece.put(&mut requests);
        }
        let head = Head {
            inode,
            base,
            ..self.asking(Call::Place)
        };
        self.step(head, &requests)?;
        let change = ChangeListRef::answer(self.change());
        Ok(change.placed().map(Live::from).collect())
    }

    /// Deletes live pieces. A bucket that holds none afterwards waits for its discard.
    ///
    /// # Errors
    /// [`Error::NotLive`] where a piece is not live, by its first sector, length and generation, and
    /// [`Error::NamedTwice`] where one is named twice, of several the one with the lowest first
    /// sector; [`Error::Refused`] with [`Refusal::LimitPassed`] for more than 1,024 pieces.
    pub fn delete(&mut self, pieces: &[Live]) -> Result<(), Error> {
        self.change.clear();
        let mut requests = requests(pieces.len(), RELEASED_FIELD)?;
        self.check_live(pieces)?;
        for piece in pieces {
            let released = Released {
                first: piece.first,
                sectors: piece.sectors,
            };
            released.put(&mut requests);
        }
        self.step(self.asking(Call::Release), &requests)
    }

    /// Discards the waiting buckets, which are free afterwards, and gives them. Those that have
    /// been emptied sixteen times go on waiting.
    ///
    /// # Errors
    /// [`Error::Dropped`] with [`Refusal::LimitPassed`] where the volume would have more than 4,096
    /// runs; saves that use up a run make room. [`Error::Refused`] with [`Refusal::NoBatch`] where
    /// the volume was opened with a batch of 0.
    pub fn discard(&mut self) -> Result<Vec<Bucket>, Error> {
        self.step(self.asking(Call::Discard), &[])?;
        let change = ChangeListRef::answer(self.change());
        Ok(change.unreserved().collect())
    }

    /// The change list of the last step, for the program's journal and for the extents and the
    /// accounting, which a volume does not hold. No bytes where that step was refused or had
    /// nothing to discard, and before the first step and after a choice of options.
    pub fn change(&self) -> &[u8] {
        self.change.list()
    }

    /// How many buckets are free, in use, waiting and reserved.
    pub fn usage(&self) -> Usage {
        Usage::of(&self.list())
    }

    /// The live pieces, by their first sectors.
    pub fn live(&self) -> impl Iterator<Item = Live> + '_ {
        self.list().live()
    }

    /// The live pieces of a file, by the ends of their extents in it.
    pub fn live_of(&self, inode: u64) -> Vec<Live> {
        let mut found: Vec<(FileSector, Live)> = Vec::new();
        for key in self.list().keys(Tree::Backpointers) {
            let extent = extent_of(key.value).filter(|&(of, _)| of == inode);
            let piece = Live::of_backpointer(key);
            found.extend(extent.map(|(_, end)| end).zip(piece));
        }
        found.sort();
        found.into_iter().map(|(_, piece)| piece).collect()
    }

    /// Whether a piece is live, by its first sector, length and generation.
    pub fn is_live(&self, piece: Live) -> bool {
        self.check_live(&[piece]).is_ok()
    }

    /// What the volume says of each bucket.
    pub fn buckets(&self) -> Buckets {
        self.list().buckets()
    }

    /// The generations of buckets, which ascend. A bucket in use has that of its live pieces, and a free
    /// one that which a save gives its pieces. A bucket that was never emptied has 0, also one that the
    /// volume does not offer.
    ///
    /// # Errors
    /// [`Error::Refused`] with [`Refusal::BrokenLayout`] where a bucket is not above the one before it,
    /// and with [`Refusal::LimitPassed`] for more than 1,024 buckets or one above 65,535.
    pub fn generations(&self, buckets: &[Bucket]) -> Result<Generations, Error> {
        Ok(generations(self.bytes(), buckets)?)
    }

    /// The volume, to be read where it stands.
    pub fn list(&self) -> CallListRef<'_> {
        CallListRef::split(self.bytes()).expect("apply writes a volume")
    }

    /// Sectors of a bucket.
    pub fn bucket_sectors(&self) -> u16 {
        self.head().bucket_sectors
    }

    /// The journal number of the next step.
    pub fn journal(&self) -> u64 {
        self.head().journal
    }

    /// Choose the journal number of the next step.
    pub fn set_journal(&mut self, journal: u64) {
        self.set_head(Head {
            journal,
            ..self.head()
        });
    }

    /// What is chosen.
    pub fn options(&self) -> Options {
        let head = self.head();
        Options {
            block_sectors: head.block_sectors,
            checksum_option: head.checksum_option,
            journal_reserve: head.journal_reserve,
            batch: head.batch,
        }
    }

    /// Choose anew for the steps to come.
    ///
    /// # Errors
    /// [`Error::Refused`] with refusals 3, 5, 8 and 20, as the calls test; the options are then as
    /// they were.
    pub fn set_options(&mut self, options: Options) -> Result<(), Error> {
        let before = self.head();
        let head = Head {
            block_sectors: options.block_sectors,
            checksum_option: options.checksum_option,
            journal_reserve: options.journal_reserve,
            batch: options.batch,
            ..before
        };
        let judged = self.judge(head);
        self.set_head(if judged.is_ok() { head } else { before });
        judged
    }
}

/// What the steps are made of.
impl Volume {
    /// What the volume's head says.
    fn head(&self) -> Head {
        Head::first(self.bytes()).expect("apply writes a volume")
    }

    /// The head of a list that asks for a call.
    fn asking(&self, call: Call) -> Head {
        Head {
            call,
            ..self.head()
        }
    }

    /// Write another head.
    fn set_head(&mut self, head: Head) {
        let mut field = Vec::with_capacity(HEAD_FIELD);
        head.put(&mut field);
        self.list.set_start(&field);
    }

    /// A call with this head and its apply, both or neither.
    fn step(&mut self, head: Head, requests: &[u8]) -> Result<(), Error> {
        let before: [u8; HEAD_FIELD] = self.list.start();
        self.set_head(head);
        let made = self.ask(head.call, requests).map_err(Error::Refused);
        let made = made.and_then(|()| self.apply());
        if made.is_ok() {
            self.set_journal(head.journal.wrapping_add(1));
        } else {
            self.list.set_start(&before);
            self.change.clear();
        }
        made
    }

    /// Make a call on the volume with its requests, and keep its change list.
    fn ask(&mut self, call: Call, requests: &[u8]) -> Result<(), Refusal> {
        let (list, scratch) = (self.list.with(requests), &mut self.scratch);
        self.change.answer(|out| match call {
            Call::Place => place(list, out),
            Call::Release => release(list, scratch, out),
            Call::Discard => discard(list, out),
        })
    }

    /// Apply the change list that is kept.
    fn apply(&mut self) -> Result<(), Error> {
        let (volume, change) = (self.list.list(), self.change.list());
        let applied = self.next.answer(|out| apply(volume, change, out));
        applied.map_err(Error::Dropped)?;
        std::mem::swap(&mut self.list, &mut self.next);
        Ok(())
    }

    /// A head by place's own tests, too few free buckets aside, with a placement of nothing: its
    /// change list changes nothing. A batch of 0 is refused as discard refuses it.
    fn judge(&mut self, head: Head) -> Result<(), Error> {
        let call = Call::Place;
        self.set_head(Head { call, ..head });
        let judged = self.ask(call, &[]);
        self.change.clear();
        match judged {
            Ok(()) | Err(Refusal::TooFewFreeBuckets) if head.batch == 0 => {
                Err(Error::Refused(Refusal::NoBatch))
            }
            Ok(()) | Err(Refusal::TooFewFreeBuckets) => Ok(()),
            Err(refusal) => Err(Error::Refused(refusal)),
        }
    }

    /// That pieces are live and none is named twice: the volume has a backpointer at the first
    /// sector, with the length and the generation, which is the bucket's too.
    fn check_live(&self, pieces: &[Live]) -> Result<(), Error> {
        let mut asked = pieces.to_vec();
        asked.sort();
        let list = self.list();
        let mut allocs = Lookups::new(list.keys(Tree::Alloc));
        let mut backpointers = Lookups::new(list.keys(Tree::Backpointers));
        let mut last = None;
        for piece in asked {
            let bucket = piece.bucket(list.head().bucket_sectors).unwrap_or_default();
            let alloc = allocs.at(Position::of_alloc(bucket));
            let generation = alloc.and_then(KeyRef::generation);
            let named = backpointers.at(Position::of_backpointer(piece.first));
            let live = named.and_then(Live::of_backpointer) == Some(piece);
            if !live || generation != Some(piece.generation) {
                return Err(Error::NotLive(piece));
            }
            if last == Some(piece) {
                return Err(Error::NamedTwice(piece));
            }
            last = Some(piece);
        }
        Ok(())
    }
}

impl fmt::Debug for Volume {
    /// The head and how long the volume is; its bytes are too many to show.
    fn fmt(&self, f: &mut fmt::Formatter<'_>) -> fmt::Result {
        let length = self.bytes().len();
        let mut shown = f.debug_struct("Volume");
        shown.field("head", &self.head()).field("bytes", &length);
        shown.finish_non_exhaustive()
    }
}

/// Room for a call's requests; too many are refused as the call refuses them.
fn requests(count: usize, field: usize) -> Result<Vec<u8>, Error> {
    if count > MAX_REQUESTS {
        return Err(Error::Refused(Refusal::LimitPassed));
    }
    Ok(Vec::with_capacity(count * field))
}
