//! The six calls on slices.

use crate::ffi;
use crate::kinds::Bucket;
use crate::limits::MAX_BUCKETS_ASKED;
use crate::refusal::Refusal;

/// The sums that a release's scratch holds at least: one for each bucket number.
pub const SUMS: usize = 65_536;

/// Chooses buckets for the pieces that `list` asks to place, and writes the change list that places
/// them. Gives its length, which is at most [`MAX_PLACE_CHANGE`](crate::limits::MAX_PLACE_CHANGE).
///
/// # Errors
/// Refusals 2 to 13, 21 and 22; `out` is then as it was.
pub fn place(list: &[u8], out: &mut [u8]) -> Result<usize, Refusal> {
    let mut written = 0;
    let number = ffi::place(list, out, &mut written);
    answer(number, written)
}

/// Writes the change list that gives back the sectors of the pieces that `list` names. Gives its
/// length, which is at most [`MAX_RELEASE_CHANGE`](crate::limits::MAX_RELEASE_CHANGE).
///
/// A list tells sums and not pieces: a release of a piece that is not live is accepted where its
/// bucket holds as many sectors of other pieces, and these may then be placed over. That no release
/// names such a piece is the [caller's duty](crate#the-callers-duties), which
/// [`Volume`](crate::Volume) keeps.
///
/// The scratch holds at least [`SUMS`] sums. What it held before plays no part; afterwards its
/// first [`SUMS`] sums are 0 and the others are as they were.
///
/// # Errors
/// Refusals 1 to 4, 14 to 19, 21 and 22; `out` is then as it was, and with 1 the scratch too.
pub fn release(list: &[u8], scratch: &mut [u32], out: &mut [u8]) -> Result<usize, Refusal> {
    let mut written = 0;
    let number = ffi::release(list, scratch, out, &mut written);
    answer(number, written)
}

/// Writes the change list that frees the emptied buckets which wait for their discard. Gives its
/// length, 0 where none waits and at most
/// [`MAX_DISCARD_CHANGE`](crate::limits::MAX_DISCARD_CHANGE).
///
/// # Errors
/// Refusals 2, 3 and 20 to 22; `out` is then as it was.
pub fn discard(list: &[u8], out: &mut [u8]) -> Result<usize, Refusal> {
    let mut written = 0;
    let number = ffi::discard(list, out, &mut written);
    answer(number, written)
}

/// Writes the volume that `volume`, a call list of any call without requests, becomes by `change`.
/// Gives its length, which is at most [`MAX_VOLUME`](crate::limits::MAX_VOLUME).
///
/// # Errors
/// Refusals 2, 3, 21 and 22; `out` is then as it was.
pub fn apply(volume: &[u8], change: &[u8], out: &mut [u8]) -> Result<usize, Refusal> {
    let mut written = 0;
    let number = ffi::apply(volume, change, out, &mut written);
    answer(number, written)
}

/// Writes the sorted form of `list`, a call list of any call, with its requests or without: the head,
/// the keys of each tree by position, the reserved buckets by number, and the requests in their own
/// order. These are the list's own fields, byte for byte, so that its length, which is given, is the
/// list's.
///
/// Every call, and [`apply`], reads a list as it reads its sorted form. The sorted form is its own, and
/// lists with the same fields and the same requests in the same order have one.
///
/// # Errors
/// Refusals 2, 3, 21 and 22; `out` is then as it was.
pub fn sort(list: &[u8], out: &mut [u8]) -> Result<usize, Refusal> {
    let mut written = 0;
    let number = ffi::sort(list, out, &mut written);
    answer(number, written)
}

/// The generations of some buckets of a volume, and how many keys were visited for them.
#[derive(Debug, Clone, PartialEq, Eq)]
pub struct Generations {
    /// The generation of each bucket, in the order in which they were asked for.
    pub generations: Vec<u8>,
    /// How many keys of the tree [`BucketGens`](crate::Tree::BucketGens) were visited: those up to and
    /// with the first past the last bucket's record, so at most all that the tree has.
    pub visited: usize,
}

/// The generations of `buckets`, which ascend, in `volume`, a call list of any call without requests:
/// each is the one that a placement gives the bucket in the same volume. They are found by one walk
/// over the keys of the tree [`BucketGens`](crate::Tree::BucketGens). A bucket has generation 0 where
/// that tree has no record of it, or one that ends before the bucket's byte.
///
/// # Errors
/// Refusal 2 where the volume breaks its layout or a bucket is not above the one before it, 22 where
/// something stands twice in the volume, and 3 where the volume passes a limit, there are more than
/// [`MAX_BUCKETS_ASKED`] buckets, or a bucket is not below
/// [`MAX_BUCKETS`](crate::limits::MAX_BUCKETS).
pub fn generations(volume: &[u8], buckets: &[Bucket]) -> Result<Generations, Refusal> {
    // More buckets are refused before the output is judged.
    let mut generations = vec![0; buckets.len().min(MAX_BUCKETS_ASKED)];
    let mut visited = 0;
    let buckets = ffi::numbers(buckets);
    let number = ffi::generations(volume, buckets, &mut generations, &mut visited);
    let visited = answer(number, visited)?;
    Ok(Generations {
        generations,
        visited,
    })
}

/// A call's answer: 0 is no refusal.
fn answer(number: u32, written: usize) -> Result<usize, Refusal> {
    match number {
        0 => Ok(written),
        n => Err(Refusal::from_number(n).expect("a call answers with 0 to 22")),
    }
}
