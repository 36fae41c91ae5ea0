//! The limits that every call tests, and the longest lists that follow from them. The reasons of
//! each length stand in docs/FORMAT.md, "Lengths".
//!
//! An output that is as long as the constant says is never too short, so that it can be sized once.
//! The lengths are reckoned from the definitions and attained by tests, and not proved.

/// Keys of a tree.
pub const MAX_KEYS: usize = 4_096;
/// Reserved buckets.
pub const MAX_RESERVED: usize = 4_096;
/// Requests of a call.
pub const MAX_REQUESTS: usize = 1_024;
/// Bucket numbers are below this, and no freespace run ends past it.
pub const MAX_BUCKETS: u32 = 65_536;
/// Buckets whose generations are asked for in one call.
pub const MAX_BUCKETS_ASKED: usize = 1_024;
/// Bytes of a key's value.
pub const MAX_VALUE: usize = 256;
/// The largest journal reserve.
pub const MAX_JOURNAL_RESERVE: u32 = 65_536;
/// The file sector where placed data begins is below this.
pub const BASE_END: u64 = 1 << 40;
/// Sectors of a piece.
pub const MAX_PIECE_SECTORS: u16 = 128;
/// Free buckets that every placement leaves, beside the journal reserve.
pub const KEPT_BACK: u32 = 32;
/// A bucket whose generation has come to this is emptied for the last time: no discard takes it.
pub const RETIRED_GENERATION: u8 = 16;

/// Bytes before a field's body: its tag and its length.
const FIELD: usize = 3;
/// The head's field.
pub(crate) const HEAD_FIELD: usize = FIELD + 39;
/// A key's body without its value.
pub(crate) const KEY_BODY: usize = 37;
/// A key's field without a value: a deletion, a run, an LRU or a need-discard key.
const KEY_FIELD: usize = FIELD + KEY_BODY;
/// A key's field with the longest value.
const LONGEST_KEY: usize = KEY_FIELD + MAX_VALUE;
/// A field that names a bucket: 64, 71 or 75.
const BUCKET_FIELD: usize = FIELD + 4;
/// A piece to place.
pub(crate) const PIECE_FIELD: usize = FIELD + 13;
/// A piece to release.
pub(crate) const RELEASED_FIELD: usize = FIELD + 10;
/// The fields 70, 72, 73 (of one number and of three), 74 and 76 of a change list.
const ROOT_FIELD: usize = FIELD + 1;
const PLACED_FIELD: usize = FIELD + 15;
const ROW_OF_ONE: usize = FIELD + 24;
const ROW_OF_THREE: usize = FIELD + 40;
const SECTORS_FIELD: usize = FIELD + 8;
const END_FIELD: usize = FIELD;

/// The longest volume, and so the longest answer of apply: 7,303,210 bytes. All six trees are full
/// of keys with the longest value, and all reserved buckets are there.
pub const MAX_VOLUME: usize = HEAD_FIELD + 6 * MAX_KEYS * LONGEST_KEY + MAX_RESERVED * BUCKET_FIELD;

/// The longest call list, and so the longest sorted form: 7,319,594 bytes. The longest volume, and all
/// requests of a placement, which are longer than those of a release.
pub const MAX_CALL_LIST: usize = MAX_VOLUME + MAX_REQUESTS * PIECE_FIELD;

/// The longest change list of a placement: 476,805 bytes.
///
/// Each piece opens a bucket of its own and leaves it part filled. A piece has an extent with two
/// words of checksum and one of pointer, a backpointer of 32 bytes and a field 72; a bucket has an
/// alloc key of 64 bytes, an LRU key and a field 71. All runs are walked: those walked to their end
/// are deleted, and the last one, which is shortened, keeps its value. One root, all nine rows, one
/// field 74.
pub const MAX_PLACE_CHANGE: usize = MAX_REQUESTS
    * ((KEY_FIELD + 24) + (KEY_FIELD + 32) + PLACED_FIELD)
    + MAX_REQUESTS * ((KEY_FIELD + 64) + KEY_FIELD + BUCKET_FIELD)
    + MAX_KEYS * KEY_FIELD
    + MAX_VALUE
    + ROOT_FIELD
    + ROW_OF_ONE
    + 8 * ROW_OF_THREE
    + SECTORS_FIELD
    + END_FIELD;

/// The longest change list of a release: 729,212 bytes.
///
/// Each piece is all that a part-filled bucket of its own holds, so that the bucket is emptied: an
/// alloc key and a generation record with the longest values, a record once for each bucket, the
/// deletion of the LRU key and a need-discard key. A bucket that keeps sectors has a second LRU
/// key, and neither a record nor a need-discard key, which is less. Each piece has the deletion of
/// its backpointer. Two roots, all three rows.
pub const MAX_RELEASE_CHANGE: usize = MAX_REQUESTS
    * (2 * LONGEST_KEY + KEY_FIELD + KEY_FIELD + KEY_FIELD)
    + 2 * ROOT_FIELD
    + ROW_OF_ONE
    + 2 * ROW_OF_THREE
    + END_FIELD;

/// The longest change list of a discard: 1,933,312 bytes.
///
/// All alloc keys have the longest value and wait, each in a batch of its own, so that neither runs
/// nor rows are joined: the alloc key, a run, the deletion of the need-discard key, two rows, a
/// field 75 and the batch's end.
pub const MAX_DISCARD_CHANGE: usize =
    MAX_KEYS * (LONGEST_KEY + KEY_FIELD + KEY_FIELD + 2 * ROW_OF_THREE + BUCKET_FIELD + END_FIELD);

/// The longest change list of any call, which is a discard's.
pub const MAX_CHANGE: usize = MAX_DISCARD_CHANGE;

#[cfg(test)]
mod tests {
    use super::*;

    /// The figures of docs/FORMAT.md.
    #[test]
    fn figures() {
        assert_eq!(MAX_VOLUME, 7_303_210);
        assert_eq!(MAX_CALL_LIST, 7_319_594);
        assert_eq!(MAX_PLACE_CHANGE, 476_805);
        assert_eq!(MAX_RELEASE_CHANGE, 729_212);
        assert_eq!(MAX_DISCARD_CHANGE, 1_933_312);
        const { assert!(MAX_CHANGE >= MAX_PLACE_CHANGE && MAX_CHANGE >= MAX_RELEASE_CHANGE) }
        const { assert!(PIECE_FIELD > RELEASED_FIELD) }
    }
}
