//! The C boundary of `include/zerglaz.h`, the crate's only unsafe code: each call on slices, with its
//! number and `written` or `visited` as the archive gives them. The crate's own
//! [`place`](crate::place), [`release`](crate::release), [`discard`](crate::discard),
//! [`apply`](crate::apply), [`sort`](crate::sort) and [`generations`](crate::generations) stand on it.

use crate::kinds::Bucket;

// Every call below is sound for the same reasons. Each pointer and length are those of one slice or
// of one number that is borrowed for the whole call, so they are valid, aligned and not null, also
// where the slice is empty. What is written to is borrowed mutably, so that it overlaps nothing else.
// The functions are proved to write inside their slices, and keep no pointer.
extern "C" {
    fn zerglaz_place(
        list: *const u8,
        list_len: usize,
        out: *mut u8,
        out_len: usize,
        written: *mut usize,
    ) -> u32;
    fn zerglaz_release(
        list: *const u8,
        list_len: usize,
        scratch: *mut u32,
        scratch_len: usize,
        out: *mut u8,
        out_len: usize,
        written: *mut usize,
    ) -> u32;
    fn zerglaz_discard(
        list: *const u8,
        list_len: usize,
        out: *mut u8,
        out_len: usize,
        written: *mut usize,
    ) -> u32;
    fn zerglaz_apply(
        volume: *const u8,
        volume_len: usize,
        change: *const u8,
        change_len: usize,
        out: *mut u8,
        out_len: usize,
        written: *mut usize,
    ) -> u32;
    fn zerglaz_sort(
        list: *const u8,
        list_len: usize,
        out: *mut u8,
        out_len: usize,
        written: *mut usize,
    ) -> u32;
    fn zerglaz_generations(
        volume: *const u8,
        volume_len: usize,
        buckets: *const u32,
        buckets_len: usize,
        out: *mut u8,
        out_len: usize,
        visited: *mut usize,
    ) -> u32;
}

/// `zerglaz_place`: the number, and in `written` the answer's length.
pub fn place(list: &[u8], out: &mut [u8], written: &mut usize) -> u32 {
    let (list, list_len) = (list.as_ptr(), list.len());
    // SAFETY: as said above.
    unsafe { zerglaz_place(list, list_len, out.as_mut_ptr(), out.len(), written) }
}

/// `zerglaz_release`: the number, and in `written` the answer's length.
pub fn release(list: &[u8], scratch: &mut [u32], out: &mut [u8], written: &mut usize) -> u32 {
    let (list, list_len) = (list.as_ptr(), list.len());
    let (scratch, scratch_len) = (scratch.as_mut_ptr(), scratch.len());
    let (out, out_len) = (out.as_mut_ptr(), out.len());
    // SAFETY: as said above.
    unsafe { zerglaz_release(list, list_len, scratch, scratch_len, out, out_len, written) }
}

/// `zerglaz_discard`: the number, and in `written` the answer's length.
pub fn discard(list: &[u8], out: &mut [u8], written: &mut usize) -> u32 {
    let (list, list_len) = (list.as_ptr(), list.len());
    // SAFETY: as said above.
    unsafe { zerglaz_discard(list, list_len, out.as_mut_ptr(), out.len(), written) }
}

/// `zerglaz_apply`: the number, and in `written` the next volume's length.
pub fn apply(volume: &[u8], change: &[u8], out: &mut [u8], written: &mut usize) -> u32 {
    let (volume, volume_len) = (volume.as_ptr(), volume.len());
    let (change, change_len) = (change.as_ptr(), change.len());
    let (out, out_len) = (out.as_mut_ptr(), out.len());
    // SAFETY: as said above.
    unsafe {
        zerglaz_apply(
            volume, volume_len, change, change_len, out, out_len, written,
        )
    }
}

/// `zerglaz_sort`: the number, and in `written` the sorted form's length.
pub fn sort(list: &[u8], out: &mut [u8], written: &mut usize) -> u32 {
    let (list, list_len) = (list.as_ptr(), list.len());
    // SAFETY: as said above.
    unsafe { zerglaz_sort(list, list_len, out.as_mut_ptr(), out.len(), written) }
}

/// `zerglaz_generations`: the number, and in `visited` how many keys were visited.
pub fn generations(volume: &[u8], buckets: &[u32], out: &mut [u8], visited: &mut usize) -> u32 {
    let (volume, volume_len) = (volume.as_ptr(), volume.len());
    let (buckets, buckets_len) = (buckets.as_ptr(), buckets.len());
    let (out, out_len) = (out.as_mut_ptr(), out.len());
    // SAFETY: as said above.
    unsafe {
        zerglaz_generations(
            volume,
            volume_len,
            buckets,
            buckets_len,
            out,
            out_len,
            visited,
        )
    }
}

/// The numbers of buckets, where they stand.
pub(crate) fn numbers(buckets: &[Bucket]) -> &[u32] {
    // SAFETY: a `Bucket` is laid out as its number, by `repr(transparent)`, so as many numbers stand
    // there, and they are borrowed for as long.
    unsafe { std::slice::from_raw_parts(buckets.as_ptr().cast(), buckets.len()) }
}
