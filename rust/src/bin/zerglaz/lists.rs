//! Calls on lists that were read.

use zerglaz::limits::{MAX_CHANGE, MAX_VOLUME};
use zerglaz::{
    discard, place, release, Bucket, Call, CallListRef, Error, Generations, Head, Refusal, SUMS,
};

/// The change list of the call that a list asks for.
pub fn call(list: &[u8]) -> Result<Vec<u8>, Refusal> {
    let mut out = vec![0; MAX_CHANGE];
    let length = match Head::of(list)?.call {
        Call::Place => place(list, &mut out),
        Call::Release => release(list, &mut vec![0; SUMS], &mut out),
        Call::Discard => discard(list, &mut out),
    };
    out.truncate(length?);
    Ok(out)
}

/// The volume that a change list leads to; a call list's requests are left out.
pub fn apply(volume: &[u8], change: &[u8]) -> Result<Vec<u8>, Refusal> {
    let list = CallListRef::read(volume)?;
    let mut out = vec![0; MAX_VOLUME];
    let length = zerglaz::apply(list.volume(), change, &mut out)?;
    out.truncate(length);
    Ok(out)
}

/// The sorted form of a list.
pub fn sort(list: &[u8]) -> Result<Vec<u8>, Refusal> {
    let mut out = vec![0; list.len()];
    let length = zerglaz::sort(list, &mut out)?;
    out.truncate(length);
    Ok(out)
}

/// The generations of buckets of a volume; a call list's requests are left out.
pub fn generations(volume: &[u8], buckets: &[Bucket]) -> Result<Generations, Refusal> {
    let list = CallListRef::read(volume)?;
    zerglaz::generations(list.volume(), buckets)
}

/// The volume in bytes that keep the limits; a call list's requests are left out.
pub fn volume(bytes: &[u8]) -> Result<CallListRef<'_>, Error> {
    let list = CallListRef::read(bytes)?;
    apply(list.volume(), &[])?;
    Ok(list)
}
