//! Lists with their fields in another order, and lists in which one stands twice.

use crate::call_list::{LRU, PLACED, RELEASED, RESERVED, TREES};
use crate::fields::{joined, split_whole, Field};
use crate::key::{Key, KEY_BYTES, VALUE_MAX};
use crate::rng::Rng;

/// The list with its fields in another order, requests in their own among themselves. Bytes at its end
/// that are no whole field stay there.
pub fn shuffled(rng: &mut Rng, list: &[u8]) -> Vec<u8> {
    reordered(list, |fields| match rng.below(8) {
        0 => fields.reverse(),
        1 => join(rng, fields),
        2 => swap_sections(rng, fields),
        3 => mix_sections(rng, fields),
        4 => move_one(rng, fields),
        _ => mix(rng, fields),
    })
}

/// The same, where each order is as likely as any other.
pub fn mixed(rng: &mut Rng, list: &[u8]) -> Vec<u8> {
    reordered(list, |fields| mix(rng, fields))
}

/// The list with its fields put in another order, but for requests among themselves.
fn reordered(list: &[u8], reorder: impl FnOnce(&mut Vec<Field>)) -> Vec<u8> {
    let (mut fields, rest) = split_whole(list);
    let requests: Vec<Field> = fields.iter().copied().filter(is_request).collect();
    reorder(&mut fields);
    let places = fields.iter_mut().filter(|field| is_request(field));
    for (place, request) in places.zip(requests) {
        *place = request;
    }
    let mut out = joined(fields);
    out.extend_from_slice(rest);
    out
}

/// Whether a field is a request.
pub fn is_request(field: &Field) -> bool {
    matches!(field.tag, PLACED | RELEASED)
}

/// The list without its requests, all else in the order in which it stands.
pub fn without_requests(list: &[u8]) -> Vec<u8> {
    let (fields, rest) = split_whole(list);
    let mut out = joined(fields.into_iter().filter(|field| !is_request(field)));
    out.extend_from_slice(rest);
    out
}

/// Any order.
fn mix(rng: &mut Rng, fields: &mut [Field]) {
    for i in (1..fields.len()).rev() {
        fields.swap(i, rng.below(i as u64 + 1) as usize);
    }
}

/// Several exports joined: each field is of one of a few, which stand in order one after the other.
fn join(rng: &mut Rng, fields: &mut [Field]) {
    let exports = rng.from_to(2, 4);
    fields.sort_by_cached_key(|_| rng.below(exports));
}

/// Each tag's fields stay together and in order; the tags stand in any order.
fn swap_sections(rng: &mut Rng, fields: &mut [Field]) {
    let places: Vec<u64> = (0..256).map(|_| rng.draw()).collect();
    fields.sort_by_key(|field| places[usize::from(field.tag)]);
}

/// Tags ascend; the fields of each stand in any order.
fn mix_sections(rng: &mut Rng, fields: &mut [Field]) {
    mix(rng, fields);
    fields.sort_by_key(|field| field.tag);
}

/// One field is put elsewhere, often beside its place.
fn move_one(rng: &mut Rng, fields: &mut Vec<Field>) {
    if fields.len() < 2 {
        return;
    }
    let from = rng.below(fields.len() as u64) as usize;
    let field = fields.remove(from);
    let to = match rng.below(2) {
        0 => (from + 1).min(fields.len()),
        _ => rng.below(fields.len() as u64 + 1) as usize,
    };
    fields.insert(to, field);
}

/// The list with another key at the position of one of its keys, or with one of its reserved buckets
/// again, beside it or elsewhere; a list with neither gets both.
pub fn doubled(rng: &mut Rng, list: &[u8]) -> Vec<u8> {
    let (mut fields, rest) = split_whole(list);
    let stands = |f: &Field| f.tag == RESERVED || TREES.contains(&f.tag);
    let places: Vec<usize> = (0..fields.len()).filter(|&i| stands(&fields[i])).collect();
    let lone = Key::at(25, 1 << 61, 3).body();
    let lone = Field {
        tag: LRU,
        body: &lone,
    };
    let at = match places.as_slice() {
        [] => {
            fields.push(lone);
            fields.len() - 1
        }
        places => rng.pick(places),
    };
    let tag = fields[at].tag;
    let body = match tag {
        RESERVED => fields[at].body.to_vec(),
        _ => another_key(rng, fields[at].body),
    };
    let to = match rng.below(4) {
        0 => at,
        1 => at + 1,
        2 => rng.pick(&[0, fields.len()]),
        _ => rng.below(fields.len() as u64 + 1) as usize,
    };
    fields.insert(to, Field { tag, body: &body });
    let mut out = joined(fields);
    out.extend_from_slice(rest);
    out
}

/// A key at the same position: the same, or with another type, size, version or value.
fn another_key(rng: &mut Rng, body: &[u8]) -> Vec<u8> {
    let mut body = body.to_vec();
    if body.len() < KEY_BYTES {
        return body;
    }
    match rng.below(6) {
        0 => (),
        1 => body[0] = rng.pick(&[0, 24, 25, 27, 30]),
        2 => body[1 + rng.below(4) as usize] ^= 1 << rng.below(8),
        3 => body[5 + rng.below(12) as usize] ^= 1 << rng.below(8),
        4 => body.truncate(KEY_BYTES),
        _ => {
            let length = rng.below(VALUE_MAX as u64 + 1) as usize;
            body.truncate(KEY_BYTES);
            body.extend(rng.bytes(length));
        }
    }
    body
}

#[cfg(test)]
mod tests {
    use super::{doubled, is_request, shuffled, without_requests};
    use crate::call_list::{CallList, PLACE, RELEASE};
    use crate::candidate::candidate;
    use crate::fields::{split, Field};
    use crate::generate::Size;
    use crate::model::{verdict, SORT, SUMS};
    use crate::rng::Rng;
    use std::collections::BTreeSet;

    /// The fields of a list, by tag and body.
    fn fields(list: &[u8]) -> Vec<(u8, &[u8])> {
        let fields = split(list).expect("whole fields");
        fields.iter().map(|f| (f.tag, f.body)).collect()
    }

    /// The requests of a list as they stand.
    fn requests(list: &[u8]) -> Vec<Field<'_>> {
        let fields = split(list).expect("whole fields");
        fields.into_iter().filter(is_request).collect()
    }

    /// Every field stands as often, requests in their order, and field 1 comes to stand first, last and
    /// between.
    #[test]
    fn same_fields() {
        let mut heads = BTreeSet::new();
        for seed in 0..400 {
            let call = if seed % 2 == 0 { PLACE } else { RELEASE };
            let list = candidate(seed, call, Size::Small, 0).list;
            let mixed = shuffled(&mut Rng::new(seed), &list);
            assert_eq!(requests(&mixed), requests(&list));
            let (mut a, mut b) = (fields(&list), fields(&mixed));
            let head = b.iter().position(|f| f.0 == 1).expect("field 1");
            heads.insert((head == 0, head + 1 == b.len()));
            a.sort();
            b.sort();
            assert_eq!(a, b);
        }
        assert!(heads.contains(&(true, false)) && heads.contains(&(false, true)));
        assert!(heads.contains(&(false, false)));
    }

    /// A list that is cut off is mixed up to where it is.
    #[test]
    fn cut_lists() {
        let list = candidate(3, RELEASE, Size::Medium, 0).list;
        for end in [0, 1, 41, 43, list.len() - 1] {
            let mixed = shuffled(&mut Rng::new(1), &list[..end]);
            assert_eq!(mixed.len(), end);
            assert_eq!(verdict(RELEASE, &mixed, SUMS, usize::MAX), 2);
        }
    }

    /// What was accepted is refused 22 once one of its fields stands twice, in any order.
    #[test]
    fn doubles() {
        for seed in 0..300 {
            let call = seed as u8 % 3 + 1;
            let mut rng = Rng::new(seed);
            let list = candidate(seed, call, Size::Small, 0).list;
            let twice = doubled(&mut rng, &list);
            let mixed = shuffled(&mut rng, &twice);
            for list in [&twice, &mixed] {
                assert_eq!(verdict(call, list, SUMS, usize::MAX), 22);
                assert_eq!(verdict(SORT, list, 0, usize::MAX), 22);
            }
        }
    }

    /// Without its requests a list is the volume that it was read as.
    #[test]
    fn volumes() {
        for seed in 0..50 {
            let list = candidate(seed, PLACE, Size::Medium, 0).list;
            let mixed = shuffled(&mut Rng::new(seed), &list);
            let volume = CallList::read(&list).map(|l| l.volume());
            assert_eq!(CallList::read(&without_requests(&mixed)), volume);
            let bytes = volume.expect("a list").bytes();
            assert_eq!(without_requests(&list), bytes);
        }
    }
}
