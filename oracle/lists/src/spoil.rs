//! Lists spoilt towards one refusal number, and lists damaged field by field.

use crate::call_list::{
    CallList, Place, Release, ALLOC, BUCKET_GENS, DISCARD, FREESPACE, NEED_DISCARD, PLACE, RELEASE,
};
use crate::fields::{put, split};
use crate::generate::first_free;
use crate::key::Key;
use crate::model::{next_fit, runs};
use crate::rng::Rng;

/// The numbers that a call, apply, sort or generations can answer, 0 aside, in the order of their tests.
pub fn numbers(call: u8) -> &'static [u32] {
    match call {
        PLACE => &[2, 22, 3, 4, 5, 6, 7, 8, 9, 10, 11, 12, 13, 21],
        RELEASE => &[1, 2, 22, 3, 4, 14, 15, 16, 17, 18, 19, 21],
        DISCARD => &[2, 22, 3, 20, 21],
        _ => &[2, 22, 3, 21],
    }
}

/// Change a list towards `number`, 3 to 20; the model says what it answers then. Towards 2 and 22 its
/// bytes are changed (`damage`, `order::doubled`).
pub fn spoil(rng: &mut Rng, l: &mut CallList, number: u32) {
    match number {
        3 => pass_a_limit(rng, l),
        4 => l.head.bucket = 0,
        5 => l.head.checksum = rng.pick(&[4, 5, 7, 255]),
        6 => with_a_piece(rng, l).kind = rng.pick(&[1, 6, 7, 255]),
        7 => spoil_option(rng, l),
        8 => l.head.block = rng.pick(&[3, 5, 6, 129, 256, 65535, 64, 128]),
        9 => spoil_piece(rng, l),
        10 => overlap(rng, l),
        11 => shorten_free(rng, l),
        12 => begin_before_0(rng, l),
        13 => use_a_taken_bucket(rng, l),
        14 => spoil_released(rng, l),
        15 => drop_an_alloc_key(rng, l),
        16 => with_an_alloc(rng, l, |rng, v, _| {
            v.truncate(rng.pick(&[0, 19, 23, 24, 55]))
        }),
        17 => with_an_alloc(rng, l, |rng, v, bucket| {
            let over = u64::from(bucket) + 1 + rng.pick(&[0, 0, 5, 0xffff_0000]);
            set_dirty(v, over as u32);
        }),
        18 => with_an_alloc(rng, l, |rng, v, _| {
            set_dirty(v, rng.pick(&[0, 0, 1, 5]));
        }),
        19 => shorten_a_record(rng, l),
        20 => l.head.batch = 0,
        _ => (),
    }
}

/// Set the dirty sectors of an alloc value that holds them.
fn set_dirty(v: &mut [u8], dirty: u32) {
    if v.len() >= 20 {
        v[16..20].copy_from_slice(&dirty.to_le_bytes());
    }
}

/// One of a placement's pieces; a list without one gets one.
fn with_a_piece<'a>(rng: &mut Rng, l: &'a mut CallList) -> &'a mut Place {
    if l.places.is_empty() {
        let block = l.head.block.max(1);
        l.places.push(Place {
            file: block,
            stored: block,
            kind: 0,
            checksum: rng.word(),
        });
    }
    let i = rng.below(l.places.len() as u64) as usize;
    &mut l.places[i]
}

/// Option 0 with a kind other than 0.
fn spoil_option(rng: &mut Rng, l: &mut CallList) {
    let p = with_a_piece(rng, l);
    if p.kind == 0 {
        p.kind = rng.pick(&[2, 3, 4, 5]);
    }
    l.head.checksum = 0;
}

/// Pass one limit, those of 4,097 keys and reserved buckets aside.
fn pass_a_limit(rng: &mut Rng, l: &mut CallList) {
    let past = rng.pick(&[65_536, 65_537, 1 << 32, u64::MAX]);
    match rng.below(8) {
        0 => l.head.reserve = rng.pick(&[65_537, u32::MAX]),
        1 => l.head.base = rng.pick(&[1 << 40, (1 << 40) + 1, u64::MAX]),
        2 => l.reserve(rng.pick(&[65_536, 65_537, u32::MAX])),
        3 | 4 => l.insert(ALLOC, Key::at(rng.pick(&[27, 26, 0]), 0, past)),
        5 => l.insert(NEED_DISCARD, Key::at(25, rng.word(), past)),
        6 => {
            let mut run = Key::at(25, 0, past.max(65_537));
            run.size = rng.pick(&[0, 1, 100]);
            l.insert(FREESPACE, run);
        }
        _ if rng.one_in(6) => many_requests(l),
        _ => l.head.reserve = 65_537,
    }
}

/// 1,025 requests of the list's own call.
fn many_requests(l: &mut CallList) {
    match l.head.call {
        PLACE => l.places.resize(
            1_025,
            Place {
                file: 1,
                stored: 1,
                kind: 0,
                checksum: 0,
            },
        ),
        RELEASE => l.releases.resize(
            1_025,
            Release {
                sector: 0,
                sectors: 1,
            },
        ),
        _ => l.head.base = 1 << 40,
    }
}

/// A piece that breaks refusal 9.
fn spoil_piece(rng: &mut Rng, l: &mut CallList) {
    let most = l.head.bucket.min(128);
    let block = l.head.block.max(1);
    let choice = rng.below(9);
    let p = with_a_piece(rng, l);
    match choice {
        0 => (p.file, p.stored) = (0, 0),
        1 => p.stored = 0,
        2 => (p.file, p.stored) = (most.saturating_add(block), most.saturating_add(block)),
        3 => p.stored = p.file.saturating_add(block),
        4 => p.file = p.file.saturating_add(1),
        5 => (p.kind, p.stored) = (0, p.file.saturating_sub(block)),
        6 => (p.kind, p.stored) = (if p.kind == 0 { 0 } else { 3 }, p.file.saturating_add(1)),
        7 if p.kind != 0 => (p.kind, p.stored) = (4, p.file),
        _ => (p.file, p.stored) = (129, 129),
    }
}

/// A run that shares a bucket with another.
fn overlap(rng: &mut Rng, l: &mut CallList) {
    let whole = runs(l).filter(|k| k.size > 0 && k.offset <= 65_536);
    let ends: Vec<u64> = whole.map(|k| k.offset).collect();
    if ends.is_empty() {
        return;
    }
    let end = rng.pick(&ends);
    let mut run = Key::at(25, 0, end + rng.from_to(1, 5));
    run.size = ((run.offset - end) + rng.from_to(1, 3)) as u32;
    if rng.one_in(4) && end > 1 {
        run.offset = end - 1;
        run.size = rng.pick(&[1, 2, u32::MAX]);
    }
    l.insert(FREESPACE, run);
}

/// Leave fewer free buckets than wanted, often by one.
fn shorten_free(rng: &mut Rng, l: &mut CallList) {
    let n = next_fit(&l.places, u64::from(l.head.bucket)).len() as u64;
    let free = crate::model::free(l);
    let over = free.saturating_sub(n + 32);
    match rng.below(3) {
        0 if over < 60_000 => l.head.reserve = over as u32 + rng.pick(&[1, 1, 2, 9]),
        1 => {
            l.trees.remove(&FREESPACE);
        }
        _ => l.head.reserve = rng.pick(&[65_536, over as u32 + 1]),
    }
}

/// A run that begins before bucket 0 and that the walk reaches.
fn begin_before_0(rng: &mut Rng, l: &mut CallList) {
    with_a_piece(rng, l);
    let lowest = runs(l).map(crate::model::start).min().unwrap_or(0);
    if rng.one_in(3) || lowest == 0 {
        let more = rng.pick(&[1, 1, 7]);
        let keys = l.trees.entry(FREESPACE).or_default();
        let first = keys.iter_mut().find(|k| k.key_type == 25 && k.inode == 0);
        if let Some(run) = first {
            run.size = (run.offset as u32).wrapping_add(more);
        }
        return;
    }
    let mut run = Key::at(25, 0, rng.below(lowest.min(65_536) + 1));
    run.size = run.offset as u32 + rng.pick(&[1, 1, 3, 1_000]);
    l.insert(FREESPACE, run);
}

/// An alloc key with a data type at a bucket that the walk takes.
fn use_a_taken_bucket(rng: &mut Rng, l: &mut CallList) {
    with_a_piece(rng, l);
    let n = next_fit(&l.places, u64::from(l.head.bucket)).len();
    let taken = first_free(l, n);
    if taken.is_empty() {
        return;
    }
    let bucket = rng.pick(&taken);
    if let Some(keys) = l.trees.get_mut(&ALLOC) {
        keys.retain(|k| k.position() != (0, bucket, 0));
    }
    let mut value = vec![0; rng.pick(&[16, 16, 17, 64])];
    value[14] = rng.pick(&[4, 9, 1, 255]);
    l.insert(
        ALLOC,
        Key {
            value,
            ..Key::at(rng.pick(&[27, 27, 20]), 0, bucket)
        },
    );
}

/// One of a release's pieces; a list without one gets one.
fn with_a_released<'a>(rng: &mut Rng, l: &'a mut CallList) -> &'a mut Release {
    if l.releases.is_empty() {
        l.releases.push(Release {
            sector: u64::from(l.head.bucket) * rng.below(9),
            sectors: 1,
        });
    }
    let i = rng.below(l.releases.len() as u64) as usize;
    &mut l.releases[i]
}

/// A released piece that breaks refusal 14.
fn spoil_released(rng: &mut Rng, l: &mut CallList) {
    let bucket = u64::from(l.head.bucket).max(1);
    let choice = rng.below(5);
    let far = rng.pick(&[65_536 * bucket, u64::MAX - 200, 1 << 48, 65_537 * bucket]);
    let r = with_a_released(rng, l);
    match choice {
        0 => r.sectors = 0,
        1 => r.sectors = 129,
        2 => r.sectors = (bucket - r.sector % bucket + 1).min(65_535) as u16,
        3 => {
            r.sector =
                r.sector / bucket % 65_536 * bucket + bucket - u64::from(r.sectors).min(bucket) + 1
        }
        _ => r.sector = far,
    }
}

/// A freed bucket without its alloc key.
fn drop_an_alloc_key(rng: &mut Rng, l: &mut CallList) {
    let bucket = u64::from(l.head.bucket).max(1);
    let b = with_a_released(rng, l).sector / bucket;
    let at_inode_1 = rng.one_in(3);
    if let Some(keys) = l.trees.get_mut(&ALLOC) {
        let found = keys.iter().find(|k| k.position() == (0, b, 0)).cloned();
        keys.retain(|k| k.position() != (0, b, 0));
        if let (Some(mut key), true) = (found, at_inode_1) {
            key.inode = 1;
            l.insert(ALLOC, key);
        }
    }
}

/// Change the alloc value of a freed bucket.
fn with_an_alloc(rng: &mut Rng, l: &mut CallList, change: impl Fn(&mut Rng, &mut Vec<u8>, u16)) {
    let bucket = l.head.bucket;
    let b = with_a_released(rng, l).sector / u64::from(bucket).max(1);
    let keys = l.trees.entry(ALLOC).or_default();
    match keys.iter_mut().find(|k| k.position() == (0, b, 0)) {
        Some(key) => change(rng, &mut key.value, bucket),
        None => {
            let mut key = Key::at(27, 0, b);
            key.value = vec![0; 64];
            change(rng, &mut key.value, bucket);
            l.insert(ALLOC, key);
        }
    }
}

/// A generation record too short for an emptied bucket's byte.
fn shorten_a_record(rng: &mut Rng, l: &mut CallList) {
    let bucket = u64::from(l.head.bucket).max(1);
    let b = with_a_released(rng, l).sector / bucket;
    if let Some(keys) = l.trees.get_mut(&BUCKET_GENS) {
        keys.retain(|k| k.position() != (0, b / 256, 0));
    }
    let byte = b % 256;
    let length = rng.pick(&[0, byte / 2, byte, byte]) as usize;
    l.insert(
        BUCKET_GENS,
        Key {
            value: rng.bytes(length),
            ..Key::at(30, 0, b / 256)
        },
    );
}

/// A list with one field or byte damaged; most break the layout, and one that stands twice or elsewhere
/// does not.
pub fn damage(rng: &mut Rng, list: &[u8]) -> Vec<u8> {
    let fields: Vec<(u8, Vec<u8>)> = split(list)
        .unwrap_or_default()
        .iter()
        .map(|f| (f.tag, f.body.to_vec()))
        .collect();
    if fields.is_empty() || rng.one_in(6) {
        return damage_bytes(rng, list);
    }
    let fields = damage_field(rng, fields);
    let mut out = Vec::new();
    for (tag, body) in fields {
        put(&mut out, tag, &body);
    }
    out
}

/// Cut, lengthen or change the bytes of a list.
fn damage_bytes(rng: &mut Rng, list: &[u8]) -> Vec<u8> {
    let mut out = list.to_vec();
    match rng.below(4) {
        0 => out.truncate(rng.below(list.len() as u64 + 1) as usize),
        1 => out.push(rng.below(256) as u8),
        2 => {
            let at = rng.below(list.len().max(1) as u64) as usize;
            if let Some(b) = out.get_mut(at) {
                *b ^= 1 << rng.below(8);
            }
        }
        _ => out.truncate(list.len().saturating_sub(1)),
    }
    out
}

/// Damage one of the fields, their number or their order.
fn damage_field(rng: &mut Rng, mut fields: Vec<(u8, Vec<u8>)>) -> Vec<(u8, Vec<u8>)> {
    let i = rng.below(fields.len() as u64) as usize;
    match rng.below(16) {
        0 => fields.insert(i, fields[i].clone()),
        1 => {
            fields.remove(i);
        }
        2 if i > 0 => fields.swap(i, i - 1),
        3 => fields[i].0 = rng.pick(&[0, 2, 5, 9, 15, 63, 67, 70, 76, 77, 255]),
        4 => fields[i].1.push(rng.below(256) as u8),
        5 => {
            fields[i].1.pop();
        }
        6 if !fields[0].1.is_empty() => fields[0].1[0] = rng.pick(&[0, 4, 1, 2, 3, 255]),
        7 if fields[0].1.len() > 6 => fields[0].1[6] |= rng.pick(&[8, 16, 128]),
        8 if fields[i].1.len() >= 37 && i > 0 => fields[i].1[33 + rng.below(4) as usize] = 1,
        9 if i > 0 && fields[i].1.len() >= 37 => fields[i].1.resize(294, 7),
        10 if i > 0 && fields[i].1.len() >= 37 => fields[i].1.truncate(36),
        11 => fields.push((rng.pick(&[70, 71, 72, 73, 74, 75, 76]), Vec::new())),
        12 => fields.push((65, vec![1, 0, 1, 0, 0, 0, 0, 0, 0, 0, 0, 0, 0])),
        13 => fields.push((66, vec![0, 0, 0, 0, 0, 0, 0, 0, 1, 0])),
        14 => fields.insert(0, (0, vec![0; 37])),
        _ => fields.truncate(i),
    }
    fields
}
