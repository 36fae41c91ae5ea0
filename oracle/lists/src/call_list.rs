//! The call list, which every call reads in whatever order its fields stand, the layout that refusal 2
//! tests, and what refusal 22 finds twice.

use crate::fields::{number, put, split, Field};
use crate::key::{Key, Position};
use std::collections::{BTreeMap, BTreeSet};

/// The calls by their call byte.
pub const PLACE: u8 = 1;
pub const RELEASE: u8 = 2;
pub const DISCARD: u8 = 3;

/// The trees of a call list by their tag.
pub const ALLOC: u8 = 4;
pub const LRU: u8 = 10;
pub const FREESPACE: u8 = 11;
pub const NEED_DISCARD: u8 = 12;
pub const BACKPOINTERS: u8 = 13;
pub const BUCKET_GENS: u8 = 14;
pub const TREES: [u8; 6] = [
    ALLOC,
    LRU,
    FREESPACE,
    NEED_DISCARD,
    BACKPOINTERS,
    BUCKET_GENS,
];

/// The other tags.
pub const HEAD: u8 = 1;
pub const RESERVED: u8 = 64;
pub const PLACED: u8 = 65;
pub const RELEASED: u8 = 66;

/// Tag 1.
#[derive(Debug, Clone, PartialEq, Eq, Default)]
pub struct Head {
    pub call: u8,
    pub bucket: u16,
    pub block: u16,
    pub checksum: u8,
    pub roots: u8,
    pub reserve: u32,
    pub batch: u32,
    pub journal: u64,
    pub inode: u64,
    pub base: u64,
}

/// Tag 65: a piece to place.
#[derive(Debug, Clone, PartialEq, Eq)]
pub struct Place {
    pub file: u16,
    pub stored: u16,
    pub kind: u8,
    pub checksum: u64,
}

/// Tag 66: a piece to release.
#[derive(Debug, Clone, PartialEq, Eq)]
pub struct Release {
    pub sector: u64,
    pub sectors: u16,
}

/// A call list, or a volume where it has no requests; keys by position and reserved buckets by number.
#[derive(Debug, Clone, PartialEq, Eq, Default)]
pub struct CallList {
    pub head: Head,
    pub trees: BTreeMap<u8, Vec<Key>>,
    pub reserved: Vec<u32>,
    pub places: Vec<Place>,
    pub releases: Vec<Release>,
}

impl Head {
    /// Tag 1's body, or none where its length, call byte or root bits are wrong.
    pub fn read(body: &[u8]) -> Option<Head> {
        if body.len() != 39 || !(PLACE..=DISCARD).contains(&body[0]) || body[6] > 7 {
            return None;
        }
        Some(Head {
            call: body[0],
            bucket: number(body, 1, 2) as u16,
            block: number(body, 3, 2) as u16,
            checksum: body[5],
            roots: body[6],
            reserve: number(body, 7, 4) as u32,
            batch: number(body, 11, 4) as u32,
            journal: number(body, 15, 8),
            inode: number(body, 23, 8),
            base: number(body, 31, 8),
        })
    }

    /// Tag 1's body.
    pub fn body(&self) -> Vec<u8> {
        let mut b = vec![self.call];
        b.extend_from_slice(&self.bucket.to_le_bytes());
        b.extend_from_slice(&self.block.to_le_bytes());
        b.push(self.checksum);
        b.push(self.roots);
        b.extend_from_slice(&self.reserve.to_le_bytes());
        b.extend_from_slice(&self.batch.to_le_bytes());
        b.extend_from_slice(&self.journal.to_le_bytes());
        b.extend_from_slice(&self.inode.to_le_bytes());
        b.extend_from_slice(&self.base.to_le_bytes());
        b
    }
}

impl CallList {
    /// The keys of a tree, none where it has none.
    pub fn keys(&self, tree: u8) -> &[Key] {
        self.trees.get(&tree).map_or(&[], |keys| keys.as_slice())
    }

    /// Add a key to a tree, in the place that its position gives it; an older key there stays.
    pub fn insert(&mut self, tree: u8, key: Key) {
        let keys = self.trees.entry(tree).or_default();
        if let Err(i) = keys.binary_search_by_key(&key.position(), Key::position) {
            keys.insert(i, key);
        }
    }

    /// Reserve a bucket.
    pub fn reserve(&mut self, bucket: u32) {
        if let Err(i) = self.reserved.binary_search(&bucket) {
            self.reserved.insert(i, bucket);
        }
    }

    /// How many requests it holds, of either call.
    pub fn requests(&self) -> usize {
        self.places.len() + self.releases.len()
    }

    /// The list without its requests.
    pub fn volume(&self) -> CallList {
        CallList {
            places: Vec::new(),
            releases: Vec::new(),
            ..self.clone()
        }
    }

    /// Whether it holds requests of a call that it does not name.
    pub fn holds_others_requests(&self) -> bool {
        (self.head.call != PLACE && !self.places.is_empty())
            || (self.head.call != RELEASE && !self.releases.is_empty())
    }

    /// Refusal 22: two keys of a tree stand at one position, or a reserved bucket stands twice.
    pub fn stands_twice(&self) -> bool {
        let twice = |keys: &Vec<Key>| {
            let positions: BTreeSet<Position> = keys.iter().map(Key::position).collect();
            positions.len() < keys.len()
        };
        let reserved: BTreeSet<u32> = self.reserved.iter().copied().collect();
        self.trees.values().any(twice) || reserved.len() < self.reserved.len()
    }

    /// The list's bytes, in order: those of its sorted form.
    pub fn bytes(&self) -> Vec<u8> {
        let mut out = Vec::new();
        put(&mut out, HEAD, &self.head.body());
        for (&tree, keys) in &self.trees {
            for key in keys {
                put(&mut out, tree, &key.body());
            }
        }
        for bucket in &self.reserved {
            put(&mut out, RESERVED, &bucket.to_le_bytes());
        }
        for place in &self.places {
            put(&mut out, PLACED, &place.body());
        }
        for release in &self.releases {
            put(&mut out, RELEASED, &release.body());
        }
        out
    }

    /// The list in `bytes`, of whichever call, or none where it breaks its layout. Its fields stand in
    /// any order; requests keep theirs.
    pub fn read(bytes: &[u8]) -> Option<CallList> {
        let fields = split(bytes)?;
        if fields.iter().filter(|f| f.tag == HEAD).count() != 1 {
            return None;
        }
        let mut list = CallList::default();
        for field in fields {
            list.take(field)?;
        }
        for keys in list.trees.values_mut() {
            keys.sort_by_key(Key::position);
        }
        list.reserved.sort();
        Some(list)
    }

    /// Take one field at the list's end, or none where it breaks the layout.
    fn take(&mut self, field: Field) -> Option<()> {
        let body = field.body;
        match field.tag {
            HEAD => self.head = Head::read(body)?,
            RESERVED => self
                .reserved
                .push(u32::from_le_bytes(body.try_into().ok()?)),
            PLACED => self.places.push(Place::read(body)?),
            RELEASED => self.releases.push(Release::read(body)?),
            tree if TREES.contains(&tree) => {
                let key = Key::read(body).filter(|key| key.snapshot == 0)?;
                self.trees.entry(tree).or_default().push(key);
            }
            _ => return None,
        }
        Some(())
    }
}

/// The call byte of a list: that of its one field 1, wherever it stands; 0 where there is none or more
/// than one.
pub fn call_byte(list: &[u8]) -> u8 {
    let fields = split(list).unwrap_or_default();
    let mut heads = fields.iter().filter(|f| f.tag == HEAD);
    match (heads.next(), heads.next()) {
        (Some(head), None) => head.body.first().copied().unwrap_or(0),
        _ => 0,
    }
}

impl Place {
    /// The request in a body of 13 bytes.
    pub fn read(body: &[u8]) -> Option<Place> {
        (body.len() == 13).then(|| Place {
            file: number(body, 0, 2) as u16,
            stored: number(body, 2, 2) as u16,
            kind: body[4],
            checksum: number(body, 5, 8),
        })
    }

    /// The request's body.
    pub fn body(&self) -> Vec<u8> {
        let mut b = self.file.to_le_bytes().to_vec();
        b.extend_from_slice(&self.stored.to_le_bytes());
        b.push(self.kind);
        b.extend_from_slice(&self.checksum.to_le_bytes());
        b
    }
}

impl Release {
    /// The request in a body of 10 bytes.
    pub fn read(body: &[u8]) -> Option<Release> {
        (body.len() == 10).then(|| Release {
            sector: number(body, 0, 8),
            sectors: number(body, 8, 2) as u16,
        })
    }

    /// The request's body.
    pub fn body(&self) -> Vec<u8> {
        let mut b = self.sector.to_le_bytes().to_vec();
        b.extend_from_slice(&self.sectors.to_le_bytes());
        b
    }
}
