//! The change list, which the calls make and apply reads, and the layout that apply tests.

use crate::call_list::TREES;
use crate::fields::{number, put, split, Field};
use crate::key::Key;

/// The extents tree, which stands only in change lists.
pub const EXTENTS: u8 = 0;

/// The tags after the trees.
pub const ROOT: u8 = 70;
pub const TAKEN: u8 = 71;
pub const PLACED: u8 = 72;
pub const ROW: u8 = 73;
pub const SECTORS: u8 = 74;
pub const UNRESERVED: u8 = 75;
pub const END: u8 = 76;

/// Tag 72: a placed piece.
#[derive(Debug, Clone, PartialEq, Eq)]
pub struct Placed {
    pub sector: u64,
    pub stored: u16,
    pub bucket: u32,
    pub generation: u8,
}

/// Tag 73: an accounting row of one or three numbers.
#[derive(Debug, Clone, PartialEq, Eq)]
pub struct Row {
    pub inode: u64,
    pub offset: u64,
    pub numbers: Vec<i64>,
}

/// One batch: keys by tree in queue order, then what tags 70 to 75 name.
#[derive(Debug, Clone, PartialEq, Eq, Default)]
pub struct Batch {
    pub keys: Vec<(u8, Key)>,
    pub roots: Vec<u8>,
    pub taken: Vec<u32>,
    pub placed: Vec<Placed>,
    pub rows: Vec<Row>,
    pub sectors: Vec<u64>,
    pub unreserved: Vec<u32>,
}

/// The batches of a change list, or none where it breaks its layout.
pub fn read(bytes: &[u8]) -> Option<Vec<Batch>> {
    let mut batches = Vec::new();
    let mut batch = Batch::default();
    let mut last = None;
    for field in split(bytes)? {
        if last.is_some_and(|tag| tag > field.tag) {
            return None;
        }
        last = Some(field.tag);
        if field.tag == END {
            if !field.body.is_empty() {
                return None;
            }
            batches.push(std::mem::take(&mut batch));
            last = None;
        } else {
            batch.take(field)?;
        }
    }
    // A list that is not empty ends with 76.
    last.is_none().then_some(batches)
}

/// The bytes of a change list.
pub fn bytes(batches: &[Batch]) -> Vec<u8> {
    let mut out = Vec::new();
    for batch in batches {
        batch.put(&mut out);
    }
    out
}

impl Batch {
    /// Take one field other than 76, or none where it breaks the layout.
    fn take(&mut self, field: Field) -> Option<()> {
        let body = field.body;
        match field.tag {
            ROOT => self.roots.push(root_id(body)?),
            TAKEN => self.taken.push(bucket(body)?),
            PLACED => self.placed.push(Placed::read(body)?),
            ROW => self.rows.push(Row::read(body)?),
            SECTORS => self.sectors.push(u64::from_le_bytes(body.try_into().ok()?)),
            UNRESERVED => self.unreserved.push(bucket(body)?),
            tree if tree == EXTENTS || TREES.contains(&tree) => {
                let key = Key::read(body)?;
                if tree != EXTENTS && key.snapshot != 0 {
                    return None;
                }
                self.keys.push((tree, key));
            }
            _ => return None,
        }
        Some(())
    }

    /// Append the batch: ascending tags, queue order within a tree, 76 last.
    pub fn put(&self, out: &mut Vec<u8>) {
        let mut keys: Vec<&(u8, Key)> = self.keys.iter().collect();
        keys.sort_by_key(|(tree, _)| *tree);
        for (tree, key) in keys {
            put(out, *tree, &key.body());
        }
        for &id in &self.roots {
            put(out, ROOT, &[id]);
        }
        for bucket in &self.taken {
            put(out, TAKEN, &bucket.to_le_bytes());
        }
        for placed in &self.placed {
            put(out, PLACED, &placed.body());
        }
        for row in &self.rows {
            put(out, ROW, &row.body());
        }
        for sectors in &self.sectors {
            put(out, SECTORS, &sectors.to_le_bytes());
        }
        for bucket in &self.unreserved {
            put(out, UNRESERVED, &bucket.to_le_bytes());
        }
        put(out, END, &[]);
    }
}

impl Placed {
    /// The placed piece in a body of 15 bytes.
    fn read(body: &[u8]) -> Option<Placed> {
        (body.len() == 15).then(|| Placed {
            sector: number(body, 0, 8),
            stored: number(body, 8, 2) as u16,
            bucket: number(body, 10, 4) as u32,
            generation: body[14],
        })
    }

    /// The placed piece's body.
    fn body(&self) -> Vec<u8> {
        let mut b = self.sector.to_le_bytes().to_vec();
        b.extend_from_slice(&self.stored.to_le_bytes());
        b.extend_from_slice(&self.bucket.to_le_bytes());
        b.push(self.generation);
        b
    }
}

impl Row {
    /// The row in a body of 24 or 40 bytes.
    fn read(body: &[u8]) -> Option<Row> {
        if body.len() != 24 && body.len() != 40 {
            return None;
        }
        Some(Row {
            inode: number(body, 0, 8),
            offset: number(body, 8, 8),
            numbers: (16..body.len())
                .step_by(8)
                .map(|at| number(body, at, 8) as i64)
                .collect(),
        })
    }

    /// The row's body.
    fn body(&self) -> Vec<u8> {
        let mut b = self.inode.to_le_bytes().to_vec();
        b.extend_from_slice(&self.offset.to_le_bytes());
        for number in &self.numbers {
            b.extend_from_slice(&number.to_le_bytes());
        }
        b
    }
}

/// A root id, which is 10, 12 or 14.
fn root_id(body: &[u8]) -> Option<u8> {
    match body {
        [id @ (10 | 12 | 14)] => Some(*id),
        _ => None,
    }
}

/// A bucket number of four bytes.
fn bucket(body: &[u8]) -> Option<u32> {
    Some(u32::from_le_bytes(body.try_into().ok()?))
}
