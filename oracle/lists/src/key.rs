//! A key: type 1 byte, size 4, version high 4, version low 8, inode 8,
//! offset 8, snapshot 4, then a value of 0 to 256 bytes.

use crate::fields::number;

/// Bytes of a key's body before its value.
pub const KEY_BYTES: usize = 37;
/// The longest value.
pub const VALUE_MAX: usize = 256;

/// A position: inode, then offset, then snapshot.
pub type Position = (u64, u64, u32);

/// A key with its value.
#[derive(Debug, Clone, PartialEq, Eq, Default)]
pub struct Key {
    pub key_type: u8,
    pub size: u32,
    pub version_hi: u32,
    pub version_lo: u64,
    pub inode: u64,
    pub offset: u64,
    pub snapshot: u32,
    pub value: Vec<u8>,
}

impl Key {
    /// A key of `key_type` at (inode, offset) with nothing else set.
    pub fn at(key_type: u8, inode: u64, offset: u64) -> Key {
        Key {
            key_type,
            inode,
            offset,
            ..Key::default()
        }
    }

    /// The key's position.
    pub fn position(&self) -> Position {
        (self.inode, self.offset, self.snapshot)
    }

    /// The key in a body, or none where the body is too short or too long.
    pub fn read(body: &[u8]) -> Option<Key> {
        if body.len() < KEY_BYTES || body.len() > KEY_BYTES + VALUE_MAX {
            return None;
        }
        Some(Key {
            key_type: body[0],
            size: number(body, 1, 4) as u32,
            version_hi: number(body, 5, 4) as u32,
            version_lo: number(body, 9, 8),
            inode: number(body, 17, 8),
            offset: number(body, 25, 8),
            snapshot: number(body, 33, 4) as u32,
            value: body[KEY_BYTES..].to_vec(),
        })
    }

    /// The key's body.
    pub fn body(&self) -> Vec<u8> {
        let mut b = vec![self.key_type];
        b.extend_from_slice(&self.size.to_le_bytes());
        b.extend_from_slice(&self.version_hi.to_le_bytes());
        b.extend_from_slice(&self.version_lo.to_le_bytes());
        b.extend_from_slice(&self.inode.to_le_bytes());
        b.extend_from_slice(&self.offset.to_le_bytes());
        b.extend_from_slice(&self.snapshot.to_le_bytes());
        b.extend_from_slice(&self.value);
        b
    }
}
