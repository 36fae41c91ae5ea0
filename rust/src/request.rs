//! What a call list asks for: pieces to place and pieces to release.

use crate::fields::{put, Body, BrokenLayout};
use crate::kinds::DeviceSector;

/// The tags of requests.
pub(crate) const PIECE: u8 = 65;
pub(crate) const RELEASED: u8 = 66;

/// A piece to place.
#[derive(Debug, Clone, Copy, PartialEq, Eq, Hash)]
pub struct Piece {
    /// Sectors of the file that the piece holds.
    pub file_sectors: u16,
    /// Sectors that it takes on the device.
    pub stored_sectors: u16,
    /// The compression kind: 0 none, 2 gzip, 3 LZ4, 4 zstd, 5 incompressible.
    pub compression: u8,
    /// The checksum of what is stored.
    pub checksum: u64,
}

impl Piece {
    /// A piece that is not compressed.
    pub fn plain(sectors: u16, checksum: u64) -> Piece {
        Piece {
            file_sectors: sectors,
            stored_sectors: sectors,
            compression: 0,
            checksum,
        }
    }

    /// The piece in a field's body.
    pub(crate) fn read(mut body: Body) -> Result<Piece, BrokenLayout> {
        let piece = Piece {
            file_sectors: body.u16()?,
            stored_sectors: body.u16()?,
            compression: body.u8()?,
            checksum: body.u64()?,
        };
        body.end()?;
        Ok(piece)
    }

    /// Append the piece's field.
    pub(crate) fn put(&self, out: &mut Vec<u8>) {
        let parts: [&[u8]; 4] = [
            &self.file_sectors.to_le_bytes(),
            &self.stored_sectors.to_le_bytes(),
            &[self.compression],
            &self.checksum.to_le_bytes(),
        ];
        put(out, PIECE, &parts);
    }
}

/// A piece to release.
#[derive(Debug, Clone, Copy, PartialEq, Eq, Hash)]
pub struct Released {
    /// Its first sector.
    pub first: DeviceSector,
    /// How many sectors it has.
    pub sectors: u16,
}

impl Released {
    /// The piece in a field's body.
    pub(crate) fn read(mut body: Body) -> Result<Released, BrokenLayout> {
        let released = Released {
            first: DeviceSector(body.u64()?),
            sectors: body.u16()?,
        };
        body.end()?;
        Ok(released)
    }

    /// Append the piece's field.
    pub(crate) fn put(&self, out: &mut Vec<u8>) {
        let (first, sectors) = (self.first.0.to_le_bytes(), self.sectors.to_le_bytes());
        put(out, RELEASED, &[&first, &sectors]);
    }
}
