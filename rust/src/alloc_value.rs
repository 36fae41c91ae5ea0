//! The parts of an alloc value that tell what a bucket holds: docs/FORMAT.md, "Alloc value".

/// The data types of a bucket that the calls give.
pub(crate) mod data_type {
    /// Free.
    pub(crate) const FREE: u8 = 0;
    /// It holds file data.
    pub(crate) const USER: u8 = 4;
    /// Emptied, and waiting for its discard.
    pub(crate) const NEED_DISCARD: u8 = 9;
}

/// The shortest alloc value that a release or a discard takes.
pub(crate) const LEAST: usize = 56;

/// The generation.
pub(crate) fn generation(value: &[u8]) -> Option<u8> {
    value.get(12).copied()
}

/// The data type.
pub(crate) fn data_type(value: &[u8]) -> Option<u8> {
    value.get(14).copied()
}

/// The dirty sectors.
pub(crate) fn dirty_sectors(value: &[u8]) -> Option<u32> {
    let bytes = value.get(16..20)?.try_into().ok()?;
    Some(u32::from_le_bytes(bytes))
}
