//! Memory that is sized once and holds a list.

use crate::refusal::Refusal;

/// Bytes, of which the first `length` are a list.
pub(crate) struct Buffer {
    bytes: Box<[u8]>,
    length: usize,
}

impl Buffer {
    /// Room for `size` bytes, and no list yet.
    pub(crate) fn new(size: usize) -> Buffer {
        Buffer {
            bytes: vec![0; size].into_boxed_slice(),
            length: 0,
        }
    }

    /// The list.
    pub(crate) fn list(&self) -> &[u8] {
        &self.bytes[..self.length]
    }

    /// The list's first `N` bytes.
    pub(crate) fn start<const N: usize>(&self) -> [u8; N] {
        *self.list().first_chunk().expect("a list is longer")
    }

    /// Write over the list's first bytes.
    pub(crate) fn set_start(&mut self, start: &[u8]) {
        self.bytes[..start.len()].copy_from_slice(start);
    }

    /// The list with some bytes after it, which are no part of it afterwards.
    pub(crate) fn with(&mut self, more: &[u8]) -> &[u8] {
        let end = self.length + more.len();
        self.bytes[self.length..end].copy_from_slice(more);
        &self.bytes[..end]
    }

    /// Hold the list that a call writes; none where it refuses.
    pub(crate) fn answer(
        &mut self,
        call: impl FnOnce(&mut [u8]) -> Result<usize, Refusal>,
    ) -> Result<(), Refusal> {
        self.length = 0;
        self.length = call(&mut self.bytes)?;
        Ok(())
    }

    /// Hold no list.
    pub(crate) fn clear(&mut self) {
        self.length = 0;
    }
}

#[cfg(test)]
mod tests {
    use super::Buffer;
    use crate::refusal::Refusal;

    /// A buffer that holds the list 1, 2, 3.
    fn held() -> Buffer {
        let mut buffer = Buffer::new(8);
        let answer = buffer.answer(|out| {
            out[..3].copy_from_slice(&[1, 2, 3]);
            Ok(3)
        });
        assert_eq!((answer, buffer.list()), (Ok(()), &[1, 2, 3][..]));
        buffer
    }

    /// Bytes after the list are lent with it and are no part of it; its start is written over.
    #[test]
    fn lists() {
        let mut buffer = held();
        assert_eq!(buffer.with(&[7, 8]), [1, 2, 3, 7, 8]);
        buffer.set_start(&[9]);
        assert_eq!((buffer.start(), buffer.list()), ([9, 2], &[9, 2, 3][..]));
    }

    /// No list is held after a refusal.
    #[test]
    fn refusals() {
        let mut buffer = held();
        let refused = buffer.answer(|_| Err(Refusal::LimitPassed));
        assert_eq!(
            (refused, buffer.list()),
            (Err(Refusal::LimitPassed), &[][..])
        );
    }
}
