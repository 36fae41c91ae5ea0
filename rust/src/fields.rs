//! Fields: a one-byte tag, a two-byte length and a body. Numbers are little-endian.

use std::error::Error;
use std::fmt;
use std::ops::RangeInclusive;
use std::sync::Arc;

/// Bytes that are no list of the kind asked for.
#[derive(Debug, Clone, Copy, PartialEq, Eq)]
pub struct BrokenLayout;

impl fmt::Display for BrokenLayout {
    fn fmt(&self, f: &mut fmt::Formatter<'_>) -> fmt::Result {
        f.write_str("the list breaks its layout")
    }
}

impl Error for BrokenLayout {}

/// The fields of a list, in order.
#[derive(Debug, Clone)]
pub(crate) struct Fields<'a> {
    rest: &'a [u8],
}

impl<'a> Fields<'a> {
    /// The fields of `list`.
    pub(crate) fn new(list: &'a [u8]) -> Self {
        Fields { rest: list }
    }

    /// The first field's tag and body, and what is left.
    fn first(&self) -> Option<(u8, &'a [u8], &'a [u8])> {
        let (&[tag, low, high], rest) = self.rest.split_first_chunk()?;
        let (body, rest) = rest.split_at_checked(usize::from(u16::from_le_bytes([low, high])))?;
        Some((tag, body, rest))
    }

    /// Take the fields at the front that have this tag, all together; an error where one of them
    /// passes the list's end or its body is not as long as `lengths` says.
    pub(crate) fn stretch(
        &mut self,
        tag: u8,
        lengths: RangeInclusive<usize>,
    ) -> Result<&'a [u8], BrokenLayout> {
        let all = self.rest;
        while self.rest.first() == Some(&tag) {
            let (_, body, rest) = self.first().ok_or(BrokenLayout)?;
            require(lengths.contains(&body.len()))?;
            self.rest = rest;
        }
        Ok(&all[..all.len() - self.rest.len()])
    }

    /// How many bytes are left.
    pub(crate) fn left(&self) -> usize {
        self.rest.len()
    }

    /// No field is left.
    pub(crate) fn end(self) -> Result<(), BrokenLayout> {
        require(self.rest.is_empty())
    }
}

impl<'a> Iterator for Fields<'a> {
    type Item = Result<(u8, Body<'a>), BrokenLayout>;

    /// The next field; an error ends the fields.
    fn next(&mut self) -> Option<Self::Item> {
        if self.rest.is_empty() {
            return None;
        }
        let Some((tag, body, rest)) = self.first() else {
            self.rest = &[];
            return Some(Err(BrokenLayout));
        };
        self.rest = rest;
        Some(Ok((tag, Body(body))))
    }
}

/// Fields of one tag, in the order in which they are read.
#[derive(Debug, Clone)]
pub(crate) enum Stretch<'a> {
    /// They stand one after the other in a list.
    Together(&'a [u8]),
    /// The body of each, wherever the field stands.
    Apart(Arc<[&'a [u8]]>),
}

impl<'a> Stretch<'a> {
    /// The fields, where they stand one after the other.
    pub(crate) fn together(&self) -> Option<Fields<'a>> {
        match self {
            Stretch::Together(fields) => Some(Fields::new(fields)),
            Stretch::Apart(_) => None,
        }
    }

    /// The bodies of the fields.
    pub(crate) fn bodies(&self) -> Bodies<'a> {
        match self {
            Stretch::Together(fields) => Bodies::together(fields),
            Stretch::Apart(bodies) => Bodies {
                together: Fields::new(&[]),
                apart: Some((Arc::clone(bodies), 0)),
            },
        }
    }
}

/// The bodies of a stretch's fields that are left: of fields that stand together, then of those apart.
#[derive(Debug, Clone)]
pub(crate) struct Bodies<'a> {
    together: Fields<'a>,
    /// The bodies from this one on.
    apart: Option<(Arc<[&'a [u8]]>, usize)>,
}

impl<'a> Bodies<'a> {
    /// The bodies of fields that stand one after the other.
    pub(crate) fn together(fields: &'a [u8]) -> Bodies<'a> {
        Bodies {
            together: Fields::new(fields),
            apart: None,
        }
    }
}

impl<'a> Iterator for Bodies<'a> {
    type Item = Body<'a>;

    /// The next body.
    fn next(&mut self) -> Option<Body<'a>> {
        if let Some(field) = self.together.next() {
            return field.ok().map(|(_, body)| body);
        }
        let (bodies, next) = self.apart.as_mut()?;
        let body = bodies.get(*next)?;
        *next += 1;
        Some(Body(body))
    }
}

/// What is left of a field's body.
pub(crate) struct Body<'a>(&'a [u8]);

impl<'a> Body<'a> {
    /// A whole body.
    pub(crate) fn new(body: &'a [u8]) -> Body<'a> {
        Body(body)
    }

    /// How many bytes are left.
    pub(crate) fn len(&self) -> usize {
        self.0.len()
    }

    /// The next `N` bytes.
    fn take<const N: usize>(&mut self) -> Result<[u8; N], BrokenLayout> {
        let (bytes, rest) = self.0.split_first_chunk().ok_or(BrokenLayout)?;
        self.0 = rest;
        Ok(*bytes)
    }

    /// The next byte.
    pub(crate) fn u8(&mut self) -> Result<u8, BrokenLayout> {
        self.take().map(u8::from_le_bytes)
    }

    /// The next two bytes.
    pub(crate) fn u16(&mut self) -> Result<u16, BrokenLayout> {
        self.take().map(u16::from_le_bytes)
    }

    /// The next four bytes.
    pub(crate) fn u32(&mut self) -> Result<u32, BrokenLayout> {
        self.take().map(u32::from_le_bytes)
    }

    /// The next eight bytes.
    pub(crate) fn u64(&mut self) -> Result<u64, BrokenLayout> {
        self.take().map(u64::from_le_bytes)
    }

    /// The next eight bytes, signed.
    pub(crate) fn i64(&mut self) -> Result<i64, BrokenLayout> {
        self.take().map(i64::from_le_bytes)
    }

    /// All that is left.
    pub(crate) fn rest(self) -> &'a [u8] {
        self.0
    }

    /// Nothing is left.
    pub(crate) fn end(self) -> Result<(), BrokenLayout> {
        require(self.0.is_empty())
    }
}

/// An error where the layout's test fails.
pub(crate) fn require(holds: bool) -> Result<(), BrokenLayout> {
    if holds {
        Ok(())
    } else {
        Err(BrokenLayout)
    }
}

/// Append a field whose body is the parts, one after the other.
///
/// # Panics
/// Where the body has more than 65,535 bytes.
pub(crate) fn put(out: &mut Vec<u8>, tag: u8, parts: &[&[u8]]) {
    let length: usize = parts.iter().map(|part| part.len()).sum();
    let length = u16::try_from(length).expect("a body has at most 65,535 bytes");
    out.push(tag);
    out.extend_from_slice(&length.to_le_bytes());
    for part in parts {
        out.extend_from_slice(part);
    }
}

#[cfg(test)]
mod tests {
    use super::{put, BrokenLayout, Fields};

    /// Tags and bodies of a list, up to the first error.
    fn split(list: &[u8]) -> Result<Vec<(u8, Vec<u8>)>, BrokenLayout> {
        Fields::new(list)
            .map(|field| field.map(|(tag, body)| (tag, body.rest().to_vec())))
            .collect()
    }

    /// Fields that are put are read again.
    #[test]
    fn round_trip() {
        let mut list = Vec::new();
        put(&mut list, 7, &[&[1], &[2, 3]]);
        put(&mut list, 76, &[]);
        put(&mut list, 9, &[&[5; 300]]);
        assert_eq!(list[..9], [7, 3, 0, 1, 2, 3, 76, 0, 0]);
        let fields = vec![(7, vec![1, 2, 3]), (76, vec![]), (9, vec![5; 300])];
        assert_eq!(split(&list), Ok(fields));
        assert_eq!(split(&[]), Ok(vec![]));
    }

    /// A field that passes the list's end is an error, wherever the list is cut.
    #[test]
    fn cut_lists() {
        for list in [&[1][..], &[1, 0], &[1, 1, 0], &[1, 0, 1, 9]] {
            assert_eq!(split(list), Err(BrokenLayout));
        }
    }

    /// A stretch has the fields of its tag and no others, and leaves the rest.
    #[test]
    fn stretches() {
        let mut list = Vec::new();
        put(&mut list, 4, &[&[1]]);
        put(&mut list, 4, &[&[2, 3]]);
        put(&mut list, 9, &[]);
        let mut fields = Fields::new(&list);
        assert_eq!(fields.stretch(3, 0..=9), Ok(&list[..0]));
        assert_eq!(fields.stretch(4, 1..=2), Ok(&list[..9]));
        assert_eq!(fields.clone().end(), Err(BrokenLayout));
        assert_eq!(fields.stretch(9, 0..=0), Ok(&list[9..]));
        assert_eq!(fields.end(), Ok(()));
        assert_eq!(Fields::new(&list).stretch(4, 2..=2), Err(BrokenLayout));
        assert_eq!(Fields::new(&list[..8]).stretch(4, 1..=2), Err(BrokenLayout));
    }

    /// Numbers are little-endian, and a body ends where its last byte is read.
    #[test]
    fn numbers() {
        let mut list = Vec::new();
        put(
            &mut list,
            1,
            &[&[1, 2, 0, 3, 0, 0, 0], &[255; 8], &[4, 0, 0, 0, 0, 0, 0, 0]],
        );
        let (_, mut body) = Fields::new(&list).next().expect("a field").expect("whole");
        assert_eq!((body.u8(), body.u16(), body.u32()), (Ok(1), Ok(2), Ok(3)));
        assert_eq!((body.i64(), body.len()), (Ok(-1), 8));
        assert_eq!(body.u64(), Ok(4));
        assert_eq!(body.u8(), Err(BrokenLayout));
        assert_eq!(body.end(), Ok(()));
    }
}
