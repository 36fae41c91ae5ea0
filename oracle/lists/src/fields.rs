//! Fields: one-byte tag, two-byte length, body; numbers little-endian.

/// One field of a list.
#[derive(Debug, Clone, Copy, PartialEq, Eq)]
pub struct Field<'a> {
    pub tag: u8,
    pub body: &'a [u8],
}

/// The fields of `list` as they stand; none where a field passes the list's end.
pub fn split(list: &[u8]) -> Option<Vec<Field<'_>>> {
    let (fields, rest) = split_whole(list);
    rest.is_empty().then_some(fields)
}

/// The fields at the front of `list` that are whole, and the bytes that are left.
pub fn split_whole(list: &[u8]) -> (Vec<Field<'_>>, &[u8]) {
    let mut fields = Vec::new();
    let mut rest = list;
    while rest.len() >= 3 {
        let end = 3 + number(rest, 1, 2) as usize;
        if rest.len() < end {
            break;
        }
        fields.push(Field {
            tag: rest[0],
            body: &rest[3..end],
        });
        rest = &rest[end..];
    }
    (fields, rest)
}

/// The bytes of fields.
pub fn joined<'a>(fields: impl IntoIterator<Item = Field<'a>>) -> Vec<u8> {
    let mut out = Vec::new();
    for field in fields {
        put(&mut out, field.tag, field.body);
    }
    out
}

/// Append a field of `tag` and `body` to `out`.
pub fn put(out: &mut Vec<u8>, tag: u8, body: &[u8]) {
    let length = u16::try_from(body.len()).expect("a body's length fits two bytes");
    out.push(tag);
    out.extend_from_slice(&length.to_le_bytes());
    out.extend_from_slice(body);
}

/// The little-endian number of `n` bytes at `at` of `body`.
pub fn number(body: &[u8], at: usize, n: usize) -> u64 {
    let mut x = 0;
    for i in (0..n).rev() {
        x = x << 8 | u64::from(body[at + i]);
    }
    x
}
