//! Reading bytes: fields and big-endian numbers. Both ledgers share this and nothing else that decides anything.

/// A tagged field: tag (1 byte), length (2), value.
#[derive(Clone, Copy, Debug, PartialEq, Eq)]
pub struct Field<'a> {
    pub tag: u8,
    pub value: &'a [u8],
}

/// Bytes of the field that the run begins with, or none where the run ends before the field does.
pub fn size(bytes: &[u8]) -> Option<usize> {
    if bytes.len() < 3 {
        return None;
    }
    let size = 3 + usize::from(u16_at(bytes, 1));
    (size <= bytes.len()).then_some(size)
}

/// The field, where the bytes are exactly one.
pub fn exactly_one(bytes: &[u8]) -> Option<Field<'_>> {
    (size(bytes)? == bytes.len()).then(|| Field { tag: bytes[0], value: &bytes[3..] })
}

/// A number of 2 bytes.
pub fn u16_at(bytes: &[u8], at: usize) -> u16 {
    u16::from_be_bytes([bytes[at], bytes[at + 1]])
}

/// A number of 4 bytes.
pub fn u32_at(bytes: &[u8], at: usize) -> u32 {
    u32::from_be_bytes([bytes[at], bytes[at + 1], bytes[at + 2], bytes[at + 3]])
}

/// A price of 4 bytes, signed two's complement.
pub fn price_at(bytes: &[u8], at: usize) -> i64 {
    i64::from(u32_at(bytes, at) as i32)
}
