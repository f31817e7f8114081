//! Rows made.

use super::header::{number_at, Header};
use crate::format::{kind, sz};
use nachricht_sys::Row;

/// The row of an item without content.
#[inline(always)]
pub fn plain(kind: u8, number: u64) -> Row {
    with_content(kind, 0, number)
}

/// The row of an item with so many bytes of content from a start on.
#[inline(always)]
pub fn with_content(kind: u8, start: usize, length: u64) -> Row {
    Row {
        kind,
        number: length,
        start,
    }
}

/// The row of a value of code 0, whose content is there.
#[inline(always)]
pub fn binary(bytes: &[u8], header: Header) -> Row {
    let bits = |count| number_at(bytes, header.end, count).unwrap_or(0);
    match header.sz {
        sz::NULL..=sz::FALSE => plain(header.sz, 0),
        sz::FLOAT32 => plain(kind::FLOAT32, bits(4)),
        sz::FLOAT64 => plain(kind::FLOAT64, bits(8)),
        _ => with_content(kind::BYTES, header.end, header.binary_length()),
    }
}
