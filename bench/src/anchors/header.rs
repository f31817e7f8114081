//! Headers, for both anchors: read at an offset, measured, and made.

use crate::format::{code, sz, NEGATIVE_ALIAS};

/// A header that was read.
#[derive(Clone, Copy)]
pub struct Header {
    pub code: u8,
    pub sz: u8,
    /// `sz` itself, or the number in the bytes after the lead byte.
    pub number: u64,
    /// Where the header ends.
    pub end: usize,
}

impl Header {
    /// The header with this lead byte at an offset; `None` where the bytes end inside it.
    #[inline(always)]
    pub fn at(bytes: &[u8], offset: usize, lead: u8) -> Option<Header> {
        let (code, sz) = (lead >> 5, lead & 31);
        let mut header = Header {
            code,
            sz,
            number: sz.into(),
            end: offset + 1,
        };
        if sz > sz::MAX_INLINE {
            header.number = number_at(bytes, header.end, header.following())?;
            header.end += header.following();
        }
        Some(header)
    }

    /// How many bytes of the header follow the lead byte, if there are any.
    #[inline(always)]
    fn following(self) -> usize {
        usize::from(self.sz) - usize::from(sz::MAX_INLINE)
    }

    /// Whether a shorter header has the same payload.
    #[inline(always)]
    pub fn is_long(self) -> bool {
        self.sz > sz::MAX_INLINE
            && (is_inline(self.code, self.number) || width(self.number) != self.following())
    }

    /// Whether this is the second encoding of the least integer.
    #[inline(always)]
    pub fn is_alias(self) -> bool {
        self.code == code::NEGATIVE && self.number == NEGATIVE_ALIAS
    }

    /// The number that the row of an integer or a container has.
    #[inline(always)]
    pub fn row_number(self) -> u64 {
        self.number - u64::from(self.is_alias())
    }

    /// How many bytes of content follow the header of a value without text, code 0.
    #[inline(always)]
    pub fn binary_length(self) -> u64 {
        match self.sz {
            sz::NULL..=sz::FALSE => 0,
            sz::FLOAT32 => 4,
            sz::FLOAT64 => 8,
            sz::FIXED..=sz::MAX_INLINE => self.number - u64::from(sz::FIXED),
            _ => self.number,
        }
    }
}

/// The number in 1 to 8 bytes, most significant first.
#[inline(always)]
pub fn number_at(bytes: &[u8], offset: usize, count: usize) -> Option<u64> {
    if count == 1 {
        return bytes.get(offset).copied().map(u64::from);
    }
    let rest = bytes.get(offset..)?;
    if let Some(eight) = rest.first_chunk() {
        return Some(u64::from_be_bytes(*eight) >> (64 - 8 * count));
    }
    let digits = rest.get(..count)?;
    Some(
        digits
            .iter()
            .fold(0, |number, digit| number << 8 | u64::from(*digit)),
    )
}

/// The fewest bytes that hold a payload, which is not 0.
#[inline(always)]
pub fn width(payload: u64) -> usize {
    (71 - payload.leading_zeros() as usize) / 8
}

/// Whether a payload stands in the lead byte.
#[inline(always)]
pub fn is_inline(code: u8, payload: u64) -> bool {
    payload <= u64::from(sz::MAX_INLINE - taken(code))
}

/// The lead byte that has the payload in it.
#[inline(always)]
pub fn inline_lead(code: u8, payload: u64) -> u8 {
    code << 5 | (payload as u8 + taken(code))
}

/// The lead byte that is followed by so many bytes.
#[inline(always)]
pub fn long_lead(code: u8, following: usize) -> u8 {
    code << 5 | (sz::MAX_INLINE + following as u8)
}

/// How many values of `sz` a code gives to types of fixed size.
#[inline(always)]
fn taken(code: u8) -> u8 {
    if code == code::BINARY {
        sz::FIXED
    } else {
        0
    }
}
