//! The errors, one for each number of the format's description.

use crate::limits::{MAX_BYTES, MAX_DEPTH, MAX_ENTRIES};
use crate::place::{Place, Side};
use std::fmt;

/// Why a call failed. It has changed nothing in the buffers that it was lent.
///
/// ```
/// use nachricht::{check, Error, Mode, Place};
///
/// let error = check(&[0xC1, 0x64, 0xC1, 0x6D], Mode::Lenient).unwrap_err();
/// assert_eq!(error, Error::UnexpectedKey(Place::Offset(2)));
/// assert_eq!((error.number(), error.place()), (5, 2));
/// assert_eq!(error.to_string(), "a key straight after a key, at offset 2");
/// ```
///
/// In a text that is not UTF-8, here one in Latin-1, the place is that of the byte:
///
/// ```
/// use nachricht::{Bundle, Error, Place};
///
/// let bytes = b"\xC1n\x85Gr\xFC\xDFe";
/// let error = Bundle::read(bytes).unwrap_err();
/// assert_eq!(error, Error::InvalidUtf8(Place::Offset(5)));
///
/// let place = error.place();
/// let around = &bytes[place.saturating_sub(2)..bytes.len().min(place + 2)];
/// assert_eq!(around.escape_ascii().to_string(), r"Gr\xfc\xdf");
/// ```
#[derive(Clone, Copy, PartialEq, Eq, Hash, Debug)]
pub enum Error {
    /// 1: a bundle or text is over [`MAX_BYTES`] bytes.
    TooLong(Place),
    /// 2: an item or part of it is due, and the bytes or rows have ended.
    Truncated(Place),
    /// 3: a string, symbol or key is not UTF-8. The place is the offset of the first byte that cannot come next in it,
    /// or the offset just after its content where that ends too early.
    InvalidUtf8(Place),
    /// 4: a reference to an entry not yet made.
    UndefinedReference(Place),
    /// 5: a key straight after a key.
    UnexpectedKey(Place),
    /// 6: a container inside [`MAX_DEPTH`] open ones.
    TooDeep(Place),
    /// 7: more rows than [`MAX_ROWS`](crate::limits::MAX_ROWS), or than the table.
    TooManyRows(Place),
    /// 8: more entries than [`MAX_ENTRIES`]; in writing and joining, more different names.
    TooManyEntries(Place),
    /// 9: a row that means nothing.
    InvalidRow(Place),
    /// 10: the result is over its limit, or over the buffer.
    OutputTooLong,
    /// 11: strict reading of what is not canonical.
    NotCanonical(Place),
    /// 12: the length of an envelope is bad.
    InvalidEnvelope,
    /// 13: the version of an envelope is not 1.
    UnsupportedVersion,
    /// Another number. The library that this crate was written for answers none; a later one may.
    Unknown(u64, Place),
}

impl Error {
    /// The error of this number.
    pub(crate) fn new(number: u64, place: Place) -> Error {
        match number {
            1 => Error::TooLong(place),
            2 => Error::Truncated(place),
            3 => Error::InvalidUtf8(place),
            4 => Error::UndefinedReference(place),
            5 => Error::UnexpectedKey(place),
            6 => Error::TooDeep(place),
            7 => Error::TooManyRows(place),
            8 => Error::TooManyEntries(place),
            9 => Error::InvalidRow(place),
            10 => Error::OutputTooLong,
            11 => Error::NotCanonical(place),
            12 => Error::InvalidEnvelope,
            13 => Error::UnsupportedVersion,
            number => Error::Unknown(number, place),
        }
    }

    /// The error's number in the format's description.
    pub fn number(self) -> u64 {
        match self {
            Error::TooLong(_) => 1,
            Error::Truncated(_) => 2,
            Error::InvalidUtf8(_) => 3,
            Error::UndefinedReference(_) => 4,
            Error::UnexpectedKey(_) => 5,
            Error::TooDeep(_) => 6,
            Error::TooManyRows(_) => 7,
            Error::TooManyEntries(_) => 8,
            Error::InvalidRow(_) => 9,
            Error::OutputTooLong => 10,
            Error::NotCanonical(_) => 11,
            Error::InvalidEnvelope => 12,
            Error::UnsupportedVersion => 13,
            Error::Unknown(number, _) => number,
        }
    }

    /// Where the error is as a number: an offset in reading, canonicalizing and joining; in writing a row's number, or
    /// for [`InvalidUtf8`](Error::InvalidUtf8) an offset in the text; 0 for what concerns no item.
    pub fn place(self) -> usize {
        self.located().number()
    }

    /// The number of the row, if the error is one of writing and concerns a row: of the first bad one, or how many
    /// there are where one more is due.
    pub fn row(self) -> Option<usize> {
        self.located().row()
    }

    /// The bundle that does not read, if the error is one of joining.
    pub fn side(self) -> Option<Side> {
        self.located().side()
    }

    /// Where the error is, and what that counts.
    pub fn located(self) -> Place {
        match self {
            Error::TooLong(place)
            | Error::Truncated(place)
            | Error::InvalidUtf8(place)
            | Error::UndefinedReference(place)
            | Error::UnexpectedKey(place)
            | Error::TooDeep(place)
            | Error::TooManyRows(place)
            | Error::TooManyEntries(place)
            | Error::InvalidRow(place)
            | Error::NotCanonical(place)
            | Error::Unknown(_, place) => place,
            Error::OutputTooLong | Error::InvalidEnvelope | Error::UnsupportedVersion => {
                Place::Whole
            }
        }
    }

    /// What is wrong.
    fn write_reason(self, f: &mut fmt::Formatter<'_>) -> fmt::Result {
        match self {
            Error::TooLong(_) => write!(f, "more than {MAX_BYTES} bytes"),
            Error::Truncated(_) => f.write_str("the input ends where more is due"),
            Error::InvalidUtf8(_) => f.write_str("a string, symbol or key is not UTF-8"),
            Error::UndefinedReference(_) => f.write_str("a reference to an entry not yet made"),
            Error::UnexpectedKey(_) => f.write_str("a key straight after a key"),
            Error::TooDeep(_) => write!(f, "a container inside {MAX_DEPTH} open ones"),
            Error::TooManyRows(_) => f.write_str("more rows than there may be"),
            Error::TooManyEntries(_) => write!(f, "more than {MAX_ENTRIES} names"),
            Error::InvalidRow(_) => f.write_str("a row that means nothing"),
            Error::OutputTooLong => f.write_str("the result is over the limit or the buffer"),
            Error::NotCanonical(_) => f.write_str("not the canonical encoding"),
            Error::InvalidEnvelope => f.write_str("the envelope's length is bad"),
            Error::UnsupportedVersion => f.write_str("the envelope's version is not 1"),
            Error::Unknown(number, _) => write!(f, "error {number}"),
        }
    }
}

impl fmt::Display for Error {
    fn fmt(&self, f: &mut fmt::Formatter<'_>) -> fmt::Result {
        self.write_reason(f)?;
        match self.located() {
            Place::Whole => Ok(()),
            place => write!(f, ", {place}"),
        }
    }
}

impl std::error::Error for Error {}

#[cfg(test)]
mod tests {
    use super::*;

    /// Every number, also one that no library answers today, makes an error that says it.
    #[test]
    fn numbers() {
        let place = Place::Offset(7);
        for number in 1..20 {
            let error = Error::new(number, place);
            assert_eq!(error.number(), number);
            assert_eq!(matches!(error, Error::Unknown(..)), number > 13);
        }
        let unknown = Error::new(u64::MAX, place);
        assert_eq!(unknown.place(), 7);
        assert_eq!(
            unknown.to_string(),
            "error 18446744073709551615, at offset 7"
        );
    }
}
