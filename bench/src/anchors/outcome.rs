//! What the functions of an anchor answer, and the same as an answer of the C interface.

use super::header::Header;
use super::utf8::stop;
use nachricht_sys::{Answer, Row};

/// What checking and reading count.
#[derive(Clone, Copy, PartialEq, Eq, Debug)]
pub struct Counts {
    pub rows: usize,
    pub entries: usize,
    /// At the top level.
    pub fields: usize,
}

/// Why a call failed.
#[derive(Clone, Copy, PartialEq, Eq, Debug)]
pub struct Failure {
    pub error: Error,
    /// The offset of an item in reading, the number of a row in writing.
    pub place: usize,
    /// 1 or 2 for the bundle of a join that does not read, else 0.
    pub side: u8,
}

/// The errors, by their numbers.
#[derive(Clone, Copy, PartialEq, Eq, Debug)]
#[repr(u8)]
pub enum Error {
    TooLong = 1,
    Truncated = 2,
    InvalidUtf8 = 3,
    UndefinedReference = 4,
    UnexpectedKey = 5,
    TooDeep = 6,
    TooManyRows = 7,
    TooManyEntries = 8,
    InvalidRow = 9,
    OutputTooLong = 10,
    NotCanonical = 11,
}

impl Error {
    /// The failure of this error at a place.
    #[inline]
    pub fn at<T>(self, place: usize) -> Result<T, Failure> {
        Err(Failure {
            error: self,
            place,
            side: 0,
        })
    }
}

impl Failure {
    /// The same failure, of the bundle on a side.
    pub fn on(self, side: u8) -> Failure {
        Failure { side, ..self }
    }
}

/// The answer of checking or reading a bundle.
pub fn counted(result: Result<Counts, Failure>, bytes: &[u8]) -> Answer {
    match result {
        Ok(counts) => Answer {
            count: counts.rows as u64,
            entries: counts.entries as u64,
            fields: counts.fields as u64,
            ..Answer::default()
        },
        Err(failure) => failed_reading(failure, bytes),
    }
}

/// The answer of writing rows over a text.
pub fn written(result: Result<usize, Failure>, rows: &[Row], text: &[u8]) -> Answer {
    match result {
        Ok(bytes) => put(bytes),
        Err(failure) => failed_writing(failure, rows, text),
    }
}

/// The answer of joining two bundles. Canonicalizing is joining with an empty one.
pub fn joined(result: Result<usize, Failure>, first: &[u8], second: &[u8]) -> Answer {
    match result {
        Ok(bytes) => put(bytes),
        Err(failure) if failure.side == 2 => failed_reading(failure, second),
        Err(failure) => failed_reading(failure, first),
    }
}

/// The answer of a call that has written so many bytes.
fn put(bytes: usize) -> Answer {
    Answer {
        count: bytes as u64,
        ..Answer::default()
    }
}

/// The answer of a call that reads a bundle and fails. The place of a text that is not UTF-8 is found only here: among the
/// rules it made "tuned" a tenth slower in checking (three runs).
#[cold]
#[inline(never)]
fn failed_reading(failure: Failure, bytes: &[u8]) -> Answer {
    let answer = failed(failure);
    let lead = bytes.get(failure.place);
    let header = lead.and_then(|lead| Header::at(bytes, failure.place, *lead));
    match (failure.error, header) {
        (Error::InvalidUtf8, Some(Header { number, end, .. })) => Answer {
            place: (end + stop(&bytes[end..][..number as usize])) as u64,
            ..answer
        },
        _ => answer,
    }
}

/// The same for a call that writes rows.
#[cold]
#[inline(never)]
fn failed_writing(failure: Failure, rows: &[Row], text: &[u8]) -> Answer {
    let answer = failed(failure);
    match (failure.error, rows.get(failure.place)) {
        (Error::InvalidUtf8, Some(row)) => Answer {
            place: (row.start + stop(&text[row.start..][..row.number as usize])) as u64,
            row: failure.place as u64,
            ..answer
        },
        _ => answer,
    }
}

fn failed(failure: Failure) -> Answer {
    Answer {
        error: failure.error as u64,
        place: failure.place as u64,
        side: failure.side.into(),
        ..Answer::default()
    }
}
