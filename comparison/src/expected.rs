//! What the C functions have to answer and leave behind, by the reference.

use crate::row;
use nachricht_sys::{Answer, Row};
use reference::{Counts, Error, JoinError, Mode};

/// A result of the reference, for which there is one answer. What it does not speak of is 0.
pub trait Expected {
    fn answer(self) -> Answer;
}

/// Of reading, which counts rows, entries and fields.
impl Expected for Result<Counts, Error> {
    fn answer(self) -> Answer {
        match self {
            Ok(counts) => Answer {
                count: counts.rows as u64,
                entries: counts.entries as u64,
                fields: counts.fields as u64,
                ..Answer::default()
            },
            Err(error) => refused(error),
        }
    }
}

/// Of writing, which counts bytes.
impl Expected for Result<usize, Error> {
    fn answer(self) -> Answer {
        match self {
            Ok(bytes) => Answer {
                count: bytes as u64,
                ..Answer::default()
            },
            Err(error) => refused(error),
        }
    }
}

/// Of joining: as in writing, and the side of an error.
impl Expected for Result<usize, JoinError> {
    fn answer(self) -> Answer {
        let side = self.map_or_else(|refused| refused.side, |_| 0);
        Answer {
            side: u64::from(side),
            ..self.map_err(|refused| refused.error).answer()
        }
    }
}

fn refused(error: Error) -> Answer {
    Answer {
        error: u64::from(error.number),
        place: error.place as u64,
        row: error.row as u64,
        ..Answer::default()
    }
}

/// The answer of reading into a table of this capacity, and the rows that are filled.
pub fn read(bundle: &[u8], mode: Mode, capacity: usize) -> (Answer, Vec<Row>) {
    let mut rows = vec![reference::Row::default(); capacity];
    let answer = reference::read(bundle, mode, &mut rows).answer();
    (answer, row::all_to_c(&rows[..answer.count as usize]))
}

/// The answer of a call with a buffer of this capacity, and the bytes that are written.
pub fn written<E>(
    capacity: usize,
    call: impl FnOnce(&mut [u8]) -> Result<usize, E>,
) -> (Answer, Vec<u8>)
where
    Result<usize, E>: Expected,
{
    let mut out = vec![0; capacity];
    let answer = call(&mut out).answer();
    let written = &out[..answer.count as usize];
    (answer, written.to_vec())
}
