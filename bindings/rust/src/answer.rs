//! What the C functions answer, as results. What the place of an error counts depends on the call.

use crate::{Counts, Error, Place, Side};
use nachricht_sys::Answer;

/// Of reading and canonicalizing: places are offsets.
pub fn read(answer: Answer) -> Result<Answer, Error> {
    let place = match answer.error {
        1 => Place::Whole,
        _ => Place::Offset(answer.place as usize),
    };
    or_at(answer, place)
}

/// Of writing: places are rows, and in content that is not UTF-8 offsets in the text.
pub fn written(answer: Answer) -> Result<Answer, Error> {
    let place = match answer.error {
        1 | 7 => Place::Whole,
        3 => Place::Text {
            offset: answer.place as usize,
            row: answer.row as usize,
        },
        _ => Place::Row(answer.place as usize),
    };
    or_at(answer, place)
}

/// Of joining: places are offsets in one of the bundles.
pub fn joined(answer: Answer) -> Result<Answer, Error> {
    let offset = answer.place as usize;
    let place = match answer.side {
        1 => Place::Joining(Side::First, offset),
        2 => Place::Joining(Side::Second, offset),
        _ => Place::Whole,
    };
    or_at(answer, place)
}

/// Of envelopes: nothing in them has a place.
pub fn enveloped(answer: Answer) -> Result<Answer, Error> {
    or_at(answer, Place::Whole)
}

fn or_at(answer: Answer, place: Place) -> Result<Answer, Error> {
    match answer.error {
        0 => Ok(answer),
        number => Err(Error::new(number, place)),
    }
}

/// The bytes written, or in opening the bundle's length. Never more than the buffer has, so it fits.
pub fn length(answer: Answer) -> usize {
    answer.count as usize
}

/// The counts of a bundle.
pub fn counts(answer: Answer) -> Counts {
    Counts {
        rows: answer.count as usize,
        entries: answer.entries as usize,
        fields: answer.fields as usize,
    }
}
