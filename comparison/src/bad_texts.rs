//! Texts with a fault at an offset, put into bundles and tables, and what is answered for them: known from how they are
//! made.

use nachricht_sys::Answer;
use reference::generate::model::{fewest, header};
use reference::generate::tables::Table;
use reference::generate::texts::Fault;
use reference::Row;

/// The codes of strings, symbols and keys.
pub const CODES: [u8; 3] = [4, 5, 6];

/// What is repeated before a fault and after it: characters of each length, or more faults.
const AROUND: [[&[u8]; 2]; 6] = [
    [b"x", b"x"],
    [b"\xC3\xA9", b"\xC3\xA9"],
    [b"\xE2\x82\xAC", b"\xE2\x82\xAC"],
    [b"\xF0\x9F\x8C\x8D", b"\xF0\x9F\x8C\x8D"],
    [b"x", b"\xFF"],
    [b"\xE2\x82\xAC", b"\xC1"],
];

/// Items of a bundle before the bad one: null, and a string of a byte.
const BEFORE: &[u8] = b"\x00\x81x";

/// Empty strings after it, whose bytes would continue a character.
const AFTER: &[u8] = b"\x80\x80\x80";

const NULL: Row = Row {
    kind: 0,
    number: 0,
    start: 0,
};

/// A content that is not UTF-8, and the offset at which it stops being good.
#[derive(Debug)]
pub struct BadText {
    pub content: Vec<u8>,
    pub stop: usize,
}

/// Texts of this length with the fault at every offset.
pub fn with(fault: Fault, length: usize) -> impl Iterator<Item = BadText> {
    let offsets = 0..(length + 1).saturating_sub(fault.bytes.len());
    offsets.flat_map(move |offset| at(offset, fault, length))
}

/// Texts of this length with the fault at an offset.
pub fn at(offset: usize, fault: Fault, length: usize) -> [BadText; AROUND.len()] {
    let left = length - offset - fault.bytes.len();
    AROUND.map(|[before, after]| {
        // As many as fit stand next to the fault.
        let start = vec![b'x'; offset % before.len()];
        let end = vec![b'x'; left % after.len()];
        let before = before.repeat(offset / before.len());
        let after = after.repeat(left / after.len());
        BadText {
            content: [&start, &before, fault.bytes, &after, &end].concat(),
            stop: offset + fault.good,
        }
    })
}

impl BadText {
    /// A bundle with an item of this code and content, and the answer of reading it.
    pub fn in_bundle(&self, code: u8) -> (Vec<u8>, Answer) {
        let length = self.content.len() as u64;
        let header = header(code, length, fewest(code, length));
        let start = BEFORE.len() + header.len();
        let bundle = [BEFORE, &header, &self.content, AFTER].concat();
        (bundle, refused_at(start + self.stop))
    }

    /// A table with a row for such an item, and the answer of writing it.
    pub fn in_table(&self, code: u8) -> (Table, Answer) {
        let row = Row {
            // Kinds 5 to 11 stand in the order of codes 0 to 6.
            kind: code + 5,
            number: self.content.len() as u64,
            start: 1,
        };
        let rows = vec![NULL, NULL, row];
        let answer = Answer {
            row: 2,
            ..refused_at(row.start + self.stop)
        };
        let table = Table {
            rows,
            text: [b"\xC3", &self.content[..], AFTER].concat(),
            capacity: 0,
        };
        (table, answer)
    }
}

/// Error 3 at this place.
pub fn refused_at(place: usize) -> Answer {
    Answer {
        error: 3,
        place: place as u64,
        ..Answer::default()
    }
}
