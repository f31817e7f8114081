//! Inputs for the harness, made by the generators of the comparison.
//!
//! An input is the call's number in a byte, two numbers of two bytes each, and a payload.

use comparison::inputs;
use reference::generate::tables::Table;
use reference::generate::{bundles, pairs, streams, Random};
use reference::{Row, MAX_BYTES};

/// As in the harness.
const READ: u8 = 0;
const WRITE: u8 = 1;
const CANONICALIZE: u8 = 2;
const JOIN: u8 = 3;
const ENVELOPE: u8 = 4;

/// An input for any call.
pub fn generated(random: &mut Random) -> Vec<u8> {
    let some = random.below(1 << 16);
    match random.pick(&[READ, WRITE, CANONICALIZE, JOIN, ENVELOPE]) {
        WRITE => {
            let table = inputs::table(random);
            input(WRITE, table.rows.len(), table.capacity, &payload(&table))
        }
        JOIN => {
            let pair = pairs::pair(random);
            let both = [&pair.first[..], &pair.second].concat();
            input(JOIN, pair.first.len(), pair.capacity, &both)
        }
        ENVELOPE => input(ENVELOPE, some, some, &opened_or_closed(random)),
        call => input(call, random.below(1_100), some, &inputs::bundle(random)),
    }
}

/// Bytes to open and to close: a stream, a bundle, or bytes about as many as a bundle may have.
fn opened_or_closed(random: &mut Random) -> Vec<u8> {
    match random.below(4) {
        0 => inputs::bundle(random),
        1 => vec![b'x'; MAX_BYTES - 1 + random.below(4)],
        _ => streams::stream(random),
    }
}

/// An input for any call, perhaps damaged; for a driver that cannot mutate.
pub fn mutated(random: &mut Random) -> Vec<u8> {
    let mut input = generated(random);
    for _ in 0..random.below(4) {
        bundles::damage(random, &mut input);
    }
    input
}

fn input(call: u8, first: usize, second: usize, payload: &[u8]) -> Vec<u8> {
    let numbers = [first, second].map(|number| (number as u16).to_be_bytes());
    [&[call][..], &numbers.concat(), payload].concat()
}

/// Rows and then the text.
fn payload(table: &Table) -> Vec<u8> {
    let rows = table.rows.iter().flat_map(row);
    rows.chain(table.text.iter().copied()).collect()
}

/// A row: its kind with marks for a long number, a long start, and a kind from 128 on; number; start.
fn row(row: &Row) -> Vec<u8> {
    let (number, start) = (row.number, row.start as u64);
    let (is_number_long, is_start_long) = (number > 0xFFFF, start > 0xFFFF);
    let marks = [is_number_long, is_start_long, row.kind > 127];
    let marks = marks
        .iter()
        .rev()
        .fold(0, |marks, mark| marks << 1 | u8::from(*mark));
    let mut bytes = vec![marks << 4 | row.kind & 15];
    bytes.extend(shortened(number, is_number_long));
    bytes.extend(shortened(start, is_start_long));
    bytes
}

fn shortened(number: u64, is_long: bool) -> Vec<u8> {
    let unused = if is_long { 0 } else { 6 };
    number.to_be_bytes()[unused..].to_vec()
}
