//! Calls of the library with buffers of its own, watched for bytes and rows that must not change.

// Each test file is a crate of its own and uses only some of these.
#![allow(dead_code)]

use reference::generate::Random;
use reference::{Counts, Error, JoinError, Mode, Row};

pub const MODES: [Mode; 2] = [Mode::Lenient, Mode::Strict];

/// Larger than any result.
pub const PLENTY: usize = 20_000;

const UNTOUCHED: u8 = 0xA5;

/// As long as any buffer here, to compare at once.
static UNTOUCHED_BYTES: [u8; 65_536] = [UNTOUCHED; 65_536];

const UNTOUCHED_ROW: Row = Row {
    kind: UNTOUCHED,
    number: 0xA5A5,
    start: 0xA5A5,
};

pub fn hex(text: &str) -> Vec<u8> {
    text.split_whitespace()
        .map(|byte| u8::from_str_radix(byte, 16).expect("two hexadecimal digits"))
        .collect()
}

pub fn row(kind: u8, number: u64, start: usize) -> Row {
    Row {
        kind,
        number,
        start,
    }
}

pub fn error(number: u8, place: usize) -> Error {
    Error::at(number, place)
}

pub fn counts(rows: usize, entries: usize, fields: usize) -> Counts {
    Counts {
        rows,
        entries,
        fields,
    }
}

/// Reads into a buffer for this many rows.
pub fn read_into(bytes: &[u8], mode: Mode, capacity: usize) -> Result<(Vec<Row>, Counts), Error> {
    let mut rows = vec![UNTOUCHED_ROW; capacity];
    let result = reference::read(bytes, mode, &mut rows);
    let changed = result.map_or(0, |counts| counts.rows);
    assert!(rows[changed..].iter().all(|row| *row == UNTOUCHED_ROW));
    rows.truncate(changed);
    result.map(|counts| (rows, counts))
}

/// Reads with room for all rows; `check` has to agree.
pub fn read(bytes: &[u8], mode: Mode) -> Result<(Vec<Row>, Counts), Error> {
    let result = read_into(bytes, mode, 1_100);
    let counts = result.as_ref().map(|(_, counts)| *counts);
    assert_eq!(
        reference::check(bytes, mode),
        counts.map_err(|error| *error)
    );
    result
}

pub fn lenient(bytes: &[u8]) -> Result<(Vec<Row>, Counts), Error> {
    read(bytes, Mode::Lenient)
}

pub fn strict(bytes: &[u8]) -> Result<(Vec<Row>, Counts), Error> {
    read(bytes, Mode::Strict)
}

/// Where the item with a bad text begins: it is cut where the bytes end at the place of the error,
/// or before that where the place is its end.
pub fn lead_of_bad_text(bundle: &[u8], mode: Mode, found: Error) -> usize {
    let end = match read(&bundle[..found.place], mode) {
        Err(error) if error == found => found.place - 1,
        _ => found.place,
    };
    match read(&bundle[..end], mode) {
        Err(cut) if cut.number == 2 && cut.place < end => cut.place,
        other => panic!("{other:?} for a text that is cut: {bundle:02X?}"),
    }
}

/// Hands out a buffer and takes back the bytes that a call says it has written there.
fn written<E: Copy>(
    capacity: usize,
    call: impl FnOnce(&mut [u8]) -> Result<usize, E>,
) -> Result<Vec<u8>, E> {
    let mut out = UNTOUCHED_BYTES[..capacity].to_vec();
    let result = call(&mut out);
    let changed = *result.as_ref().unwrap_or(&0);
    assert!(out[changed..] == UNTOUCHED_BYTES[changed..capacity]);
    out.truncate(changed);
    result.map(|_| out)
}

pub fn write(rows: &[Row], text: &[u8], capacity: usize) -> Result<Vec<u8>, Error> {
    written(capacity, |out| reference::write(rows, text, out))
}

pub fn canonicalize(bytes: &[u8], capacity: usize) -> Result<Vec<u8>, Error> {
    written(capacity, |out| reference::canonicalize(bytes, out))
}

pub fn join(first: &[u8], second: &[u8], capacity: usize) -> Result<Vec<u8>, JoinError> {
    written(capacity, |out| reference::join(first, second, out))
}

pub fn close(bundle: &[u8], capacity: usize) -> Result<Vec<u8>, Error> {
    written(capacity, |out| reference::close(bundle, out))
}

/// Runs a property for many seeds.
pub fn for_seeds(count: u64, mut property: impl FnMut(u64, &mut Random)) {
    for seed in 0..count {
        property(seed, &mut Random::new(seed));
    }
}
