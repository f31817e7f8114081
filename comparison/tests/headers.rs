//! Headers of every size, about every payload at which the size changes: the library measures, writes and judges them as
//! the reference does.

use comparison::buffer::{Outcome, PLENTY};
use comparison::expected::Expected;
use comparison::{row, MODES};
use nachricht_sys::{canonicalize, check, write};
use reference::generate::model::{fewest, header};
use reference::{Mode, Row, MAX_BYTES, MAX_ENTRIES};

const MOST_FOLLOWING: usize = 8;

const BINARY: u8 = 0;
const INTEGERS_AND_CONTAINER: [u8; 3] = [1, 2, 3];
const WITH_TEXT: [u8; 3] = [4, 5, 6];
const SYMBOL: u8 = 5;
const REFERENCE: u8 = 7;

/// The kind of row that a code stands for.
fn kind_of(code: u8) -> u8 {
    code + 5
}

/// All small payloads, and those next to a power of 2.
fn payloads() -> Vec<u64> {
    let mut payloads: Vec<u64> = (0..600).collect();
    for bit in 9..u64::BITS {
        let power = 1u64 << bit;
        payloads.extend([power - 1, power, power + 1]);
    }
    payloads.push(u64::MAX);
    payloads
}

/// The headers that hold a payload, from the shortest to the longest.
fn headers(code: u8, payload: u64) -> impl Iterator<Item = Vec<u8>> {
    let sizes = fewest(code, payload)..=MOST_FOLLOWING;
    sizes.map(move |following| header(code, payload, following))
}

/// Compares what is read leniently and strictly, and what is made canonical.
fn compare(bundle: &[u8]) {
    for mode in MODES {
        let answer = check(bundle, mode == Mode::Strict);
        let expected = reference::check(bundle, mode).answer();
        assert_eq!(answer, expected, "{mode:?}: {bundle:02X?}");
    }
    let expected = Outcome::expected(PLENTY, |out| reference::canonicalize(bundle, out));
    let outcome = Outcome::of(PLENTY, |out| canonicalize(bundle, out));
    outcome.assert_is(&expected, &bundle);
}

#[test]
fn of_numbers_are_read() {
    for payload in payloads() {
        for code in INTEGERS_AND_CONTAINER {
            headers(code, payload).for_each(|header| compare(&header));
        }
    }
}

#[test]
fn of_numbers_are_written() {
    for number in payloads() {
        for code in INTEGERS_AND_CONTAINER {
            let rows = [Row {
                kind: kind_of(code),
                number,
                start: 0,
            }];
            let expected = Outcome::expected(PLENTY, |out| reference::write(&rows, &[], out));
            let outcome = Outcome::of(PLENTY, |out| write(&rows.map(row::to_c), &[], out));
            outcome.assert_is(&expected, &rows);
        }
    }
}

/// With content where a bundle has space for it; else it is cut.
#[test]
fn of_content_are_read() {
    let text = vec![b'x'; MAX_BYTES];
    for length in payloads() {
        let content = match usize::try_from(length) {
            Ok(length) if length < MAX_BYTES - 1 - MOST_FOLLOWING => &text[..length],
            _ => &[],
        };
        for code in WITH_TEXT.into_iter().chain([BINARY]) {
            for header in headers(code, length) {
                compare(&[&header, content, &[0]].concat());
            }
        }
    }
}

#[test]
fn of_references_are_read() {
    let mut names = Vec::new();
    for name in 0..MAX_ENTRIES as u32 {
        names.extend(header(SYMBOL, 4, 0));
        names.extend(format!("{name:04}").bytes());
    }
    for index in payloads() {
        headers(REFERENCE, index).for_each(|header| compare(&[&names[..], &header].concat()));
    }
}
