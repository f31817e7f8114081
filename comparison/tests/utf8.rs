//! The place of error 3 is where a text stops being good, in every call: by the reference, and as is known of texts that
//! were made bad at an offset.

use comparison::bad_texts::{self, refused_at, BadText, CODES};
use comparison::buffer::Outcome;
use comparison::expected::Expected;
use comparison::{row, table, MODES};
use nachricht_sys::{canonicalize, check, join, read, write, Answer, Row};
use reference::generate::texts::{self, Fault, FAULTS};
use reference::utf8::stop;
use reference::Mode;

/// The code of a string, and the kind of its row.
const STRING: u8 = 4;
const STRING_KIND: u8 = 9;

/// Bytes in the header of `compare_string`, and the most in its content.
const HEADER: usize = 2;
const MOST_CONTENT: usize = 100;

/// Room for any result here that is good.
const CAPACITY: usize = 110;

/// A bundle that reads.
const GOOD: &[u8] = b"\xC1d\x25";

/// Compares reading and writing of a string, good or bad, with what the reference says of its content alone.
fn compare_string(content: &[u8]) {
    let (mut bundle, length) = ([0; HEADER + MOST_CONTENT], content.len());
    bundle[..HEADER].copy_from_slice(&[STRING << 5 | 24, length as u8]);
    bundle[HEADER..][..length].copy_from_slice(content);
    let bundle = &bundle[..HEADER + length];
    let stop = stop(content).map(|offset| refused_at(HEADER + offset));
    let counted = Answer {
        count: 1,
        fields: 1,
        ..Answer::default()
    };
    let expected = stop.unwrap_or(counted);
    assert_eq!(check(bundle, false), expected, "{content:02X?}");
    // The bundle is the text too, so that the content starts at the same offset.
    let string = Row {
        kind: STRING_KIND,
        number: length as u64,
        start: HEADER,
    };
    let header = if length > 23 { 2 } else { 1 };
    let written = Answer {
        count: (1 + header + length) as u64,
        ..Answer::default()
    };
    let expected = stop.map_or(written, |refused| Answer { row: 1, ..refused });
    let rows = [Row::default(), string];
    let answer = write(&rows, bundle, &mut [0; CAPACITY]);
    assert_eq!(answer, expected, "{content:02X?}");
}

#[test]
fn all_short_texts() {
    compare_string(&[]);
    for first in 0..=u8::MAX {
        compare_string(&[first]);
        for second in 0..=u8::MAX {
            compare_string(&[first, second]);
            for third in 0..=u8::MAX {
                compare_string(&[first, second, third]);
            }
        }
    }
}

#[test]
fn short_texts_of_edges() {
    texts::of_edges::<4>().for_each(|text| compare_string(&text));
}

/// The same at the start of a longer text, about where a block of it ends, and at its end.
#[test]
fn texts_of_edges_in_longer_ones() {
    let mut content = [b'x'; MOST_CONTENT];
    for text in texts::of_edges::<4>() {
        for (offset, length) in [(0, 24), (14, 34), (20, 24), (62, 84), (79, 83)] {
            let place = offset..offset + text.len();
            content[place.clone()].copy_from_slice(&text);
            compare_string(&content[..length]);
            content[place].fill(b'x');
        }
    }
}

/// Compares a call that writes with the reference, and with the answer that is known.
fn compare_call<E>(
    call: impl FnOnce(&mut [u8]) -> Answer,
    by_reference: impl FnOnce(&mut [u8]) -> Result<usize, E>,
    known: Answer,
    input: &BadText,
) where
    Result<usize, E>: Expected,
{
    let expected = Outcome::expected(CAPACITY, by_reference);
    assert_eq!(expected.answer, known, "the reference, {input:02X?}");
    Outcome::of(CAPACITY, call).assert_is(&expected, input);
}

/// Compares all calls that read, for an item of this code in a bundle.
fn compare_reading(text: &BadText, code: u8) {
    let (bundle, known) = text.in_bundle(code);
    for mode in MODES {
        let answer = check(&bundle, mode == Mode::Strict);
        assert_eq!(answer, known, "{mode:?}, {text:02X?}");
        let read = |strict, rows: &mut [Row]| read(&bundle, strict, rows);
        // With as many rows as there are items before it.
        let answer = table::compare(read, &bundle, mode, 2);
        assert_eq!(answer, known, "{mode:?}, {text:02X?}");
    }
    compare_call(
        |out| canonicalize(&bundle, out),
        |out| reference::canonicalize(&bundle, out),
        known,
        text,
    );
    for (side, first, second) in [
        (1, &bundle[..], GOOD),
        (2, GOOD, &bundle),
        (1, &bundle, &bundle),
    ] {
        compare_call(
            |out| join(first, second, out),
            |out| reference::join(first, second, out),
            Answer { side, ..known },
            text,
        );
    }
}

/// Compares writing, for an item of this code among rows.
fn compare_writing(text: &BadText, code: u8) {
    let (table, known) = text.in_table(code);
    let rows = row::all_to_c(&table.rows);
    compare_call(
        |out| write(&rows, &table.text, out),
        |out| reference::write(&table.rows, &table.text, out),
        known,
        text,
    );
}

/// Compares all calls, for strings, symbols and keys.
fn compare(text: &BadText) {
    for code in CODES {
        compare_reading(text, code);
        compare_writing(text, code);
    }
}

#[test]
fn every_fault_at_every_offset() {
    for length in 1..=70 {
        for fault in FAULTS {
            bad_texts::with(fault, length).for_each(|text| compare(&text));
        }
    }
}

/// A third of them, with some of every sort.
fn few_faults() -> impl Iterator<Item = Fault> {
    FAULTS.into_iter().step_by(3)
}

#[test]
fn few_faults_at_every_offset_of_longer_texts() {
    for length in [71, 79, 80, 81, 95, 96, 97, 127, 128, 129, 140, 193] {
        for fault in few_faults() {
            bad_texts::with(fault, length).for_each(|text| compare(&text));
        }
    }
}

#[test]
fn few_faults_in_long_texts() {
    for length in [1_000, 16_370] {
        for fault in few_faults() {
            let last = length - fault.bytes.len();
            for offset in (0..last).step_by(977).chain([last]) {
                bad_texts::at(offset, fault, length)
                    .iter()
                    .for_each(compare);
            }
        }
    }
}

#[test]
fn named_bundles() {
    for (bundle, place) in [
        (&b"\x82\xE0A"[..], 2),
        (b"\x82\xE0\x80", 3),
        (b"\x00\x82a\xC3\x00", 4),
        (b"\x00\x82a\xC3\x80", 4),
        (b"\xA1\x80", 1),
        (b"\xC3d\xC0\x80\x00", 2),
        (b"\xC3d\xC1\x80\x00", 2),
        (b"\x62\xC1d\x25\xC2m\xF5\x23", 6),
        (b"\x84\xF4\xBF\xBFA", 4),
    ] {
        let known = refused_at(place);
        for strict in [false, true] {
            assert_eq!(check(bundle, strict), known, "{bundle:02X?}");
            assert_eq!(read(bundle, strict, &mut [Row::default(); 9]), known);
        }
        assert_eq!(canonicalize(bundle, &mut [0; CAPACITY]), known);
        for (side, first, second) in [(1, bundle, GOOD), (2, GOOD, bundle)] {
            let answer = join(first, second, &mut [0; CAPACITY]);
            assert_eq!(answer, Answer { side, ..known }, "{bundle:02X?}");
        }
    }
}

/// A header that is too long comes first where reading is strict; its own bytes count in the place.
#[test]
fn long_headers() {
    let bundle = b"\x00\x9A\x00\x00\x02a\xFF";
    assert_eq!(check(bundle, false), refused_at(6));
    let too_long = Answer {
        error: 11,
        place: 1,
        ..Answer::default()
    };
    assert_eq!(check(bundle, true), too_long);
}

/// The answer of writing rows of kind, number and start.
fn written(rows: &[(u8, u64, usize)], text: &[u8]) -> Answer {
    let row = |&(kind, number, start)| Row {
        kind,
        number,
        start,
    };
    let rows = rows.iter().map(row).collect::<Vec<_>>();
    write(&rows, text, &mut [0; CAPACITY])
}

#[test]
fn named_rows() {
    let null = (0, 0, 0);
    let last = [&[null; 1_023][..], &[(9, 2, 3)]].concat();
    for (rows, text, place, row) in [
        (&[null, (9, 2, 0)][..], &b"d\xFF"[..], 1, 1),
        (&[(9, 2, 0)], b"d\xFF", 1, 0),
        (&[(11, 2, 1), null], b"\xFFd\xC3\x80", 3, 0),
        (&[null, (9, 1, 1)], b"\xC3\x80", 1, 1),
        // The first two names begin at one offset.
        (&[(10, 1, 0), (10, 2, 0)], b"d\xE0A", 2, 1),
        (&[(10, 2, 0), (10, 2, 0), (10, 3, 0)], b"\xC3\x80\x80", 2, 2),
        (&last, b"abcd\xFF", 4, 1_023),
    ] {
        let refused = refused_at(place);
        assert_eq!(written(rows, text), Answer { row, ..refused }, "{rows:?}");
    }
}

/// Beside other errors of a row, and beside none, the row is 0.
#[test]
fn rows_beside_other_errors() {
    let null = (0, 0, 0);
    let deep = [&[(8, 1, 0); 32][..], &[(8, 0, 0)]].concat();
    for (rows, error, place) in [
        (&[null, (12, 0, 0)][..], 9, 1),
        (&[null, (9, 2, 1)], 9, 1),
        (&[null, (11, 1, 0), (11, 1, 1)], 5, 2),
        (&deep, 6, 32),
        (&[null, (11, 1, 0)], 2, 2),
    ] {
        let expected = Answer {
            error,
            place,
            ..Answer::default()
        };
        assert_eq!(written(rows, b"d\xFF"), expected, "{rows:?}");
    }
    let good = Answer {
        count: 3,
        ..Answer::default()
    };
    assert_eq!(written(&[null, (9, 1, 0)], b"d\xFF"), good);
}
