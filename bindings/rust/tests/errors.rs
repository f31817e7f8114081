//! Each error, where it is said to be, and that it has changed nothing.

use nachricht::limits::{MAX_BYTES, MAX_DEPTH, MAX_ENTRIES, MAX_ROWS};
use nachricht::{
    canonicalize, check, close, join, joined, open, read_into, to_canonical, write, Builder, Error,
    Kind, Mode, Place, Row, Side,
};

/// The number, the place and the words of an error.
fn said(error: Error) -> (u64, usize, String) {
    (error.number(), error.place(), error.to_string())
}

fn reading(bytes: &[u8], mode: Mode) -> Error {
    let mut rows = [Row::new(Kind::Key, 3, 4); 2];
    let error = read_into(bytes, mode, &mut rows).unwrap_err();
    assert_eq!(rows, [Row::new(Kind::Key, 3, 4); 2]);
    error
}

fn writing(rows: &[Row], text: &[u8]) -> Error {
    let mut out = [0xA5; 4];
    let error = write(rows, text, &mut out).unwrap_err();
    assert_eq!(out, [0xA5; 4]);
    error
}

/// So many keys, each another name, and a null for each.
fn keys(first: usize, count: usize) -> Vec<u8> {
    let mut builder = Builder::new();
    for name in first..first + count {
        builder.key(name.to_string()).null();
    }
    builder.finish().unwrap()
}

/// One key more than there can be entries.
fn too_many_keys() -> Vec<u8> {
    let mut bytes = keys(0, MAX_ENTRIES);
    bytes.extend([0xC1, b'x', 0x00]);
    bytes
}

#[test]
fn each_error_of_reading() {
    let names = too_many_keys();
    let name = Place::Offset(names.len() - 3);
    let [start, one, two] = [0, 1, 2].map(Place::Offset);
    let cases: [(&[u8], Error); 7] = [
        (&[0; MAX_BYTES + 1], Error::TooLong(Place::Whole)),
        (&[0xC1, 0x64], Error::Truncated(two)),
        (&[0, 0x81, 0xFF], Error::InvalidUtf8(two)),
        (&[0xE0], Error::UndefinedReference(start)),
        (&[0xC0, 0xC0], Error::UnexpectedKey(one)),
        (&[0, 0, 0], Error::TooManyRows(two)),
        (&[0x38, 0x17], Error::NotCanonical(start)),
    ];
    for (bytes, error) in cases {
        assert_eq!(reading(bytes, Mode::Strict), error);
        assert_eq!((error.side(), error.row()), (None, None));
    }
    let fails = |bytes| check(bytes, Mode::Lenient).unwrap_err();
    let (depth, rows) = (Place::Offset(MAX_DEPTH), Place::Offset(MAX_ROWS));
    assert_eq!(fails(&[0x61; MAX_DEPTH + 1]), Error::TooDeep(depth));
    assert_eq!(fails(&[0; MAX_ROWS + 1]), Error::TooManyRows(rows));
    assert_eq!(fails(&names), Error::TooManyEntries(name));
}

#[test]
fn each_error_of_writing() {
    let (null, key) = (Row::default(), Row::new(Kind::Key, 1, 0));
    let string = Row::new(Kind::String, 1, 0);
    let deep = [Row::new(Kind::Container, 1, 0); MAX_DEPTH + 1];
    let symbol = |length: usize| Row::new(Kind::Symbol, length as u64, 0);
    let names: Vec<Row> = (0..=MAX_ENTRIES).map(symbol).collect();
    let name = Place::Row(MAX_ENTRIES);
    let letters = [b'a'; MAX_BYTES + 1];
    let second = Place::Row(1);
    let byte = Place::Text { offset: 0, row: 1 };
    let cases: [(&[Row], &[u8], Error); 9] = [
        (
            &[null; MAX_ROWS + 1],
            &letters,
            Error::TooManyRows(Place::Whole),
        ),
        (&[key], &letters, Error::TooLong(Place::Whole)),
        (&[null, string], &[], Error::InvalidRow(second)),
        (&[key, key], b"d", Error::UnexpectedKey(second)),
        (&deep, &[], Error::TooDeep(Place::Row(MAX_DEPTH))),
        (&[null, string], &[0xFF], Error::InvalidUtf8(byte)),
        (&names, &letters[1..MAX_BYTES], Error::TooManyEntries(name)),
        (&[key], b"d", Error::Truncated(second)),
        (&[null; 5], &[], Error::OutputTooLong),
    ];
    for (rows, text, error) in cases {
        assert_eq!(writing(rows, text), error);
        assert_eq!(error.side(), None);
    }
}

#[test]
fn each_error_of_joining() {
    let (good, bad): (&[u8], &[u8]) = (&[0x00], &[0x00, 0xE0]);
    let [first, second] = [Side::First, Side::Second].map(|side| Place::Joining(side, 1));
    let long = Place::Joining(Side::Second, 0);
    let most = MAX_ENTRIES * 2 / 3;
    let (some, others) = (keys(0, most), keys(most, most));
    let cases: [(&[u8], &[u8], Error); 6] = [
        (bad, bad, Error::UndefinedReference(first)),
        (good, bad, Error::UndefinedReference(second)),
        (good, &[0; MAX_BYTES + 1], Error::TooLong(long)),
        (&[0; MAX_ROWS], good, Error::TooManyRows(Place::Whole)),
        (&some, &others, Error::TooManyEntries(Place::Whole)),
        (&[0; 3], &[0; 2], Error::OutputTooLong),
    ];
    for (first, second, error) in cases {
        let mut out = [0xA5; 4];
        assert_eq!(join(first, second, &mut out), Err(error));
        assert_eq!(out, [0xA5; 4]);
    }
    let error = Error::UndefinedReference(second);
    assert_eq!((error.side(), error.place()), (Some(Side::Second), 1));
    assert_eq!(error.row(), None);
}

/// Bundles with content that is not UTF-8, and the offset at which it stops being so.
fn not_utf8() -> Vec<(Vec<u8>, usize)> {
    let mut bundles = vec![
        (vec![0x82, 0xE0, 0x41], 2),
        (vec![0x82, 0xE0, 0x80], 3),
        (vec![0x00, 0x82, 0x61, 0xC3, 0x00], 4),
        (vec![0xA4, 0xF4, 0xBF, 0xBF, 0xC0], 4),
        (vec![0xC2, 0x61, 0xF0, 0x00], 3),
    ];
    // A byte that cannot come after a letter, or else a lead byte, after which a letter cannot come.
    for byte in 0x80..=0xFF {
        let lead = matches!(byte, 0xC2..=0xF4);
        bundles.push((vec![0x83, b'a', byte, b'a'], 2 + usize::from(lead)));
    }
    bundles
}

#[test]
fn byte_of_a_bundle_that_is_not_utf8() {
    for (bytes, offset) in not_utf8() {
        let error = Error::InvalidUtf8(Place::Offset(offset));
        for mode in [Mode::Lenient, Mode::Strict] {
            assert_eq!(check(&bytes, mode), Err(error));
            assert_eq!(reading(&bytes, mode), error);
        }
        assert_eq!(to_canonical(&bytes), Err(error));
        let at = |side| Err(Error::InvalidUtf8(Place::Joining(side, offset)));
        assert_eq!(joined(&bytes, &bytes), at(Side::First));
        assert_eq!(joined(&[0x00], &bytes), at(Side::Second));
    }
}

/// Content may begin anywhere in the text and end before it does; the last case has a good name of the same start.
#[test]
fn byte_of_the_text_that_is_not_utf8() {
    let row = Row::new;
    let null = Row::default();
    let cases: [(&[Row], &[u8], usize, usize); 5] = [
        (&[null, row(Kind::String, 2, 0)], b"d\xFF", 1, 1),
        (&[row(Kind::String, 3, 1)], b"\xFFd\xC3d", 3, 0),
        (&[null, row(Kind::Symbol, 2, 0)], b"d\xC3\xBC", 2, 1),
        (&[row(Kind::Symbol, 3, 1)], b"d\xF0\x80\x80", 4, 0),
        (
            &[row(Kind::Key, 1, 0), null, row(Kind::Key, 2, 0)],
            b"d\xFF",
            1,
            2,
        ),
    ];
    for (rows, text, offset, row) in cases {
        let error = writing(rows, text);
        assert_eq!(error, Error::InvalidUtf8(Place::Text { offset, row }));
        assert_eq!((error.place(), error.row()), (offset, Some(row)));
    }
}

#[test]
fn rows() {
    let places = [
        (Place::Row(1), Some(1)),
        (Place::Text { offset: 4, row: 2 }, Some(2)),
        (Place::Offset(1), None),
        (Place::Joining(Side::First, 1), None),
        (Place::Whole, None),
    ];
    for (place, row) in places {
        assert_eq!(Error::InvalidUtf8(place).row(), row);
    }
    assert_eq!(Error::OutputTooLong.row(), None);
}

#[test]
fn each_error_of_canonicalizing_and_envelopes() {
    let mut out = [0xA5; 4];
    assert_eq!(
        canonicalize(&[0, 0xE0], &mut out),
        Err(Error::UndefinedReference(Place::Offset(1)))
    );
    assert_eq!(canonicalize(&[0; 5], &mut out), Err(Error::OutputTooLong));
    assert_eq!(
        close(&[0; MAX_BYTES + 1], &mut out),
        Err(Error::TooLong(Place::Whole))
    );
    assert_eq!(close(&[0; 2], &mut out), Err(Error::OutputTooLong));
    assert_eq!(out, [0xA5; 4]);
    for bytes in [&[][..], &[0], &[0, 0, 1], &[0, 2, 1], &[0x40, 0x02, 1]] {
        assert_eq!(open(bytes), Err(Error::InvalidEnvelope));
    }
    assert_eq!(open(&[0, 1, 2]), Err(Error::UnsupportedVersion));
}

#[test]
fn words() {
    let first = Error::Truncated(Place::Joining(Side::First, 7));
    let row = Error::InvalidRow(Place::Row(2));
    let byte = Error::InvalidUtf8(Place::Text { offset: 1, row: 2 });
    let not_utf8 = "a string, symbol or key is not UTF-8, at offset 1 of the text, in row 2";
    let name = Error::TooManyEntries(Place::Whole);
    let cases = [
        (
            first,
            (
                2,
                7,
                "the input ends where more is due, at offset 7 of the first bundle",
            ),
        ),
        (row, (9, 2, "a row that means nothing, at row 2")),
        (byte, (3, 1, not_utf8)),
        (name, (8, 0, "more than 256 names")),
        (
            Error::OutputTooLong,
            (10, 0, "the result is over the limit or the buffer"),
        ),
        (
            Error::InvalidEnvelope,
            (12, 0, "the envelope's length is bad"),
        ),
        (
            Error::UnsupportedVersion,
            (13, 0, "the envelope's version is not 1"),
        ),
    ];
    for (error, (number, place, words)) in cases {
        assert_eq!(said(error), (number, place, words.to_string()));
    }
}
