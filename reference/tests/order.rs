//! The limits of each error, and which error comes first where two apply.

mod common;

use common::*;
use reference::{Error, JoinError, Row};

/// This many symbols of two bytes, all different, from the index `from` on.
fn symbols(from: usize, count: usize) -> Vec<u8> {
    (from..from + count)
        .flat_map(|index| [0xA2, 0x30 + (index / 64) as u8, 0x30 + (index % 64) as u8])
        .collect()
}

/// A bundle's start, then hexadecimal bytes.
fn after(start: Vec<u8>, rest: &str) -> Vec<u8> {
    [start, hex(rest)].concat()
}

fn nulls(count: usize) -> Vec<u8> {
    vec![0x00; count]
}

/// Asserts the lenient and the strict error number at one place.
fn assert_refused(bundle: &[u8], lenient_number: u8, strict_number: u8, place: usize) {
    assert_eq!(lenient(bundle), Err(error(lenient_number, place)));
    assert_eq!(strict(bundle), Err(error(strict_number, place)));
}

#[test]
fn a_cut_item_is_refused_at_its_lead_byte() {
    for cut in [
        "81",
        "38",
        "39 00",
        "03 00 00 00",
        "04",
        "06",
        "18",
        "1F 01",
        "82 61",
        "FF",
    ] {
        assert_refused(&hex(cut), 2, 2, 0);
        assert_refused(&after(hex("00"), cut), 2, 2, 1);
    }
    assert_refused(&hex("C1 64 38"), 2, 2, 2);
    assert_refused(&hex("62 00"), 2, 2, 2);
    assert_refused(&hex("62 00 81"), 2, 2, 2);
}

#[test]
fn size_comes_first() {
    assert_refused(&vec![0xE0; 16_385], 1, 1, 0);
    assert_refused(&vec![0xE0; 16_384], 4, 4, 0);
    let string = |length: usize| {
        let header = [0x99, (length / 256) as u8, (length % 256) as u8];
        [&header[..], &vec![b'x'; length]].concat()
    };
    assert!(strict(&string(16_381)).is_ok());
    assert_refused(&string(16_382), 1, 1, 0);
}

#[test]
fn cut_header_before_the_rest() {
    assert_refused(&hex("C1 64 D8"), 2, 2, 2);
    assert_refused(&hex("F9 00"), 2, 2, 0);
    assert_refused(&after(vec![0x61; 32], "78"), 2, 2, 32);
    assert_refused(&after(nulls(1_024), "38"), 2, 2, 1_024);
}

#[test]
fn long_header_before_the_rest() {
    assert_refused(&hex("F8 00"), 4, 11, 0);
    assert_refused(&hex("C1 64 D8 01 6D 00"), 5, 11, 2);
    assert_refused(&hex("C1 64 F8 00 00"), 5, 11, 2);
    assert_refused(&after(vec![0x61; 32], "78 00"), 6, 11, 32);
    assert_refused(&hex("98 05"), 2, 11, 0);
    assert_refused(&hex("18 12"), 2, 11, 0);
    assert_eq!(lenient(&hex("98 01 FF")), Err(error(3, 2)));
    assert_eq!(strict(&hex("98 01 FF")), Err(error(11, 0)));
    assert_refused(&after(symbols(0, 256), "B8 01 78"), 8, 11, 768);
    assert_refused(&after(nulls(1_024), "38 00"), 7, 11, 1_024);
    let superfluous = "5F FF FF FF FF FF FF FF FF";
    assert_refused(&after(nulls(1_024), superfluous), 7, 11, 1_024);
}

#[test]
fn every_longer_header_is_long() {
    let canonical = ["37", "38 18", "39 01 00", "3A 01 00 00", "3B 01 00 00 00"];
    let also = [
        "3C 01 00 00 00 00",
        "3D 01 00 00 00 00 00",
        "3E 01 00 00 00 00 00 00",
    ];
    for shortest in canonical
        .iter()
        .chain(&also)
        .chain(&["3F 01 00 00 00 00 00 00 00"])
    {
        let shortest = hex(shortest);
        assert!(strict(&shortest).is_ok());
        let digits = if shortest.len() == 1 {
            vec![23]
        } else {
            shortest[1..].to_vec()
        };
        for length in digits.len() + usize::from(shortest.len() > 1)..=8 {
            let zeros = vec![0; length - digits.len()];
            let long = [&[0x37 + length as u8], &zeros[..], &digits].concat();
            assert_eq!(lenient(&long), lenient(&shortest));
            assert_eq!(strict(&long), Err(error(11, 0)));
            assert_eq!(canonicalize(&long, 9), Ok(shortest.clone()));
        }
    }
}

#[test]
fn missing_entry_before_key_after_key_and_rows() {
    assert_refused(&hex("C1 64 E1"), 4, 4, 2);
    assert_refused(&after(nulls(1_024), "E0"), 4, 4, 1_024);
    assert_refused(&after(symbols(0, 256), "F9 01 00"), 4, 4, 768);
    assert!(strict(&after(symbols(0, 256), "F8 FF")).is_ok());
    // An index whose lower 32 bits are those of an entry.
    assert_refused(&hex("A0 FC 01 00 00 00 00"), 4, 4, 1);
}

#[test]
fn key_after_key_before_the_rest() {
    assert_refused(&hex("C1 64 C5"), 5, 5, 2);
    assert_refused(&hex("C1 64 C1 FF"), 5, 5, 2);
    assert_refused(&hex("C1 64 C1 64"), 5, 5, 2);
    assert_refused(&after(symbols(0, 255), "C1 64 C1 6D"), 5, 5, 767);
    assert_refused(&after(nulls(1_023), "C1 64 C1 6D"), 5, 5, 1_025);
    assert_refused(&after(nulls(1_023), "C1 64 E0"), 5, 5, 1_025);
}

#[test]
fn depth_before_rows() {
    let deep = [nulls(992), vec![0x61; 32]].concat();
    assert_refused(&after(deep.clone(), "61"), 6, 6, 1_024);
    assert_refused(&after(deep, "00"), 7, 7, 1_024);
    assert_refused(&after(vec![0x61; 32], "60"), 6, 6, 32);
    assert_refused(&after(vec![0x61; 32], "C0 60"), 6, 6, 33);
    assert!(strict(&after(vec![0x61; 31], "60")).is_ok());
}

#[test]
fn closed_containers_do_not_count() {
    // 40 empty containers, or 40 that are closed, side by side inside 31 open ones.
    assert!(strict(&[vec![0x61; 30], hex("78 28"), vec![0x60; 40]].concat()).is_ok());
    assert!(strict(&[vec![0x61; 30], hex("78 28"), hex("61 00").repeat(40)].concat()).is_ok());
    // When the innermost closes, all around it close.
    let tower = after(vec![0x61; 32], "00");
    assert!(strict(&tower.repeat(3)).is_ok());
}

#[test]
fn cut_content_before_the_rest() {
    assert_refused(&hex("82 FF"), 2, 2, 0);
    assert_refused(&hex("9F FF FF FF FF FF FF FF FF"), 2, 2, 0);
    assert_refused(&hex("A1 64 A1"), 2, 2, 2);
    assert_refused(&after(symbols(0, 256), "A1"), 2, 2, 768);
    assert_refused(&after(nulls(1_024), "81"), 2, 2, 1_024);
    assert_refused(&after(nulls(1_024), "03"), 2, 2, 1_024);
}

#[test]
fn bad_text_before_entries_and_rows() {
    assert_refused(&after(symbols(0, 256), "A1 FF"), 3, 3, 769);
    assert_refused(&after(nulls(1_024), "81 FF"), 3, 3, 1_025);
    assert_refused(&after(nulls(1_024), "82 61 C3"), 3, 3, 1_027);
}

#[test]
fn repeated_name_before_entries_and_rows() {
    let full = symbols(0, 256);
    assert_refused(&[&full[..], &full[..3]].concat(), 8, 11, 768);
    assert_refused(
        &after([hex("A1 64"), nulls(1_023)].concat(), "A1 64"),
        7,
        11,
        1_025,
    );
    // Equal bytes as the other kind are another name.
    assert_refused(&[&full[..], &[0xC2, 0x30, 0x30, 0x00]].concat(), 8, 8, 768);
}

#[test]
fn entries_before_rows() {
    let full = [symbols(0, 256), nulls(768)].concat();
    assert_refused(&after(full.clone(), "A1 64"), 8, 8, 1_536);
    assert_refused(&after(full, "E0"), 7, 7, 1_536);
}

#[test]
fn entries_count_repetitions_in_reading() {
    let repeated = hex("A1 64").repeat(256);
    assert_eq!(
        lenient(&repeated).map(|(_, counts)| counts.entries),
        Ok(256)
    );
    assert_eq!(lenient(&hex("A1 64").repeat(257)), Err(error(8, 512)));
}

#[test]
fn an_item_due_where_the_bytes_end_is_2_with_full_rows() {
    assert_refused(&after(nulls(1_023), "61"), 2, 2, 1_024);
    assert_refused(&after(nulls(1_023), "C0"), 2, 2, 1_024);
    assert_eq!(read_into(&hex("61"), MODES[0], 1), Err(error(2, 1)));
    assert_eq!(read_into(&hex("61 00"), MODES[0], 1), Err(error(7, 1)));
    assert_eq!(read_into(&hex("00"), MODES[0], 0), Err(error(7, 0)));
    assert_eq!(read_into(&[], MODES[0], 0), Ok((vec![], counts(0, 0, 0))));
}

// Writing.

fn assert_not_written(rows: &[Row], text: &[u8], number: u8, place: usize) {
    assert_not_written_with(rows, text, error(number, place));
}

/// The same for error 3, beside whose place stands the row.
fn assert_bad_text(rows: &[Row], text: &[u8], place: usize, row: usize) {
    assert_not_written_with(rows, text, error(3, place).in_row(row));
}

fn assert_not_written_with(rows: &[Row], text: &[u8], error: Error) {
    for capacity in [0, PLENTY] {
        assert_eq!(write(rows, text, capacity), Err(error), "{rows:?}");
    }
}

const NULL: Row = Row {
    kind: 0,
    number: 0,
    start: 0,
};
const BAD: Row = Row {
    kind: 12,
    number: 0,
    start: 0,
};

/// Rows for symbols of two bytes over the text of `name_text`.
fn name_rows(count: usize) -> Vec<Row> {
    (0..count).map(|index| row(10, 2, 2 * index)).collect()
}

fn name_text() -> Vec<u8> {
    (0..300)
        .flat_map(|index: usize| [0x30 + (index / 64) as u8, 0x30 + (index % 64) as u8])
        .collect()
}

#[test]
fn write_counts_rows_before_text_before_each_row() {
    assert_not_written(&[BAD; 1_025], &[0; 16_385], 7, 0);
    assert_not_written(&[BAD; 1_024], &[0; 16_385], 1, 0);
    assert_not_written(&[], &[0; 16_385], 1, 0);
    assert_not_written(&[BAD; 1_024], &[0; 16_384], 9, 0);
    assert_eq!(write(&[NULL; 1_024], &[], 1_024), Ok(nulls(1_024)));
}

#[test]
fn write_refuses_bad_rows() {
    let text = b"abcd";
    let bad = [
        row(12, 0, 0),
        row(255, 0, 0),
        row(0, 1, 0),
        row(1, 1, 0),
        row(2, u64::MAX, 0),
        row(3, 1 << 32, 0),
        row(7, u64::MAX, 0),
        row(5, 0, 5),
        row(9, 5, 0),
        row(10, 1, 4),
        row(11, 2, 3),
        row(9, 1, usize::MAX),
        row(9, u64::MAX, 1),
        row(9, u64::MAX, usize::MAX),
        row(9, 0, usize::MAX),
    ];
    for row in bad {
        assert_not_written(&[row], text, 9, 0);
        assert_not_written(&[NULL, row], text, 9, 1);
    }
    for kind in [0, 1, 2, 3, 4, 6, 7, 8] {
        assert_not_written(&[row(kind, 0, 1)], text, 9, 0);
    }
}

#[test]
fn write_takes_rows_at_the_edge() {
    let text = b"abcd";
    let good = [
        (row(3, 0xFFFF_FFFF, 0), "03 FF FF FF FF"),
        (row(4, u64::MAX, 0), "04 FF FF FF FF FF FF FF FF"),
        (row(6, u64::MAX, 0), "3F FF FF FF FF FF FF FF FF"),
        (row(7, u64::MAX - 1, 0), "5F FF FF FF FF FF FF FF FE"),
        (row(5, 4, 0), "09 61 62 63 64"),
        (row(9, 1, 3), "81 64"),
        (row(10, 0, 4), "A0"),
    ];
    for (row, bytes) in good {
        assert_eq!(write(&[row], text, PLENTY), Ok(hex(bytes)));
    }
}

#[test]
fn write_goes_row_by_row() {
    let (key, text) = (row(11, 1, 0), [b'd', 0xFF]);
    let bad_key = row(11, 1, 1);
    // 9 before 5, 6, 3 and 8.
    assert_not_written(&[key, row(11, 9, 0)], &text, 9, 1);
    let mut deep = vec![row(8, 1, 0); 32];
    deep.push(row(8, 0, 1));
    assert_not_written(&deep, &text, 9, 32);
    // 5 before 3 and 8.
    assert_not_written(&[key, bad_key], &text, 5, 1);
    let names = [name_rows(255), vec![row(11, 2, 0), row(11, 2, 2)]].concat();
    assert_not_written(&names, &name_text(), 5, 256);
    // 6, with an empty container too.
    deep[32] = row(8, 0, 0);
    assert_not_written(&deep, &text, 6, 32);
    // 3 before 8.
    let text = [name_text(), vec![0xFF]].concat();
    let names = [name_rows(256), vec![row(10, 1, 600)]].concat();
    assert_bad_text(&names, &text, 600, 256);
    // An earlier row before a later one.
    let names = [name_rows(257), vec![BAD]].concat();
    assert_not_written(&names, &text, 8, 256);
    assert_not_written(&[key, key, BAD], b"d", 5, 1);
    assert_bad_text(&[bad_key, BAD], &[b'd', 0xFF], 1, 0);
}

#[test]
fn write_counts_different_names() {
    let rows = [name_rows(256), name_rows(256)].concat();
    let written = write(&rows, &name_text(), PLENTY).unwrap();
    let counted = strict(&written).map(|(_, counts)| (counts.rows, counts.entries));
    assert_eq!(counted, Ok((512, 256)));
    assert_not_written(&[rows, name_rows(257)].concat(), &name_text(), 8, 768);
    // A key with the bytes of a symbol is another name.
    let rows = [name_rows(256), vec![row(11, 2, 0)]].concat();
    assert_not_written(&rows, &name_text(), 8, 256);
}

#[test]
fn write_needs_all_rows_before_it_looks_at_capacity() {
    assert_not_written(&[row(8, 1, 0)], &[], 2, 1);
    assert_not_written(&[row(8, u64::MAX, 0), NULL], &[], 2, 2);
    assert_not_written(&[NULL, row(11, 0, 0)], &[], 2, 2);
    let full = [vec![NULL; 1_023], vec![row(8, 1, 0)]].concat();
    assert_not_written(&full, &[], 2, 1_024);
}

#[test]
fn write_result_and_capacity() {
    let text = vec![b'x'; 16_384];
    let exact = [row(9, 16_381, 3)];
    assert_eq!(
        write(&exact, &text, 16_384).map(|bytes| bytes.len()),
        Ok(16_384)
    );
    assert_eq!(write(&exact, &text, 16_383), Err(error(10, 0)));
    let over = [row(9, 16_382, 2)];
    assert_eq!(write(&over, &text, PLENTY), Err(error(10, 0)));
    let twice = [NULL, row(9, 16_000, 0), row(9, 16_000, 0)];
    assert_eq!(write(&twice, &text, 40_000), Err(error(10, 0)));
    assert_eq!(write(&[], &text, 0), Ok(vec![]));
}

// Joining.

fn refused(side: u8, number: u8, place: usize) -> Result<Vec<u8>, JoinError> {
    let error = error(number, place);
    Err(JoinError { side, error })
}

#[test]
fn join_reads_the_first_then_the_second() {
    assert_eq!(join(&hex("00 E0"), &[0; 16_385], 0), refused(1, 4, 1));
    assert_eq!(join(&[0; 1_024], &hex("00 E0"), 0), refused(2, 4, 1));
    assert_eq!(join(&[0; 1_024], &[0; 1_025], 0), refused(2, 7, 1_024));
}

#[test]
fn join_counts_rows_then_names_then_bytes() {
    let first = [symbols(0, 256), nulls(256)].concat();
    let second = [symbols(100, 200), nulls(313)].concat();
    assert_eq!(join(&first, &second, 0), refused(0, 7, 0));
    let second = [symbols(100, 200), nulls(312)].concat();
    assert_eq!(join(&first, &second, 0), refused(0, 8, 0));
    let second = [symbols(56, 200), nulls(312)].concat();
    assert_eq!(join(&first, &second, 0), refused(0, 10, 0));
    assert!(join(&first, &second, PLENTY).is_ok());
    assert_eq!(join(&first, &symbols(256, 1), PLENTY), refused(0, 8, 0));
}

#[test]
fn join_counts_different_names_not_entries() {
    let repeated = hex("A1 64").repeat(256);
    let joined = join(&repeated, &repeated, PLENTY).unwrap();
    assert_eq!(joined, [hex("A1 64"), vec![0xE0; 511]].concat());
}

#[test]
fn join_result_and_capacity() {
    let string = |length: usize| {
        let header = [0x99, (length / 256) as u8, (length % 256) as u8];
        [&header[..], &vec![b'x'; length]].concat()
    };
    let (first, second) = (string(8_000), string(8_378));
    assert_eq!(
        join(&first, &second, 16_384),
        Ok([&first[..], &second].concat())
    );
    assert_eq!(join(&first, &second, 16_383), refused(0, 10, 0));
    assert_eq!(join(&first, &string(8_379), PLENTY), refused(0, 10, 0));
    assert_eq!(join(&[], &[], 0), Ok(vec![]));
}
