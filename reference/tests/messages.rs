//! The paper's examples, and the mistakes it warns of.

mod common;

use common::*;
use reference::{JoinError, Row};

/// Asserts that a bundle reads leniently as these rows, entries and fields.
fn assert_reads(bundle: &[u8], rows: &[Row], entries: usize, fields: usize) {
    let expected = (rows.to_vec(), counts(rows.len(), entries, fields));
    assert_eq!(lenient(bundle), Ok(expected), "{bundle:02X?}");
}

fn assert_canonical(bundle: &[u8]) {
    assert_eq!(strict(bundle), lenient(bundle), "{bundle:02X?}");
    assert_eq!(canonicalize(bundle, PLENTY), Ok(bundle.to_vec()));
}

fn assert_not_canonical(bundle: &[u8], place: usize, canonical: &str) {
    assert_eq!(strict(bundle), Err(error(11, place)), "{bundle:02X?}");
    assert_eq!(canonicalize(bundle, PLENTY), Ok(hex(canonical)));
}

fn assert_refused(bundle: &[u8], number: u8, place: usize) {
    for mode in MODES {
        assert_eq!(read(bundle, mode), Err(error(number, place)));
    }
    assert_eq!(canonicalize(bundle, PLENTY), Err(error(number, place)));
}

#[test]
fn nothing_and_null() {
    assert_reads(&[], &[], 0, 0);
    assert_canonical(&[]);
    assert_reads(&hex("00"), &[row(0, 0, 0)], 0, 1);
    assert_canonical(&hex("00"));
}

#[test]
fn integers_of_one_and_two_bytes() {
    assert_reads(&hex("37"), &[row(6, 23, 0)], 0, 1);
    assert_canonical(&hex("37"));
    assert_reads(&hex("38 18"), &[row(6, 24, 0)], 0, 1);
    assert_canonical(&hex("38 18"));
    assert_reads(&hex("38 17"), &[row(6, 23, 0)], 0, 1);
    assert_not_canonical(&hex("38 17"), 0, "37");
    assert_reads(&hex("58 FF"), &[row(7, 255, 0)], 0, 1);
    assert_canonical(&hex("58 FF"));
}

#[test]
fn superfluous_negative() {
    let bundle = hex("5F FF FF FF FF FF FF FF FF");
    assert_reads(&bundle, &[row(7, u64::MAX - 1, 0)], 0, 1);
    assert_not_canonical(&bundle, 0, "5F FF FF FF FF FF FF FF FE");
    assert_canonical(&hex("5F FF FF FF FF FF FF FF FE"));
}

#[test]
fn refused_names() {
    assert_refused(&hex("E0"), 4, 0);
    assert_refused(&hex("C1 64"), 2, 2);
    assert_refused(&hex("C1 64 C1 6D"), 5, 2);
}

#[test]
fn key_and_symbol_with_equal_bytes() {
    let bundle = hex("C1 64 A1 64 E0 E1");
    let rows = [row(11, 1, 1), row(10, 1, 3), row(11, 1, 1), row(10, 1, 3)];
    assert_reads(&bundle, &rows, 2, 2);
    assert_canonical(&bundle);
}

#[test]
fn three_records() {
    let bundle = hex("62 C1 64 25 C1 6D 23 62 C1 64 27 E1 24 62 E0 29 E1 22");
    let record = |d_start, d, m| {
        let (key_d, key_m) = (row(11, 1, d_start), row(11, 1, 5));
        [row(8, 2, 0), key_d, row(6, d, 0), key_m, row(6, m, 0)]
    };
    let rows = [record(2, 5, 3), record(9, 7, 4), record(2, 9, 2)].concat();
    assert_reads(&bundle, &rows, 3, 3);
    let canonical = "62 C1 64 25 C1 6D 23 62 E0 27 E1 24 62 E0 29 E1 22";
    assert_not_canonical(&bundle, 8, canonical);
}

#[test]
fn containers() {
    assert_refused(&hex("61"), 2, 1);
    assert_reads(&hex("60"), &[row(8, 0, 0)], 0, 1);
    assert_canonical(&hex("60"));
    let deepest = [vec![0x61; 32], vec![0x00]].concat();
    let rows = [vec![row(8, 1, 0); 32], vec![row(0, 0, 0)]].concat();
    assert_reads(&deepest, &rows, 0, 1);
    assert_canonical(&deepest);
    assert_refused(&[0x61; 33], 6, 32);
    assert_refused(&hex("7F FF FF FF FF FF FF FF FF"), 2, 9);
}

#[test]
fn rows_at_the_limit() {
    assert_reads(&[0; 1_024], &[row(0, 0, 0); 1_024], 0, 1_024);
    assert_canonical(&[0; 1_024]);
    assert_refused(&[0; 1_025], 7, 1_024);
}

#[test]
fn bytes_of_18_and_19() {
    let short = [hex("17"), vec![0xFF; 18]].concat();
    assert_reads(&short, &[row(5, 18, 1)], 0, 1);
    assert_canonical(&short);
    let long = [hex("18 13"), vec![0xFF; 19]].concat();
    assert_reads(&long, &[row(5, 19, 2)], 0, 1);
    assert_canonical(&long);
}

#[test]
fn joining_a_record_with_itself() {
    let record = hex("62 C1 64 25 C1 6D 23");
    let joined = hex("62 C1 64 25 C1 6D 23 62 E0 25 E1 23");
    assert_eq!(join(&record, &record, PLENTY), Ok(joined));
}

#[test]
fn listing_example() {
    let input = hex("00 0D 01 62 C1 64 25 C1 6D 23 62 E0 27 E1 24");
    let printed = "bundle 1 rows 10 names 2\n\
        0 8 2 0\n1 11 1 2\n2 6 5 0\n3 11 1 5\n4 6 3 0\n\
        5 8 2 0\n6 11 1 2\n7 6 7 0\n8 11 1 5\n9 6 4 0\n";
    assert_eq!(
        String::from_utf8(reference::listing(&input)),
        Ok(printed.to_string())
    );
}

#[test]
fn listing_of_refused_bundles_and_envelopes() {
    let input = hex("00 02 01 E0  00 01 01  00 03 01 A1 FF  00 02 01 00  00 01 02  00 01 01");
    let printed = "bundle 1 refused 4 at 0\nbundle 2 rows 0 names 0\nbundle 3 refused 3 at 1\n\
        bundle 4 rows 1 names 0\n0 0 0 0\nenvelope 5 refused 13\n";
    assert_eq!(
        String::from_utf8(reference::listing(&input)),
        Ok(printed.to_string())
    );
    assert_eq!(reference::listing(&[]), b"");
    assert_eq!(reference::listing(&[0]), b"envelope 1 refused 12\n");
    assert_eq!(reference::listing(&[0, 0]), b"envelope 1 refused 12\n");
}

#[test]
fn tidy_ends_at_the_first_error() {
    let good = hex("00 03 01 38 17");
    let tidied = hex("00 02 01 37");
    for bad in ["00 02 01 E0", "00 01 02", "00 00", "40 02 01", "00"] {
        let input = [good.clone(), good.clone(), hex(bad), good.clone()].concat();
        assert_eq!(reference::tidy(&input), tidied.repeat(2), "{bad}");
    }
    assert_eq!(reference::tidy(&[]), b"");
}

#[test]
fn tidy_ends_where_the_canonical_form_is_too_long() {
    // 24 symbols of one byte, the empty one 101 times in full, and a string to fill up.
    let mut bundle: Vec<u8> = (0..24).flat_map(|name| [0xA1, name]).collect();
    bundle.extend([0xA0; 101]);
    let length = 16_384 - bundle.len() - 3;
    bundle.extend([0x99, (length / 256) as u8, (length % 256) as u8]);
    bundle.extend(vec![b'x'; length]);
    assert_eq!(
        lenient(&bundle).map(|(_, counts)| counts),
        Ok(counts(126, 125, 126))
    );
    assert_eq!(canonicalize(&bundle, PLENTY), Err(error(10, 0)));
    let good = hex("00 02 01 00");
    let full = close(&bundle, PLENTY).unwrap();
    let input = [good.clone(), full, good.clone()].concat();
    assert_eq!(reference::tidy(&input), good);
}

#[test]
fn astray_a_repeated_name_makes_another_entry_and_moves_none() {
    let bundle = hex("C1 64 00 C1 64 01 C1 6D 02 E0 00 E1 01 E2 02");
    let (d, again, m) = (row(11, 1, 1), row(11, 1, 4), row(11, 1, 7));
    let values = [row(0, 0, 0), row(1, 0, 0), row(2, 0, 0)];
    let once = [d, values[0], again, values[1], m, values[2]];
    assert_reads(&bundle, &[once, once].concat(), 3, 6);
    assert_not_canonical(&bundle, 3, "C1 64 00 E0 01 C1 6D 02 E0 00 E0 01 E1 02");
}

#[test]
fn astray_a_reference_is_a_key_if_its_entry_is() {
    assert_refused(&hex("C1 64 E0"), 5, 2);
    assert_refused(&hex("C1 64 00 C1 6D E0"), 5, 5);
    // A reference to a key is due a value too.
    assert_refused(&hex("C1 64 00 E0"), 2, 4);
    assert_refused(&hex("C1 64 00 E0 E0"), 5, 4);
    // A reference to a symbol is a value, after a key too.
    let bundle = hex("A1 64 C1 6D E0 E1 E0");
    let (symbol, key) = (row(10, 1, 1), row(11, 1, 3));
    assert_reads(&bundle, &[symbol, key, symbol, key, symbol], 2, 3);
    assert_canonical(&bundle);
}

#[test]
fn astray_a_container_counts_fields() {
    let bundle = hex("62 C1 64 25 C1 6D 82 61 62 00");
    let inside = [row(11, 1, 2), row(6, 5, 0), row(11, 1, 5), row(9, 2, 7)];
    let rows = [&[row(8, 2, 0)][..], &inside, &[row(0, 0, 0)]].concat();
    assert_reads(&bundle, &rows, 2, 2);
    assert_refused(&hex("62 C1 64 25"), 2, 4);
}

#[test]
fn astray_negatives_do_not_fit_in_64_signed_bits() {
    let bundle = hex("5F 80 00 00 00 00 00 00 00 5F 7F FF FF FF FF FF FF FF");
    let rows = [row(7, 1 << 63, 0), row(7, (1 << 63) - 1, 0)];
    assert_reads(&bundle, &rows, 0, 2);
    assert_canonical(&bundle);
}

#[test]
fn astray_joined_references_are_not_shifted_by_a_fixed_number() {
    let first = hex("C1 64 20 A1 64");
    let second = hex("C1 6D 21 C1 64 22 E0 23 E1 24 A1 64 E2");
    let joined = hex("C1 64 20 A1 64 C1 6D 21 E0 22 E2 23 E0 24 E1 E1");
    assert_eq!(join(&first, &second, PLENTY), Ok(joined));
    // The second's name is in full twice, its reference to the later one.
    let second = hex("C1 64 22 C1 64 23 C1 7A 24 E1 25 E2 26");
    let joined = hex("C1 64 20 A1 64 E0 22 E0 23 C1 7A 24 E0 25 E2 26");
    assert_eq!(join(&first, &second, PLENTY), Ok(joined));
}

#[test]
fn floats_keep_their_bits() {
    let bundle = hex("03 7F A0 00 01 04 FF F0 00 00 00 00 00 01");
    let rows = [row(3, 0x7FA0_0001, 0), row(4, 0xFFF0_0000_0000_0001, 0)];
    assert_reads(&bundle, &rows, 0, 2);
    assert_canonical(&bundle);
}

#[test]
fn starts_of_empty_contents() {
    let bundle = hex("05 80 A0 C0 E0 18 00");
    let rows = [row(5, 0, 1), row(9, 0, 2), row(10, 0, 3), row(11, 0, 4)];
    let last = [row(10, 0, 3), row(5, 0, 7)];
    assert_reads(&bundle, &[&rows[..], &last].concat(), 2, 5);
    assert_not_canonical(&bundle, 5, "05 80 A0 C0 E0 05");
}

#[test]
fn the_condensed_rule_for_text() {
    let good = [
        "00", "7F", "C2 80", "DF BF", "E0 80 80", "ED A0 80", "EF BF BF",
    ];
    let also_good = ["F0 80 80 80", "F4 BF BF BF", "61 C3 A9 62"];
    let bad = [
        ("80", 0),
        ("BF", 0),
        ("C0 80", 0),
        ("C1 BF", 0),
        ("C2", 1),
        ("C2 7F", 1),
        ("C2 C0", 1),
        ("E0 80", 2),
        ("E0 80 7F", 2),
        ("E1 C0 80", 1),
        ("F0 80 80", 3),
        ("F4 80 80 C0", 3),
        ("F5 80 80 80", 0),
        ("FF", 0),
        ("61 80", 1),
    ];
    for lead in [0x80, 0xA0, 0xC0] {
        let value: &[u8] = if lead == 0xC0 { &[0] } else { &[] };
        let bundle = |text: &str| {
            let text = hex(text);
            [&[lead + text.len() as u8], &text[..], value].concat()
        };
        for text in good.iter().chain(&also_good) {
            assert!(lenient(&bundle(text)).is_ok(), "{text}");
        }
        for (text, stop) in bad {
            assert_refused(&bundle(text), 3, 1 + stop);
        }
    }
}

#[test]
fn envelopes() {
    let opened = |text: &str| reference::open(&hex(text)).map(<[u8]>::to_vec);
    assert_eq!(opened("00 01 01"), Ok(vec![]));
    assert_eq!(opened("00 03 01 E0 FF 77"), Ok(hex("E0 FF")));
    for bad in [
        "", "00", "00 00", "00 00 01", "00 01", "00 02 01", "40 02 01", "FF FF 02",
    ] {
        assert_eq!(opened(bad), Err(error(12, 0)), "{bad}");
    }
    assert_eq!(opened("00 01 00"), Err(error(13, 0)));
    assert_eq!(opened("00 02 02 00"), Err(error(13, 0)));
    assert_eq!(opened("00 03 02 00"), Err(error(12, 0)));
}

#[test]
fn longest_envelope() {
    let bundle = vec![0xFF; 16_384];
    let envelope = close(&bundle, 16_387).unwrap();
    assert_eq!(envelope[..3], [0x40, 0x01, 0x01]);
    assert_eq!(reference::open(&envelope), Ok(&bundle[..]));
    let too_long = [&[0x40, 0x02, 0x01][..], &[0; 16_385]].concat();
    assert_eq!(reference::open(&too_long), Err(error(12, 0)));
    assert_eq!(close(&bundle, 16_386), Err(error(10, 0)));
    assert_eq!(close(&[0; 16_385], 0), Err(error(1, 0)));
    assert_eq!(close(&[], 2), Err(error(10, 0)));
    assert_eq!(close(&[], 3), Ok(hex("00 01 01")));
}

#[test]
fn join_errors_name_the_side() {
    let bad = |side, number, place| {
        Err(JoinError {
            side,
            error: error(number, place),
        })
    };
    assert_eq!(join(&hex("00 E0"), &hex("81"), PLENTY), bad(1, 4, 1));
    assert_eq!(join(&hex("00"), &hex("81"), PLENTY), bad(2, 2, 0));
    assert_eq!(join(&hex("00"), &hex("00"), 1), bad(0, 10, 0));
    assert_eq!(join(&hex("82 E0 80"), &hex("81 FF"), PLENTY), bad(1, 3, 3));
    assert_eq!(join(&hex("00"), &hex("00 82 61 FF"), PLENTY), bad(2, 3, 3));
    // Each bundle has a symbol table of its own.
    assert_eq!(join(&hex("A1 64"), &hex("E0"), PLENTY), bad(2, 4, 0));
}
