//! Where a text that is not UTF-8 stops being good, and the places of error 3 that come of it.

mod common;

use std::str;

use common::*;
use reference::generate::texts;
use reference::utf8::stop;

/// Leads after which RFC 3629 has fewer characters than the condensed rule.
const NARROWER: [u8; 4] = [0xE0, 0xED, 0xF0, 0xF4];

/// Tries a property on all texts of at most four bytes at the edges of ranges.
fn for_edges(mut property: impl FnMut(&[u8])) {
    property(&[]);
    texts::of_edges::<1>().for_each(|text| property(&text));
    texts::of_edges::<2>().for_each(|text| property(&text));
    texts::of_edges::<3>().for_each(|text| property(&text));
    texts::of_edges::<4>().for_each(|text| property(&text));
}

/// Whether bytes can be continued to a good text.
fn begins_text(bytes: &[u8]) -> bool {
    let continued = |missing| [bytes, &vec![0x80; missing]].concat();
    (0..=3).any(|missing| stop(&continued(missing)).is_none())
}

#[test]
fn it_is_the_longest_front_that_a_text_begins_with() {
    for_edges(|text| {
        let mut lengths = (0..=text.len()).rev();
        let longest = lengths.find(|length| begins_text(&text[..*length]));
        if let Some(stop) = stop(text) {
            assert_eq!(longest, Some(stop), "{text:02X?}");
        }
    });
}

/// The standard library says where a bad character starts and how much of it is there.
#[test]
fn it_is_the_standard_librarys_where_the_rules_are_the_same() {
    let leads = 0xC2..=0xF4;
    for_edges(|text| {
        if text.iter().any(|byte| NARROWER.contains(byte)) {
            return;
        }
        let expected = str::from_utf8(text).err().map(|error| {
            let start = error.valid_up_to();
            match error.error_len() {
                None => text.len(),
                Some(length) if leads.contains(&text[start]) => start + length,
                Some(_) => start,
            }
        });
        assert_eq!(stop(text), expected, "{text:02X?}");
    });
}

#[test]
fn each_fault_between_characters() {
    let good = ["", "61", "C3 A9", "ED A0 80", "F4 BF BF BF"].map(hex);
    for fault in texts::FAULTS {
        for before in &good {
            for after in &good {
                let text = [&before[..], fault.bytes, after].concat();
                assert_eq!(stop(&text), Some(before.len() + fault.good), "{text:02X?}");
            }
        }
    }
}

/// Each byte at the end of a text, the empty one too.
#[test]
fn last_bytes() {
    for byte in 0..=u8::MAX {
        let expected = match byte {
            0x00..=0x7F => None,
            0xC2..=0xF4 => Some(1),
            _ => Some(0),
        };
        assert_eq!(stop(&[byte]), expected, "{byte:02X}");
        let after_text = expected.map(|stop| 3 + stop);
        assert_eq!(stop(&[0x61, 0xC3, 0xA9, byte]), after_text, "{byte:02X}");
    }
}

#[test]
fn places_in_a_bundle() {
    for (bundle, place) in [
        ("82 E0 41", 2),
        ("82 E0 80", 3),
        ("81 FF", 1),
        ("00 82 61 C3 00", 4),
        // What follows the content would continue its last character.
        ("00 82 61 C3 80", 4),
        ("62 C1 64 25 C2 6D FF 23", 6),
        ("A3 64 C0 80", 2),
    ] {
        let expected = error(3, place);
        for mode in MODES {
            assert_eq!(read(&hex(bundle), mode), Err(expected), "{bundle}");
        }
        assert_eq!(canonicalize(&hex(bundle), PLENTY), Err(expected));
    }
}

#[test]
fn a_place_far_in_a_bundle() {
    let content = [vec![b'x'; 900], hex("C3 41"), vec![b'x'; 900]].concat();
    let bundle = [vec![0; 212], hex("99 07 0A"), content].concat();
    assert_eq!(lenient(&bundle), Err(error(3, 212 + 3 + 901)));
}

#[test]
fn places_in_the_text_of_rows() {
    let null = row(0, 0, 0);
    for (rows, text, place, number) in [
        (&[null, row(9, 2, 0)][..], "64 FF", 1, 1),
        (&[row(10, 1, 1)], "64 FF", 1, 0),
        (&[row(11, 2, 2), null], "FF FF 64 C3 A9", 4, 0),
        (&[null, null, row(9, 3, 1)], "C3 80 80 80", 1, 2),
        (&[row(9, 0, 1), row(9, 1, 1), row(9, 1, 0)], "FF 61", 0, 2),
    ] {
        let expected = error(3, place).in_row(number);
        assert_eq!(write(rows, &hex(text), PLENTY), Err(expected), "{text}");
    }
}
