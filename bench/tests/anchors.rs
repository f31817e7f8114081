//! The anchors answer what the reference answers, and leave the same rows and bytes: they do the library's work.

use bench::agreement::differences;
use bench::codec::{Codec, ANCHORS, LIBRARY};
use bench::corpora::corpora;
use comparison::bad_texts::{self, BadText, CODES};
use comparison::buffer::{capacities, Outcome};
use comparison::{inputs, row, table, Tally, MODES};
use nachricht_sys::{Answer, Row};
use reference::generate::pairs::{self, Pair};
use reference::generate::tables::Table;
use reference::generate::texts::FAULTS;
use reference::generate::Random;
use reference::{Mode, MAX_BYTES, MAX_ROWS};

const SEEDS: u64 = 20_000;

/// The number of the error.
const NOT_CANONICAL: u64 = 11;

/// What is measured is the same work.
#[test]
fn corpora_agree() {
    assert_eq!(differences(&corpora()), [""; 0]);
}

/// What is made canonical from a loose encoding is not canonical before.
#[test]
fn loose_encodings_are_not_canonical() {
    for corpus in corpora() {
        for message in corpus.messages {
            let answer = (LIBRARY.check)(&message.loose, true);
            assert_eq!(answer.error, NOT_CANONICAL, "{}", corpus.name);
        }
    }
}

fn check_and_read(anchor: &Codec, bundle: &[u8], mode: Mode, capacity: usize) -> Answer {
    let read = |strict, rows: &mut [Row]| (anchor.read)(bundle, strict, rows);
    let answer = table::compare(read, bundle, mode, capacity);
    if capacity == MAX_ROWS {
        let checked = (anchor.check)(bundle, mode == Mode::Strict);
        assert_eq!(checked, answer, "{} {mode:?}: {bundle:02X?}", anchor.name);
    }
    answer
}

#[test]
fn checking_and_reading() {
    for anchor in &ANCHORS {
        let mut tallies = MODES.map(Tally::of_reading);
        for seed in 0..SEEDS {
            let random = &mut Random::new(seed);
            let bundle = inputs::bundle(random);
            let few = random.below(bundle.len().min(MAX_ROWS) + 1);
            for (mode, tally) in MODES.into_iter().zip(&mut tallies) {
                for capacity in [few, MAX_ROWS] {
                    tally.add(check_and_read(anchor, &bundle, mode, capacity));
                }
            }
        }
        tallies.iter().for_each(Tally::assert_complete);
    }
}

#[test]
fn short_inputs() {
    for anchor in &ANCHORS {
        for bundle in inputs::short() {
            for mode in MODES {
                check_and_read(anchor, &bundle, mode, MAX_ROWS);
            }
        }
    }
}

#[test]
fn writing() {
    for anchor in &ANCHORS {
        let mut tally = Tally::of_writing();
        for seed in 0..SEEDS {
            let table = inputs::table(&mut Random::new(seed));
            let Table {
                rows,
                text,
                capacity,
            } = &table;
            let expected = Outcome::expected(*capacity, |out| reference::write(rows, text, out));
            let rows = row::all_to_c(rows);
            let outcome = Outcome::of(*capacity, |out| (anchor.write)(&rows, text, out));
            outcome.assert_is(&expected, &(anchor.name, &table));
            tally.add(outcome.answer);
        }
        tally.assert_complete();
    }
}

/// Compares checking and writing of a text that is not UTF-8, as a string, a symbol and a key.
fn compare_bad_text(anchor: &Codec, text: &BadText) {
    for code in CODES {
        let (bundle, known) = text.in_bundle(code);
        for strict in [false, true] {
            let answer = (anchor.check)(&bundle, strict);
            assert_eq!(answer, known, "{}: {text:02X?}", anchor.name);
        }
        let (table, known) = text.in_table(code);
        let rows = row::all_to_c(&table.rows);
        let answer = (anchor.write)(&rows, &table.text, &mut []);
        assert_eq!(answer, known, "{}: {text:02X?}", anchor.name);
    }
}

#[test]
fn bad_texts() {
    for anchor in &ANCHORS {
        for length in 1..=70 {
            for fault in FAULTS {
                bad_texts::with(fault, length).for_each(|text| compare_bad_text(anchor, &text));
            }
        }
    }
}

#[test]
fn canonicalizing() {
    for anchor in &ANCHORS {
        let mut tally = Tally::of_canonicalizing();
        for seed in 0..SEEDS {
            let bundle = inputs::bundle(&mut Random::new(seed));
            let canonicalize = |out: &mut [u8]| reference::canonicalize(&bundle, out);
            let length = canonicalize(&mut vec![0; MAX_BYTES]).unwrap_or(bundle.len());
            for capacity in capacities(length) {
                let expected = Outcome::expected(capacity, canonicalize);
                let outcome = Outcome::of(capacity, |out| (anchor.canonicalize)(&bundle, out));
                outcome.assert_is(&expected, &(anchor.name, &bundle));
                tally.add(outcome.answer);
            }
        }
        tally.assert_complete();
    }
}

#[test]
fn joining() {
    for anchor in &ANCHORS {
        let mut tally = Tally::of_joining();
        for seed in 0..SEEDS {
            let pair = pairs::pair(&mut Random::new(seed));
            let Pair {
                first,
                second,
                capacity,
            } = &pair;
            let expected = Outcome::expected(*capacity, |out| reference::join(first, second, out));
            let outcome = Outcome::of(*capacity, |out| (anchor.join)(first, second, out));
            outcome.assert_is(&expected, &(anchor.name, &pair));
            tally.add(outcome.answer);
        }
        tally.assert_complete();
    }
}
