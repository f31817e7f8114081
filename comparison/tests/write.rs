//! `nachricht_write` answers what the reference answers and leaves the same bytes in the buffer,
//! and what it has written reads back as the items of the rows.

use comparison::buffer::{capacities, Outcome, PLENTY};
use comparison::cases::writing;
use comparison::items::assert_reads_back;
use comparison::{inputs, row, Tally};
use nachricht_sys::{write, Answer};
use reference::generate::model::meanings;
use reference::generate::tables::Table;
use reference::generate::Random;
use reference::{MAX_BYTES, MAX_ROWS};

const SEEDS: u64 = 120_000;

/// These after them, each with a buffer of every length of note.
const SEEDS_FOR_ALL_LENGTHS: u64 = 8_000;

/// Compares the answers and the buffers, and reads back what was written.
fn compare(table: &Table) -> Answer {
    let Table {
        rows,
        text,
        capacity,
    } = table;
    let expected = Outcome::expected(*capacity, |out| reference::write(rows, text, out));
    let rows = row::all_to_c(rows);
    let outcome = Outcome::of(*capacity, |out| write(&rows, text, out));
    outcome.assert_is(&expected, table);
    if outcome.answer.error == 0 {
        let items = meanings(&table.rows, text);
        assert_reads_back(outcome.written(), &items, table);
    }
    outcome.answer
}

/// The bytes that the rows take, or as many as were meant before they were made bad.
fn result_of(table: &Table) -> usize {
    let mut out = vec![0; MAX_BYTES];
    reference::write(&table.rows, &table.text, &mut out).unwrap_or(table.capacity)
}

#[test]
fn generated_tables() {
    let mut tally = Tally::of_writing();
    for seed in 0..SEEDS {
        let table = inputs::table(&mut Random::new(seed));
        let answer = compare(&table);
        tally.add(answer);
        writing::look(&mut tally, &table, answer);
    }
    tally.assert_complete();
}

#[test]
fn all_lengths() {
    let mut tally = Tally::of_writing();
    for seed in SEEDS..SEEDS + SEEDS_FOR_ALL_LENGTHS {
        let mut table = inputs::table(&mut Random::new(seed));
        for capacity in capacities(result_of(&table)) {
            table.capacity = capacity;
            tally.add(compare(&table));
        }
    }
    tally.assert_complete();
}

/// Results that are longer than the text, also by so much that 16 bits can't count them.
#[test]
fn far_too_long_results() {
    let text = vec![b'x'; MAX_BYTES];
    for kind in [5, 9] {
        // Each row takes three bytes of header, so that four of the first length make 65,536.
        for number in [16_381, 16_382, 16_384] {
            for count in [1, 2, 4, 5, MAX_ROWS] {
                let row = reference::Row {
                    kind,
                    number,
                    start: 0,
                };
                let table = Table {
                    rows: vec![row; count],
                    text: text.clone(),
                    capacity: PLENTY,
                };
                let fits = count == 1 && number == 16_381;
                assert_eq!(compare(&table).error, if fits { 0 } else { 10 });
            }
        }
    }
}

/// All single rows of small numbers and starts, over texts of no, one and two bytes.
#[test]
fn single_rows() {
    for kind in 0..=u8::MAX {
        for (number, start) in (0..4).flat_map(|number| (0..4).map(move |start| (number, start))) {
            let row = reference::Row {
                kind,
                number,
                start,
            };
            for text in [&b""[..], b"a", b"\xFF", b"ab", b"\xC2\x80"] {
                for capacity in 0..6 {
                    compare(&Table {
                        rows: vec![row],
                        text: text.to_vec(),
                        capacity,
                    });
                }
            }
        }
    }
}
