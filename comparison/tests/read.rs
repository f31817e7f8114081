//! `nachricht_read` answers what the reference answers and leaves the same rows, in both modes.

use comparison::{inputs, table, Tally, MODES};
use nachricht_sys::{read, Answer};
use reference::generate::Random;
use reference::Mode;

const SEEDS: u64 = 200_000;

/// These after them, each with a table of every length of note.
const SEEDS_FOR_ALL_LENGTHS: u64 = 4_000;

/// Lengths of a table at which the answer may change, for a bundle of so many rows.
fn lengths(rows: usize) -> [usize; 10] {
    let fewer = rows.saturating_sub(1);
    [
        0,
        1,
        fewer,
        rows,
        rows + 1,
        1_022,
        1_023,
        1_024,
        1_025,
        1_100,
    ]
}

/// The rows of a bundle, or some number that a bad one may have reached.
fn rows_of(bundle: &[u8], mode: Mode, random: &mut Random) -> usize {
    match reference::check(bundle, mode) {
        Ok(counts) => counts.rows,
        Err(_) => random.below(bundle.len().min(1_024) + 1),
    }
}

/// Compares the answers and the tables of this length.
fn compare(bundle: &[u8], mode: Mode, length: usize) -> Answer {
    table::compare(
        |strict, rows| read(bundle, strict, rows),
        bundle,
        mode,
        length,
    )
}

#[test]
fn generated_inputs() {
    let mut tallies = MODES.map(Tally::of_reading);
    for seed in 0..SEEDS {
        let random = &mut Random::new(seed);
        let bundle = inputs::bundle(random);
        for (mode, tally) in MODES.into_iter().zip(&mut tallies) {
            let lengths = lengths(rows_of(&bundle, mode, random));
            let length = random.pick(&lengths);
            tally.add(compare(&bundle, mode, length));
        }
    }
    tallies.iter().for_each(Tally::assert_complete);
}

#[test]
fn all_lengths() {
    let mut tallies = MODES.map(Tally::of_reading);
    for seed in SEEDS..SEEDS + SEEDS_FOR_ALL_LENGTHS {
        let random = &mut Random::new(seed);
        let bundle = inputs::bundle(random);
        for (mode, tally) in MODES.into_iter().zip(&mut tallies) {
            for length in lengths(rows_of(&bundle, mode, random)) {
                tally.add(compare(&bundle, mode, length));
            }
        }
    }
    tallies.iter().for_each(Tally::assert_complete);
}

#[test]
fn short_inputs() {
    for bundle in inputs::short() {
        for mode in MODES {
            for length in 0..4 {
                compare(&bundle, mode, length);
            }
        }
    }
}
