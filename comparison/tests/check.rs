//! `nachricht_check` answers what the reference answers, in both modes.

use comparison::expected::Expected;
use comparison::{inputs, Tally, MODES};
use nachricht_sys::{check, Answer};
use reference::generate::Random;
use reference::Mode;

const SEEDS: u64 = 240_000;

/// Compares the answers for one input.
fn compare(bundle: &[u8], mode: Mode) -> Answer {
    let answer = check(bundle, mode == Mode::Strict);
    let expected = reference::check(bundle, mode).answer();
    assert_eq!(answer, expected, "{mode:?}: {bundle:02X?}");
    answer
}

#[test]
fn generated_inputs() {
    let mut tallies = MODES.map(Tally::of_reading);
    for seed in 0..SEEDS {
        let bundle = inputs::bundle(&mut Random::new(seed));
        for (mode, tally) in MODES.into_iter().zip(&mut tallies) {
            tally.add(compare(&bundle, mode));
        }
    }
    tallies.iter().for_each(Tally::assert_complete);
}

#[test]
fn short_inputs() {
    for bundle in inputs::short() {
        for mode in MODES {
            compare(&bundle, mode);
        }
    }
}
