//! `nachricht_canonicalize` answers what the reference answers and leaves the same bytes in the
//! buffer, and what it has written reads back as the items of the bundle.

use comparison::buffer::{capacities, Outcome};
use comparison::cases::canonicalizing;
use comparison::items::{assert_reads_back, items_of};
use comparison::{inputs, Tally};
use nachricht_sys::{canonicalize, join, Answer};
use reference::generate::{capacity, Random};
use reference::MAX_BYTES;

const SEEDS: u64 = 120_000;

/// These after them, each with a buffer of every length of note.
const SEEDS_FOR_ALL_LENGTHS: u64 = 6_000;

/// Compares the answers and the buffers, and looks at what was written.
fn compare(bundle: &[u8], capacity: usize) -> Answer {
    let expected = Outcome::expected(capacity, |out| reference::canonicalize(bundle, out));
    let outcome = Outcome::of(capacity, |out| canonicalize(bundle, out));
    outcome.assert_is(&expected, &bundle);
    if outcome.answer.error == 0 {
        assert_reads_back(outcome.written(), &items_of(bundle), &bundle);
        let again = Outcome::of(capacity, |out| canonicalize(outcome.written(), out));
        again.assert_is(&outcome, &bundle);
    }
    assert_joins_alike(bundle, capacity, &outcome);
    outcome.answer
}

/// Joined with the empty bundle a bundle gives the same, and an error in it has its side.
fn assert_joins_alike(bundle: &[u8], capacity: usize, outcome: &Outcome) {
    for (side, first, second) in [(1, bundle, &[][..]), (2, &[], bundle)] {
        let mut joined = Outcome::of(capacity, |out| join(first, second, out));
        let is_of_both = matches!(joined.answer.error, 0 | 10);
        let expected = if is_of_both { 0 } else { side };
        assert_eq!(joined.answer.side, expected, "{bundle:02X?}");
        joined.answer.side = 0;
        joined.assert_is(outcome, &bundle);
    }
}

/// The bytes of the result, or about as many for a bundle that is bad.
fn result_of(bundle: &[u8]) -> usize {
    let mut out = vec![0; MAX_BYTES];
    reference::canonicalize(bundle, &mut out).unwrap_or(bundle.len())
}

#[test]
fn generated_inputs() {
    let mut tally = Tally::of_canonicalizing();
    for seed in 0..SEEDS {
        let random = &mut Random::new(seed);
        let bundle = inputs::bundle(random);
        let capacity = capacity(random, result_of(&bundle));
        let answer = compare(&bundle, capacity);
        tally.add(answer);
        canonicalizing::look(&mut tally, &bundle, capacity, answer);
    }
    tally.assert_complete();
}

#[test]
fn all_lengths() {
    let mut tally = Tally::of_canonicalizing();
    for seed in SEEDS..SEEDS + SEEDS_FOR_ALL_LENGTHS {
        let bundle = inputs::bundle(&mut Random::new(seed));
        for capacity in capacities(result_of(&bundle)) {
            tally.add(compare(&bundle, capacity));
        }
    }
    tally.assert_complete();
}

#[test]
fn short_inputs() {
    for bundle in inputs::short() {
        for capacity in 0..4 {
            compare(&bundle, capacity);
        }
    }
}
