//! `nachricht_join` answers what the reference answers and leaves the same bytes in the buffer,
//! and what it has written reads back as the items of both bundles.

use std::collections::BTreeSet;

use comparison::buffer::{capacities, Outcome, PLENTY};
use comparison::cases::joining;
use comparison::items::{assert_reads_back, items_of};
use comparison::{inputs, Tally};
use nachricht_sys::join;
use reference::generate::model::canonical;
use reference::generate::pairs::{self, Pair};
use reference::generate::Random;
use reference::MAX_BYTES;

const SEEDS: u64 = 100_000;

/// These after them, each with a buffer of every length of note.
const SEEDS_FOR_ALL_LENGTHS: u64 = 6_000;

const SEEDS_FOR_TRIPLES: u64 = 20_000;

/// Compares the answers and the buffers, and reads back what was written.
fn compare(pair: &Pair) -> Outcome {
    let Pair {
        first,
        second,
        capacity,
    } = pair;
    let expected = Outcome::expected(*capacity, |out| reference::join(first, second, out));
    let outcome = Outcome::of(*capacity, |out| join(first, second, out));
    outcome.assert_is(&expected, pair);
    if outcome.answer.error == 0 {
        let items = [items_of(first), items_of(second)].concat();
        assert_reads_back(outcome.written(), &items, pair);
    }
    outcome
}

/// The bytes that both take, or as many as were meant before one was made bad.
fn result_of(pair: &Pair) -> usize {
    let mut out = vec![0; MAX_BYTES];
    reference::join(&pair.first, &pair.second, &mut out).unwrap_or(pair.capacity)
}

#[test]
fn generated_pairs() {
    let mut tally = Tally::of_joining();
    for seed in 0..SEEDS {
        let pair = pairs::pair(&mut Random::new(seed));
        let answer = compare(&pair).answer;
        tally.add(answer);
        joining::look(&mut tally, &pair, answer);
    }
    tally.assert_complete();
}

#[test]
fn all_lengths() {
    let mut tally = Tally::of_joining();
    for seed in SEEDS..SEEDS + SEEDS_FOR_ALL_LENGTHS {
        let mut pair = pairs::pair(&mut Random::new(seed));
        for capacity in capacities(result_of(&pair)) {
            pair.capacity = capacity;
            tally.add(compare(&pair).answer);
        }
    }
    tally.assert_complete();
}

#[test]
fn small_pairs() {
    let bundles = inputs::small();
    for first in &bundles {
        for second in &bundles {
            let mut pair = Pair {
                first: first.clone(),
                second: second.clone(),
                capacity: 40,
            };
            let result = compare(&pair).answer.count as usize;
            for capacity in result.saturating_sub(1)..=result + 1 {
                pair.capacity = capacity;
                compare(&pair);
            }
        }
    }
}

/// The bytes that a join gives, if it answers.
fn joined(first: &[u8], second: &[u8]) -> Option<Vec<u8>> {
    let outcome = compare(&Pair {
        first: first.to_vec(),
        second: second.to_vec(),
        capacity: PLENTY,
    });
    (outcome.answer.error == 0).then(|| outcome.written().to_vec())
}

/// Whichever two of three bundles are joined first, a way that answers gives the canonical encoding
/// of all three, so two ways that answer agree.
#[test]
fn generated_triples() {
    let mut answered = BTreeSet::new();
    for seed in 0..SEEDS_FOR_TRIPLES {
        let triple = pairs::triple(&mut Random::new(seed));
        let [first, second, third] = &triple;
        let left = joined(first, second).and_then(|inner| joined(&inner, third));
        let right = joined(second, third).and_then(|inner| joined(first, &inner));
        let items = [items_of(first), items_of(second), items_of(third)].concat();
        let expected = canonical(&items);
        for way in [&left, &right].into_iter().flatten() {
            assert!(*way == expected, "{triple:02X?}");
        }
        answered.insert([left.is_some(), right.is_some()]);
    }
    // Never the right way only: what the first two give begins what all three give, so it is within
    // each limit that all three are within. What the last two give may be longer than all three.
    let expected = [[false, false], [true, false], [true, true]];
    assert_eq!(answered, BTreeSet::from(expected));
}
