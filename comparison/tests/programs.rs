//! The programs `listing` and `tidy`, run as processes, print what the reference says.

use std::collections::BTreeSet;
use std::fs::File;
use std::path::PathBuf;

use comparison::program::{Program, LISTING, PROGRAMS, TIDY};
use comparison::run::Run;
use comparison::streams;
use reference::generate::streams::{envelope, stream};
use reference::generate::{bundles, Random};
use reference::MAX_BYTES;

const SEEDS: u64 = 2_000;

/// These after them, each in pieces of every size.
const SEEDS_FOR_PIECES: u64 = 40;

const SIZES: [usize; 6] = [1, 2, 3, 7, 4_096, 65_535];

/// A bundle that reads, and one that does not.
const GOOD: &[u8] = b"\x62\xC1d\x25\xC1m\x23";
const BAD: &[u8] = b"\xC1d\xC1m";

/// Runs a program on the input as a whole, through a pipe.
fn compare(program: &Program, input: &[u8]) {
    let printed = program.run().given(input);
    program.assert_prints(&printed, input);
}

/// Runs a program that gets the input in pieces of this size, one by one.
fn compare_in_pieces(program: &Program, input: &[u8], size: usize) {
    let printed = program.run().given_one_by_one(input.chunks(size));
    program.assert_prints(&printed, input);
}

/// The same, with pieces of all sizes up to this one.
fn compare_in_random_pieces(program: &Program, input: &[u8], largest: usize, random: &mut Random) {
    let mut rest = input;
    let pieces = std::iter::from_fn(move || {
        let size = rest.len().min(1 + random.below(largest));
        let (piece, after) = rest.split_at(size);
        rest = after;
        (size > 0).then_some(piece)
    });
    let printed = program.run().given_one_by_one(pieces);
    program.assert_prints(&printed, input);
}

/// The numbers of all errors that a listing names.
fn errors(listing: &[u8]) -> BTreeSet<u64> {
    let text = String::from_utf8_lossy(listing);
    let refused = text.lines().filter_map(|line| line.split_once(" refused "));
    let number = |(_, rest): (&str, &str)| rest.split(' ').next()?.parse().ok();
    refused.filter_map(number).collect()
}

/// Stored streams with what is printed for them, not by the reference.
#[test]
fn stored_streams() {
    let stored = [
        (
            LISTING,
            &include_bytes!("data/listing.in")[..],
            &include_bytes!("data/listing.out")[..],
        ),
        (
            TIDY,
            include_bytes!("data/tidy.in"),
            include_bytes!("data/tidy.out"),
        ),
    ];
    for (program, input, output) in stored {
        let printed = program.run().given(input);
        assert_eq!(printed.output, output, "{}", program.name);
        program.assert_prints(&printed, input);
    }
}

#[test]
fn generated_streams() {
    let mut met = BTreeSet::new();
    for seed in 0..SEEDS {
        let input = stream(&mut Random::new(seed));
        PROGRAMS.iter().for_each(|program| compare(program, &input));
        met.extend(errors(&reference::listing(&input)));
    }
    // Error 1 can't be: a bundle that long has no envelope.
    let expected = [2, 3, 4, 5, 6, 7, 8, 12, 13];
    assert_eq!(met, BTreeSet::from(expected), "errors that came up");
}

#[test]
fn pieces() {
    for seed in SEEDS..SEEDS + SEEDS_FOR_PIECES {
        let random = &mut Random::new(seed);
        let input = [streams::long(random, 2_000), stream(random)].concat();
        for program in &PROGRAMS {
            for size in SIZES {
                compare_in_pieces(program, &input, size);
            }
            for largest in [3, 300, 20_000] {
                compare_in_random_pieces(program, &input, largest, random);
            }
        }
    }
}

/// Two envelopes, the second with a bundle that is refused, then another and one that is refused.
#[test]
fn cut_at_every_byte() {
    let last = [0, 2, 9, 0];
    let parts = [GOOD, BAD, GOOD].map(envelope).concat();
    let input = [&parts, &last[..]].concat();
    for end in 0..=input.len() {
        for program in &PROGRAMS {
            compare(program, &input[..end]);
            compare_in_pieces(program, &input[..end], 1);
        }
    }
}

#[test]
fn long_streams() {
    for (seed, length) in [(1, 3_000_000), (2, 1_000_000), (3, 100_000)] {
        let random = &mut Random::new(seed);
        let input = streams::long(random, length);
        for program in &PROGRAMS {
            compare(program, &input);
            compare_in_random_pieces(program, &input, 70_000, random);
        }
    }
}

/// Long good streams with one damage near the end, which ends the run or spoils a bundle only.
#[test]
fn damaged_late() {
    let mut ended = BTreeSet::new();
    for seed in 0..24 {
        let random = &mut Random::new(seed);
        let mut input = streams::long(random, 200_000);
        let mut tail = input.split_off(input.len() - 2_000);
        bundles::damage(random, &mut tail);
        input.extend(tail);
        for program in &PROGRAMS {
            compare(program, &input);
            compare_in_random_pieces(program, &input, 5_000, random);
        }
        ended.extend(errors(&reference::listing(&input)));
    }
    assert!(ended.contains(&12) && ended.iter().any(|error| *error < 12));
}

#[test]
fn large_envelopes() {
    let longest = streams::longest().repeat(60);
    let shifted = [&envelope(GOOD)[..], &longest].concat();
    let mixed = streams::large(&mut Random::new(1), 300);
    let refused = errors(&reference::listing(&mixed));
    assert!(!refused.is_empty() && !refused.contains(&12));
    for input in [longest, shifted, mixed] {
        for program in &PROGRAMS {
            compare(program, &input);
            for size in [5_000, 16_387, 65_535] {
                compare_in_pieces(program, &input, size);
            }
        }
    }
}

/// An envelope byte by byte where nothing more fits into it.
#[test]
fn longest_envelope_byte_by_byte() {
    let input = [streams::longest(), streams::longest()].concat();
    for program in &PROGRAMS {
        compare_in_pieces(program, &input, 1);
    }
}

#[test]
fn longest_listings() {
    let lines = [
        streams::longest_lines(6, u64::MAX),
        streams::longest_lines(4, u64::MAX),
        streams::longest_lines(7, u64::MAX - 1),
        streams::largest_starts(),
    ];
    let expected = reference::listing(&lines[0]);
    assert!(expected.ends_with(b"\n1023 6 18446744073709551615 0\n"));
    assert!(reference::listing(&lines[3]).ends_with(b"\n1023 10 0 15362\n"));
    for input in [lines.concat(), lines.concat().repeat(10)] {
        for program in &PROGRAMS {
            compare(program, &input);
            compare_in_pieces(program, &input, 4_096);
        }
    }
}

/// Envelopes whose numbers have up to seven digits.
#[test]
fn many_envelopes() {
    let input = [envelope(b"").repeat(1_000_001), vec![0]].concat();
    compare(&LISTING, &input);
    compare(&TIDY, &input);
}

/// `listing` goes on after a refused bundle, `tidy` ends.
#[test]
fn refused_bundles_between() {
    let (good, bad) = (envelope(GOOD), envelope(BAD));
    let parts = [good, bad.clone(), bad.clone(), streams::longest(), bad];
    let input = parts.concat().repeat(40);
    for program in &PROGRAMS {
        compare(program, &input);
        compare_in_random_pieces(program, &input, 9_000, &mut Random::new(1));
    }
    let expected = reference::listing(&input);
    assert!(expected.ends_with(b"bundle 200 refused 5 at 2\n"));
    assert_eq!(reference::tidy(&input), envelope(GOOD));
}

/// Canonical bundles that are longer than given, also longer than allowed: `tidy` ends there.
#[test]
fn grown_bundles() {
    let tidied = |grown: &[u8]| {
        let input = [&envelope(GOOD)[..], grown, &envelope(GOOD)].concat();
        for program in &PROGRAMS {
            compare(program, &input);
            compare_in_pieces(program, &input, 7);
        }
        reference::tidy(&input).len()
    };
    let short = envelope(GOOD).len();
    for length in [1_000, MAX_BYTES - 1, MAX_BYTES] {
        let grown = streams::grown(length);
        assert!(grown.len() < 3 + length, "longer than before");
        assert_eq!(tidied(&grown), 2 * short + 3 + length);
    }
    assert_eq!(tidied(&streams::grown(MAX_BYTES + 1)), short);
}

/// Standard input that is a file, also an empty one.
#[test]
fn from_a_file() {
    let path = PathBuf::from(env!("CARGO_TARGET_TMPDIR")).join("stream");
    for length in [0, 500_000] {
        let input = streams::long(&mut Random::new(4), length);
        std::fs::write(&path, &input).expect("a file that can be written");
        for program in &PROGRAMS {
            let file = File::open(&path).expect("the file just written");
            let printed = Run::of(program.command().stdin(file)).finish();
            program.assert_prints(&printed, &input);
        }
    }
}
