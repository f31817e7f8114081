//! `nachricht_open` and `nachricht_close` answer what the reference answers, closing leaves the same
//! bytes in the buffer, and what is closed opens again.

use comparison::buffer::{Outcome, PLENTY};
use comparison::cases::{closing, opening};
use comparison::expected::Expected;
use comparison::{Tally, BUNDLE_START};
use nachricht_sys::{close, open, Answer};
use reference::generate::{streams, Random};
use reference::MAX_BYTES;

const SEEDS: u64 = 60_000;

/// Closing copies up to 16 KB at each of ten capacities.
const SEEDS_FOR_CLOSING: u64 = 4_000;

const MAX_ENVELOPE: usize = BUNDLE_START + MAX_BYTES;

/// Compares the answers, and the bundle that the count tells with the reference's.
fn compare_open(bytes: &[u8]) -> Answer {
    let answer = open(bytes);
    let expected = reference::open(bytes);
    let start = &bytes[..bytes.len().min(40)];
    let input = || format!("{} bytes, first {start:02X?}", bytes.len());
    let length = expected.map(<[u8]>::len);
    assert_eq!(answer, length.answer(), "{}", input());
    if let Ok(bundle) = expected {
        let opened = &bytes[BUNDLE_START..][..answer.count as usize];
        assert!(opened == bundle, "other bundle, {}", input());
    }
    answer
}

/// Compares the answers and the buffers, and opens what was closed.
fn compare_close(bundle: &[u8], capacity: usize) -> Answer {
    let expected = Outcome::expected(capacity, |out| reference::close(bundle, out));
    let outcome = Outcome::of(capacity, |out| close(bundle, out));
    outcome.assert_is(&expected, &(bundle.len(), capacity));
    if outcome.answer.error == 0 {
        for after in [&b""[..], b"\x00", b"\x00\x01\x01"] {
            let bytes = [outcome.written(), after].concat();
            let opened = compare_open(&bytes).count as usize;
            assert!(&bytes[BUNDLE_START..][..opened] == bundle, "{bundle:02X?}");
        }
    }
    outcome.answer
}

/// Opens each envelope of each stream, up to the first that is refused, and what comes after the last.
#[test]
fn generated_streams() {
    let mut tally = Tally::of_opening();
    for seed in 0..SEEDS {
        let stream = streams::stream(&mut Random::new(seed));
        let mut rest = &stream[..];
        loop {
            let answer = compare_open(rest);
            tally.add(answer);
            opening::look(&mut tally, rest, answer);
            if answer.error != 0 {
                break;
            }
            rest = &rest[BUNDLE_START + answer.count as usize..];
        }
    }
    tally.assert_complete();
}

/// All inputs of at most four bytes that these make.
#[test]
fn short_inputs() {
    let alphabet = [0x00, 0x01, 0x02, 0x03, 0x3F, 0x40, 0x41, 0x7F, 0x80, 0xFF];
    let mut inputs = vec![Vec::new()];
    let mut longest = 0..inputs.len();
    for _ in 0..4 {
        for place in longest.clone() {
            let longer = alphabet.map(|byte| [&inputs[place][..], &[byte]].concat());
            inputs.extend(longer);
        }
        longest = longest.end..inputs.len();
    }
    for input in &inputs {
        compare_open(input);
    }
}

/// All length fields, with too few bytes, exactly enough, and more.
#[test]
fn all_lengths() {
    let mut bytes = (0..70_000)
        .map(|place| (place * 31) as u8)
        .collect::<Vec<_>>();
    for length in 0..=u16::MAX {
        bytes[..2].copy_from_slice(&length.to_be_bytes());
        let exact = 2 + usize::from(length);
        for version in [0, 1, 2, 255] {
            bytes[2] = version;
            for given in [0, 1, 2, 3, exact - 1, exact, exact + 1, exact + 300] {
                compare_open(&bytes[..given]);
            }
        }
    }
}

/// All versions, with bytes cut, exact, and more.
#[test]
fn all_versions() {
    for length in [0, 1, 2, 300, MAX_BYTES, MAX_BYTES + 1, MAX_BYTES + 2] {
        let mut bytes = vec![b'x'; length + 10];
        bytes[..2].copy_from_slice(&(length as u16).to_be_bytes());
        for version in 0..=u8::MAX {
            bytes[2] = version;
            for given in [length + 1, length + 2, length + 3] {
                compare_open(&bytes[..given]);
            }
        }
    }
}

/// Capacities at which the answer may change, for a bundle of so many bytes.
fn capacities(bundle: usize) -> [usize; 10] {
    let exact = BUNDLE_START + bundle;
    [
        0,
        bundle,
        exact - 1,
        exact,
        exact + 1,
        exact + 40,
        MAX_ENVELOPE - 1,
        MAX_ENVELOPE,
        MAX_ENVELOPE + 1,
        PLENTY,
    ]
}

#[test]
fn closing_all_lengths() {
    let mut tally = Tally::of_closing();
    let lengths = (0..=300).chain(MAX_BYTES - 1..=MAX_BYTES + 2);
    let random = &mut Random::new(0);
    let others = (0..SEEDS_FOR_CLOSING).map(|_| random.below(MAX_BYTES + 200));
    let lengths = lengths.chain(others).collect::<Vec<_>>();
    for length in lengths {
        let bundle = (0..length).map(|_| random.byte()).collect::<Vec<_>>();
        for capacity in capacities(length) {
            let answer = compare_close(&bundle, capacity);
            tally.add(answer);
            closing::look(&mut tally, length, capacity, answer);
        }
    }
    tally.assert_complete();
}

/// Every capacity up to some more than enough, for bundles about where the length grows a byte.
#[test]
fn closing_into_all_capacities() {
    for length in [0, 1, 2, 3, 4, 253, 254, 255, 256, 257] {
        let bundle = vec![b'x'; length];
        for capacity in 0..length + 10 {
            compare_close(&bundle, capacity);
        }
    }
}
