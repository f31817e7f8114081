//! Calls that write to a buffer, which has guard bytes around it.

use std::fmt::Debug;

use crate::expected::{self, Expected};
use nachricht_sys::Answer;
use reference::MAX_BYTES;

/// Bytes before the buffer and after it, which no call may change.
const GUARDS: usize = 67;

/// Larger than any result.
pub const PLENTY: usize = 20_000;

/// Capacities at which the answer may change, for a result of so many bytes.
pub fn capacities(result: usize) -> [usize; 8] {
    [
        0,
        result.saturating_sub(1),
        result,
        result + 1,
        result + 40,
        MAX_BYTES,
        MAX_BYTES + 1,
        PLENTY,
    ]
}

/// What a call answers, and all bytes after it: the buffer with the guards around it.
#[derive(PartialEq, Eq)]
pub struct Outcome {
    pub answer: Answer,
    bytes: Vec<u8>,
}

impl Outcome {
    /// Makes a call with a buffer of this capacity.
    pub fn of(capacity: usize, call: impl FnOnce(&mut [u8]) -> Answer) -> Outcome {
        let mut bytes = untouched(capacity + 2 * GUARDS);
        let answer = call(&mut bytes[GUARDS..GUARDS + capacity]);
        Outcome { answer, bytes }
    }

    /// The one outcome for what the reference answers: only the bytes that it counts change.
    pub fn expected<E>(capacity: usize, call: impl FnOnce(&mut [u8]) -> Result<usize, E>) -> Outcome
    where
        Result<usize, E>: Expected,
    {
        let (answer, written) = expected::written(capacity, call);
        Outcome::of(capacity, |buffer| {
            buffer[..written.len()].copy_from_slice(&written);
            answer
        })
    }

    /// The bytes that the call has written, as many as it counts.
    pub fn written(&self) -> &[u8] {
        &self.bytes[GUARDS..GUARDS + self.answer.count as usize]
    }

    /// Panics with the input unless this is the outcome expected for it.
    pub fn assert_is(&self, expected: &Outcome, input: &impl Debug) {
        assert_eq!(self.answer, expected.answer, "{input:02X?}");
        assert!(self.bytes == expected.bytes, "bytes differ, {input:02X?}");
    }
}

/// Bytes that differ from their neighbours, so that a stray byte or copy shows.
fn untouched(length: usize) -> Vec<u8> {
    (0..length).map(|place| (place * 151 + 7) as u8).collect()
}
