//! Texts that are not UTF-8, with the offset at which they stop being good, and texts of all bytes
//! of note.

use super::{model, Random};

/// Bytes that make a text bad between any two of its characters, at its start and at its end.
#[derive(Clone, Copy, Debug)]
pub struct Fault {
    pub bytes: &'static [u8],
    /// How many of them are good there.
    pub good: usize,
}

const fn fault(good: usize, bytes: &'static [u8]) -> Fault {
    Fault { bytes, good }
}

/// Faults of every sort.
pub const FAULTS: [Fault; 29] = [
    // Bytes that begin no character.
    fault(0, b"\x80"),
    fault(0, b"\xBF"),
    fault(0, b"\xC0"),
    fault(0, b"\xC1"),
    fault(0, b"\xF5"),
    fault(0, b"\xFF"),
    // The same with what would make a character of them.
    fault(0, b"\xC0\x80"),
    fault(0, b"\xC1\xBF"),
    fault(0, b"\xF5\x80\x80\x80"),
    // Characters that are cut short by what comes after them, or by the end.
    fault(1, b"\xC2"),
    fault(1, b"\xDF"),
    fault(1, b"\xE0"),
    fault(1, b"\xEF"),
    fault(2, b"\xE0\x80"),
    fault(2, b"\xEF\xBF"),
    fault(1, b"\xF0"),
    fault(1, b"\xF4"),
    fault(2, b"\xF0\x80"),
    fault(2, b"\xF4\xBF"),
    fault(3, b"\xF0\x80\x80"),
    fault(3, b"\xF4\xBF\xBF"),
    // The same, by a byte that begins no character, or that is the next lower or higher one.
    fault(1, b"\xC2\xFF"),
    fault(1, b"\xDF\x7F"),
    fault(1, b"\xE0\xC0"),
    fault(2, b"\xEF\xBF\x7F"),
    fault(2, b"\xE1\x80\xC1"),
    fault(1, b"\xF4\xC0"),
    fault(2, b"\xF0\x80\x7F"),
    fault(3, b"\xF1\xBF\xBF\xC0"),
];

/// A text with a fault at any offset, and where it stops being good.
pub fn bad(random: &mut Random) -> (Vec<u8>, usize) {
    let fault = random.pick(&FAULTS);
    let before = good(random);
    let stop = before.len() + fault.good;
    ([before, fault.bytes.to_vec(), good(random)].concat(), stop)
}

/// A text of any characters, or of ASCII; some are empty, and some long.
fn good(random: &mut Random) -> Vec<u8> {
    let most = random.pick(&[1, 4, 20, 150]);
    let length = random.below(most);
    if random.one_in(2) {
        vec![b'x'; length]
    } else {
        model::text(random, length)
    }
}

/// Bytes at the edges of the ranges that the condensed rule has, and of those of RFC 3629.
const EDGES: [u8; 26] = [
    0x00, 0x7F, 0x80, 0x8F, 0x90, 0x9F, 0xA0, 0xBF, 0xC0, 0xC1, 0xC2, 0xDF, 0xE0, 0xE1, 0xEC, 0xED,
    0xEE, 0xEF, 0xF0, 0xF1, 0xF3, 0xF4, 0xF5, 0xF7, 0xF8, 0xFF,
];

/// All texts of this many bytes that these make, good and bad.
pub fn of_edges<const LENGTH: usize>() -> impl Iterator<Item = [u8; LENGTH]> {
    let count = EDGES.len().pow(LENGTH as u32);
    (0..count).map(|mut number| {
        [0; LENGTH].map(|_| {
            let byte = EDGES[number % EDGES.len()];
            number /= EDGES.len();
            byte
        })
    })
}
