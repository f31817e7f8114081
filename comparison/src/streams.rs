//! Streams of envelopes that the reference's generators lack: long, large, and hard to print.

use reference::generate::model::{canonical, header, Meaning};
use reference::generate::streams::{envelope, good};
use reference::generate::tables::symbols;
use reference::generate::{bundles, Random};
use reference::{MAX_BYTES, MAX_ROWS};

/// Good streams back to back, until they have this length.
pub fn long(random: &mut Random, length: usize) -> Vec<u8> {
    let mut stream = Vec::new();
    while stream.len() < length {
        stream.extend(good(random));
    }
    stream
}

/// Good envelopes, most of them the longest, in which some bundles are refused.
pub fn large(random: &mut Random, envelopes: usize) -> Vec<u8> {
    let mut stream = Vec::new();
    for _ in 0..envelopes {
        stream.extend(match random.below(8) {
            0 => good(random),
            1 => envelope(&bundles::damaged(random)),
            2 => envelope(&string(random.below(MAX_BYTES - 3))),
            _ => longest(),
        });
    }
    stream
}

/// An envelope as long as allowed.
pub fn longest() -> Vec<u8> {
    envelope(&string(MAX_BYTES - 3))
}

/// A string of so many bytes; its header has three.
fn string(length: usize) -> Vec<u8> {
    [header(4, length as u64, 2), vec![b'x'; length]].concat()
}

/// All rows allowed, each with the largest number of this kind: no other lines are as long.
pub fn longest_lines(kind: u8, number: u64) -> Vec<u8> {
    envelope(&canonical(&vec![Meaning::plain(kind, number); MAX_ROWS]))
}

/// Names that start as far behind as they can: their starts are the largest.
pub fn largest_starts() -> Vec<u8> {
    let names = MAX_ROWS - 2;
    let far = string(MAX_BYTES - 3 - 1 - names);
    let name = [0xA0];
    let references = vec![0xE0; names];
    envelope(&[&far, &name[..], &references].concat())
}

/// Empty names in full where references are a byte longer, up to this canonical length.
pub fn grown(canonical_length: usize) -> Vec<u8> {
    let repeats = 200;
    let start = [canonical(&symbols(0, 24)), vec![0xA0]].concat();
    let string = string(canonical_length - start.len() - 2 * repeats - 3);
    envelope(&[start, vec![0xA0; repeats], string].concat())
}
