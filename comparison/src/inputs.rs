//! Inputs: the reference's generators, and a few families that they lack.

use crate::items::Content;
use reference::generate::model::{self, fewest, header};
use reference::generate::tables::{self, Table};
use reference::generate::{bundles, pairs, Random};

/// A mix of all families: whole, wasteful, damaged, at the limits, noise, texts, and joined.
pub fn bundle(random: &mut Random) -> Vec<u8> {
    match random.below(8) {
        0 => text(random),
        1 => pairs::triple(random).concat(),
        _ => bundles::bundle(random),
    }
}

/// All inputs of at most one byte.
fn shortest() -> impl Iterator<Item = Vec<u8>> {
    let one = (0..=u8::MAX).map(|byte| vec![byte]);
    [Vec::new()].into_iter().chain(one)
}

/// All inputs of at most two bytes.
pub fn short() -> impl Iterator<Item = Vec<u8>> {
    let two = (0..=u16::MAX).map(|bytes| bytes.to_be_bytes().to_vec());
    shortest().chain(two)
}

/// Small bundles with names, most of which share some; the last two are bad.
const WITH_NAMES: [&[u8]; 12] = [
    b"\xC1d\xA1d",
    b"\xC1d\xA1d\xE0\xE1",
    b"\xA1d\xC1d\x00",
    b"\xA1d\xE0",
    b"\xA1d\xA1d\xE1",
    b"\xA1m\xA1d\xE1\xE0",
    b"\xA1d\xA1m\xF8\x01",
    b"\xB8\x01d\xA1m",
    b"\x62\xC1d\x25\xC1m\x23",
    b"\x61\xC1m\x62\xA1m\xE0\x00",
    b"\xC1d\xC1m\x00",
    b"\xC1d\x00\xE0",
];

/// All inputs of at most one byte, all of two and three that a few bytes make, and some with names.
pub fn small() -> Vec<Vec<u8>> {
    // Null, a container, symbols, a key and references. The first two are also content.
    let bytes = [0x00, 0x61, 0xA0, 0xA1, 0xC0, 0xE0, 0xE1];
    let two = bytes.map(|first| bytes.map(|second| vec![first, second]));
    let two = two.concat();
    let mut inputs = shortest().collect::<Vec<_>>();
    for start in &two {
        inputs.extend(bytes.map(|last| [&start[..], &[last]].concat()));
    }
    inputs.extend(two);
    inputs.extend(WITH_NAMES.map(<[u8]>::to_vec));
    inputs
}

/// A string or a name, first ASCII and then other characters, perhaps damaged, and a null.
fn text(random: &mut Random) -> Vec<u8> {
    let (ascii, other) = (random.below(150), random.below(50));
    let mut content = vec![b'x'; ascii];
    content.extend(model::text(random, other));
    if random.one_in(2) {
        bundles::damage(random, &mut content);
    }
    let code = random.pick(&[4, 5, 6]);
    let length = content.len() as u64;
    [header(code, length, fewest(code, length)), content, vec![0]].concat()
}

/// A mix of all families of tables for writing.
pub fn table(random: &mut Random) -> Table {
    match random.below(8) {
        0 => rows_read(random),
        _ => tables::table(random),
    }
}

/// The rows of a bundle, over the bundle itself.
fn rows_read(random: &mut Random) -> Table {
    let text = bundles::bundle(random);
    match Content::of(&text) {
        Some(content) => tables::fitted(random, content.rows, text),
        None => tables::good(random),
    }
}
