//! Bundles: good, wasteful, damaged, at the limits, and plain noise.

use super::model::{self, canonical, fewest, header, loosened as loosened_items, PAYLOADS};
use super::{near, texts, Random};
use crate::{Error, MAX_BYTES, MAX_ENTRIES, MAX_OPEN, MAX_ROWS};

/// A mix of all families, mostly small.
pub fn bundle(random: &mut Random) -> Vec<u8> {
    match random.below(32) {
        0..=6 => valid(random),
        7..=13 => loosened(random),
        14..=20 => damaged(random),
        21..=22 => with_bad_text(random).0,
        23..=26 => boundary(random),
        _ => self::random(random),
    }
}

/// A canonical bundle.
pub fn valid(random: &mut Random) -> Vec<u8> {
    let pool = model::pool(random);
    canonical(&model::items(random, &pool))
}

/// A good bundle that need not be canonical.
pub fn loosened(random: &mut Random) -> Vec<u8> {
    let pool = model::pool(random);
    let items = model::items(random, &pool);
    loosened_items(&items, random)
}

/// A good bundle, canonical or not.
fn good(random: &mut Random) -> Vec<u8> {
    match random.below(2) {
        0 => valid(random),
        _ => loosened(random),
    }
}

/// A good bundle with a few bytes changed, cut off, inserted, removed or doubled.
pub fn damaged(random: &mut Random) -> Vec<u8> {
    let mut bundle = good(random);
    for _ in 0..1 + random.below(3) {
        damage(random, &mut bundle);
    }
    bundle
}

/// A good bundle, then a string or name that is not UTF-8, then noise; with the error of lenient
/// reading.
pub fn with_bad_text(random: &mut Random) -> (Vec<u8>, Error) {
    let mut bundle = good(random);
    let (content, stop) = texts::bad(random);
    let code = random.pick(&[4, 5, 6]);
    bundle.extend(header_of_any_length(random, code, content.len() as u64));
    let error = Error::at(3, bundle.len() + stop);
    bundle.extend(content);
    bundle.extend(self::random(random));
    (bundle, error)
}

/// Changes the bytes in one place.
pub fn damage(random: &mut Random, bytes: &mut Vec<u8>) {
    let place = random.below(bytes.len() + 1);
    let byte = interesting_byte(random);
    if place == bytes.len() {
        return bytes.push(byte);
    }
    match random.below(6) {
        0 => bytes[place] ^= 1 << random.below(8),
        1 => bytes[place] = byte,
        2 => bytes.truncate(place),
        3 => bytes.insert(place, byte),
        4 => drop(bytes.remove(place)),
        _ => {
            let end = bytes.len().min(place + 1 + random.below(16));
            let doubled = bytes[place..end].to_vec();
            bytes.splice(place..place, doubled);
        }
    }
}

/// Bytes without a plan, with many that begin items.
pub fn random(random: &mut Random) -> Vec<u8> {
    let length = random.below(24);
    (0..length).map(|_| interesting_byte(random)).collect()
}

fn interesting_byte(random: &mut Random) -> u8 {
    let code = random.byte() & 0xE0;
    match random.below(8) {
        0 => random.byte(),
        1 => code | 24 | random.byte() & 7,
        2 => random.pick(&[0xFF, 0x80, 0xC1, 0xC2, 0xE0, 0xED, 0xF4, 0xF5]),
        _ => code | random.byte() & 3,
    }
}

/// A bundle at a limit, just below it or just above it.
pub fn boundary(random: &mut Random) -> Vec<u8> {
    let families = [
        rows, entries, references, depth, sizes, payloads, payloads, clash, clash, grown,
    ];
    random.pick(&families)(random)
}

/// A capacity for the rows of a bundle, which may be too small.
pub fn row_capacity(random: &mut Random) -> usize {
    match random.below(4) {
        0 => random.below(20),
        1 => near(random, MAX_ROWS),
        _ => 1_500,
    }
}

/// As many rows as allowed and one more, where the last item may break another rule too.
fn rows(random: &mut Random) -> Vec<u8> {
    let count = near(random, MAX_ROWS);
    let lead = random.pick(&[0x00, 0x05, 0x20, 0x40, 0x60, 0x80]);
    let tails: [&[u8]; 12] = [
        b"",
        b"",
        b"",
        b"\x81",
        b"\x38",
        b"\x61",
        b"\x61\x00",
        b"\xC0",
        b"\xE0",
        b"\x81\xFF",
        b"\x38\x00",
        b"\xC0\xC0",
    ];
    [&vec![lead; count][..], random.pick(&tails)].concat()
}

/// Names in full, `different` of them before they repeat; as keys they get a value each.
fn names(code: u8, count: usize, different: usize) -> Vec<u8> {
    let mut bundle = Vec::new();
    for index in 0..count {
        bundle.extend(name(code, index % different));
    }
    bundle
}

fn name(code: u8, index: usize) -> Vec<u8> {
    let content = [0x30 + (index / 64) as u8, 0x30 + (index % 64) as u8];
    let value: &[u8] = if code == 6 { &[0] } else { &[] };
    [&header(code, 2, 0), &content[..], value].concat()
}

/// As many entries as allowed and one more, all different or repeated in full, and then something.
fn entries(random: &mut Random) -> Vec<u8> {
    let count = near(random, MAX_ENTRIES);
    let different = random.pick(&[count, count, MAX_ENTRIES, 24, 1]);
    let code = random.pick(&[5, 6]);
    let tail = match random.below(8) {
        0 => name(code, 0),
        1 => name(11 - code, 0),
        2 => vec![code << 5 | 1],
        3 => vec![code << 5 | 1, 0xFF],
        4 => vec![0xF8, random.pick(&[0, 24, 254, 255])],
        _ => Vec::new(),
    };
    [names(code, count, different), tail].concat()
}

/// References around the indices at which they grow, and just past the table's end.
fn references(random: &mut Random) -> Vec<u8> {
    let index = random.pick(&[0, 23, 24, 255, 256]);
    let made = (index + random.below(2)).min(MAX_ENTRIES);
    let code = random.pick(&[5, 6]);
    let mut bundle = names(code, made, MAX_ENTRIES);
    if random.one_in(4) {
        // A key before the reference, which is then wrong after it if it stands for a key.
        bundle.push(0xC0);
    }
    bundle.extend(header_of_any_length(random, 7, index as u64));
    bundle.push(0);
    bundle
}

fn header_of_any_length(random: &mut Random, code: u8, payload: u64) -> Vec<u8> {
    let shortest = fewest(code, payload);
    let following = match random.below(3) {
        0 => shortest + random.below(9 - shortest),
        _ => shortest,
    };
    header(code, payload, following)
}

/// Containers in containers, as many as may be open and one more, with siblings and keys.
fn depth(random: &mut Random) -> Vec<u8> {
    let count = near(random, MAX_OPEN);
    let levels: [&[u8]; 5] = [b"\x61", b"\x62", b"\x62\x60", b"\x61\xC0", b"\x61\xC1d"];
    let level = random.pick(&levels);
    let innermost: [&[u8]; 8] = [
        b"\x00",
        b"\x60",
        b"\x61",
        b"\x61\x00",
        b"\xC0\x60",
        b"\x78",
        b"\x78\x00",
        b"",
    ];
    let closing = if level == b"\x62" { count } else { 0 };
    let mut bundle = level.repeat(count);
    bundle.extend_from_slice(random.pick(&innermost));
    bundle.extend(vec![0; closing]);
    bundle
}

/// As many bytes as allowed and one more, in one item or in many.
fn sizes(random: &mut Random) -> Vec<u8> {
    let total = near(random, MAX_BYTES);
    let largest = random.pick(&[total, 300]);
    let mut bundle = Vec::new();
    while bundle.len() < total {
        let left = (total - bundle.len()).min(largest);
        if left < 300 {
            bundle.push(0);
        } else {
            let code = random.pick(&[0, 4]);
            bundle.extend(header(code, left as u64 - 3, 2));
            bundle.extend(vec![b'x'; left - 3]);
        }
    }
    bundle
}

/// A header with a payload of note, in few or many bytes, with content or without enough of it.
fn payloads(random: &mut Random) -> Vec<u8> {
    let code = random.below(8) as u8;
    let payload = random.pick(&PAYLOADS);
    let mut bundle = header_of_any_length(random, code, payload);
    if matches!(code, 0 | 4 | 5 | 6) {
        let length = payload.min(300) as usize;
        bundle.extend(model::text(random, length));
    }
    let tails: [&[u8]; 6] = [b"\x00", b"\x00", b"", b"\x00\x00", b"\xE0\x00", b"\xC0"];
    bundle.extend_from_slice(random.pick(&tails));
    if random.one_in(8) {
        bundle.pop();
    }
    bundle
}

/// Empty names in full after 24 entries, whose canonical references are longer than they are.
fn grown(random: &mut Random) -> Vec<u8> {
    let repeats = random.below(MAX_ENTRIES - 24);
    let mut bundle = names(5, 24, 24);
    bundle.push(0xA0);
    let canonical = bundle.len() + 2 * repeats;
    bundle.extend(vec![0xA0; repeats]);
    if !random.one_in(3) {
        let length = near(random, MAX_BYTES) - canonical - 3;
        bundle.extend(header(4, length as u64, 2));
        bundle.extend(vec![b'x'; length]);
    }
    bundle
}

/// Several limits met at once, and then an item that breaks one rule or more.
fn clash(random: &mut Random) -> Vec<u8> {
    let code = random.pick(&[5, 6]);
    let made = random.pick(&[0, 1, MAX_ENTRIES - 1, MAX_ENTRIES]);
    let open = random.pick(&[0, MAX_OPEN]);
    let before: &[u8] = random.pick(&[&b""[..], b"\xC0", b"\xE0"]);
    let mut bundle = names(code, made, MAX_ENTRIES);
    // A key in `names` has a value, so it takes two rows.
    let rows = made * usize::from(code - 4) + open + before.len();
    if random.one_in(2) {
        bundle.extend(vec![0; MAX_ROWS - rows - random.below(2)]);
    }
    bundle.extend(vec![0x61; open]);
    bundle.extend_from_slice(before);
    bundle.extend(clashing_item(random, code));
    bundle
}

/// An item that is wrong in some places: cut, long, a reference, a name, a container or a value.
fn clashing_item(random: &mut Random, code: u8) -> Vec<u8> {
    let code = random.pick(&[0, 1, 3, 4, 5, 6, 7, 7, code, code, code]);
    let payload = random.pick(&[0, 0, 1, 2, 2, 255, 256]);
    let mut item = header_of_any_length(random, code, payload);
    let contents: [&[u8]; 6] = [b"", b"\x00", b"00", b"01\x00", b"\xFF\xFF\x00", b"zz\x00"];
    item.extend_from_slice(random.pick(&contents));
    if random.one_in(4) {
        item.pop();
    }
    item
}
