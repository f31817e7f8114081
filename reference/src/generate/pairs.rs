//! Pairs and triples of bundles, for joining.

use super::model::{self, canonical, loosened, Meaning};
use super::tables::{alike, symbols};
use super::{bundles, capacity, near, Random};
use crate::{MAX_BYTES, MAX_ENTRIES, MAX_ROWS};

/// What `join` is called with.
#[derive(Clone, Debug)]
pub struct Pair {
    pub first: Vec<u8>,
    pub second: Vec<u8>,
    pub capacity: usize,
}

/// A mix of all families.
pub fn pair(random: &mut Random) -> Pair {
    if random.one_in(3) {
        return any(random);
    }
    let [first, second] = good(random);
    of_items(random, &first, &second)
}

/// Three good bundles that share names, or that together come near a limit.
pub fn triple(random: &mut Random) -> [Vec<u8>; 3] {
    if random.one_in(40) {
        return shrunk(random).map(|items| spelled(random, &items));
    }
    let [first, second] = good(random);
    let third = match random.below(4) {
        0 => Vec::new(),
        1 => vec![Meaning::plain(0, 0)],
        2 => symbols(random.below(MAX_ENTRIES), random.below(3)),
        _ => first.clone(),
    };
    let mut triple = [first, second, third].map(|items| spelled(random, &items));
    let turns = random.below(3);
    triple.rotate_left(turns);
    triple
}

/// The items of two good bundles, mostly small ones.
fn good(random: &mut Random) -> [Vec<Meaning>; 2] {
    let at_limits = [rows, names, size, grown, all_limits, long_names];
    match random.below(20) {
        0 | 1 => one_empty(random),
        2 | 3 => random.pick(&at_limits)(random),
        4 => alike_names(random),
        _ => shared(random),
    }
}

/// A pair of good bundles, with a capacity that fits their joined items or nearly does.
fn of_items(random: &mut Random, first: &[Meaning], second: &[Meaning]) -> Pair {
    let joined = canonical(&[first, second].concat()).len();
    Pair {
        first: spelled(random, first),
        second: spelled(random, second),
        capacity: capacity(random, joined),
    }
}

fn spelled(random: &mut Random, items: &[Meaning]) -> Vec<u8> {
    if random.one_in(2) {
        canonical(items)
    } else {
        loosened(items, random)
    }
}

/// Bundles of any family, good or not.
fn any(random: &mut Random) -> Pair {
    let sound = bundles::loosened(random);
    let (first, second) = match random.below(3) {
        0 => (bundles::bundle(random), sound),
        1 => (sound, bundles::bundle(random)),
        _ => (bundles::bundle(random), bundles::bundle(random)),
    };
    let joined = first.len() + second.len();
    Pair {
        first,
        second,
        capacity: capacity(random, joined),
    }
}

/// Names from one pool, so that both use some of them, as keys and as symbols.
fn shared(random: &mut Random) -> [Vec<Meaning>; 2] {
    let pool = model::pool(random);
    [model::items(random, &pool), model::items(random, &pool)]
}

fn one_empty(random: &mut Random) -> [Vec<Meaning>; 2] {
    let [mut first, mut second] = shared(random);
    if random.one_in(2) {
        first.clear();
    }
    if !first.is_empty() {
        second.clear();
    }
    [first, second]
}

/// Together as many rows as allowed and one more.
fn rows(random: &mut Random) -> [Vec<Meaning>; 2] {
    let total = near(random, MAX_ROWS);
    let first = random.below(MAX_ROWS);
    let mut plain = |count| vec![Meaning::plain(random.pick(&[0, 1, 8]), 0); count];
    [plain(first), plain(total - first)]
}

/// Together as many different names as allowed and one more, some of them shared.
fn names(random: &mut Random) -> [Vec<Meaning>; 2] {
    let total = near(random, MAX_ENTRIES);
    let first = match random.below(4) {
        // All of them, or all that may be in one bundle.
        0 => total.min(MAX_ENTRIES),
        _ => 1 + random.below(MAX_ENTRIES - 1),
    };
    let common = random.below(first + 1).min(MAX_ENTRIES - (total - first));
    let from = first - common;
    let (mut first, mut second) = (symbols(0, first), symbols(from, total - from));
    if random.one_in(2) {
        // As many rows as allowed and one more too.
        let rows = near(random, MAX_ROWS) - first.len() - second.len();
        let padded = if random.one_in(2) {
            &mut first
        } else {
            &mut second
        };
        padded.extend(nulls(rows));
    }
    [first, second]
}

/// A result as long as allowed and one more; each string takes three bytes of header.
fn size(random: &mut Random) -> [Vec<Meaning>; 2] {
    let total = near(random, MAX_BYTES);
    let first = 256 + random.below(total - 600);
    [first, total - first - 6].map(|length| vec![string(length)])
}

fn string(length: usize) -> Meaning {
    Meaning::with_content(9, vec![b'x'; length])
}

fn nulls(count: usize) -> Vec<Meaning> {
    vec![Meaning::plain(0, 0); count]
}

/// Rows, names and result each about as many or as long as allowed.
fn all_limits(random: &mut Random) -> [Vec<Meaning>; 2] {
    let names = near(random, MAX_ENTRIES);
    let rows = near(random, MAX_ROWS) - names - 1;
    // A symbol takes three bytes, a null one, and the string's header three.
    let length = near(random, MAX_BYTES) - 3 * names - rows - 3;
    let first = 1 + random.below(MAX_ENTRIES - 2);
    let mut pair = [symbols(0, first), symbols(first, names - first)];
    pair[random.below(2)].extend(nulls(rows));
    pair[random.below(2)].push(string(length));
    pair
}

/// A name in both, or two that differ in a byte, so long that the result is about as allowed.
fn long_names(random: &mut Random) -> [Vec<Meaning>; 2] {
    let before = [random.below(3), random.below(3)];
    let room = near(random, MAX_BYTES) - before[0] - before[1];
    let is_same = random.one_in(2);
    // In full each has three bytes of header; the same one again is a reference of one byte.
    let length = if is_same { room - 4 } else { (room - 6) / 2 };
    let mut contents = [vec![b'x'; length], vec![b'x'; length]];
    if !is_same {
        contents[1][random.below(length)] = b'y';
    }
    let name = |content| vec![Meaning::with_content(10, content)];
    let [first, second] = contents.map(name);
    [
        [nulls(before[0]), first].concat(),
        [nulls(before[1]), second].concat(),
    ]
}

/// Names that differ in one byte or in their kind only, most of them in both.
fn alike_names(random: &mut Random) -> [Vec<Meaning>; 2] {
    let mut first = alike(random);
    // Each key has a symbol as its value.
    let fields = random.below(first.len() / 2 + 1);
    let second = first.split_off(2 * fields);
    [first, second]
}

/// References of the second bundle that take a byte more once the first one's names are in front.
fn grown(random: &mut Random) -> [Vec<Meaning>; 2] {
    let uses = 1 + random.below(300);
    let mut first = symbols(0, 24);
    let second = vec![Meaning::with_content(10, Vec::new()); uses];
    if random.one_in(2) {
        // 24 symbols take 3 bytes each, the string's header 3, the empty name 1 and then 2 each.
        let length = near(random, MAX_BYTES) - 72 - 3 - 1 - 2 * (uses - 1);
        first.push(string(length));
    }
    [first, second]
}

/// The last two have shorter references once the first is in front of them, so all three may be
/// short enough where the last two are not.
fn shrunk(random: &mut Random) -> [Vec<Meaning>; 3] {
    let uses = 1 + random.below(300);
    let empty_name = Meaning::with_content(10, Vec::new());
    // The empty name takes 1 byte in full and 1 for each use, the others as in `grown`.
    let length = near(random, MAX_BYTES) - 1 - 72 - 3 - uses;
    let mut second = symbols(0, 24);
    second.push(string(length));
    [vec![empty_name.clone()], second, vec![empty_name; uses]]
}
