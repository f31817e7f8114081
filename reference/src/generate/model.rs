//! The generators' own items: random fields, and their canonical and wasteful encodings.

use super::Random;
use crate::{Row, MAX_BYTES, MAX_ENTRIES, MAX_OPEN};

/// An item as a row means it: kind, number and content bytes.
#[derive(Clone, PartialEq, Eq, Debug)]
pub struct Meaning {
    pub kind: u8,
    pub number: u64,
    pub content: Vec<u8>,
}

/// Payloads at which headers grow or meanings change.
pub const PAYLOADS: [u64; 25] = [
    0,
    1,
    18,
    19,
    22,
    23,
    24,
    (1 << 8) - 1,
    1 << 8,
    (1 << 16) - 1,
    1 << 16,
    (1 << 24) - 1,
    1 << 24,
    (1 << 32) - 1,
    1 << 32,
    (1 << 40) - 1,
    1 << 40,
    (1 << 48) - 1,
    1 << 48,
    (1 << 56) - 1,
    1 << 56,
    (1 << 63) - 1,
    1 << 63,
    u64::MAX - 1,
    u64::MAX,
];

/// Lengths of content at which headers grow.
const LENGTHS: [usize; 7] = [0, 18, 19, 23, 24, 255, 256];

impl Meaning {
    /// An item without content.
    pub fn plain(kind: u8, number: u64) -> Meaning {
        let content = Vec::new();
        Meaning {
            kind,
            number,
            content,
        }
    }

    /// An item with content: kind 5, 9, 10 or 11.
    pub fn with_content(kind: u8, content: Vec<u8>) -> Meaning {
        let number = content.len() as u64;
        Meaning {
            kind,
            number,
            content,
        }
    }

    pub fn has_content(&self) -> bool {
        matches!(self.kind, 5 | 9 | 10 | 11)
    }

    pub fn is_name(&self) -> bool {
        matches!(self.kind, 10 | 11)
    }
}

/// What rows over a text mean.
pub fn meanings(rows: &[Row], text: &[u8]) -> Vec<Meaning> {
    let meaning = |row: &Row| {
        let mut meaning = Meaning::plain(row.kind, row.number);
        if meaning.has_content() {
            meaning.content = text[row.start..row.start + row.number as usize].to_vec();
        }
        meaning
    };
    rows.iter().map(meaning).collect()
}

/// How many different names there are among the items.
pub fn different_names(items: &[Meaning]) -> usize {
    let mut names: Vec<(u8, &[u8])> = Vec::new();
    for item in items.iter().filter(|item| item.is_name()) {
        names.push((item.kind, &item.content));
    }
    names.sort();
    names.dedup();
    names.len()
}

/// UTF-8 of this length by the condensed rule, its odd corners included.
pub fn text(random: &mut Random, length: usize) -> Vec<u8> {
    let characters: [&[u8]; 12] = [
        b"a",
        b"b",
        b"\x00",
        b"\x7F",
        b"\xC2\x80",
        b"\xDF\xBF",
        b"\xE0\x80\x80",
        b"\xED\xA0\x80",
        b"\xEF\xBF\xBF",
        b"\xF0\x80\x80\x80",
        b"\xF4\xBF\xBF\xBF",
        b"\xF1\x90\x90\x90",
    ];
    let mut text = Vec::new();
    while text.len() < length {
        let character = random.pick(&characters);
        if text.len() + character.len() <= length {
            text.extend_from_slice(character);
        }
    }
    text
}

/// Contents for keys and symbols, few enough that the names never pass their limit.
pub fn pool(random: &mut Random) -> Vec<Vec<u8>> {
    let size = random.pick(&[1, 2, 3, 4, 30, MAX_ENTRIES / 2]);
    let mut pool = Vec::new();
    for _ in 0..size {
        let length = if size <= 4 && random.one_in(6) {
            random.pick(&LENGTHS)
        } else {
            random.below(5)
        };
        pool.push(text(random, length));
    }
    pool
}

/// Random whole fields within all limits, with names from the pool; mostly few.
pub fn items(random: &mut Random, pool: &[Vec<u8>]) -> Vec<Meaning> {
    let fields = match random.below(24) {
        0 => 0,
        1 => random.below(400),
        _ => random.below(12),
    };
    let nesting = random.pick(&[2, 4, 20]);
    let mut builder = Builder {
        random,
        pool,
        nesting,
        fields_left: fields,
        bytes_left: 4_000,
        items: Vec::new(),
    };
    while builder.fields_left > 0 {
        builder.fields_left -= 1;
        builder.field(0);
    }
    builder.items
}

struct Builder<'a> {
    random: &'a mut Random,
    pool: &'a [Vec<u8>],
    /// A container is chosen this many times in 24.
    nesting: usize,
    fields_left: usize,
    /// For content other than names.
    bytes_left: usize,
    items: Vec<Meaning>,
}

impl Builder<'_> {
    /// A field inside `open` containers.
    fn field(&mut self, open: usize) {
        if self.random.one_in(2) {
            self.name(11);
        }
        if open < MAX_OPEN && self.random.below(24) < self.nesting {
            let fields = self.fields_left.min(self.random.below(5));
            self.fields_left -= fields;
            self.items.push(Meaning::plain(8, fields as u64));
            for _ in 0..fields {
                self.field(open + 1);
            }
        } else {
            self.leaf();
        }
    }

    fn leaf(&mut self) {
        let kind = self.random.pick(&[0, 1, 2, 3, 4, 5, 6, 6, 7, 7, 9, 10, 10]);
        let number = self.payload();
        let item = match kind {
            0..=2 => Meaning::plain(kind, 0),
            3 => Meaning::plain(3, number & 0xFFFF_FFFF),
            7 => Meaning::plain(7, number.min(u64::MAX - 1)),
            5 => Meaning::with_content(5, self.bytes()),
            9 => {
                let length = self.length();
                Meaning::with_content(9, text(self.random, length))
            }
            10 => return self.name(10),
            _ => Meaning::plain(kind, number),
        };
        self.items.push(item);
    }

    fn name(&mut self, kind: u8) {
        let content = self.pool[self.random.below(self.pool.len())].clone();
        self.items.push(Meaning::with_content(kind, content));
    }

    fn payload(&mut self) -> u64 {
        match self.random.below(3) {
            0 => self.random.pick(&PAYLOADS),
            1 => self.random.below(40) as u64,
            _ => self.random.number() >> self.random.below(64),
        }
    }

    fn bytes(&mut self) -> Vec<u8> {
        let length = self.length();
        (0..length).map(|_| self.random.byte()).collect()
    }

    fn length(&mut self) -> usize {
        let length = match self.random.below(4) {
            0 => self.random.pick(&LENGTHS),
            _ => self.random.below(8),
        };
        let length = length.min(self.bytes_left);
        self.bytes_left -= length;
        length
    }
}

/// A header with the payload in this many following bytes, or in the lead byte if 0.
pub fn header(code: u8, payload: u64, following: usize) -> Vec<u8> {
    let sz = match (code, following) {
        (0, 0) => payload as u8 + 5,
        (_, 0) => payload as u8,
        _ => 23 + following as u8,
    };
    let mut header = vec![code << 5 | sz];
    header.extend_from_slice(&payload.to_be_bytes()[8 - following..]);
    header
}

/// The fewest following bytes that a payload needs.
pub fn fewest(code: u8, payload: u64) -> usize {
    let most_in_lead_byte = if code == 0 { 18 } else { 23 };
    if payload <= most_in_lead_byte {
        return 0;
    }
    (1..8)
        .find(|bytes| payload >> (8 * bytes) == 0)
        .unwrap_or(8)
}

/// The canonical encoding of the items.
pub fn canonical(items: &[Meaning]) -> Vec<u8> {
    encode(items, None)
}

/// A wasteful encoding: longer headers, names in full again, the superfluous negative.
///
/// It wastes only so much that the limits of a bundle hold, if the canonical encoding keeps them.
pub fn loosened(items: &[Meaning], random: &mut Random) -> Vec<u8> {
    // A name in full again moves later entries, which costs each reference at most a byte.
    let used = canonical(items).len() + items.len();
    let waste = Waste {
        one_in: random.pick(&[1, 3, 10, 40]),
        random,
        bytes: MAX_BYTES.saturating_sub(used),
        entries: MAX_ENTRIES.saturating_sub(different_names(items)),
    };
    encode(items, Some(waste))
}

/// How much may still be wasted, and how often.
struct Waste<'a> {
    random: &'a mut Random,
    one_in: usize,
    bytes: usize,
    entries: usize,
}

impl Waste<'_> {
    /// How many bytes to add to a header's following bytes.
    fn header_bytes(&mut self, following: usize) -> usize {
        if following == 8 || self.bytes < 8 || !self.random.one_in(self.one_in) {
            return 0;
        }
        let extra = 1 + self.random.below(8 - following);
        self.bytes -= extra;
        extra
    }

    /// Whether to write a name in full although it has an entry.
    fn in_full(&mut self, content: usize) -> bool {
        let cost = content + 9;
        if self.entries == 0 || self.bytes < cost || !self.random.one_in(self.one_in) {
            return false;
        }
        self.entries -= 1;
        self.bytes -= cost;
        true
    }
}

fn encode(items: &[Meaning], waste: Option<Waste>) -> Vec<u8> {
    let mut encoder = Encoder {
        waste,
        table: Vec::new(),
        bytes: Vec::new(),
    };
    for item in items {
        encoder.item(item);
    }
    encoder.bytes
}

struct Encoder<'a> {
    waste: Option<Waste<'a>>,
    table: Vec<&'a Meaning>,
    bytes: Vec<u8>,
}

impl<'a> Encoder<'a> {
    fn item(&mut self, item: &'a Meaning) {
        match item.kind {
            0..=2 => self.bytes.push(item.kind),
            3 | 4 => {
                let bits = item.number.to_be_bytes();
                let unused = if item.kind == 3 { 4 } else { 0 };
                self.bytes.push(item.kind);
                self.bytes.extend_from_slice(&bits[unused..]);
            }
            10 | 11 => self.name(item),
            _ => self.in_full(item),
        }
    }

    fn name(&mut self, name: &'a Meaning) {
        let known = |index: &usize| self.table[*index] == name;
        let indices: Vec<usize> = (0..self.table.len()).filter(known).collect();
        let again = match &mut self.waste {
            Some(waste) => waste.in_full(name.content.len()),
            None => false,
        };
        if indices.is_empty() || again {
            self.table.push(name);
            return self.in_full(name);
        }
        let choice = match &mut self.waste {
            Some(waste) => waste.random.below(indices.len()),
            None => 0,
        };
        self.header(7, indices[choice] as u64);
    }

    fn in_full(&mut self, item: &Meaning) {
        // Kinds 5 to 11 stand in the order of codes 0 to 6.
        let mut payload = item.number;
        if let (7, Some(waste)) = (item.kind, &mut self.waste) {
            if payload == u64::MAX - 1 && waste.random.one_in(2) {
                payload = u64::MAX;
            }
        }
        self.header(item.kind - 5, payload);
        self.bytes.extend_from_slice(&item.content);
    }

    fn header(&mut self, code: u8, payload: u64) {
        let following = fewest(code, payload);
        let extra = match &mut self.waste {
            Some(waste) => waste.header_bytes(following),
            None => 0,
        };
        self.bytes.extend(header(code, payload, following + extra));
    }
}
