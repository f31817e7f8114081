//! Loose encodings: headers longer than need be, and names in full again while the symbol table has room.

use crate::format::code;
use nachricht::limits::{MAX_BYTES, MAX_ENTRIES};
use nachricht::{Bundle, Item};
use reference::generate::model::{fewest, header};
use reference::generate::Random;
use std::collections::HashMap;

/// Entries that are kept for names yet to come, of which a job board has fewer.
const RESERVED: usize = 32;

/// The most bytes after a lead byte.
const MOST_FOLLOWING: usize = 8;

/// The most bytes of a name's shortest header.
const MOST_NAME_HEADER: usize = 2;

/// The encoding with each header a byte longer and each name in full.
pub fn loose(bundle: &Bundle) -> Vec<u8> {
    encode(bundle, Waste::Always)
}

/// An encoding with one header in six longer and one name in six in full, as far as the limit of bytes allows.
pub fn somewhat_loose(bundle: &Bundle, random: &mut Random) -> Vec<u8> {
    let spare = MAX_BYTES - bundle.bytes().len();
    encode(bundle, Waste::OneInSix { random, spare })
}

fn encode(bundle: &Bundle, waste: Waste) -> Vec<u8> {
    let mut encoder = Encoder {
        bytes: Vec::new(),
        entries: 0,
        names: HashMap::new(),
        waste,
    };
    for item in bundle {
        encoder.item(item);
    }
    encoder.bytes
}

/// How often, and how much.
enum Waste<'r> {
    Always,
    OneInSix {
        random: &'r mut Random,
        /// Bytes that may still be wasted.
        spare: usize,
    },
}

impl Waste<'_> {
    /// How many bytes follow a lead byte if these are the fewest.
    fn following(&mut self, fewest: usize) -> usize {
        let more = MOST_FOLLOWING - fewest;
        if more == 0 || !self.wastes(more) {
            return fewest;
        }
        match self {
            Waste::Always => fewest + 1,
            Waste::OneInSix { random, .. } => fewest + 1 + random.below(more),
        }
    }

    /// Whether to waste so many bytes.
    fn wastes(&mut self, bytes: usize) -> bool {
        match self {
            Waste::Always => true,
            Waste::OneInSix { random, spare } => {
                let wastes = bytes <= *spare && random.one_in(6);
                *spare -= if wastes { bytes } else { 0 };
                wastes
            }
        }
    }
}

struct Encoder<'a, 'r> {
    bytes: Vec<u8>,
    entries: usize,
    /// The last entry of each name, which is a code and the bytes.
    names: HashMap<(u8, &'a [u8]), usize>,
    waste: Waste<'r>,
}

impl<'a> Encoder<'a, '_> {
    fn item(&mut self, item: Item<'a>) {
        match item {
            Item::Null => self.bytes.push(0),
            Item::Bool(value) => self.bytes.push(if value { 1 } else { 2 }),
            Item::Float32(value) => self.parts(&[3], &value.to_bits().to_be_bytes()),
            Item::Float64(value) => self.parts(&[4], &value.to_bits().to_be_bytes()),
            Item::Bytes(content) => self.content(code::BINARY, content),
            Item::Integer(value) if value < 0 => self.header(code::NEGATIVE, (-1 - value) as u64),
            Item::Integer(value) => self.header(code::POSITIVE, value as u64),
            Item::Container(fields) => self.header(code::CONTAINER, fields),
            Item::String(text) => self.content(code::STRING, text.as_bytes()),
            Item::Symbol(name) => self.name(code::SYMBOL, name.as_bytes()),
            Item::Key(name) => self.name(code::KEY, name.as_bytes()),
        }
    }

    fn name(&mut self, code: u8, name: &'a [u8]) {
        let room = self.entries < MAX_ENTRIES - RESERVED;
        match self.names.get(&(code, name)) {
            Some(entry) if !(room && self.waste.wastes(name.len() + MOST_NAME_HEADER)) => {
                self.header(code::REFERENCE, *entry as u64);
            }
            _ => {
                self.names.insert((code, name), self.entries);
                self.entries += 1;
                self.content(code, name);
            }
        }
    }

    fn content(&mut self, code: u8, content: &[u8]) {
        self.header(code, content.len() as u64);
        self.bytes.extend_from_slice(content);
    }

    fn header(&mut self, code: u8, payload: u64) {
        let following = self.waste.following(fewest(code, payload));
        self.bytes.extend(header(code, payload, following));
    }

    fn parts(&mut self, lead: &[u8], rest: &[u8]) {
        self.bytes.extend_from_slice(lead);
        self.bytes.extend_from_slice(rest);
    }
}
