//! The canonical encoding of items (the paper's "tight spelling").

use std::collections::HashMap;

use crate::error::{fail_if, Error};
use crate::header::{shortest, Code};
use crate::item::Item;
use crate::limits::{MAX_BYTES, MAX_ROWS};
use crate::reading::{read_whole, Mode};

/// Reads leniently and writes the items canonically (the paper's "tighten").
pub fn canonicalize(bytes: &[u8], out: &mut [u8]) -> Result<usize, Error> {
    let reading = read_whole(bytes, Mode::Lenient, MAX_ROWS)?;
    deliver(&encode(&reading.items), out)
}

/// The one canonical encoding, whatever its length.
pub fn encode(items: &[Item]) -> Vec<u8> {
    let mut bytes = Vec::new();
    let mut table: HashMap<&Item, u64> = HashMap::new();
    for item in items {
        if let Some(&index) = table.get(item) {
            bytes.extend(shortest(Code::Reference, index));
            continue;
        }
        if item.is_name() {
            let index = table.len() as u64;
            table.insert(item, index);
        }
        bytes.extend(in_full(item));
    }
    bytes
}

/// An item with the shortest header and its content.
fn in_full(item: &Item) -> Vec<u8> {
    let with_content = |code, content: &[u8]| {
        let header = shortest(code, content.len() as u64);
        [&header, content].concat()
    };
    match item {
        Item::Null => shortest(Code::Null, 0),
        Item::True => shortest(Code::True, 0),
        Item::False => shortest(Code::False, 0),
        Item::Float4(bits) => [shortest(Code::Float4, 0), bits.to_be_bytes().to_vec()].concat(),
        Item::Float8(bits) => [shortest(Code::Float8, 0), bits.to_be_bytes().to_vec()].concat(),
        Item::Bytes(content) => with_content(Code::Bytes, content),
        Item::Positive(number) => shortest(Code::Positive, *number),
        Item::Negative(number) => shortest(Code::Negative, *number),
        Item::Container(fields) => shortest(Code::Container, *fields),
        Item::String(content) => with_content(Code::String, content),
        Item::Symbol(content) => with_content(Code::Symbol, content),
        Item::Key(content) => with_content(Code::Key, content),
    }
}

/// Puts a finished bundle into the output buffer (the paper's "lent room"), or fails with 10.
pub fn deliver(bundle: &[u8], out: &mut [u8]) -> Result<usize, Error> {
    fail_if(bundle.len() > MAX_BYTES || bundle.len() > out.len(), 10, 0)?;
    out[..bundle.len()].copy_from_slice(bundle);
    Ok(bundle.len())
}
