//! A message in the encodings that the calls take.

use crate::loose::somewhat_loose;
use nachricht::{Builder, Bundle, Item};
use nachricht_sys::Row;
use reference::generate::Random;

pub struct Message {
    pub canonical: Vec<u8>,
    /// The same items, not canonical; or nothing.
    pub loose: Vec<u8>,
    /// What is joined, canonical.
    pub first: Vec<u8>,
    pub second: Vec<u8>,
    /// The rows of the canonical encoding.
    pub rows: Vec<Row>,
}

impl Message {
    /// A message, a loose encoding of it, and its halves.
    pub fn new(items: &Builder, random: &mut Random) -> Message {
        let canonical = finished(items);
        let bundle = read(&canonical);
        let items: Vec<Item> = bundle.items().collect();
        let [first, second] = halves(&items).map(|half| finished(&half));
        Message {
            loose: loose(&bundle, random),
            first,
            second,
            rows: rows(&bundle),
            canonical,
        }
    }

    /// A canonical message that is joined with itself. It has no loose encoding.
    pub fn twice(canonical: Vec<u8>) -> Message {
        Message {
            loose: Vec::new(),
            first: canonical.clone(),
            second: canonical.clone(),
            rows: rows(&read(&canonical)),
            canonical,
        }
    }
}

fn finished(items: &Builder) -> Vec<u8> {
    items.finish().expect("within the limits")
}

fn read(canonical: &[u8]) -> Bundle<'_> {
    Bundle::read_strict(canonical).expect("a canonical message")
}

/// A loose encoding. A short message may by chance have nothing wasted, and then another is made.
fn loose(bundle: &Bundle, random: &mut Random) -> Vec<u8> {
    loop {
        let bytes = somewhat_loose(bundle, random);
        if bytes != bundle.bytes() {
            return bytes;
        }
    }
}

/// The rows as the C interface has them.
fn rows(bundle: &Bundle) -> Vec<Row> {
    let to_c = |row: &nachricht::Row| Row {
        kind: row.kind,
        number: row.number,
        start: row.start,
    };
    bundle.rows().iter().map(to_c).collect()
}

/// The message in two: half of its fields each, or, if it is one container, two containers with half of its fields.
fn halves(items: &[Item]) -> [Builder; 2] {
    let outer = fields(items);
    let (parts, in_containers) = match outer[..] {
        [container] => (fields(&container[1..]), true),
        _ => (outer, false),
    };
    if let [inner] = parts[..] {
        return halves(inner);
    }
    let (first, second) = parts.split_at(parts.len().div_ceil(2));
    [first, second].map(|fields| {
        let mut half = Builder::new();
        if in_containers {
            half.container(fields.len() as u64);
        }
        half.extend(fields.concat());
        half
    })
}

/// The items of each field.
fn fields<'a, 'b>(items: &'b [Item<'a>]) -> Vec<&'b [Item<'a>]> {
    let mut fields = Vec::new();
    let mut rest = items;
    while !rest.is_empty() {
        let (field, after) = rest.split_at(field_len(rest));
        fields.push(field);
        rest = after;
    }
    fields
}

/// How many items the first field has.
fn field_len(items: &[Item]) -> usize {
    let mut due = 1;
    for (place, item) in items.iter().enumerate() {
        match item {
            Item::Key(_) => {}
            Item::Container(fields) => due = due - 1 + fields,
            _ => due -= 1,
        }
        if due == 0 {
            return place + 1;
        }
    }
    items.len()
}
