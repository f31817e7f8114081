//! Reading a bundle, field by field.

use crate::error::{fail_if, Error};
use crate::header::{big_endian, Code, Header};
use crate::item::{Item, Row};
use crate::limits::{MAX_BYTES, MAX_ENTRIES, MAX_OPEN, MAX_ROWS};
use crate::structure::{field, Source};
use crate::utf8;

/// Which bundles are read: all (the paper's "easy"), or only canonical ones (its "strict").
#[derive(Clone, Copy, PartialEq, Eq, Debug)]
pub enum Mode {
    Lenient,
    Strict,
}

/// What a bundle holds: rows, entries in its symbol table, and fields at the top level.
#[derive(Clone, Copy, PartialEq, Eq, Debug, Default)]
pub struct Counts {
    pub rows: usize,
    pub entries: usize,
    pub fields: usize,
}

/// Reads without keeping the rows.
pub fn check(bytes: &[u8], mode: Mode) -> Result<Counts, Error> {
    Ok(read_whole(bytes, mode, MAX_ROWS)?.counts)
}

/// Reads into a buffer of rows (the paper's "lent table"). An error changes no row.
pub fn read(bytes: &[u8], mode: Mode, rows: &mut [Row]) -> Result<Counts, Error> {
    let reading = read_whole(bytes, mode, MAX_ROWS.min(rows.len()))?;
    rows[..reading.rows.len()].copy_from_slice(&reading.rows);
    Ok(reading.counts)
}

/// All that reading a bundle yields: each item and its row, in wire order.
pub struct Reading {
    pub items: Vec<Item>,
    pub rows: Vec<Row>,
    pub counts: Counts,
}

/// Reads a bundle that may have at most `row_limit` rows.
pub fn read_whole(bytes: &[u8], mode: Mode, row_limit: usize) -> Result<Reading, Error> {
    fail_if(bytes.len() > MAX_BYTES, 1, 0)?;
    let mut reader = Reader {
        bytes,
        mode,
        row_limit,
        position: 0,
        table: Vec::new(),
        items: Vec::new(),
        rows: Vec::new(),
    };
    let mut fields = 0;
    while reader.position < bytes.len() {
        field(&mut reader, 0)?;
        fields += 1;
    }
    let counts = Counts {
        rows: reader.rows.len(),
        entries: reader.table.len(),
        fields,
    };
    Ok(Reading {
        items: reader.items,
        rows: reader.rows,
        counts,
    })
}

/// An entry of the symbol table: a name, and where its bytes start.
struct Entry {
    name: Item,
    start: usize,
}

struct Reader<'a> {
    bytes: &'a [u8],
    mode: Mode,
    row_limit: usize,
    /// Where the next item begins.
    position: usize,
    /// The symbol table. A name written in full twice has two entries.
    table: Vec<Entry>,
    items: Vec<Item>,
    rows: Vec<Row>,
}

impl Source for Reader<'_> {
    /// Reads an item. The rules stand in the order of the paper.
    fn item(&mut self, after_key: bool, open: usize) -> Result<(), Error> {
        let place = self.position;
        let strict = self.mode == Mode::Strict;
        let rest = &self.bytes[place..];
        let header = Header::parse(rest).ok_or(Error::at(2, place))?;
        let is_wasteful = strict && (header.is_long() || header.is_superfluous_negative());
        fail_if(is_wasteful, 11, place)?;
        let referred = self.referred(header);
        let is_reference = header.code == Code::Reference;
        fail_if(is_reference && referred.is_none(), 4, place)?;
        let refers_to_key = referred.is_some_and(|entry| entry.name.is_key());
        let is_key = header.code == Code::Key || refers_to_key;
        fail_if(after_key && is_key, 5, place)?;
        let is_container = header.code == Code::Container;
        fail_if(is_container && open == MAX_OPEN, 6, place)?;
        let rest = &rest[header.length..];
        fail_if(header.content_length() > rest.len() as u64, 2, place)?;
        let content = &rest[..header.content_length() as usize];
        let start = place + header.length;
        let (item, start) = match referred {
            Some(entry) => (entry.name.clone(), entry.start),
            None => (item_in_full(header, content), start),
        };
        let stop = item.text().and_then(|_| utf8::stop(content));
        let bad_text = stop.map(|offset| Error::at(3, start + offset));
        bad_text.map_or(Ok(()), Err)?;
        let makes_entry = item.is_name() && !is_reference;
        let is_repeated = strict && makes_entry && self.has_name(&item);
        fail_if(is_repeated, 11, place)?;
        fail_if(makes_entry && self.table.len() == MAX_ENTRIES, 8, place)?;
        fail_if(self.rows.len() == self.row_limit, 7, place)?;
        self.position = place + header.length + content.len();
        self.add(item, start, makes_entry);
        Ok(())
    }

    fn last(&self) -> Option<&Item> {
        self.items.last()
    }
}

impl Reader<'_> {
    /// The entry that a reference stands for, if it has been made.
    fn referred(&self, header: Header) -> Option<&Entry> {
        if header.code != Code::Reference {
            return None;
        }
        self.table.get(usize::try_from(header.payload).ok()?)
    }

    fn has_name(&self, name: &Item) -> bool {
        self.table.iter().any(|entry| entry.name == *name)
    }

    fn add(&mut self, item: Item, start: usize, makes_entry: bool) {
        if makes_entry {
            let name = item.clone();
            self.table.push(Entry { name, start });
        }
        self.rows.push(item.row(start));
        self.items.push(item);
    }
}

/// The item of a header that is not a reference, with its content.
fn item_in_full(header: Header, content: &[u8]) -> Item {
    match header.code {
        Code::Null => Item::Null,
        Code::True => Item::True,
        Code::False => Item::False,
        Code::Float4 => Item::Float4(big_endian(content) as u32),
        Code::Float8 => Item::Float8(big_endian(content)),
        Code::Bytes => Item::Bytes(content.to_vec()),
        Code::Positive => Item::Positive(header.payload),
        // The superfluous negative means the same as the payload before it.
        Code::Negative => Item::Negative(header.payload.min(u64::MAX - 1)),
        Code::Container => Item::Container(header.payload),
        Code::String => Item::String(content.to_vec()),
        Code::Symbol => Item::Symbol(content.to_vec()),
        Code::Key => Item::Key(content.to_vec()),
        Code::Reference => unreachable!("a reference is resolved by the symbol table"),
    }
}
