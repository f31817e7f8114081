//! The rules of reading.

use super::containers::Containers;
use super::header::Header;
use super::row;
use super::table::{Entries, Entry, Name, Table, NO_SLOTS};
use super::utf8::Utf8;
use super::{Counts, Error, Failure};
use crate::format::{code, kind, kind_of};
use nachricht::limits::{MAX_BYTES, MAX_DEPTH};
use nachricht_sys::Row;
use std::marker::PhantomData;

/// What becomes of the rows.
pub trait Rows {
    /// Takes the row of a number.
    fn row(&mut self, number: usize, row: Row);
}

/// They are only counted.
pub struct Dropped;

impl Rows for Dropped {
    #[inline(always)]
    fn row(&mut self, _number: usize, _row: Row) {}
}

/// What a bundle counts, or why it is bad, with so many rows at most.
#[inline(always)]
pub fn read<const STRICT: bool, U: Utf8>(
    bytes: &[u8],
    capacity: usize,
    out: impl Rows,
) -> Result<Counts, Failure> {
    if bytes.len() > MAX_BYTES {
        return Error::TooLong.at(0);
    }
    let (mut entries, mut slots) = (Entries::NONE, NO_SLOTS);
    let mut around = [0; MAX_DEPTH];
    let mut reader = Reader::<STRICT, U, _> {
        bytes,
        capacity,
        table: Table {
            first: bytes,
            second: bytes,
            entries: &mut entries,
            slots: &mut slots,
        },
        containers: Containers::new(&mut around),
        after_key: false,
        rows: 0,
        out,
        utf8: PhantomData,
    };
    let mut offset = 0;
    while let Some(lead) = bytes.get(offset) {
        offset = reader.item(offset, *lead)?;
    }
    if reader.after_key || !reader.containers.are_closed() {
        return Error::Truncated.at(offset);
    }
    Ok(Counts {
        rows: reader.rows,
        entries: reader.table.entries.count(),
        fields: reader.containers.fields(),
    })
}

struct Reader<'a, const STRICT: bool, U, R> {
    bytes: &'a [u8],
    capacity: usize,
    table: Table<'a>,
    containers: Containers<'a>,
    after_key: bool,
    rows: usize,
    out: R,
    utf8: PhantomData<U>,
}

impl<'a, const STRICT: bool, U: Utf8, R: Rows> Reader<'a, STRICT, U, R> {
    /// Judges the item at an offset, and answers where it ends. One long function: with the rules for the header in one of
    /// their own, "tuned" took 1.15 times as long to check boards (one run).
    #[inline(always)]
    fn item(&mut self, offset: usize, lead: u8) -> Result<usize, Failure> {
        let Some(header) = Header::at(self.bytes, offset, lead) else {
            return Error::Truncated.at(offset);
        };
        let Header {
            number, mut end, ..
        } = header;
        if STRICT && (header.is_long() || header.is_alias()) {
            return Error::NotCanonical.at(offset);
        }
        // Keys, and containers with fields, return; all others are whole values and go on together.
        let row = match header.code {
            code::POSITIVE | code::NEGATIVE => {
                row::plain(kind_of(header.code), header.row_number())
            }
            code::CONTAINER if self.containers.are_full() => return Error::TooDeep.at(offset),
            code::CONTAINER if number != 0 => return self.open(offset, number, end),
            code::CONTAINER => row::plain(kind::CONTAINER, number),
            code::REFERENCE => {
                let entry = self.entry(offset, number)?;
                if entry.is_key() {
                    return self.key(offset, entry.row(), end);
                }
                entry.row()
            }
            code::KEY => return self.full_key(offset, header),
            code::SYMBOL => {
                end += self.name(offset, header, false)?.len();
                row::with_content(kind::SYMBOL, header.end, number)
            }
            code::STRING => {
                end += self.text(offset, header)?.len();
                row::with_content(kind::STRING, header.end, number)
            }
            _ => {
                end += self.content(offset, end, header.binary_length())?.len();
                row::binary(self.bytes, header)
            }
        };
        self.row(offset, row)?;
        self.after_key = false;
        self.containers.end_field();
        Ok(end)
    }

    /// A container with fields.
    #[inline(always)]
    fn open(&mut self, offset: usize, fields: u64, end: usize) -> Result<usize, Failure> {
        self.row(offset, row::plain(kind::CONTAINER, fields))?;
        self.after_key = false;
        self.containers.open(fields);
        Ok(end)
    }

    #[inline(always)]
    fn key(&mut self, offset: usize, row: Row, end: usize) -> Result<usize, Failure> {
        if self.after_key {
            return Error::UnexpectedKey.at(offset);
        }
        self.row(offset, row)?;
        self.after_key = true;
        Ok(end)
    }

    /// A key that is written in full.
    #[inline(always)]
    fn full_key(&mut self, offset: usize, header: Header) -> Result<usize, Failure> {
        // This comes before the rules for its content.
        if self.after_key {
            return Error::UnexpectedKey.at(offset);
        }
        let content = self.name(offset, header, true)?;
        let row = row::with_content(kind::KEY, header.end, header.number);
        self.key(offset, row, header.end + content.len())
    }

    /// The entry that a reference is to.
    #[inline(always)]
    fn entry(&self, offset: usize, index: u64) -> Result<Entry, Failure> {
        if index >= self.table.entries.count() as u64 {
            return Error::UndefinedReference.at(offset);
        }
        Ok(self.table.entries.get(index as usize))
    }

    /// The content of a symbol or key that is written in full, which has an entry then.
    #[inline(always)]
    fn name(&mut self, offset: usize, header: Header, is_key: bool) -> Result<&'a [u8], Failure> {
        let content = self.text(offset, header)?;
        let slot = if STRICT {
            match self.table.find(Name { is_key, content }) {
                Ok(_) => return Error::NotCanonical.at(offset),
                Err(slot) => Some(slot),
            }
        } else {
            None
        };
        if self.table.entries.are_full() {
            return Error::TooManyEntries.at(offset);
        }
        let entry = Entry::new(header.end, content.len(), is_key);
        match slot {
            Some(slot) => self.table.note(slot, entry),
            None => self.table.entries.add(entry),
        }
        Ok(content)
    }

    /// The content of a string or a name.
    #[inline(always)]
    fn text(&self, offset: usize, header: Header) -> Result<&'a [u8], Failure> {
        let content = self.content(offset, header.end, header.number)?;
        if !U::is_utf8(content) {
            return Error::InvalidUtf8.at(offset);
        }
        Ok(content)
    }

    #[inline(always)]
    fn content(&self, offset: usize, start: usize, length: u64) -> Result<&'a [u8], Failure> {
        match self.bytes.get(start..) {
            Some(rest) if length <= rest.len() as u64 => Ok(&rest[..length as usize]),
            _ => Error::Truncated.at(offset),
        }
    }

    #[inline(always)]
    fn row(&mut self, offset: usize, row: Row) -> Result<(), Failure> {
        if self.rows >= self.capacity {
            return Error::TooManyRows.at(offset);
        }
        self.out.row(self.rows, row);
        self.rows += 1;
        Ok(())
    }
}
