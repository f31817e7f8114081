//! The rules of writing.

use super::containers::Containers;
use super::output::Output;
use super::table::{Entries, Entry, Name, Table, NO_SLOTS};
use super::utf8::Utf8;
use super::{Error, Failure};
use crate::format::{code, code_of, kind, NEGATIVE_ALIAS};
use nachricht::limits::{MAX_BYTES, MAX_DEPTH, MAX_ROWS};
use nachricht_sys::Row;
use std::marker::PhantomData;

/// New names are remembered by their start modulo this.
const GUESSES: usize = 256;

/// The rules that come before any row.
#[inline(always)]
pub fn judge_sizes(rows: &[Row], text: &[u8]) -> Result<(), Failure> {
    if rows.len() > MAX_ROWS {
        return Error::TooManyRows.at(0);
    }
    if text.len() > MAX_BYTES {
        return Error::TooLong.at(0);
    }
    Ok(())
}

/// Puts the rows into the output, or says which of them is bad.
#[inline(always)]
pub fn write<U: Utf8>(rows: &[Row], text: &[u8], out: &mut impl Output) -> Result<(), Failure> {
    let (mut entries, mut slots) = (Entries::NONE, NO_SLOTS);
    let mut guesses = [0; GUESSES];
    let mut around = [0; MAX_DEPTH];
    let mut writer = Writer::<U, _> {
        text,
        table: Table {
            first: text,
            second: text,
            entries: &mut entries,
            slots: &mut slots,
        },
        guesses: &mut guesses,
        containers: Containers::new(&mut around),
        after_key: false,
        out,
        utf8: PhantomData,
    };
    writer.rows(rows)?;
    if writer.after_key || !writer.containers.are_closed() {
        return Error::Truncated.at(rows.len());
    }
    Ok(())
}

struct Writer<'a, U, O> {
    text: &'a [u8],
    table: Table<'a>,
    /// One more than the index of the last new name with such a start, 0 for none.
    guesses: &'a mut [u16; GUESSES],
    containers: Containers<'a>,
    after_key: bool,
    out: &'a mut O,
    utf8: PhantomData<U>,
}

impl<'a, U: Utf8, O: Output> Writer<'a, U, O> {
    /// Judges the rows and puts them into the output. One long function: with a function for a row, or one arm for both
    /// sorts of names, "tuned" took 1.4 times as long to write integers, since the compiler ran out of registers.
    #[inline(always)]
    fn rows(&mut self, rows: &[Row]) -> Result<(), Failure> {
        for (place, row) in rows.iter().enumerate() {
            let number = row.number;
            let is_plain = row.start == 0;
            // Keys, and containers with fields, go on with the next row; all others are whole values.
            match row.kind {
                kind::POSITIVE if is_plain => self.out.header(code::POSITIVE, number),
                kind::STRING => {
                    let content = self.text(place, row)?;
                    self.out.content(code::STRING, content);
                }
                kind::SYMBOL => self.name(place, row, false)?,
                kind::KEY if self.after_key => {
                    self.content(place, row)?;
                    return Error::UnexpectedKey.at(place);
                }
                kind::KEY => {
                    self.name(place, row, true)?;
                    self.after_key = true;
                    continue;
                }
                kind::CONTAINER if is_plain => {
                    if self.containers.are_full() {
                        return Error::TooDeep.at(place);
                    }
                    self.out.header(code::CONTAINER, number);
                    if number != 0 {
                        self.after_key = false;
                        self.containers.open(number);
                        continue;
                    }
                }
                kind::NEGATIVE if is_plain && number != NEGATIVE_ALIAS => {
                    self.out.header(code::NEGATIVE, number);
                }
                kind::BYTES => {
                    let content = self.content(place, row)?;
                    self.out.content(code::BINARY, content);
                }
                _ if is_plain => self.fixed(place, row)?,
                _ => return Error::InvalidRow.at(place),
            }
            self.after_key = false;
            self.containers.end_field();
        }
        Ok(())
    }

    /// A value of a fixed size, if it is one.
    #[inline(always)]
    fn fixed(&mut self, place: usize, row: &Row) -> Result<(), Failure> {
        match row.kind {
            kind::NULL..=kind::FALSE if row.number == 0 => self.out.fixed(row.kind, 0),
            kind::FLOAT32 if row.number <= u32::MAX.into() => {
                self.out.fixed(kind::FLOAT32, row.number);
            }
            kind::FLOAT64 => self.out.fixed(kind::FLOAT64, row.number),
            _ => return Error::InvalidRow.at(place),
        }
        Ok(())
    }

    #[inline(always)]
    fn name(&mut self, place: usize, row: &Row, is_key: bool) -> Result<(), Failure> {
        let content = self.content(place, row)?;
        match self.index(place, row, Name { is_key, content })? {
            Some(index) => self.out.reference(place, index),
            None => self.out.content(code_of(row.kind), content),
        }
        Ok(())
    }

    /// The index of a name; `None` if it is new, and is now noted.
    #[inline(always)]
    fn index(&mut self, place: usize, row: &Row, name: Name) -> Result<Option<usize>, Failure> {
        let entry = Entry::new(row.start, name.content.len(), name.is_key);
        let guess = usize::from(self.guesses[row.start % GUESSES]);
        if guess != 0 && self.table.entries.get(guess - 1) == entry {
            return Ok(Some(guess - 1));
        }
        self.text(place, row)?;
        match self.table.find(name) {
            Ok(index) => Ok(Some(index)),
            Err(_) if self.table.entries.are_full() => Error::TooManyEntries.at(place),
            Err(slot) => {
                self.table.note(slot, entry);
                self.guesses[row.start % GUESSES] = self.table.entries.count() as u16;
                Ok(None)
            }
        }
    }

    /// The content of a string or a name.
    #[inline(always)]
    fn text(&self, place: usize, row: &Row) -> Result<&'a [u8], Failure> {
        let content = self.content(place, row)?;
        if !U::is_utf8(content) {
            return Error::InvalidUtf8.at(place);
        }
        Ok(content)
    }

    #[inline(always)]
    fn content(&self, place: usize, row: &Row) -> Result<&'a [u8], Failure> {
        match self.text.get(row.start..) {
            Some(rest) if row.number <= rest.len() as u64 => Ok(&rest[..row.number as usize]),
            _ => Error::InvalidRow.at(place),
        }
    }
}
