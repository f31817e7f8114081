//! The rules of joining: two bundles that were checked, one after the other in the output.

use super::header::Header;
use super::output::Output;
use super::table::{Entries, Entry, Name, Table, NO_SLOTS};
use super::{Counts, Error, Failure};
use crate::format::{code, sz};
use nachricht::limits::{MAX_BYTES, MAX_ENTRIES, MAX_ROWS};

/// Checks both bundles, and judges how many rows they have.
#[inline(always)]
pub fn judge_checks(
    check: impl Fn(&[u8]) -> Result<Counts, Failure>,
    first: &[u8],
    second: &[u8],
) -> Result<(), Failure> {
    let first = check(first).map_err(|failure| failure.on(1))?;
    let second = check(second).map_err(|failure| failure.on(2))?;
    if first.rows + second.rows > MAX_ROWS {
        return Error::TooManyRows.at(0);
    }
    Ok(())
}

/// Judges the length of a result, for a buffer of so many bytes.
#[inline(always)]
pub fn judge_length(length: usize, capacity: usize) -> Result<(), Failure> {
    if length > MAX_BYTES || length > capacity {
        return Error::OutputTooLong.at(0);
    }
    Ok(())
}

/// Puts both bundles into the output.
#[inline(always)]
pub fn join<O: Output>(first: &[u8], second: &[u8], out: &mut O) -> Result<(), Failure> {
    let (mut entries, mut slots) = (Entries::NONE, NO_SLOTS);
    let mut joiner = Joiner {
        table: Table {
            first,
            second,
            entries: &mut entries,
            slots: &mut slots,
        },
        out,
    };
    for (bytes, second) in [(first, false), (second, true)] {
        if joiner.bundle(bytes, second).is_none() {
            return Error::TooManyEntries.at(0);
        }
    }
    Ok(())
}

struct Joiner<'a, O> {
    table: Table<'a>,
    out: &'a mut O,
}

impl<O: Output> Joiner<'_, O> {
    /// Puts one bundle into the output; `None` if there are too many names.
    #[inline(always)]
    fn bundle(&mut self, bytes: &[u8], second: bool) -> Option<()> {
        // The index in the table of each of the bundle's own entries.
        let mut indices = [0u8; MAX_ENTRIES];
        let mut entries = 0;
        let mut offset = 0;
        while let Some(lead) = bytes.get(offset) {
            let header = Header::at(bytes, offset, *lead)?;
            let Header {
                code, number, end, ..
            } = header;
            offset = end;
            match code {
                code::POSITIVE..=code::CONTAINER => self.out.header(code, header.row_number()),
                code::REFERENCE => {
                    let index = indices[number as usize % MAX_ENTRIES];
                    self.out.header(code, index.into());
                }
                code::STRING => {
                    let content = part(bytes, end, number)?;
                    self.out.content(code, content);
                    offset += content.len();
                }
                code::SYMBOL | code::KEY => {
                    let content = part(bytes, end, number)?;
                    let entry = Entry::new(end, content.len(), code == code::KEY);
                    let index = self.name(entry.in_second(second), content)?;
                    indices[entries % MAX_ENTRIES] = index as u8;
                    entries += 1;
                    offset += content.len();
                }
                _ => {
                    let content = part(bytes, end, header.binary_length())?;
                    self.binary(header, content);
                    offset += content.len();
                }
            }
        }
        Some(())
    }

    /// Puts a name into the output, in full if it is new, and answers its index.
    #[inline(always)]
    fn name(&mut self, entry: Entry, content: &[u8]) -> Option<usize> {
        let is_key = entry.is_key();
        match self.table.find(Name { is_key, content }) {
            Ok(index) => {
                self.out.header(code::REFERENCE, index as u64);
                Some(index)
            }
            Err(_) if self.table.entries.are_full() => None,
            Err(slot) => {
                self.table.note(slot, entry);
                self.out.content(code::SYMBOL + u8::from(is_key), content);
                Some(self.table.entries.count() - 1)
            }
        }
    }

    #[inline(always)]
    fn binary(&mut self, header: Header, content: &[u8]) {
        if header.sz < sz::FIXED {
            self.out.bytes(&[header.sz]);
            self.out.bytes(content);
        } else {
            self.out.content(code::BINARY, content);
        }
    }
}

#[inline(always)]
fn part(bytes: &[u8], start: usize, length: u64) -> Option<&[u8]> {
    bytes.get(start..)?.get(..length as usize)
}
