//! Writing rows, whose content stands in a text, as a canonical bundle.

use std::collections::HashSet;

use crate::canonical::{deliver, encode};
use crate::error::{fail_if, Error};
use crate::item::{Item, Row};
use crate::limits::{MAX_BYTES, MAX_ENTRIES, MAX_OPEN, MAX_ROWS};
use crate::structure::{field, Source};
use crate::utf8;

/// Writes all the rows. An error changes no byte of the output.
pub fn write(rows: &[Row], text: &[u8], out: &mut [u8]) -> Result<usize, Error> {
    fail_if(rows.len() > MAX_ROWS, 7, 0)?;
    fail_if(text.len() > MAX_BYTES, 1, 0)?;
    let mut writer = Writer {
        rows,
        text,
        items: Vec::new(),
        names: HashSet::new(),
    };
    while writer.items.len() < rows.len() {
        field(&mut writer, 0)?;
    }
    deliver(&encode(&writer.items), out)
}

struct Writer<'a> {
    rows: &'a [Row],
    text: &'a [u8],
    /// The items of the rows that have passed; as many as these is the next row's number.
    items: Vec<Item>,
    names: HashSet<Item>,
}

impl Source for Writer<'_> {
    /// Takes a row. The rules stand in the order of the paper.
    fn item(&mut self, after_key: bool, open: usize) -> Result<(), Error> {
        let place = self.items.len();
        let row = self.rows.get(place).ok_or(Error::at(2, place))?;
        let item = Item::of_row(*row, self.text).ok_or(Error::at(9, place))?;
        fail_if(after_key && item.is_key(), 5, place)?;
        let is_container = matches!(item, Item::Container(_));
        fail_if(is_container && open == MAX_OPEN, 6, place)?;
        let stop = item.text().and_then(utf8::stop);
        let bad_text = stop.map(|offset| Error::at(3, row.start + offset).in_row(place));
        bad_text.map_or(Ok(()), Err)?;
        let is_new_name = item.is_name() && !self.names.contains(&item);
        fail_if(is_new_name && self.names.len() == MAX_ENTRIES, 8, place)?;
        if is_new_name {
            self.names.insert(item.clone());
        }
        self.items.push(item);
        Ok(())
    }

    fn last(&self) -> Option<&Item> {
        self.items.last()
    }
}
