//! The structure of fields, the same whether items are read from bytes or taken from rows.

use crate::error::Error;
use crate::item::Item;

/// Where items come from, one after the other.
pub trait Source {
    /// Takes the next item, straight after a key or not, inside `open` containers.
    fn item(&mut self, after_key: bool, open: usize) -> Result<(), Error>;

    /// The item that was taken last.
    fn last(&self) -> Option<&Item>;
}

/// Takes a field, a value or a key and then a value, inside `open` containers.
pub fn field(source: &mut impl Source, open: usize) -> Result<(), Error> {
    source.item(false, open)?;
    if source.last().is_some_and(Item::is_key) {
        source.item(true, open)?;
    }
    if let Some(&Item::Container(fields)) = source.last() {
        // However many are claimed, each takes a byte or a row, so they end soon enough.
        for _ in 0..fields {
            field(source, open + 1)?;
        }
    }
    Ok(())
}
