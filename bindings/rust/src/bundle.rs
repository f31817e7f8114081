//! A bundle that was read, and its items.

use crate::limits::MAX_ROWS;
use crate::{read_into, Counts, Error, Item, Mode, Row};
use std::iter::FusedIterator;
use std::slice;

/// A bundle that was read: its bytes, and a table of its rows.
///
/// Its [`Display`](std::fmt::Display) form is for people: a line for each value, indented by the containers around it
/// and behind its key. It is not meant to be read back.
///
/// ```
/// use nachricht::{open, Bundle};
///
/// let envelope = [
///     0x00, 0x0D, 0x01, 0x62, 0xC1, 0x64, 0x25, 0xC1, 0x6D, 0x23, 0x62, 0xE0, 0x27, 0xE1, 0x24,
/// ];
/// let bundle = Bundle::read(open(&envelope)?)?;
/// assert_eq!((bundle.counts().rows, bundle.counts().entries), (10, 2));
/// let lines = "container 2\n  d: 5\n  m: 3\ncontainer 2\n  d: 7\n  m: 4\n";
/// assert_eq!(bundle.to_string(), lines);
/// # Ok::<(), nachricht::Error>(())
/// ```
#[derive(Clone, Debug)]
pub struct Bundle<'a> {
    bytes: &'a [u8],
    rows: Vec<Row>,
    counts: Counts,
}

impl<'a> Bundle<'a> {
    /// Reads every bundle that the format allows.
    ///
    /// # Errors
    ///
    /// As [`check`](crate::check).
    pub fn read(bytes: &'a [u8]) -> Result<Bundle<'a>, Error> {
        Bundle::read_in(bytes, Mode::Lenient)
    }

    /// Reads canonical bundles only.
    ///
    /// # Errors
    ///
    /// As [`check`](crate::check).
    pub fn read_strict(bytes: &'a [u8]) -> Result<Bundle<'a>, Error> {
        Bundle::read_in(bytes, Mode::Strict)
    }

    /// Reads in a mode.
    ///
    /// # Errors
    ///
    /// As [`check`](crate::check).
    pub fn read_in(bytes: &'a [u8], mode: Mode) -> Result<Bundle<'a>, Error> {
        // An item has at least a byte, so that many rows are enough.
        let mut rows = vec![Row::default(); bytes.len().min(MAX_ROWS)];
        let counts = read_into(bytes, mode, &mut rows)?;
        rows.truncate(counts.rows);
        Ok(Bundle {
            bytes,
            rows,
            counts,
        })
    }

    /// The bytes that were read.
    pub fn bytes(&self) -> &'a [u8] {
        self.bytes
    }

    /// How much the bundle holds.
    pub fn counts(&self) -> Counts {
        self.counts
    }

    /// The rows, whose starts are offsets in [`bytes`](Bundle::bytes).
    pub fn rows(&self) -> &[Row] {
        &self.rows
    }

    /// The items in the order of the bytes.
    pub fn items(&self) -> Items<'_, 'a> {
        Items {
            rows: self.rows.iter(),
            bytes: self.bytes,
        }
    }
}

impl<'r, 'a> IntoIterator for &'r Bundle<'a> {
    type Item = Item<'a>;
    type IntoIter = Items<'r, 'a>;

    fn into_iter(self) -> Items<'r, 'a> {
        self.items()
    }
}

/// The items of a [`Bundle`].
///
/// Each row was read from the bytes, so it has an item: there are as many items as rows.
#[derive(Clone, Debug)]
pub struct Items<'r, 'a> {
    rows: slice::Iter<'r, Row>,
    bytes: &'a [u8],
}

impl<'a> Iterator for Items<'_, 'a> {
    type Item = Item<'a>;

    fn next(&mut self) -> Option<Item<'a>> {
        self.rows.next()?.item(self.bytes)
    }

    fn size_hint(&self) -> (usize, Option<usize>) {
        self.rows.size_hint()
    }
}

impl DoubleEndedIterator for Items<'_, '_> {
    fn next_back(&mut self) -> Option<Self::Item> {
        self.rows.next_back()?.item(self.bytes)
    }
}

impl ExactSizeIterator for Items<'_, '_> {}

impl FusedIterator for Items<'_, '_> {}
