//! Checking a bundle, and reading it into a table of rows.

use crate::{answer, Error, Row};

/// Which bundles are good.
#[derive(Clone, Copy, PartialEq, Eq, Hash, Debug, Default)]
pub enum Mode {
    /// Every bundle that the format allows.
    #[default]
    Lenient,
    /// The canonical encoding only.
    Strict,
}

/// How much a bundle holds.
#[derive(Clone, Copy, PartialEq, Eq, Hash, Debug, Default)]
pub struct Counts {
    /// Rows, that is items: keys and values.
    pub rows: usize,
    /// Entries in the symbol table.
    pub entries: usize,
    /// Fields at the top level.
    pub fields: usize,
}

/// Checks a bundle and counts what it holds.
///
/// ```
/// use nachricht::{check, Counts, Error, Mode, Place};
///
/// let long = [0x38, 0x17]; // 23 in two bytes
/// assert_eq!(check(&long, Mode::Lenient), Ok(Counts { rows: 1, entries: 0, fields: 1 }));
/// assert_eq!(check(&long, Mode::Strict), Err(Error::NotCanonical(Place::Offset(0))));
/// ```
///
/// # Errors
///
/// [`TooLong`](Error::TooLong); then what is wrong with the first bad item, at its offset, or at that of the byte that
/// makes it [`InvalidUtf8`](Error::InvalidUtf8).
pub fn check(bytes: &[u8], mode: Mode) -> Result<Counts, Error> {
    answer::read(nachricht_sys::check(bytes, mode == Mode::Strict)).map(answer::counts)
}

/// Reads a bundle into a table of rows, without allocating.
///
/// The first rows are those of the bundle, as many as it has; the rows after them stay as they were.
/// [`MAX_ROWS`](crate::limits::MAX_ROWS) rows are always enough. [`Bundle`](crate::Bundle) keeps a table of its own.
///
/// ```
/// use nachricht::{read_into, Item, Mode, Row};
///
/// let bytes = [0x58, 0xFF];
/// let mut rows = [Row::default(); 4];
/// let counts = read_into(&bytes, Mode::Strict, &mut rows)?;
/// assert_eq!(counts.rows, 1);
/// assert_eq!(rows[0].item(&bytes), Some(Item::Integer(-256)));
/// # Ok::<(), nachricht::Error>(())
/// ```
///
/// # Errors
///
/// As [`check`], and [`TooManyRows`](Error::TooManyRows) also at the first item for which the table has no row.
pub fn read_into(bytes: &[u8], mode: Mode, rows: &mut [Row]) -> Result<Counts, Error> {
    answer::read(nachricht_sys::read(bytes, mode == Mode::Strict, rows)).map(answer::counts)
}
