//! The canonical encoding of rows, and of a bundle.

use crate::limits::MAX_BYTES;
use crate::{answer, Error, Row};

/// Writes the canonical encoding of the rows into a buffer, and answers its length.
///
/// The starts of the rows are offsets in `text`. Every row of the slice counts. A [`Builder`](crate::Builder) keeps
/// rows and text together.
///
/// ```
/// use nachricht::{write, Kind, Row};
///
/// let rows = [Row::new(Kind::Key, 1, 0), Row::new(Kind::Positive, 5, 0)];
/// let mut out = [0; 8];
/// let length = write(&rows, b"d", &mut out)?;
/// assert_eq!(out[..length], [0xC1, 0x64, 0x25]);
/// # Ok::<(), nachricht::Error>(())
/// ```
///
/// # Errors
///
/// [`TooManyRows`](Error::TooManyRows) and [`TooLong`](Error::TooLong) of the slices; then what is wrong with the first
/// bad row, at its number, or at the byte of the text that makes it [`InvalidUtf8`](Error::InvalidUtf8); then
/// [`Truncated`](Error::Truncated) where rows are missing, at the number of rows; then
/// [`OutputTooLong`](Error::OutputTooLong).
pub fn write(rows: &[Row], text: &[u8], out: &mut [u8]) -> Result<usize, Error> {
    answer::written(nachricht_sys::write(rows, text, out)).map(answer::length)
}

/// [`write()`] into a vector.
///
/// # Errors
///
/// As [`write()`], with a buffer that holds any bundle.
pub fn written(rows: &[Row], text: &[u8]) -> Result<Vec<u8>, Error> {
    collect(MAX_BYTES, |out| write(rows, text, out))
}

/// Writes the canonical encoding of a bundle into a buffer, and answers its length.
///
/// It can be longer than the bundle was: an empty name in full takes one byte, a reference may take two.
///
/// # Errors
///
/// As [`check`](crate::check) with [`Mode::Lenient`](crate::Mode::Lenient); then
/// [`OutputTooLong`](Error::OutputTooLong).
pub fn canonicalize(bytes: &[u8], out: &mut [u8]) -> Result<usize, Error> {
    answer::read(nachricht_sys::canonicalize(bytes, out)).map(answer::length)
}

/// [`canonicalize`] into a vector.
///
/// ```
/// let two_keys = [0xC1, 0x64, 0x25, 0xC1, 0x64, 0x38, 0x07];
/// assert_eq!(nachricht::to_canonical(&two_keys)?, [0xC1, 0x64, 0x25, 0xE0, 0x27]);
/// # Ok::<(), nachricht::Error>(())
/// ```
///
/// # Errors
///
/// As [`canonicalize`], with a buffer that holds any bundle.
pub fn to_canonical(bytes: &[u8]) -> Result<Vec<u8>, Error> {
    collect(MAX_BYTES, |out| canonicalize(bytes, out))
}

/// What a function writes into a buffer of this many bytes.
pub(crate) fn collect(
    capacity: usize,
    write: impl FnOnce(&mut [u8]) -> Result<usize, Error>,
) -> Result<Vec<u8>, Error> {
    let mut out = vec![0; capacity];
    let length = write(&mut out)?;
    out.truncate(length);
    Ok(out)
}
