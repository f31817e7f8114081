//! Two bundles made one.

use crate::limits::MAX_BYTES;
use crate::writing::collect;
use crate::{answer, Error};

/// Writes the canonical encoding of the first bundle's fields followed by the second's, and answers its length.
///
/// # Errors
///
/// As [`check`](crate::check) with [`Mode::Lenient`](crate::Mode::Lenient), of the first bundle, then of the second;
/// [`Error::side`] says of which. Then, of both together, [`TooManyRows`](Error::TooManyRows),
/// [`TooManyEntries`](Error::TooManyEntries) for more different names than a table has entries, and
/// [`OutputTooLong`](Error::OutputTooLong).
pub fn join(first: &[u8], second: &[u8], out: &mut [u8]) -> Result<usize, Error> {
    answer::joined(nachricht_sys::join(first, second, out)).map(answer::length)
}

/// [`join`] into a vector.
///
/// ```
/// use nachricht::{joined, Error, Place, Side};
///
/// let line = [0x62, 0xC1, 0x64, 0x25, 0xC1, 0x6D, 0x23];
/// let both = joined(&line, &line)?;
/// assert_eq!(both, [0x62, 0xC1, 0x64, 0x25, 0xC1, 0x6D, 0x23, 0x62, 0xE0, 0x25, 0xE1, 0x23]);
///
/// let error = joined(&line, &[0xE0]).unwrap_err();
/// assert_eq!(error, Error::UndefinedReference(Place::Joining(Side::Second, 0)));
/// # Ok::<(), Error>(())
/// ```
///
/// # Errors
///
/// As [`join`], with a buffer that holds any bundle.
pub fn joined(first: &[u8], second: &[u8]) -> Result<Vec<u8>, Error> {
    collect(MAX_BYTES, |out| join(first, second, out))
}
