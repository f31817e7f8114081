//! Envelopes: a bundle behind its length and a version byte.

use crate::limits::{ENVELOPE_HEADER, MAX_ENVELOPE};
use crate::writing::collect;
use crate::{answer, Error};

/// The bundle in the envelope that the bytes begin with, which is not read.
///
/// What comes after it is not looked at: the next envelope of a stream begins
/// [`ENVELOPE_HEADER`] and the bundle's length further on.
///
/// ```
/// let envelope = [0x00, 0x02, 0x01, 0x25, 0xFF];
/// assert_eq!(nachricht::open(&envelope)?, [0x25]);
/// # Ok::<(), nachricht::Error>(())
/// ```
///
/// # Errors
///
/// [`InvalidEnvelope`](Error::InvalidEnvelope) where bytes are missing or the length is out of range; then
/// [`UnsupportedVersion`](Error::UnsupportedVersion).
pub fn open(envelope: &[u8]) -> Result<&[u8], Error> {
    let length = answer::enveloped(nachricht_sys::open(envelope)).map(answer::length)?;
    Ok(&envelope[ENVELOPE_HEADER..][..length])
}

/// Puts a bundle, which is not read, into an envelope in a buffer, and answers the envelope's length.
///
/// # Errors
///
/// [`TooLong`](Error::TooLong), then [`OutputTooLong`](Error::OutputTooLong).
pub fn close(bundle: &[u8], out: &mut [u8]) -> Result<usize, Error> {
    answer::enveloped(nachricht_sys::close(bundle, out)).map(answer::length)
}

/// [`close`] into a vector.
///
/// ```
/// assert_eq!(nachricht::enveloped(&[0x25])?, [0x00, 0x02, 0x01, 0x25]);
/// # Ok::<(), nachricht::Error>(())
/// ```
///
/// # Errors
///
/// [`TooLong`](Error::TooLong).
pub fn enveloped(bundle: &[u8]) -> Result<Vec<u8>, Error> {
    collect(MAX_ENVELOPE, |out| close(bundle, out))
}
