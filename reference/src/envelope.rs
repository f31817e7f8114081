//! Envelopes: two bytes of length, a version byte, and a bundle.

use crate::error::{fail_if, Error};
use crate::limits::MAX_BYTES;

const VERSION: u8 = 1;

/// The bundle in the envelope that the bytes begin with. What comes after is not looked at.
pub fn open(bytes: &[u8]) -> Result<&[u8], Error> {
    fail_if(bytes.len() < 2, 12, 0)?;
    let length = usize::from(bytes[0]) * 256 + usize::from(bytes[1]);
    fail_if(!(1..=1 + MAX_BYTES).contains(&length), 12, 0)?;
    fail_if(bytes.len() < 2 + length, 12, 0)?;
    fail_if(bytes[2] != VERSION, 13, 0)?;
    Ok(&bytes[3..2 + length])
}

/// Whether bytes of the envelope that these begin with are missing.
pub fn is_cut(bytes: &[u8]) -> bool {
    match bytes {
        [high, low, ..] => {
            let length = usize::from(*high) * 256 + usize::from(*low);
            (1..=1 + MAX_BYTES).contains(&length) && bytes.len() < 2 + length
        }
        _ => true,
    }
}

/// Puts a bundle, unread, into an envelope. An error changes no byte of the output.
pub fn close(bundle: &[u8], out: &mut [u8]) -> Result<usize, Error> {
    fail_if(bundle.len() > MAX_BYTES, 1, 0)?;
    let length = 1 + bundle.len();
    fail_if(2 + length > out.len(), 10, 0)?;
    out[0] = (length / 256) as u8;
    out[1] = (length % 256) as u8;
    out[2] = VERSION;
    out[3..2 + length].copy_from_slice(bundle);
    Ok(2 + length)
}
