//! Streams that are good or refused, and what the programs say of them.

use reference::generate::streams::envelope;
use reference::MAX_BYTES;

const ENDED: &str = "an item or part of it is due, and the bytes have ended";
const NOT_UTF8: &str = "a string, symbol or key is not UTF-8";
const UNDEFINED: &str = "a reference to an entry not yet made";
const UNEXPECTED: &str = "a key straight after a key";
const DEEP: &str = "a container inside 32 open ones";
const ROWS: &str = "more than 1024 rows";
const ENTRIES: &str = "more than 256 entries";

/// What is said of an envelope.
pub const BAD_LENGTH: &str =
    "error 12 at 0: the length of the envelope is bad, or bytes are missing";
pub const BAD_VERSION: &str = "error 13 at 0: the version of the envelope is not 1";

/// What `tidy` says of a bundle that grows too long.
pub const GROWN: &str = "error 10 at 0: the canonical encoding is over 16384 bytes";

/// An envelope that `tidy` makes shorter.
pub fn good() -> Vec<u8> {
    envelope(b"\x38\x17")
}

/// An envelope whose bundle is refused.
pub fn refused() -> Vec<u8> {
    envelope(b"\x00\xE0")
}

/// What is said of it, by the name of the input and the number of the envelope.
pub fn refusal(name: &str, number: usize) -> String {
    format!("{name}: envelope {number}: error 4 at 1: {UNDEFINED}")
}

/// Envelopes whose bundle is refused, and what is said of each.
pub fn refused_bundles() -> Vec<(Vec<u8>, String)> {
    let deep = [&[0x61; 33][..], &[0]].concat();
    let last = [&[0x99, 0x3F, 0xFC][..], &[b'x'; MAX_BYTES - 4], &[0xE0]].concat();
    let cut = [&[0x99, 0x3F, 0xFD][..], &[b'x'; MAX_BYTES - 4], &[0xC3]].concat();
    let bundles: [(&[u8], u8, usize, &str); 12] = [
        (b"\x00\x81", 2, 1, ENDED),
        (b"\xC1d", 2, 2, ENDED),
        (b"\x00\xA1\xFF", 3, 2, NOT_UTF8),
        (b"\x82\xE0A", 3, 2, NOT_UTF8),
        (b"\x00\x82a\xC3\x00", 3, 4, NOT_UTF8),
        (&cut, 3, 16_384, NOT_UTF8),
        (b"\x00\x00\xE0", 4, 2, UNDEFINED),
        (&last, 4, 16_383, UNDEFINED),
        (b"\xC1d\xC1m", 5, 2, UNEXPECTED),
        (&deep, 6, 32, DEEP),
        (&[0; 1_025], 7, 1_024, ROWS),
        (&[0xA0; 257], 8, 256, ENTRIES),
    ];
    let said = bundles.map(|(bundle, number, place, words)| {
        let text = format!("error {number} at {place}: {words}");
        (envelope(bundle), text)
    });
    said.to_vec()
}

/// Envelopes that are refused, and what is said of each.
pub fn refused_envelopes() -> Vec<(Vec<u8>, String)> {
    let envelopes: [(&[u8], &str); 6] = [
        (b"\x00", BAD_LENGTH),
        (b"\x00\x00\x01", BAD_LENGTH),
        (b"\x40\x02\x01", BAD_LENGTH),
        (b"\x00\x02\x01", BAD_LENGTH),
        (b"\x00\x02\x02", BAD_LENGTH),
        (b"\x00\x01\x02", BAD_VERSION),
    ];
    let said = envelopes.map(|(bytes, text)| (bytes.to_vec(), text.to_string()));
    said.to_vec()
}
