//! Envelopes opened and closed, alone and in a stream.

use nachricht::limits::{ENVELOPE_HEADER, MAX_BYTES, MAX_ENVELOPE};
use nachricht::{close, enveloped, open, Error};

#[test]
fn what_is_closed_opens_again() {
    for length in [0, 1, 254, 255, 256, MAX_BYTES] {
        let bundle: Vec<u8> = (0..length).map(|place| place as u8).collect();
        let envelope = enveloped(&bundle).unwrap();
        assert_eq!(envelope.len(), ENVELOPE_HEADER + length);
        assert_eq!(open(&envelope), Ok(&bundle[..]));
    }
    assert_eq!(enveloped(&[0; MAX_BYTES]).unwrap().len(), MAX_ENVELOPE);
}

#[test]
fn rest_of_the_buffer_stays() {
    let mut out = [0xA5; 6];
    assert_eq!(close(&[0x25], &mut out), Ok(4));
    assert_eq!(out, [0x00, 0x02, 0x01, 0x25, 0xA5, 0xA5]);
}

#[test]
fn stream() {
    let stream = [0x00, 0x02, 0x01, 0x25, 0x00, 0x01, 0x01, 0x00];
    let mut rest = &stream[..];
    let mut bundles = Vec::new();
    let end = loop {
        match open(rest) {
            Ok(bundle) => {
                bundles.push(bundle);
                rest = &rest[ENVELOPE_HEADER + bundle.len()..];
            }
            Err(error) => break error,
        }
    };
    assert_eq!(bundles, [&[0x25][..], &[]]);
    assert_eq!(end, Error::InvalidEnvelope);
}
