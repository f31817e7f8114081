//! Whatever the bytes are, each function answers, and the answers agree.

use nachricht::limits::MAX_ROWS;
use nachricht::{
    check, enveloped, joined, open, read_into, to_canonical, written, Builder, Bundle, Error, Item,
    Mode, Place, Row,
};

/// Calls everything with the bytes as input, and answers whether they are a bundle.
fn answer(bytes: &[u8]) -> bool {
    content(bytes);
    let _ = open(bytes);
    assert_eq!(open(&enveloped(bytes).unwrap()), Ok(bytes));
    let mut rows = [Row::default(); MAX_ROWS];
    for mode in [Mode::Lenient, Mode::Strict] {
        let counts = check(bytes, mode);
        assert_eq!(read_into(bytes, mode, &mut rows), counts);
        let read = Bundle::read_in(bytes, mode);
        assert_eq!(read.as_ref().map(Bundle::counts), counts.as_ref().copied());
    }
    match Bundle::read(bytes) {
        Ok(bundle) => rewrite(&bundle),
        Err(error) => refuse(bytes, error),
    }
    check(bytes, Mode::Lenient).is_ok()
}

/// What does not read is refused alike by all that read it.
fn refuse(bytes: &[u8], error: Error) {
    assert_eq!(to_canonical(bytes), Err(error));
    let first = joined(bytes, &[]).unwrap_err();
    assert_eq!(
        (first.number(), first.place()),
        (error.number(), error.place())
    );
}

/// A string of these bytes is refused where they stop being the beginning of a UTF-8 text, in writing and reading.
fn content(bytes: &[u8]) {
    let Err(error) = Builder::new().string(bytes).finish() else {
        return;
    };
    let offset = error.place();
    assert_eq!(error, Error::InvalidUtf8(Place::Text { offset, row: 0 }));
    assert!(begins_text(&bytes[..offset]));
    assert!(offset == bytes.len() || !begins_text(&bytes[..=offset]));
    let header = [0x80 + bytes.len() as u8];
    let read = check(&[&header, bytes].concat(), Mode::Lenient);
    assert_eq!(read, Err(Error::InvalidUtf8(Place::Offset(1 + offset))));
}

/// Whether the bytes begin a UTF-8 text: they are one with the bytes that are due at their end.
fn begins_text(bytes: &[u8]) -> bool {
    let with = |due: &[u8]| Builder::new().string([bytes, due].concat()).finish();
    (0..=3).any(|due| with(&[0x80; 3][..due]).is_ok())
}

/// The rows, the items and the bytes of a bundle have one canonical encoding.
fn rewrite(bundle: &Bundle) {
    let canonical = to_canonical(bundle.bytes());
    assert_eq!(written(bundle.rows(), bundle.bytes()), canonical);
    assert_eq!(joined(bundle.bytes(), &[]), canonical);
    let mut builder = Builder::new();
    builder.extend(bundle);
    assert_eq!(builder.finish(), canonical);
    assert_eq!(bundle.items().len(), bundle.items().count());
    let values = bundle.items().filter(|item| !matches!(item, Item::Key(_)));
    assert_eq!(bundle.to_string().lines().count(), values.count());
}

#[test]
fn up_to_two_bytes() {
    answer(&[]);
    for first in 0..=255 {
        answer(&[first]);
        for second in 0..=255 {
            answer(&[first, second]);
        }
    }
}

/// Bytes from a linear congruential generator, half of them drawn from those that make good bundles.
#[test]
fn mixed_bytes() {
    const USUAL: &[u8] = &[
        0x00, 0x06, 0x25, 0x41, 0x62, 0x81, 0xA1, 0xC1, 0x64, 0xE0, 0xE1, 0x38,
    ];
    let mut state = 1_u64;
    let mut draw = |below: usize| {
        state = state
            .wrapping_mul(6_364_136_223_846_793_005)
            .wrapping_add(1);
        (state >> 33) as usize % below
    };
    let mut good = 0;
    for _ in 0..20_000 {
        let length = draw(24);
        let bytes: Vec<u8> = (0..length)
            .map(|_| match draw(16) {
                0 => draw(256) as u8,
                _ => USUAL[draw(USUAL.len())],
            })
            .collect();
        good += usize::from(answer(&bytes));
    }
    assert!(good > 2_000, "{good} good bundles are too few to say much");
}
