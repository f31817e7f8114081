//! What a builder writes, and what it refuses.

use nachricht::limits::MAX_BYTES;
use nachricht::{Builder, Bundle, Error, Item, Place};

#[test]
fn every_method() {
    let mut builder = Builder::new();
    builder
        .container(2)
        .key("k")
        .null()
        .boolean(true)
        .boolean(false);
    builder.float32(1.5).float64(2.0).bytes([1, 2]).integer(-1);
    builder.string("s").symbol("k").key("k").integer(u64::MAX);
    let bytes = builder.finish().unwrap();
    let bundle = Bundle::read_strict(&bytes).unwrap();
    let expected = [
        Item::Container(2),
        Item::Key("k".into()),
        Item::Null,
        Item::Bool(true),
        Item::Bool(false),
        Item::Float32(1.5),
        Item::Float64(2.0),
        Item::Bytes(&[1, 2]),
        Item::Integer(-1),
        Item::String("s".into()),
        Item::Symbol("k".into()),
        Item::Key("k".into()),
        Item::Integer(u64::MAX.into()),
    ];
    assert!(bundle.items().eq(expected));
    assert_eq!(bundle.counts().entries, 2);
    assert_eq!(builder.rows().len(), expected.len());
}

#[test]
fn empty() {
    assert_eq!(Builder::new().finish(), Ok(vec![]));
}

/// The rows of a bundle, written with the builder, are its canonical encoding.
#[test]
fn items_of_a_bundle() {
    let loose = [0x62, 0xC1, 0x64, 0x38, 0x05, 0xC1, 0x64, 0x23];
    let mut builder = Builder::new();
    builder.extend(&Bundle::read(&loose).unwrap());
    assert_eq!(builder.finish(), nachricht::to_canonical(&loose));
}

/// Names stand in the text once, so that it is never longer than the bundle.
#[test]
fn a_long_name_used_often() {
    let name = "n".repeat(100);
    let mut builder = Builder::new();
    for _ in 0..500 {
        builder.key(&name).null();
    }
    assert_eq!(builder.text().len(), name.len());
    let bytes = builder.finish().unwrap();
    assert_eq!(Bundle::read_strict(&bytes).unwrap().counts().rows, 1_000);
}

#[test]
fn errors() {
    let fails = |builder: &Builder| builder.finish().unwrap_err();
    let row = Place::Row(1);
    for integer in [1 << 64, -(1 << 64), i128::MAX, i128::MIN] {
        assert_eq!(
            fails(Builder::new().null().integer(integer)),
            Error::InvalidRow(row)
        );
    }
    assert_eq!(
        fails(Builder::new().key("a").key("b")),
        Error::UnexpectedKey(row)
    );
    let byte = |offset, row| Error::InvalidUtf8(Place::Text { offset, row });
    assert_eq!(fails(Builder::new().null().string([0xFF])), byte(0, 1));
    let mut names = Builder::new();
    names.key("d").null().key("d").null().key([b'd', 0xFF]);
    assert_eq!(fails(&names), byte(2, 4));
    assert_eq!(fails(Builder::new().container(1)), Error::Truncated(row));
    let long = vec![0; MAX_BYTES];
    assert_eq!(fails(Builder::new().bytes(&long)), Error::OutputTooLong);
    assert_eq!(
        fails(Builder::new().bytes(&long).bytes([0])),
        Error::TooLong(Place::Whole)
    );
}
