//! Each kind of item, from bytes to its row, its item and its words, and back.

use nachricht::{to_canonical, Builder, Bundle, Error, Item, Kind, Place, Row};

/// Reads one value, and writes it again.
fn read(bytes: &[u8]) -> (Row, Item<'_>, String) {
    let bundle = Bundle::read(bytes).unwrap();
    let items: Vec<Item> = bundle.items().collect();
    assert_eq!(items.len(), 1);
    let written = Builder::new().item(items[0]).finish();
    assert_eq!(written, to_canonical(bytes));
    (bundle.rows()[0], items[0], items[0].to_string())
}

fn assert_reads(bytes: &[u8], row: Row, item: Item, words: &str) {
    assert_eq!(read(bytes), (row, item, words.to_string()));
}

#[test]
fn plain_values() {
    assert_reads(&[0x00], Row::new(Kind::Null, 0, 0), Item::Null, "null");
    assert_reads(
        &[0x01],
        Row::new(Kind::True, 0, 0),
        Item::Bool(true),
        "true",
    );
    assert_reads(
        &[0x02],
        Row::new(Kind::False, 0, 0),
        Item::Bool(false),
        "false",
    );
    assert_reads(
        &[0x37],
        Row::new(Kind::Positive, 23, 0),
        Item::Integer(23),
        "23",
    );
    assert_reads(
        &[0x60],
        Row::new(Kind::Container, 0, 0),
        Item::Container(0),
        "container 0",
    );
}

#[test]
fn floats() {
    let single = [0x03, 0x3F, 0xC0, 0x00, 0x00];
    let row = Row::new(Kind::Float32, 0x3FC0_0000, 0);
    assert_reads(&single, row, Item::Float32(1.5), "1.5");
    let double = [0x04, 0x40, 0x00, 0x00, 0x00, 0x00, 0x00, 0x00, 0x00];
    let row = Row::new(Kind::Float64, 0x4000_0000_0000_0000, 0);
    assert_reads(&double, row, Item::Float64(2.0), "2.0");
}

#[test]
fn bits_of_nans_are_kept() {
    for bits in [0x7F80_0001_u32, 0x7FC0_1234, 0xFFFF_FFFF] {
        let mut bytes = vec![0x03];
        bytes.extend(bits.to_be_bytes());
        let bundle = Bundle::read(&bytes).unwrap();
        let Some(Item::Float32(value)) = bundle.items().next() else {
            panic!("no float")
        };
        assert_eq!(value.to_bits(), bits);
        assert_eq!(Builder::new().float32(value).finish().unwrap(), bytes);
    }
}

#[test]
fn integers() {
    let least = -i128::from(u64::MAX);
    let negative = |value: i128| Row::new(Kind::Negative, (-1 - value) as u64, 0);
    assert_reads(&[0x58, 0xFF], negative(-256), Item::Integer(-256), "-256");
    let mut bytes = [0xFF; 9];
    bytes[0] = 0x5F;
    assert_reads(
        &bytes,
        negative(least),
        Item::Integer(least),
        "-18446744073709551615",
    );
    bytes[0] = 0x3F;
    let most = Row::new(Kind::Positive, u64::MAX, 0);
    assert_reads(&bytes, most, Item::Integer(-least), "18446744073709551615");
}

#[test]
fn content() {
    let bytes = [0x07, 0x0A, 0xFF];
    assert_reads(
        &bytes,
        Row::new(Kind::Bytes, 2, 1),
        Item::Bytes(&[0x0A, 0xFF]),
        "<0A FF>",
    );
    assert_reads(&[0x05], Row::new(Kind::Bytes, 0, 1), Item::Bytes(&[]), "<>");
    let bytes = [0x83, b'a', b'"', b'\n'];
    let string = Item::String("a\"\n".into());
    assert_reads(&bytes, Row::new(Kind::String, 3, 1), string, r#""a\"\n""#);
    let symbol = Item::Symbol("d".into());
    assert_reads(&[0xA1, b'd'], Row::new(Kind::Symbol, 1, 1), symbol, "#d");
    assert_eq!(Item::Key("d".into()).to_string(), "d:");
}

#[test]
fn rows_that_mean_nothing() {
    let rows = [
        Row {
            kind: 12,
            number: 0,
            start: 0,
        },
        Row::new(Kind::Null, 1, 0),
        Row::new(Kind::True, 0, 1),
        Row::new(Kind::Float32, 1 << 32, 0),
        Row::new(Kind::Negative, u64::MAX, 0),
        Row::new(Kind::Container, 0, 1),
        Row::new(Kind::Bytes, 2, 1),
        Row::new(Kind::String, 0, 3),
        Row::new(Kind::Symbol, u64::MAX, 1),
        Row::new(Kind::String, 1, usize::MAX),
    ];
    for row in rows {
        assert_eq!(row.item(b"ab"), None);
        let error = nachricht::written(&[row], b"ab").unwrap_err();
        assert_eq!(error, Error::InvalidRow(Place::Row(0)));
    }
}

#[test]
fn kinds_by_number() {
    for (number, kind) in Kind::ALL.into_iter().enumerate() {
        assert_eq!(kind as usize, number);
        assert_eq!(Row::new(kind, 0, 0).kind(), Some(kind));
    }
}
