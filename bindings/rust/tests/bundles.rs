//! A bundle's counts, its items in both directions, and its lines.

use nachricht::{check, Bundle, Counts, Error, Item, Mode, Place, Text};

/// Three containers; the second writes a key in full again.
const BOARD: [u8; 19] = [
    0x62, 0xC1, 0x64, 0x25, 0xC1, 0x6D, 0x23, 0x62, 0xC1, 0x64, 0x27, 0xE1, 0x24, 0x62, 0xE0, 0x29,
    0xE1, 0x22, 0x00,
];

#[test]
fn counts() {
    let bundle = Bundle::read(&BOARD).unwrap();
    let counts = Counts {
        rows: 16,
        entries: 3,
        fields: 4,
    };
    assert_eq!(bundle.counts(), counts);
    assert_eq!(check(&BOARD, Mode::Lenient), Ok(counts));
    assert_eq!(bundle.rows().len(), counts.rows);
    assert_eq!(bundle.bytes(), BOARD);
    assert_eq!(Bundle::read(&[]).unwrap().counts(), Counts::default());
}

#[test]
fn strictly() {
    let error = Bundle::read_strict(&BOARD).unwrap_err();
    assert_eq!(error, Error::NotCanonical(Place::Offset(8)));
    assert!(Bundle::read_strict(&nachricht::to_canonical(&BOARD).unwrap()).is_ok());
}

#[test]
fn iteration() {
    let bundle = Bundle::read(&BOARD).unwrap();
    let mut items = bundle.items();
    assert_eq!(items.len(), 16);
    assert_eq!(items.next(), Some(Item::Container(2)));
    assert_eq!(items.next(), Some(Item::Key(Text::from("d"))));
    assert_eq!(items.next_back(), Some(Item::Null));
    assert_eq!(items.next_back(), Some(Item::Integer(2)));
    assert_eq!(items.next_back(), Some(Item::Key(Text::from("m"))));
    assert_eq!(items.len(), 11);
    assert_eq!(items.by_ref().count(), 11);
    assert_eq!((items.next(), items.next_back()), (None, None));
    let mut keys = Vec::new();
    for item in &bundle {
        if let Item::Key(name) = item {
            keys.push(name.to_str().unwrap());
        }
    }
    assert_eq!(keys, ["d", "m", "d", "m", "d", "m"]);
}

/// The content is a part of the bytes and outlives the table.
#[test]
fn content_outlives_the_bundle() {
    let bytes = [0x82, b'h', b'i'];
    let first = Bundle::read(&bytes).unwrap().items().next();
    assert_eq!(first, Some(Item::String(Text::from("hi"))));
}

#[test]
fn lines() {
    let bytes = [
        0x63, 0xC1, b'a', 0x62, 0x60, 0x25, 0x40, 0xC2, b'\n', b'b', 0x61, 0x00, 0xA1, b's', 0x82,
        b'h', b'i',
    ];
    let lines = [
        "container 3",
        "  a: container 2",
        "    container 0",
        "    5",
        "  -1",
        "  \\nb: container 1",
        "    null",
        "#s",
        "\"hi\"",
        "",
    ];
    assert_eq!(Bundle::read(&bytes).unwrap().to_string(), lines.join("\n"));
    assert_eq!(Bundle::read(&[]).unwrap().to_string(), "");
}

/// What the format's rule lets pass and Rust's does not.
#[test]
fn text_that_is_no_str() {
    let bytes = [0x83, 0xE0, 0x80, 0x80];
    let bundle = Bundle::read(&bytes).unwrap();
    let Some(Item::String(text)) = bundle.items().next() else {
        panic!("no string")
    };
    assert_eq!(text.as_bytes(), &bytes[1..]);
    assert!(text.to_str().is_err());
    assert_eq!(text.to_string(), "\u{FFFD}\u{FFFD}\u{FFFD}");
    assert_eq!(Text::from("Grüße").to_str(), Ok("Grüße"));
    assert!(Text::from("d") == "d" && Text::from("d") != "m");
}
