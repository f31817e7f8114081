//! A bundle made item by item.

use crate::{written, Error, Item, Row, Text};
use std::collections::HashMap;

/// Collects items and writes them as a canonical bundle.
///
/// A key comes before its value, a container before its fields. What is amiss is said by [`finish`](Builder::finish).
///
/// ```
/// use nachricht::{Builder, Error, Place};
///
/// let mut lines = Builder::new();
/// for (d, m) in [(5, 3), (7, 4)] {
///     lines.container(2).key("d").integer(d).key("m").integer(m);
/// }
/// let bundle = lines.finish()?;
/// assert_eq!(bundle, [0x62, 0xC1, 0x64, 0x25, 0xC1, 0x6D, 0x23, 0x62, 0xE0, 0x27, 0xE1, 0x24]);
///
/// let error = Builder::new().key("d").finish().unwrap_err();
/// assert_eq!(error, Error::Truncated(Place::Row(1)));
/// # Ok::<(), Error>(())
/// ```
///
/// The row of an error leads to the item, here a string in Latin-1:
///
/// ```
/// use nachricht::{Builder, Error, Item, Place};
///
/// let mut note = Builder::new();
/// note.key("n").string(b"Gr\xFC\xDFe");
/// let error = note.finish().unwrap_err();
/// assert_eq!(error, Error::InvalidUtf8(Place::Text { offset: 3, row: 1 }));
///
/// let row = note.rows()[error.row().unwrap()];
/// let content = row.item(note.text()).and_then(Item::content).unwrap();
/// let (good, bad) = content.split_at(error.place() - row.start);
/// assert_eq!((good, bad), (&b"Gr"[..], &b"\xFC\xDFe"[..]));
/// ```
#[derive(Clone, Debug, Default)]
pub struct Builder {
    rows: Vec<Row>,
    text: Vec<u8>,
    /// Where each name stands in the text: once, however often it is used, since the text has a limit.
    names: HashMap<Vec<u8>, usize>,
}

impl Builder {
    /// A builder of the empty bundle.
    pub fn new() -> Builder {
        Builder::default()
    }

    /// Adds null.
    pub fn null(&mut self) -> &mut Builder {
        self.item(Item::Null)
    }

    /// Adds true or false.
    pub fn boolean(&mut self, value: bool) -> &mut Builder {
        self.item(Item::Bool(value))
    }

    /// Adds a float of 4 bytes.
    pub fn float32(&mut self, value: f32) -> &mut Builder {
        self.item(Item::Float32(value))
    }

    /// Adds a float of 8 bytes.
    pub fn float64(&mut self, value: f64) -> &mut Builder {
        self.item(Item::Float64(value))
    }

    /// Adds bytes.
    pub fn bytes(&mut self, content: impl AsRef<[u8]>) -> &mut Builder {
        self.item(Item::Bytes(content.as_ref()))
    }

    /// Adds an integer. One beyond −(2^64 − 1) or 2^64 − 1 is [`InvalidRow`](Error::InvalidRow).
    pub fn integer(&mut self, value: impl Into<i128>) -> &mut Builder {
        self.item(Item::Integer(value.into()))
    }

    /// Adds a container of so many fields, which come next.
    pub fn container(&mut self, fields: u64) -> &mut Builder {
        self.item(Item::Container(fields))
    }

    /// Adds a string.
    pub fn string(&mut self, text: impl AsRef<[u8]>) -> &mut Builder {
        self.item(Item::String(Text::from(text.as_ref())))
    }

    /// Adds a symbol.
    pub fn symbol(&mut self, name: impl AsRef<[u8]>) -> &mut Builder {
        self.item(Item::Symbol(Text::from(name.as_ref())))
    }

    /// Adds a key, whose value comes next.
    pub fn key(&mut self, name: impl AsRef<[u8]>) -> &mut Builder {
        self.item(Item::Key(Text::from(name.as_ref())))
    }

    /// Adds an item.
    pub fn item(&mut self, item: Item) -> &mut Builder {
        let start = match item {
            Item::Symbol(name) | Item::Key(name) => self.name(name.as_bytes()),
            _ => self.append(item.content().unwrap_or_default()),
        };
        self.rows.push(item.row(start));
        self
    }

    /// The rows so far.
    pub fn rows(&self) -> &[Row] {
        &self.rows
    }

    /// The text that the starts of the rows are offsets in.
    pub fn text(&self) -> &[u8] {
        &self.text
    }

    /// The canonical bundle of the items. The builder keeps them, so more can be added.
    ///
    /// # Errors
    ///
    /// As [`write`](crate::write).
    pub fn finish(&self) -> Result<Vec<u8>, Error> {
        written(&self.rows, &self.text)
    }

    /// Where the name stands in the text.
    fn name(&mut self, name: &[u8]) -> usize {
        if let Some(start) = self.names.get(name) {
            return *start;
        }
        let start = self.append(name);
        self.names.insert(name.to_vec(), start);
        start
    }

    /// Where the content now stands in the text.
    fn append(&mut self, content: &[u8]) -> usize {
        let start = self.text.len();
        self.text.extend_from_slice(content);
        start
    }
}

/// Adds items, such as those of a [`Bundle`](crate::Bundle).
impl<'a> Extend<Item<'a>> for Builder {
    fn extend<T: IntoIterator<Item = Item<'a>>>(&mut self, items: T) {
        for item in items {
            self.item(item);
        }
    }
}
