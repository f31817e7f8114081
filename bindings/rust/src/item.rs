//! An item: a row with its content.

use crate::row::{Kind, Row};
use crate::text::Text;

/// A key or a value, with its content as a part of the bundle.
#[derive(Clone, Copy, PartialEq, Debug)]
pub enum Item<'a> {
    /// Null.
    Null,
    /// True or false.
    Bool(bool),
    /// A float of 4 bytes. Its bits are those of the bundle, in a NaN too.
    Float32(f32),
    /// A float of 8 bytes. Its bits are those of the bundle, in a NaN too.
    Float64(f64),
    /// Bytes.
    Bytes(&'a [u8]),
    /// An integer from −(2^64 − 1) to 2^64 − 1.
    Integer(i128),
    /// A container of so many fields, which come next; a key and its value are one field.
    Container(u64),
    /// A string.
    String(Text<'a>),
    /// A symbol.
    Symbol(Text<'a>),
    /// A key, whose value comes next.
    Key(Text<'a>),
}

impl<'a> Item<'a> {
    /// The content of kinds that have one.
    pub fn content(self) -> Option<&'a [u8]> {
        match self {
            Item::Bytes(content) => Some(content),
            Item::String(text) | Item::Symbol(text) | Item::Key(text) => Some(text.as_bytes()),
            _ => None,
        }
    }

    /// The row of the item, whose content, if it has one, begins at `start`.
    ///
    /// An integer that the format does not have becomes a row that means nothing, so that writing it is an error.
    pub fn row(self, start: usize) -> Row {
        match self {
            Item::Null => Row::new(Kind::Null, 0, 0),
            Item::Bool(true) => Row::new(Kind::True, 0, 0),
            Item::Bool(false) => Row::new(Kind::False, 0, 0),
            Item::Float32(value) => Row::new(Kind::Float32, value.to_bits().into(), 0),
            Item::Float64(value) => Row::new(Kind::Float64, value.to_bits(), 0),
            Item::Bytes(content) => Row::new(Kind::Bytes, content.len() as u64, start),
            Item::Integer(value) => integer_row(value),
            Item::Container(fields) => Row::new(Kind::Container, fields, 0),
            Item::String(text) => Row::new(Kind::String, text.as_bytes().len() as u64, start),
            Item::Symbol(text) => Row::new(Kind::Symbol, text.as_bytes().len() as u64, start),
            Item::Key(text) => Row::new(Kind::Key, text.as_bytes().len() as u64, start),
        }
    }
}

fn integer_row(value: i128) -> Row {
    let (kind, number) = match value {
        0.. => (Kind::Positive, u64::try_from(value)),
        _ => (Kind::Negative, u64::try_from(-1 - value)),
    };
    match number {
        Ok(number) => Row::new(kind, number, 0),
        Err(_) => Row::new(Kind::Negative, u64::MAX, 0),
    }
}
