//! A row of a table, which reading fills and writing takes, and the kinds of rows.

use crate::item::Item;
use crate::text::Text;
use nachricht_sys::RowLayout;

/// An item as a kind, a number and the place of its content.
///
/// Any row can be made. One that means nothing is [`InvalidRow`](crate::Error::InvalidRow) in writing, and no
/// [`item`](Row::item).
#[repr(C)]
#[derive(Clone, Copy, PartialEq, Eq, Hash, Debug, Default)]
pub struct Row {
    /// The number of a [`Kind`].
    pub kind: u8,
    /// What the [`Kind`] says.
    pub number: u64,
    /// The offset of the content in the bundle or text, also of empty content; 0 for kinds without content.
    pub start: usize,
}

// SAFETY: `#[repr(C)]`, with the fields of `nachricht_sys::Row` in the same order.
#[allow(unsafe_code)]
unsafe impl RowLayout for Row {}

/// What a row is, and what its number says.
#[derive(Clone, Copy, PartialEq, Eq, Hash, Debug)]
#[repr(u8)]
pub enum Kind {
    /// Null; 0.
    Null = 0,
    /// True; 0.
    True = 1,
    /// False; 0.
    False = 2,
    /// A float of 4 bytes; its bits.
    Float32 = 3,
    /// A float of 8 bytes; its bits.
    Float64 = 4,
    /// Bytes; the length of the content.
    Bytes = 5,
    /// An integer of 0 or more; its value.
    Positive = 6,
    /// An integer below 0; −1 − value, never 2^64 − 1.
    Negative = 7,
    /// A container; how many fields it has, a key and its value being one.
    Container = 8,
    /// A string; the length of the content.
    String = 9,
    /// A symbol; the length of the content.
    Symbol = 10,
    /// A key; the length of the content.
    Key = 11,
}

impl Kind {
    /// All kinds, each at its number.
    pub const ALL: [Kind; 12] = [
        Kind::Null,
        Kind::True,
        Kind::False,
        Kind::Float32,
        Kind::Float64,
        Kind::Bytes,
        Kind::Positive,
        Kind::Negative,
        Kind::Container,
        Kind::String,
        Kind::Symbol,
        Kind::Key,
    ];
}

impl Row {
    /// A row of this kind.
    pub fn new(kind: Kind, number: u64, start: usize) -> Row {
        let kind = kind as u8;
        Row {
            kind,
            number,
            start,
        }
    }

    /// The kind, if there is one of that number.
    pub fn kind(self) -> Option<Kind> {
        Kind::ALL.get(usize::from(self.kind)).copied()
    }

    /// The item that the row stands for, with its content in this bundle or text.
    ///
    /// `None` if the row means nothing: exactly where writing it with this text is
    /// [`InvalidRow`](crate::Error::InvalidRow). Whether a text is UTF-8 is not looked at.
    pub fn item(self, text: &[u8]) -> Option<Item<'_>> {
        let content = || content(text, self.start, self.number);
        match self.kind()? {
            Kind::Bytes => Some(Item::Bytes(content()?)),
            Kind::String => Some(Item::String(Text::from(content()?))),
            Kind::Symbol => Some(Item::Symbol(Text::from(content()?))),
            Kind::Key => Some(Item::Key(Text::from(content()?))),
            kind if self.start == 0 => plain_item(kind, self.number),
            _ => None,
        }
    }
}

/// The part of the text from a start on, if all of it is there.
fn content(text: &[u8], start: usize, length: u64) -> Option<&[u8]> {
    text.get(start..)?.get(..usize::try_from(length).ok()?)
}

/// The item of a kind without content.
fn plain_item<'a>(kind: Kind, number: u64) -> Option<Item<'a>> {
    match (kind, number) {
        (Kind::Null, 0) => Some(Item::Null),
        (Kind::True, 0) => Some(Item::Bool(true)),
        (Kind::False, 0) => Some(Item::Bool(false)),
        (Kind::Float32, bits) => Some(Item::Float32(f32::from_bits(bits.try_into().ok()?))),
        (Kind::Float64, bits) => Some(Item::Float64(f64::from_bits(bits))),
        (Kind::Positive, value) => Some(Item::Integer(value.into())),
        (Kind::Negative, u64::MAX) => None,
        (Kind::Negative, number) => Some(Item::Integer(-1 - i128::from(number))),
        (Kind::Container, fields) => Some(Item::Container(fields)),
        _ => None,
    }
}
