//! Items with their content, and the rows that stand for them.

/// An item as the paper's table of rows gives it: its kind, its number and its start.
///
/// The start is where the content begins, for kinds 5, 9, 10 and 11, and 0 for the others.
#[derive(Clone, Copy, PartialEq, Eq, Debug, Default)]
pub struct Row {
    pub kind: u8,
    pub number: u64,
    pub start: usize,
}

/// An item with its content, references resolved. Equal items are what rows mean alike.
///
/// A name is a `Symbol` or a `Key`: equal as names exactly if equal as items.
#[derive(Clone, PartialEq, Eq, Hash, Debug)]
pub enum Item {
    Null,
    True,
    False,
    /// The bits of a float of 4 bytes.
    Float4(u32),
    /// The bits of a float of 8 bytes.
    Float8(u64),
    Bytes(Vec<u8>),
    Positive(u64),
    /// −1 − value, which is never 2^64 − 1.
    Negative(u64),
    /// How many fields it holds.
    Container(u64),
    String(Vec<u8>),
    Symbol(Vec<u8>),
    Key(Vec<u8>),
}

impl Item {
    /// Whether the item makes an entry in the symbol table.
    pub fn is_name(&self) -> bool {
        matches!(self, Item::Symbol(_) | Item::Key(_))
    }

    pub fn is_key(&self) -> bool {
        matches!(self, Item::Key(_))
    }

    /// The content that has to be UTF-8.
    pub fn text(&self) -> Option<&[u8]> {
        match self {
            Item::String(content) | Item::Symbol(content) | Item::Key(content) => Some(content),
            _ => None,
        }
    }

    /// The row of this item, whose content, if its kind has one, begins at `start`.
    pub fn row(&self, start: usize) -> Row {
        let (kind, number, start) = match self {
            Item::Null => (0, 0, 0),
            Item::True => (1, 0, 0),
            Item::False => (2, 0, 0),
            Item::Float4(bits) => (3, u64::from(*bits), 0),
            Item::Float8(bits) => (4, *bits, 0),
            Item::Bytes(content) => (5, content.len() as u64, start),
            Item::Positive(number) => (6, *number, 0),
            Item::Negative(number) => (7, *number, 0),
            Item::Container(fields) => (8, *fields, 0),
            Item::String(content) => (9, content.len() as u64, start),
            Item::Symbol(content) => (10, content.len() as u64, start),
            Item::Key(content) => (11, content.len() as u64, start),
        };
        Row {
            kind,
            number,
            start,
        }
    }

    /// The item that a row with this text stands for; `None` if the row is bad (error 9).
    pub fn of_row(row: Row, text: &[u8]) -> Option<Item> {
        let has_content = matches!(row.kind, 5 | 9 | 10 | 11);
        if !has_content && row.start != 0 {
            return None;
        }
        let content = || content(row, text);
        match (row.kind, row.number) {
            (0, 0) => Some(Item::Null),
            (1, 0) => Some(Item::True),
            (2, 0) => Some(Item::False),
            (3, bits) => Some(Item::Float4(u32::try_from(bits).ok()?)),
            (4, bits) => Some(Item::Float8(bits)),
            (5, _) => Some(Item::Bytes(content()?)),
            (6, number) => Some(Item::Positive(number)),
            (7, u64::MAX) => None,
            (7, number) => Some(Item::Negative(number)),
            (8, fields) => Some(Item::Container(fields)),
            (9, _) => Some(Item::String(content()?)),
            (10, _) => Some(Item::Symbol(content()?)),
            (11, _) => Some(Item::Key(content()?)),
            _ => None,
        }
    }
}

/// The part of the text that a row points at, if all of it is there.
fn content(row: Row, text: &[u8]) -> Option<Vec<u8>> {
    // In 128 bits, since start and length may each be the largest number of their type.
    let end = row.start as u128 + u128::from(row.number);
    if end > text.len() as u128 {
        return None;
    }
    Some(text[row.start..end as usize].to_vec())
}
