//! Where an error is.

use std::fmt;

/// Where an error is: the place of the library's answer, and what it counts.
#[derive(Clone, Copy, PartialEq, Eq, Hash, Debug)]
pub enum Place {
    /// No item in particular: the whole input or the result.
    Whole,
    /// The offset of the item's first byte in the bundle, or the bundle's length where an item is due and no byte is
    /// left. For [`InvalidUtf8`](crate::Error::InvalidUtf8) the offset at which the content stops being UTF-8.
    Offset(usize),
    /// In joining: such an offset in one of the two bundles.
    Joining(Side, usize),
    /// In writing: the number of the row, from 0 on, or how many there are where one more is due.
    Row(usize),
    /// In writing, for [`InvalidUtf8`](crate::Error::InvalidUtf8): such an offset in the text, and the row.
    Text {
        /// The offset in the text.
        offset: usize,
        /// The number of the row, from 0 on.
        row: usize,
    },
}

/// One of the two bundles that are joined.
#[derive(Clone, Copy, PartialEq, Eq, Hash, Debug)]
pub enum Side {
    /// The first one.
    First = 1,
    /// The second one.
    Second = 2,
}

impl Place {
    /// The offset or the row's number; 0 for the whole.
    pub fn number(self) -> usize {
        match self {
            Place::Whole => 0,
            Place::Offset(number) | Place::Joining(_, number) | Place::Row(number) => number,
            Place::Text { offset, .. } => offset,
        }
    }

    /// The number of the row, in writing.
    pub fn row(self) -> Option<usize> {
        match self {
            Place::Row(row) | Place::Text { row, .. } => Some(row),
            _ => None,
        }
    }

    /// The bundle that does not read, in joining.
    pub fn side(self) -> Option<Side> {
        match self {
            Place::Joining(side, _) => Some(side),
            _ => None,
        }
    }
}

impl fmt::Display for Place {
    fn fmt(&self, f: &mut fmt::Formatter<'_>) -> fmt::Result {
        match self {
            Place::Whole => f.write_str("as a whole"),
            Place::Offset(offset) => write!(f, "at offset {offset}"),
            Place::Joining(side, offset) => write!(f, "at offset {offset} of the {side} bundle"),
            Place::Row(row) => write!(f, "at row {row}"),
            Place::Text { offset, row } => {
                write!(f, "at offset {offset} of the text, in row {row}")
            }
        }
    }
}

impl fmt::Display for Side {
    fn fmt(&self, f: &mut fmt::Formatter<'_>) -> fmt::Result {
        f.write_str(match self {
            Side::First => "first",
            Side::Second => "second",
        })
    }
}
