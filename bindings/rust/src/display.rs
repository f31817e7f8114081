//! Items and bundles as lines for people.

use crate::{Bundle, Item, Text};
use std::fmt;

/// How far a container moves its fields to the right.
const INDENT: usize = 2;

/// One item: `null`, `true`, `-5`, `1.5`, `"string"`, `#symbol`, `key:`, `container 2`, and bytes as `<0A FF>`.
impl fmt::Display for Item<'_> {
    fn fmt(&self, f: &mut fmt::Formatter<'_>) -> fmt::Result {
        match self {
            Item::Null => f.write_str("null"),
            Item::Bool(value) => write!(f, "{value}"),
            // Debug, since it keeps the point: 1.0 is no integer.
            Item::Float32(value) => write!(f, "{value:?}"),
            Item::Float64(value) => write!(f, "{value:?}"),
            Item::Bytes(content) => write_hex(f, content),
            Item::Integer(value) => write!(f, "{value}"),
            Item::Container(fields) => write!(f, "container {fields}"),
            Item::String(text) => write!(f, "{text:?}"),
            Item::Symbol(text) => write!(f, "#{}", Escaped(*text)),
            Item::Key(text) => write!(f, "{}:", Escaped(*text)),
        }
    }
}

fn write_hex(f: &mut fmt::Formatter<'_>, content: &[u8]) -> fmt::Result {
    f.write_str("<")?;
    for (place, byte) in content.iter().enumerate() {
        let space = if place == 0 { "" } else { " " };
        write!(f, "{space}{byte:02X}")?;
    }
    f.write_str(">")
}

/// A name without quotes, in which a line break or the like cannot be mistaken for one of the lines.
struct Escaped<'a>(Text<'a>);

impl fmt::Display for Escaped<'_> {
    fn fmt(&self, f: &mut fmt::Formatter<'_>) -> fmt::Result {
        let text = String::from_utf8_lossy(self.0.as_bytes());
        write!(f, "{}", text.escape_debug())
    }
}

/// A line for each value, with the key before it.
impl fmt::Display for Bundle<'_> {
    fn fmt(&self, f: &mut fmt::Formatter<'_>) -> fmt::Result {
        let mut open = Vec::new();
        let mut after_key = false;
        for item in self {
            if !after_key {
                write!(f, "{:1$}", "", INDENT * open.len())?;
            }
            after_key = matches!(item, Item::Key(_));
            if after_key {
                write!(f, "{item} ")?;
            } else {
                writeln!(f, "{item}")?;
                enter_or_close(&mut open, item);
            }
        }
        Ok(())
    }
}

/// Counts a value among the fields left in the open containers: it is one of the innermost, may open another, and
/// closes those in which it was the last.
fn enter_or_close(open: &mut Vec<u64>, item: Item) {
    if let Some(left) = open.last_mut() {
        *left -= 1;
    }
    if let Item::Container(fields) = item {
        open.push(fields);
    }
    while open.last() == Some(&0) {
        open.pop();
    }
}
