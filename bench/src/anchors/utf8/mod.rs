//! UTF-8 by document 01's condensed rule, in two ways.

mod characters;
mod windows;

pub use characters::Characters;
pub use windows::Windows;

/// A way to judge a text.
pub trait Utf8 {
    fn is_utf8(text: &[u8]) -> bool;
}

/// Where a text that is not UTF-8 stops being good: the offset of the first byte that can't be there, or its length if it
/// ends too early.
pub fn stop(text: &[u8]) -> usize {
    let mut due = 0;
    for (offset, byte) in text.iter().enumerate() {
        due = match (due, byte) {
            (0, 0..=0x7F) => 0,
            (0, 0xC2..=0xDF) => 1,
            (0, 0xE0..=0xEF) => 2,
            (0, 0xF0..=0xF4) => 3,
            (1.., 0x80..=0xBF) => due - 1,
            _ => return offset,
        };
    }
    text.len()
}
