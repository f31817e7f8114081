//! The content of strings, symbols and keys.

use std::fmt;
use std::str::{self, Utf8Error};

/// The bytes of a string, symbol or key.
///
/// The format's rule for UTF-8 lets some sequences pass that Rust's `str` does not allow, `E0 80 80` and the surrogate
/// `ED A0 80` among them. So a text is bytes, and [`to_str`](Text::to_str) may fail. It compares with a `str` by bytes.
///
/// ```
/// use nachricht::{Bundle, Item, Text};
///
/// let bundle = Bundle::read(&[0x83, 0xED, 0xA0, 0x80])?;
/// let Some(Item::String(text)) = bundle.items().next() else { panic!() };
/// assert_eq!(text.as_bytes(), [0xED, 0xA0, 0x80]);
/// assert!(text.to_str().is_err());
/// # Ok::<(), nachricht::Error>(())
/// ```
#[derive(Clone, Copy, PartialEq, Eq, PartialOrd, Ord, Hash, Default)]
pub struct Text<'a>(&'a [u8]);

impl<'a> Text<'a> {
    /// The bytes as they stand in the bundle.
    pub fn as_bytes(self) -> &'a [u8] {
        self.0
    }

    /// The text as a `str`.
    ///
    /// # Errors
    ///
    /// Where Rust's rule for UTF-8 is narrower than the format's.
    pub fn to_str(self) -> Result<&'a str, Utf8Error> {
        str::from_utf8(self.0)
    }
}

impl<'a> From<&'a [u8]> for Text<'a> {
    fn from(bytes: &'a [u8]) -> Text<'a> {
        Text(bytes)
    }
}

impl<'a> From<&'a str> for Text<'a> {
    fn from(text: &'a str) -> Text<'a> {
        Text(text.as_bytes())
    }
}

impl AsRef<[u8]> for Text<'_> {
    fn as_ref(&self) -> &[u8] {
        self.0
    }
}

impl PartialEq<str> for Text<'_> {
    fn eq(&self, other: &str) -> bool {
        self.0 == other.as_bytes()
    }
}

impl PartialEq<&str> for Text<'_> {
    fn eq(&self, other: &&str) -> bool {
        self == *other
    }
}

/// What is no `str` is shown as U+FFFD.
impl fmt::Display for Text<'_> {
    fn fmt(&self, f: &mut fmt::Formatter<'_>) -> fmt::Result {
        f.pad(&String::from_utf8_lossy(self.0))
    }
}

/// As [`Display`](fmt::Display), in quotes and with escapes.
impl fmt::Debug for Text<'_> {
    fn fmt(&self, f: &mut fmt::Formatter<'_>) -> fmt::Result {
        fmt::Debug::fmt(&String::from_utf8_lossy(self.0), f)
    }
}
