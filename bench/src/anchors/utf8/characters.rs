//! Words of ASCII, and character by character what is not ASCII.

use super::Utf8;

pub struct Characters;

const WORD: usize = 16;

impl Utf8 for Characters {
    #[inline]
    fn is_utf8(text: &[u8]) -> bool {
        let mut rest = text;
        loop {
            rest = after_ascii_words(rest);
            // As many characters, before another word is worth a try.
            for _ in 0..WORD {
                if rest.is_empty() {
                    return true;
                }
                match after_character(rest) {
                    Some(after) => rest = after,
                    None => return false,
                }
            }
        }
    }
}

/// What comes after the words of ASCII that a text begins with.
#[inline(always)]
fn after_ascii_words(text: &[u8]) -> &[u8] {
    const TOP_BITS: u128 = u128::from_ne_bytes([0x80; WORD]);
    let mut rest = text;
    while let Some((word, after)) = rest.split_first_chunk() {
        if u128::from_ne_bytes(*word) & TOP_BITS != 0 {
            break;
        }
        rest = after;
    }
    rest
}

/// What comes after the character that a text begins with, if it begins with one.
#[inline(always)]
fn after_character(text: &[u8]) -> Option<&[u8]> {
    match text {
        [0..=0x7F, after @ ..] => Some(after),
        [0xC2..=0xDF, a, after @ ..] if continues(*a) => Some(after),
        [0xE0..=0xEF, a, b, after @ ..] if continues(*a) && continues(*b) => Some(after),
        [0xF0..=0xF4, a, b, c, after @ ..] if continues(*a) && continues(*b) && continues(*c) => {
            Some(after)
        }
        _ => None,
    }
}

#[inline(always)]
fn continues(byte: u8) -> bool {
    byte & 0xC0 == 0x80
}
