//! A rule about each byte and the three before it, without branches, of which the compiler makes vectors; short and long
//! ASCII first.

use super::Utf8;

pub struct Windows;

/// Up to this length ASCII is told without a loop.
const SHORT: usize = 32;

impl Utf8 for Windows {
    #[inline(always)]
    fn is_utf8(text: &[u8]) -> bool {
        if text.len() <= SHORT {
            is_short_ascii(text) || by_windows(text)
        } else {
            is_long_utf8(text)
        }
    }
}

/// ASCII as far as it goes, and the rest by windows: what comes after ASCII is due nothing.
#[inline(never)]
fn is_long_utf8(text: &[u8]) -> bool {
    let mut rest = text;
    while let Some((block, after)) = rest.split_first_chunk::<64>() {
        if block.iter().fold(0, |bits, byte| bits | byte) >= 0x80 {
            return by_windows(rest);
        }
        rest = after;
    }
    rest.len() <= SHORT && is_short_ascii(rest) || by_windows(rest)
}

/// Whether at most `SHORT` bytes are ASCII, by words from both ends that overlap.
#[inline(always)]
fn is_short_ascii(text: &[u8]) -> bool {
    const TOP_BITS: u64 = 0x8080_8080_8080_8080;
    let length = text.len();
    let eight = |start: usize| word(text, start).map_or(0, u64::from_ne_bytes);
    let four = |start: usize| word(text, start).map_or(0, u32::from_ne_bytes);
    match length {
        0 => true,
        1..=3 => (text[0] | text[length / 2] | text[length - 1]) < 0x80,
        4..=7 => (four(0) | four(length - 4)) & TOP_BITS as u32 == 0,
        8..=15 => (eight(0) | eight(length - 8)) & TOP_BITS == 0,
        _ => (eight(0) | eight(8) | eight(length - 16) | eight(length - 8)) & TOP_BITS == 0,
    }
}

#[inline(always)]
fn word<const N: usize>(text: &[u8], start: usize) -> Option<[u8; N]> {
    text.get(start..)?.first_chunk().copied()
}

/// The condensed rule: a byte continues a character exactly where that is due by one of the three before it; none is C0, C1
/// or F5 to FF; and at the end nothing is due.
#[inline(never)]
fn by_windows(text: &[u8]) -> bool {
    let length = text.len();
    let before = |place: usize, far: usize| if far <= place { text[place - far] } else { 0 };
    let mut wrong = 0;
    for (place, byte) in text.iter().take(3).enumerate() {
        wrong |= is_wrong(*byte, before(place, 1), before(place, 2), 0);
    }
    if let Some(last) = text.get(3..) {
        let (first, second, third) = (&text[2..], &text[1..], text);
        let windows = last.iter().zip(first).zip(second).zip(third);
        for (((byte, first), second), third) in windows {
            wrong |= is_wrong(*byte, *first, *second, *third);
        }
    }
    wrong == 0 && !is_due(before(length, 1), before(length, 2), before(length, 3))
}

/// Whether a byte has to continue a character, by the three before it, the nearest first.
#[inline(always)]
fn is_due(first: u8, second: u8, third: u8) -> bool {
    (first >= 0xC0) | (second >= 0xE0) | (third >= 0xF0)
}

/// Not 0 if a byte is wrong after the three before it.
#[inline(always)]
fn is_wrong(byte: u8, first: u8, second: u8, third: u8) -> u8 {
    let continues = byte & 0xC0 == 0x80;
    let never = (byte >= 0xF5) | (byte & 0xFE == 0xC0);
    u8::from((is_due(first, second, third) != continues) | never)
}
