//! Families of canonical messages, each of any size within the limits.

use crate::jobs;
use nachricht::Builder;
use reference::generate::Random;

/// So many lines of a job board.
pub fn lines(count: usize) -> Vec<u8> {
    finished(&jobs::board(count, &mut Random::new(1)))
}

/// So many integers, of each width and either sign.
pub fn integers(count: usize, seed: u64) -> Vec<u8> {
    let mut random = Random::new(seed);
    let mut integers = Builder::new();
    for _ in 0..count {
        let magnitude = random.number() >> random.pick(&[1, 8, 16, 24, 32, 40, 48, 56, 60]);
        let sign = random.pick(&[1, -1]);
        integers.integer(sign * i128::from(magnitude));
    }
    finished(&integers)
}

/// So many different keys with values.
pub fn names(count: usize, seed: u64) -> Vec<u8> {
    let mut random = Random::new(seed);
    let mut names = Builder::new();
    for number in 0..count {
        let stem = random.pick(&["n", "name", "attribute", "a rather long attribute "]);
        let value = random.below(100) as u64;
        names.key(format!("{stem}{number}")).integer(value);
    }
    finished(&names)
}

/// A string of ASCII whose message has so many bytes, a power of 2.
pub fn ascii(bytes: usize) -> Vec<u8> {
    text("The quick brown fox jumps over the lazy dog. ", bytes)
}

/// A string with umlauts whose message has so many bytes, a power of 2.
pub fn umlauts(bytes: usize) -> Vec<u8> {
    text("Zwölf Boxkämpfer jagen Viktor über den Deich. ", bytes)
}

/// So many containers, each but the last with one field: the next.
pub fn nested(depth: usize) -> Vec<u8> {
    let mut nested = Builder::new();
    for inner in (0..depth).rev() {
        nested.container(inner.min(1) as u64);
    }
    finished(&nested)
}

/// The sentence again and again; where a character would be cut, spaces fill up.
fn text(sentence: &str, bytes: usize) -> Vec<u8> {
    let header = match bytes {
        ..=24 => 1,
        25..=257 => 2,
        _ => 3,
    };
    let length = bytes - header;
    let mut text = Vec::new();
    for character in sentence.chars().cycle() {
        if length < text.len() + character.len_utf8() {
            break;
        }
        text.extend_from_slice(character.encode_utf8(&mut [0; 4]).as_bytes());
    }
    text.resize(length, b' ');
    finished(Builder::new().string(text))
}

fn finished(message: &Builder) -> Vec<u8> {
    message.finish().expect("within the limits")
}
