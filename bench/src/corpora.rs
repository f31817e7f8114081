//! The messages that the library is measured on beside the anchors.

use crate::jobs::{line, text};
use crate::message::Message;
use nachricht::limits::MAX_ENTRIES;
use nachricht::Builder;
use reference::generate::Random;

/// Messages of one sort, which are taken in turn.
pub struct Corpus {
    pub name: &'static str,
    pub messages: Vec<Message>,
}

/// How many lines a board has.
const LINES: usize = 60;

/// How many boards differ, so that the processor can't learn them by heart.
const BOARDS: usize = 64;

const INTEGERS: usize = 1_000;

/// Any would do.
const SEED: u64 = 204;

/// How many strings, of how many bytes.
const STRINGS: usize = 8;
const STRING_BYTES: usize = 2_036;

/// All corpora, always the same.
pub fn corpora() -> Vec<Corpus> {
    let random = &mut Random::new(SEED);
    vec![
        corpus("line", 1, random, |random| board(1, random)),
        corpus("board", 1, random, |random| board(LINES, random)),
        corpus("boards", BOARDS, random, |random| board(LINES, random)),
        corpus("integers", 1, random, integers),
        corpus("text", 1, random, |random| {
            strings(|| text(STRING_BYTES, random))
        }),
        corpus("ascii", 1, random, |random| strings(|| ascii(random))),
        corpus("names", 1, random, |_| names()),
    ]
}

fn corpus(
    name: &'static str,
    count: usize,
    random: &mut Random,
    message: impl Fn(&mut Random) -> Builder,
) -> Corpus {
    let mut messages = Vec::new();
    for _ in 0..count {
        messages.push(Message::new(&message(random), random));
    }
    Corpus { name, messages }
}

/// A container of so many lines of a job board.
fn board(lines: usize, random: &mut Random) -> Builder {
    let mut board = Builder::new();
    board.container(lines as u64);
    for _ in 0..lines {
        line(&mut board, random);
    }
    board
}

/// A container of integers, most of them small.
fn integers(random: &mut Random) -> Builder {
    let mut integers = Builder::new();
    integers.container(INTEGERS as u64);
    for _ in 0..INTEGERS {
        let mut from =
            |least: i64, most: i64| least + random.below((most - least + 1) as usize) as i64;
        let sort = from(0, 99);
        integers.integer(match sort {
            0..60 => from(0, 23),
            60..80 => from(-24, -1),
            80..92 => from(24, 255),
            92..98 => from(256, 65_535),
            _ => from(-70_000, 70_000),
        });
    }
    integers
}

/// A container of long strings.
fn strings(mut string: impl FnMut() -> String) -> Builder {
    let mut strings = Builder::new();
    strings.container(STRINGS as u64);
    for _ in 0..STRINGS {
        strings.string(string());
    }
    strings
}

fn ascii(random: &mut Random) -> String {
    let characters = b"abcdefghijklmnopqrstuvwxyz     .,";
    (0..STRING_BYTES)
        .map(|_| char::from(random.pick(characters)))
        .collect()
}

/// Two containers with the same keys, as many as there can be; the second has one fewer, for the limit of rows.
fn names() -> Builder {
    let mut names = Builder::new();
    for (fields, step) in [(MAX_ENTRIES, 1), (MAX_ENTRIES - 1, 7)] {
        names.container(fields as u64);
        for number in 0..fields {
            let key = format!("station_{number:03}_line");
            names.key(key).integer((number * step % 24) as u64);
        }
    }
    names
}
