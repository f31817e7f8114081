//! Streams of envelopes for the programs: a number of different envelopes, again and again.

use crate::families::{ascii, integers, names, umlauts};
use crate::jobs;
use crate::loose::loose;
use nachricht::limits::{MAX_BYTES, MAX_ENTRIES, MAX_ROWS};
use nachricht::{enveloped, to_canonical, Bundle};
use reference::generate::Random;
use std::io::{self, Write};

/// The names of the streams.
pub const STREAMS: [&str; 8] = [
    "lines",
    "lines-loose",
    "boards",
    "boards-loose",
    "boards-different",
    "integers",
    "text",
    "names",
];

/// The different bundles of a stream, if there is one of that name.
pub fn bundles(stream: &str) -> Option<Vec<Vec<u8>>> {
    let bundles = match stream {
        "lines" => boards(4096, |_| 1),
        "lines-loose" => all_loose(boards(4096, |_| 1)),
        "boards" => boards(1, |_| 60),
        "boards-loose" => all_loose(boards(1, |_| 60)),
        "boards-different" => boards(4096, |random| 1 + random.below(68)),
        "integers" => (0..64).map(|seed| integers(MAX_ROWS, seed)).collect(),
        "text" => vec![ascii(MAX_BYTES), umlauts(MAX_BYTES)],
        "names" => (0..64).map(|seed| names(MAX_ENTRIES, seed)).collect(),
        _ => return None,
    };
    Some(bundles)
}

/// Writes envelopes of the bundles in turn until there are so many bytes.
pub fn write_stream(bundles: &[Vec<u8>], bytes: usize, out: &mut impl Write) -> io::Result<()> {
    let envelopes: Vec<Vec<u8>> = bundles
        .iter()
        .map(|bundle| enveloped(bundle).expect("within the limits"))
        .collect();
    let mut written = 0;
    for envelope in envelopes.iter().cycle() {
        if bytes <= written {
            break;
        }
        out.write_all(envelope)?;
        written += envelope.len();
    }
    out.flush()
}

/// So many different boards, each of so many lines.
fn boards(count: usize, lines: impl Fn(&mut Random) -> usize) -> Vec<Vec<u8>> {
    let mut random = Random::new(1);
    (0..count)
        .map(|_| {
            let lines = lines(&mut random);
            let board = jobs::board(lines, &mut random);
            board.finish().expect("within the limits")
        })
        .collect()
}

/// The bundles in a loose encoding.
fn all_loose(bundles: Vec<Vec<u8>>) -> Vec<Vec<u8>> {
    bundles
        .iter()
        .map(|canonical| {
            let bytes = loose(&Bundle::read_strict(canonical).expect("canonical"));
            assert_eq!(to_canonical(&bytes).as_ref(), Ok(canonical));
            bytes
        })
        .collect()
}
