//! Streams of envelopes, for opening and for the two programs.

use super::{bundles, Random};

/// An envelope around any bytes, with the length cut to two bytes if it is larger.
pub fn envelope(bundle: &[u8]) -> Vec<u8> {
    let length = (bundle.len() + 1) as u16;
    [&length.to_be_bytes(), &[1][..], bundle].concat()
}

/// A mix: good streams, bad bundles in good envelopes, and bad envelopes.
pub fn stream(random: &mut Random) -> Vec<u8> {
    match random.below(8) {
        0..=2 => good(random),
        3 => with_any_bundles(random),
        4 => cut(random),
        5 => with_bad_envelope(random),
        6 => [with_any_bundles(random), bundles::random(random)].concat(),
        _ => {
            let mut stream = with_any_bundles(random);
            bundles::damage(random, &mut stream);
            stream
        }
    }
}

/// Envelopes with bundles that can be read, or nothing at all.
pub fn good(random: &mut Random) -> Vec<u8> {
    of_bundles(random, bundles::loosened)
}

fn with_any_bundles(random: &mut Random) -> Vec<u8> {
    of_bundles(random, bundles::bundle)
}

fn of_bundles(random: &mut Random, bundle: fn(&mut Random) -> Vec<u8>) -> Vec<u8> {
    let mut stream = Vec::new();
    for _ in 0..random.below(5) {
        stream.extend(envelope(&bundle(random)));
    }
    stream
}

/// A good stream cut at any byte.
fn cut(random: &mut Random) -> Vec<u8> {
    let mut stream = good(random);
    let kept = random.below(stream.len() + 1);
    stream.truncate(kept);
    stream
}

/// A stream with an envelope whose length or version is bad, or both, or just good.
fn with_bad_envelope(random: &mut Random) -> Vec<u8> {
    let mut bad = envelope(&vec![0; random.pick(&[0, 1, 5, 16_384])]);
    if random.one_in(2) {
        let length: u16 = random.pick(&[0, 1, 2, 16_385, 16_386, 0xFFFF]);
        bad[..2].copy_from_slice(&length.to_be_bytes());
    }
    if random.one_in(2) {
        bad[2] = random.pick(&[0, 2, 255]);
    }
    if random.one_in(4) {
        bad.truncate(random.below(4));
    }
    [good(random), bad, good(random)].concat()
}
