//! The sample messages are what `samples/README.md` says of them.

use nachricht::limits::ENVELOPE_HEADER;
use nachricht::{enveloped, open, to_canonical, Bundle, Error, Place};

const JOBS: &[u8] = include_bytes!("../../../samples/jobs.nachricht");
const LOOSE: &[u8] = include_bytes!("../../../samples/loose.nachricht");
const STREAM: &[u8] = include_bytes!("../../../samples/stream.nachricht");

#[test]
fn jobs() {
    let bundle = Bundle::read_strict(open(JOBS).unwrap()).unwrap();
    let lines = "container 2\n  d: 5\n  m: 3\ncontainer 2\n  d: 7\n  m: 4\n";
    assert_eq!(bundle.to_string(), lines);
}

#[test]
fn loose() {
    let canonical = to_canonical(open(LOOSE).unwrap()).unwrap();
    assert_eq!(enveloped(&canonical).unwrap(), JOBS);
}

#[test]
fn stream() {
    assert!(STREAM.starts_with(JOBS));
    let second = open(&STREAM[JOBS.len()..]).unwrap();
    let error = Bundle::read(second).unwrap_err();
    assert_eq!(error, Error::Truncated(Place::Offset(2)));
    let third = &STREAM[JOBS.len() + ENVELOPE_HEADER + second.len()..];
    assert_eq!(
        Bundle::read(open(third).unwrap()).unwrap().to_string(),
        "null\n"
    );
    assert_eq!(third.len(), ENVELOPE_HEADER + 1);
}
