//! Whether the anchors do the library's work: what they answer and write, compared with the library's.

use crate::calls::{Buffers, CALLS};
use crate::codec::{ANCHORS, LIBRARY};
use crate::corpora::Corpus;

/// Each call of an anchor that answers or writes something else than the library.
pub fn differences(corpora: &[Corpus]) -> Vec<String> {
    let mut differences = Vec::new();
    for Corpus { name, messages } in corpora {
        for (number, message) in messages.iter().enumerate() {
            for (call, called) in CALLS {
                let outcome = |codec| {
                    let mut buffers = Buffers::untouched();
                    (call.make(codec, message, &mut buffers), buffers)
                };
                let expected = outcome(&LIBRARY);
                if expected.0.error != 0 {
                    differences.push(format!("{name} {number}: {called} fails"));
                }
                for anchor in ANCHORS.iter().filter(|anchor| outcome(anchor) != expected) {
                    differences.push(format!("{name} {number}: {called} of {}", anchor.name));
                }
            }
        }
    }
    differences
}
