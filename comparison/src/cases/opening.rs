//! The cases of opening that a comparison has to meet, told from the bytes and the answer for them.

use crate::Tally;
use nachricht_sys::Answer;
use reference::MAX_BYTES;

/// Looks out for all the cases in the answer for bytes that begin with an envelope, good or not.
pub fn look(tally: &mut Tally, bytes: &[u8], answer: Answer) {
    match bytes {
        [] => tally.look_for("12: no byte", answer.error == 12),
        [_] => tally.look_for("12: one byte", answer.error == 12),
        [first, second, rest @ ..] => {
            let length = usize::from(u16::from_be_bytes([*first, *second]));
            look_at_length(tally, length, rest, answer.error);
        }
    }
}

/// Looks at a length and the bytes after it, of which the first is the version.
fn look_at_length(tally: &mut Tally, length: usize, rest: &[u8], error: u64) {
    let given = rest.len();
    let is_version_good = rest.first() == Some(&1);
    match error {
        0 => {
            tally.look_for("empty bundle", length == 1);
            tally.look_for("longest bundle", length == MAX_BYTES + 1);
            tally.look_for("exactly enough", length == given);
            tally.look_for("bytes after it", length < given);
        }
        12 => {
            let is_in_range = (1..=MAX_BYTES + 1).contains(&length);
            let is_cut = is_in_range && length == given + 1;
            tally.look_for("12: length 0, and more bytes", length == 0 && given > 0);
            tally.look_for("12: length one too large", length == MAX_BYTES + 2);
            tally.look_for("12: only a length", is_in_range && given == 0);
            tally.look_for("12: a byte too few", is_cut && is_version_good);
            tally.look_for("12: other version as well", is_in_range && !is_version_good);
        }
        _ => {
            tally.look_for("13: exactly enough", length == given);
            tally.look_for("13: no bundle", length == 1);
            tally.look_for("13: version 0", rest[0] == 0);
            tally.look_for("13: version 2", rest[0] == 2);
        }
    }
}
