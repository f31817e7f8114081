//! The cases of closing that a comparison has to meet, told from a call and the answer for it.

use crate::{Tally, BUNDLE_START};
use nachricht_sys::Answer;
use reference::MAX_BYTES;

/// Looks out for all the cases in the answer for a bundle and a buffer of these lengths.
pub fn look(tally: &mut Tally, bundle: usize, capacity: usize, answer: Answer) {
    let result = BUNDLE_START + bundle;
    match answer.error {
        0 => {
            tally.look_for("empty bundle", bundle == 0);
            tally.look_for("longest bundle", bundle == MAX_BYTES);
            tally.look_for("length of one byte", bundle == 254);
            tally.look_for("length of two bytes", bundle == 255);
            tally.look_for("buffer just long enough", result == capacity);
            tally.look_for("longer buffer", result < capacity);
        }
        1 => {
            tally.look_for("1: a byte too many", bundle == MAX_BYTES + 1);
            tally.look_for("1: buffer too short as well", result > capacity);
            tally.look_for("1: buffer long enough", result <= capacity);
        }
        _ => {
            tally.look_for("10: buffer a byte short", result == capacity + 1);
            tally.look_for("10: empty buffer", capacity == 0);
            tally.look_for(
                "10: room for the bundle only",
                bundle > 0 && bundle == capacity,
            );
        }
    }
}
