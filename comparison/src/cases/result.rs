//! How long a result is, and whether the buffer is just long enough for it.

use crate::Tally;
use reference::MAX_BYTES;

/// Looks at a result that was written.
pub fn look_at_written(tally: &mut Tally, result: usize, capacity: usize) {
    tally.look_for("longest result", result == MAX_BYTES);
    tally.look_for("buffer just long enough", result == capacity);
    tally.look_for("longer buffer", result < capacity);
    tally.look_for("empty buffer that is enough", capacity == 0);
}

/// Looks at a result that was too long, for which the error is 10.
pub fn look_at_refused(tally: &mut Tally, result: usize, capacity: usize) {
    let fits = result <= MAX_BYTES;
    let is_one_more = result == MAX_BYTES + 1;
    tally.look_for("10: a byte too many", is_one_more && result <= capacity);
    tally.look_for("10: buffer a byte short", fits && result == capacity + 1);
    tally.look_for("10: empty buffer", fits && capacity == 0);
}
