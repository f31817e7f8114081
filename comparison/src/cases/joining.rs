//! The cases of joining that a comparison has to meet, told from a pair and the answer for it.

use super::names;
use super::result::{look_at_refused, look_at_written};
use crate::items::Content;
use crate::Tally;
use nachricht_sys::Answer;
use reference::generate::model::{canonical, different_names, Meaning};
use reference::generate::pairs::Pair;
use reference::{MAX_BYTES, MAX_ENTRIES, MAX_ROWS};

/// Looks out for all the cases in the answer for one pair.
pub fn look(tally: &mut Tally, pair: &Pair, answer: Answer) {
    match (Content::of(&pair.first), Content::of(&pair.second)) {
        (Some(first), Some(second)) if answer.error == 0 => {
            let rows = first.rows.len() + second.rows.len();
            look_at_success(tally, pair, rows, answer.count as usize);
            names::look(tally, &first, &second);
        }
        (Some(first), Some(second)) => {
            look_at_limits(tally, pair, [first.items, second.items], answer.error);
        }
        (None, second) => {
            tally.look_for("first bad, second good", second.is_some());
            tally.look_for("both bad", second.is_none());
        }
        (Some(_), None) => {}
    }
}

fn look_at_success(tally: &mut Tally, pair: &Pair, rows: usize, written: usize) {
    let is_empty = [pair.first.is_empty(), pair.second.is_empty()];
    tally.look_for("first empty", is_empty == [true, false]);
    tally.look_for("second empty", is_empty == [false, true]);
    tally.look_for("both empty", is_empty == [true, true]);
    let has_some_in_each = is_empty == [false, false];
    tally.look_for("all rows", rows == MAX_ROWS && has_some_in_each);
    let given = pair.first.len() + pair.second.len();
    tally.look_for("result longer than both bundles", written > given);
    tally.look_for("bundles longer than a result", given > MAX_BYTES);
    look_at_written(tally, written, pair.capacity);
}

/// Looks at errors of both bundles together, of which the first that applies is given.
fn look_at_limits(tally: &mut Tally, pair: &Pair, items: [Vec<Meaning>; 2], error: u64) {
    let is_first_full = different_names(&items[0]) == MAX_ENTRIES;
    let items = items.concat();
    let (rows, names) = (items.len(), different_names(&items));
    let result = canonical(&items).len();
    let is_long = result > MAX_BYTES;
    let is_buffer_short = result > pair.capacity && !is_long;
    match error {
        7 => {
            tally.look_for("7: a row too many", rows == MAX_ROWS + 1);
            tally.look_for("7: too many names as well", names > MAX_ENTRIES);
            tally.look_for("7: result too long as well", is_long);
            tally.look_for("7: buffer too short as well", is_buffer_short);
        }
        8 => {
            tally.look_for("8: a name too many", names == MAX_ENTRIES + 1);
            tally.look_for("8: all names in the first", is_first_full);
            tally.look_for("8: result too long as well", is_long);
            tally.look_for("8: buffer too short as well", is_buffer_short);
        }
        _ => look_at_refused(tally, result, pair.capacity),
    }
}
