//! The cases of canonicalizing that a comparison has to meet, told from a bundle and the answer.

use super::result::{look_at_refused, look_at_written};
use crate::items::Content;
use crate::Tally;
use nachricht_sys::Answer;
use reference::generate::model::{canonical, different_names, Meaning};
use reference::{MAX_BYTES, MAX_ENTRIES, MAX_ROWS};

/// The second encoding of the least integer, which canonical bundles do not use.
const NEGATIVE_ALIAS: [u8; 9] = [0x5F, 0xFF, 0xFF, 0xFF, 0xFF, 0xFF, 0xFF, 0xFF, 0xFF];

/// Looks out for all the cases in the answer for one bundle and a buffer of this capacity.
pub fn look(tally: &mut Tally, bundle: &[u8], capacity: usize, answer: Answer) {
    let length = bundle.len();
    match Content::of(bundle) {
        None => tally.look_for("1: a byte too many", length == MAX_BYTES + 1),
        Some(content) if answer.error == 10 => {
            let result = canonical(&content.items).len();
            look_at_refused(tally, result, capacity);
        }
        Some(content) => {
            let written = answer.count as usize;
            look_at_written(tally, written, capacity);
            tally.look_for("as long as it was", written == length);
            tally.look_for("shorter than it was", written < length);
            tally.look_for("longer than it was", written > length);
            tally.look_for("longest bundle", length == MAX_BYTES);
            look_at_content(tally, bundle, &content);
        }
    }
}

fn look_at_content(tally: &mut Tally, bundle: &[u8], content: &Content) {
    let (items, entries) = (&content.items, content.entries);
    let names = different_names(items);
    tally.look_for("all rows", items.len() == MAX_ROWS);
    tally.look_for("all names", names == MAX_ENTRIES);
    tally.look_for("a name in full twice", names < entries);
    tally.look_for(
        "all entries, fewer names",
        names < entries && entries == MAX_ENTRIES,
    );
    let has_alias = bundle.windows(9).any(|bytes| bytes == NEGATIVE_ALIAS);
    let has_least = items.contains(&Meaning::plain(7, u64::MAX - 1));
    tally.look_for("the negative alias", has_alias && has_least);
}
