//! What a bundle holds by the reference, and whether a bundle that was written holds the same.

use std::fmt::Debug;

use crate::row;
use nachricht_sys::{read, Row};
use reference::generate::model::{different_names, meanings, Meaning};
use reference::{Mode, MAX_ROWS};

/// What a bundle holds: its rows with the items they mean, and how many entries they made.
pub struct Content {
    pub rows: Vec<reference::Row>,
    pub items: Vec<Meaning>,
    pub entries: usize,
}

impl Content {
    /// Reads leniently; `None` where that is an error.
    pub fn of(bundle: &[u8]) -> Option<Content> {
        let mut rows = vec![reference::Row::default(); MAX_ROWS];
        let counts = reference::read(bundle, Mode::Lenient, &mut rows).ok()?;
        rows.truncate(counts.rows);
        Some(Content {
            items: meanings(&rows, bundle),
            rows,
            entries: counts.entries,
        })
    }
}

/// The items of a bundle that reads.
pub fn items_of(bundle: &[u8]) -> Vec<Meaning> {
    let content = Content::of(bundle);
    content.expect("a bundle that reads").items
}

/// Panics with the input unless strict reading of what was written gives these items.
pub fn assert_reads_back(written: &[u8], items: &[Meaning], input: &impl Debug) {
    let mut rows = vec![Row::default(); MAX_ROWS];
    let answer = read(written, true, &mut rows);
    assert_eq!(answer.error, 0, "not canonical, {input:02X?}");
    assert_eq!(answer.count, items.len() as u64, "{input:02X?}");
    assert_eq!(answer.entries, different_names(items) as u64);
    let rows = rows[..items.len()].iter().copied();
    let rows = rows.map(row::to_reference).collect::<Vec<_>>();
    assert!(meanings(&rows, written) == items, "read back, {input:02X?}");
}
