//! The cases of names in two bundles that have been joined.

use std::collections::{HashMap, HashSet};

use crate::items::Content;
use crate::Tally;
use reference::generate::model::Meaning;
use reference::MAX_ENTRIES;

/// A name's kind and bytes.
type Name<'a> = (u8, &'a [u8]);

/// Names with the indices that the canonical encoding gives them.
type Indices<'a> = HashMap<Name<'a>, usize>;

/// Looks out for all the cases in what the two bundles hold.
pub fn look(tally: &mut Tally, first: &Content, second: &Content) {
    let items = [&first.items[..], &second.items].concat();
    let both = indices(&items);
    let apart = [indices(&first.items), indices(&second.items)];
    let counts = [apart[0].len(), apart[1].len()];
    let entries = [first.entries, second.entries];
    look_at_sharing(tally, &apart);
    look_at_entries(tally, entries, counts, both.len());
    look_at_references(tally, &second.items, &apart[1], &both);
    look_at_places(tally, first, second);
}

fn names(items: &[Meaning]) -> impl Iterator<Item = Name<'_>> {
    let names = items.iter().filter(|item| item.is_name());
    names.map(|item| (item.kind, &item.content[..]))
}

fn indices(items: &[Meaning]) -> Indices<'_> {
    let mut indices = HashMap::new();
    for name in names(items) {
        let next = indices.len();
        indices.entry(name).or_insert(next);
    }
    indices
}

fn look_at_sharing(tally: &mut Tally, [first, second]: &[Indices; 2]) {
    let is_in_first = |name: &Name| first.contains_key(name);
    // A symbol has kind 10, a key 11.
    let has_twin = |(kind, bytes): &Name| is_in_first(&(21 - kind, bytes));
    tally.look_for("a name in both", second.keys().any(is_in_first));
    tally.look_for("key and symbol alike", first.keys().any(has_twin));
    tally.look_for("key and symbol alike, apart", second.keys().any(has_twin));
}

/// Looks at how many entries there are. A name in full again makes one; only names are limited.
fn look_at_entries(tally: &mut Tally, entries: [usize; 2], apart: [usize; 2], both: usize) {
    tally.look_for("in full twice in the first", entries[0] > apart[0]);
    tally.look_for("in full twice in the second", entries[1] > apart[1]);
    let has_all = both == MAX_ENTRIES;
    let has_some_in_each = apart[0] < MAX_ENTRIES && apart[1] < MAX_ENTRIES;
    tally.look_for("all names", has_all && has_some_in_each);
    let is_first_full = apart[0] == MAX_ENTRIES;
    tally.look_for(
        "all names in the first, some again",
        is_first_full && apart[1] > 0,
    );
    let has_more_entries = entries[0] + entries[1] > MAX_ENTRIES;
    tally.look_for("all names, more entries", has_all && has_more_entries);
    tally.look_for("fewer names, more entries", !has_all && has_more_entries);
}

/// Looks at references of the second bundle whose length changes with the names before them.
fn look_at_references(tally: &mut Tally, second: &[Meaning], before: &Indices, after: &Indices) {
    let mut seen = HashSet::new();
    let referred = names(second).filter(|name| !seen.insert(*name));
    // An index up to 23 stands in the lead byte.
    let is_short = referred.map(|name| [before[&name] <= 23, after[&name] <= 23]);
    let is_short = is_short.collect::<HashSet<_>>();
    tally.look_for("a reference that grows", is_short.contains(&[true, false]));
    tally.look_for(
        "a reference that shrinks",
        is_short.contains(&[false, true]),
    );
}

/// Looks at names of one kind and length that start at one place, each in its own bundle.
fn look_at_places(tally: &mut Tally, first: &Content, second: &Content) {
    let first = by_start(first);
    for (start, name) in by_start(second) {
        let Some(other) = first.get(&start) else {
            continue;
        };
        let is_alike = (name.kind, name.number) == (other.kind, other.number);
        tally.look_for("one name at one place", name == *other);
        tally.look_for("two names at one place", is_alike && name != *other);
    }
}

fn by_start(content: &Content) -> HashMap<usize, &Meaning> {
    let items = content.rows.iter().zip(&content.items);
    let names = items.filter(|(_, item)| item.is_name());
    names.map(|(row, item)| (row.start, item)).collect()
}
