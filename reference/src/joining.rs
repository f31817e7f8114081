//! Joining two bundles: the fields of the first, then those of the second.

use std::collections::HashSet;

use crate::canonical::{deliver, encode};
use crate::error::{fail_if, Error, JoinError};
use crate::item::Item;
use crate::limits::{MAX_ENTRIES, MAX_ROWS};
use crate::reading::{read_whole, Mode};

/// Reads both bundles leniently and writes their items, one after the other, canonically.
pub fn join(first: &[u8], second: &[u8], out: &mut [u8]) -> Result<usize, JoinError> {
    let of_side = |side| move |error| JoinError { side, error };
    let first = read_whole(first, Mode::Lenient, MAX_ROWS).map_err(of_side(1))?;
    let second = read_whole(second, Mode::Lenient, MAX_ROWS).map_err(of_side(2))?;
    let items = [first.items, second.items].concat();
    write_joined(&items, out).map_err(of_side(0))
}

fn write_joined(items: &[Item], out: &mut [u8]) -> Result<usize, Error> {
    let names: HashSet<&Item> = items.iter().filter(|item| item.is_name()).collect();
    fail_if(items.len() > MAX_ROWS, 7, 0)?;
    fail_if(names.len() > MAX_ENTRIES, 8, 0)?;
    deliver(&encode(items), out)
}
