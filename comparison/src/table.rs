//! Calls that fill a table of rows, which has guard rows around it.

use crate::expected;
use nachricht_sys::{Answer, Row};
use reference::Mode;

/// Rows before the table and after it, which no call may change.
const GUARDS: usize = 3;

/// No reader writes this row, since it has no kind of a row.
const UNTOUCHED: Row = Row {
    kind: 0xA5,
    number: 0xA5A5_A5A5_A5A5_A5A5,
    start: 0x5A5A,
};

/// Reads a bundle, strictly or not, into a table of this length; panics unless the answer and all rows are what the
/// reference says.
pub fn compare(
    read: impl FnOnce(bool, &mut [Row]) -> Answer,
    bundle: &[u8],
    mode: Mode,
    length: usize,
) -> Answer {
    let (expected_answer, rows) = expected::read(bundle, mode, length);
    let mut expected = vec![UNTOUCHED; length + 2 * GUARDS];
    expected[GUARDS..GUARDS + rows.len()].copy_from_slice(&rows);
    let mut table = vec![UNTOUCHED; length + 2 * GUARDS];
    let answer = read(mode == Mode::Strict, &mut table[GUARDS..GUARDS + length]);
    let input = || format!("{mode:?}, {length} rows: {bundle:02X?}");
    assert_eq!(answer, expected_answer, "{}", input());
    assert!(table == expected, "rows differ, {}", input());
    answer
}
