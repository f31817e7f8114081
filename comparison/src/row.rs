//! Rows of the reference as rows of the C interface, and back.

use nachricht_sys::Row;

pub fn to_c(row: reference::Row) -> Row {
    Row {
        kind: row.kind,
        number: row.number,
        start: row.start,
    }
}

pub fn all_to_c(rows: &[reference::Row]) -> Vec<Row> {
    rows.iter().copied().map(to_c).collect()
}

pub fn to_reference(row: Row) -> reference::Row {
    reference::Row {
        kind: row.kind,
        number: row.number,
        start: row.start,
    }
}
