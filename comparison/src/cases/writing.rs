//! The cases of writing that a comparison has to meet, told from a table and the answer for it.

use super::result::{look_at_refused, look_at_written};
use crate::Tally;
use nachricht_sys::Answer;
use reference::generate::model::{canonical, different_names, meanings};
use reference::generate::tables::Table;
use reference::{Row, MAX_BYTES, MAX_ENTRIES, MAX_ROWS};

/// A name, and the rows over a text of this length that it is for.
type Case = (&'static str, fn(&Row, usize) -> bool);

/// The clauses of error 9, each with the rows that break it.
const CLAUSES: [Case; 8] = [
    ("9: kind over 11", |row, _| row.kind > 11),
    ("9: number of null, true or false", |row, _| {
        row.kind <= 2 && row.number != 0
    }),
    ("9: start without content", |row, _| {
        row.kind <= 11 && !has_content(row) && row.start != 0
    }),
    ("9: float of 4 bytes", |row, _| {
        row.kind == 3 && row.number >= 1 << 32
    }),
    ("9: superfluous negative", |row, _| {
        row.kind == 7 && row.number == u64::MAX
    }),
    ("9: content past the text", |row, text| {
        has_content(row) && row.number > 0 && end(row).is_some_and(|end| end > text)
    }),
    ("9: empty content past the text", |row, text| {
        has_content(row) && row.number == 0 && row.start > text
    }),
    ("9: end that is too large for 64 bits", |row, _| {
        has_content(row) && end(row).is_none()
    }),
];

/// Rows that are good and just keep a clause of error 9.
const JUST_GOOD: [Case; 4] = [
    ("largest float of 4 bytes", |row, _| {
        row.kind == 3 && row.number == (1 << 32) - 1
    }),
    ("smallest negative", |row, _| {
        row.kind == 7 && row.number == u64::MAX - 1
    }),
    ("content up to the text's end", |row, text| {
        has_content(row) && row.number > 0 && end(row) == Some(text)
    }),
    ("empty content at the text's end", |row, text| {
        has_content(row) && row.number == 0 && row.start == text
    }),
];

fn has_content(row: &Row) -> bool {
    matches!(row.kind, 5 | 9 | 10 | 11)
}

/// Where the content ends, if that is a number of 64 bits.
fn end(row: &Row) -> Option<usize> {
    row.start.checked_add(row.number as usize)
}

/// Looks out for all the cases in the answer for one table.
pub fn look(tally: &mut Tally, table: &Table, answer: Answer) {
    let (rows, text) = (table.rows.len(), table.text.len());
    match answer.error {
        0 => look_at_success(tally, table, answer.count as usize),
        1 => tally.look_for("1: a byte too many", text == MAX_BYTES + 1),
        3 => look_at_bad_text(tally, &table.rows[answer.row as usize], answer),
        7 => tally.look_for("7: a row too many", rows == MAX_ROWS + 1),
        9 => look_at_bad_row(tally, &table.rows[answer.place as usize], text),
        10 => look_at_refused(tally, result_of(table), table.capacity),
        _ => {}
    }
}

fn look_at_success(tally: &mut Tally, table: &Table, written: usize) {
    let text = table.text.len();
    let items = meanings(&table.rows, &table.text);
    let names = different_names(&items);
    let later_uses = items.iter().filter(|item| item.is_name()).count() - names;
    let has_all = names == MAX_ENTRIES;
    tally.look_for("a later use of a name", later_uses > 0);
    tally.look_for("all names", has_all);
    tally.look_for(
        "all names, with as many later uses",
        has_all && later_uses >= names,
    );
    tally.look_for("all rows", items.len() == MAX_ROWS);
    tally.look_for("longest text", text == MAX_BYTES);
    look_at_written(tally, written, table.capacity);
    for (case, is_so) in JUST_GOOD {
        tally.look_for(case, table.rows.iter().any(|row| is_so(row, text)));
    }
}

/// Looks at where the content of a row stops being good.
fn look_at_bad_text(tally: &mut Tally, row: &Row, answer: Answer) {
    let offset = answer.place - row.start as u64;
    let is_inside = (1..row.number).contains(&offset);
    tally.look_for("3: first byte of the content", offset == 0);
    tally.look_for("3: later byte of the content", is_inside);
    tally.look_for("3: end of the content", offset == row.number);
    tally.look_for("3: content at the text's start", row.start == 0);
    tally.look_for("3: content further back", row.start > 0);
    tally.look_for("3: first row", answer.row == 0);
    tally.look_for("3: later row", answer.row > 0);
}

/// Each clause has to be the only one broken in some row.
fn look_at_bad_row(tally: &mut Tally, row: &Row, text: usize) {
    let broken = CLAUSES.map(|(_, is_broken)| is_broken(row, text));
    let is_alone = broken.iter().filter(|is_broken| **is_broken).count() == 1;
    for ((case, _), is_broken) in CLAUSES.into_iter().zip(broken) {
        tally.look_for(case, is_broken && is_alone);
    }
    // Worked out in 64 bits, such an end would pass.
    let wrapped = row.start.wrapping_add(row.number as usize);
    let is_wrapped = has_content(row) && end(row).is_none() && wrapped <= text;
    tally.look_for("9: end that wraps into the text", is_wrapped);
}

/// The bytes of the canonical encoding, whatever their number.
fn result_of(table: &Table) -> usize {
    canonical(&meanings(&table.rows, &table.text)).len()
}
