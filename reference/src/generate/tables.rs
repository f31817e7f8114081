//! Tables of rows over a text, for writing, with a capacity for the result.

use std::collections::HashMap;

use super::model::{self, canonical, Meaning};
use super::{capacity, near, texts, Random};
use crate::{Error, Row, MAX_BYTES, MAX_ENTRIES, MAX_OPEN, MAX_ROWS};

/// What `write` is called with.
#[derive(Clone, Debug)]
pub struct Table {
    pub rows: Vec<Row>,
    pub text: Vec<u8>,
    pub capacity: usize,
}

/// A mix of all families.
pub fn table(random: &mut Random) -> Table {
    let families = [
        early,
        key_after_key,
        deep,
        not_utf8,
        names,
        many_rows,
        long_text,
        long_result,
        clash,
        damaged,
        names_alike,
        windows,
        far,
    ];
    match random.below(16) {
        0..=4 => good(random),
        5..=7 => with_bad_row(random),
        8 => with_bad_text(random).0,
        _ => random.pick(&families)(random),
    }
}

/// A table that stands for whole fields within all limits; only the capacity may be too small.
pub fn good(random: &mut Random) -> Table {
    let pool = model::pool(random);
    let items = model::items(random, &pool);
    of_items(random, &items)
}

/// Lays the content of the items out in a text, equal content sometimes once for all.
pub fn of_items(random: &mut Random, items: &[Meaning]) -> Table {
    let mut text: Vec<u8> = Vec::new();
    let mut rows: Vec<Row> = Vec::new();
    let mut placed: HashMap<&[u8], usize> = HashMap::new();
    for item in items {
        let (kind, number) = (item.kind, item.number);
        let mut start = 0;
        if item.has_content() {
            // Only the first half of the text is spent on content that is there already.
            let again = text.len() < MAX_BYTES / 2 && random.one_in(4);
            start = match placed.get(&item.content[..]) {
                Some(&earlier) if !again => earlier,
                _ => text.len(),
            };
            if start == text.len() {
                text.extend_from_slice(&item.content);
                placed.insert(&item.content, start);
            }
        }
        rows.push(Row {
            kind,
            number,
            start,
        });
    }
    let capacity = capacity(random, canonical(items).len());
    Table {
        rows,
        text,
        capacity,
    }
}

/// A good table into which a row is put that breaks a clause of error 9.
pub fn with_bad_row(random: &mut Random) -> Table {
    let mut table = good(random);
    let place = random.below(table.rows.len() + 1);
    let bad = bad_row(random, table.text.len());
    table.rows.insert(place, bad);
    table
}

/// A row that breaks one of the clauses of error 9.
fn bad_row(random: &mut Random, text: usize) -> Row {
    let large = random.pick(&[1, 2, 1 << 32, u64::MAX]);
    let without_content = random.pick(&[0, 1, 2, 3, 4, 6, 7, 8]);
    let with_content = random.pick(&[5, 9, 10, 11]);
    let past_the_text = [
        (text + 1, 0),
        (text, 1),
        (0, text as u64 + 1),
        (text / 2, (text - text / 2) as u64 + 1),
        (usize::MAX, 0),
        (usize::MAX, 1),
        (usize::MAX, 2),
        (usize::MAX - 4, 5),
        (0, u64::MAX),
        (1, u64::MAX),
        (2, u64::MAX),
        (text + 1, u64::MAX - text as u64),
        (usize::MAX, u64::MAX),
        // These would pass if they were cut to 16 or 32 bits.
        (0, 1 << 16),
        (0, 1 << 32),
        (1 << 16, 0),
        (1 << 32, 0),
    ];
    let (kind, number, start) = match random.below(8) {
        0 => (random.pick(&[12, 13, 127, 128, 255]), 0, 0),
        1 => (random.pick(&[0, 1, 2]), large, 0),
        2 => (without_content, 0, large as usize),
        3 => (3, random.pick(&[1 << 32, u64::MAX]), 0),
        4 => (7, u64::MAX, 0),
        _ => {
            let (start, number) = random.pick(&past_the_text);
            (with_content, number, start)
        }
    };
    Row {
        kind,
        number,
        start,
    }
}

/// A good table without its last rows, or with a container that claims more.
fn early(random: &mut Random) -> Table {
    let mut table = good(random);
    if random.one_in(2) {
        let kept = random.below(table.rows.len() + 1);
        table.rows.truncate(kept);
    }
    if random.one_in(2) {
        let number = random.pick(&[1, 2, 1_000_000, u64::MAX]);
        let container = Row {
            kind: 8,
            number,
            start: 0,
        };
        table.rows.push(container);
    } else if let Some(row) = table.rows.iter_mut().find(|row| row.kind == 8) {
        row.number = row
            .number
            .saturating_add(random.pick(&[1, 1_000, u64::MAX]));
    }
    table
}

/// A good table with a key more, which may come before or after another one.
fn key_after_key(random: &mut Random) -> Table {
    let mut table = good(random);
    let keys: Vec<usize> = (0..table.rows.len())
        .filter(|&index| table.rows[index].kind == 11)
        .collect();
    let place = match keys.len() {
        0 => table.rows.len(),
        count => keys[random.below(count)] + random.below(2),
    };
    let key = Row {
        kind: 11,
        number: 0,
        start: 0,
    };
    table.rows.insert(place, key);
    table
}

/// Containers in containers, as many as may be open and one more.
fn deep(random: &mut Random) -> Table {
    let mut items = vec![Meaning::plain(8, 1); near(random, MAX_OPEN)];
    let innermost = random.pick(&[0, 8]);
    items.push(Meaning::plain(innermost, 0));
    of_items(random, &items)
}

/// A good table over a text that has been damaged.
fn not_utf8(random: &mut Random) -> Table {
    let mut table = good(random);
    for _ in 0..1 + random.below(3) {
        if !table.text.is_empty() {
            let place = random.below(table.text.len());
            table.text[place] = random.pick(&[0xFF, 0x80, 0xC1, 0xC2, 0xE0, 0xF4, 0xF5]);
        }
    }
    table
}

/// A good table into which a row is put whose content is not UTF-8, and the error for it.
pub fn with_bad_text(random: &mut Random) -> (Table, Error) {
    let mut table = good(random);
    let number = random.below(table.rows.len() + 1);
    let is_after_key = number > 0 && table.rows[number - 1].kind == 11;
    let kinds = if is_after_key {
        [9, 10, 10]
    } else {
        [9, 10, 11]
    };
    let (content, stop) = texts::bad(random);
    let row = Row {
        kind: random.pick(&kinds),
        number: content.len() as u64,
        start: table.text.len(),
    };
    table.rows.insert(number, row);
    table.text.extend(content);
    // Past the content's end is what a character that is cut short lacks.
    table.text.extend([0x80; 3]);
    (table, Error::at(3, row.start + stop).in_row(number))
}

/// Symbols that differ, from the index `from` on.
pub fn symbols(from: usize, count: usize) -> Vec<Meaning> {
    let symbol = |index: usize| {
        let content = vec![0x30 + (index / 64) as u8, 0x30 + (index % 64) as u8];
        Meaning::with_content(10, content)
    };
    (from..from + count).map(symbol).collect()
}

/// As many different names as allowed and one more, some of them used twice.
fn names(random: &mut Random) -> Table {
    let mut items = symbols(0, near(random, MAX_ENTRIES));
    items.splice(0..0, symbols(0, random.below(30)));
    items.extend(symbols(200, random.below(30)));
    of_items(random, &items)
}

fn many_rows(random: &mut Random) -> Table {
    let items = vec![Meaning::plain(random.pick(&[0, 1, 6]), 0); near(random, MAX_ROWS)];
    let mut table = of_items(random, &items);
    if random.one_in(4) {
        lengthen(random, &mut table);
    }
    perhaps_spoil(random, &mut table);
    table
}

/// A text as long as allowed and longer, most of which no row uses.
fn long_text(random: &mut Random) -> Table {
    let mut table = good(random);
    lengthen(random, &mut table);
    perhaps_spoil(random, &mut table);
    table
}

/// Makes the text about as long as allowed.
fn lengthen(random: &mut Random, table: &mut Table) {
    let length = near(random, MAX_BYTES);
    table.text.resize(length, 0xFF);
}

/// Puts a bad row in the place of another one, in one table of four.
fn perhaps_spoil(random: &mut Random, table: &mut Table) {
    if random.one_in(4) && !table.rows.is_empty() {
        let place = random.below(table.rows.len());
        table.rows[place] = bad_row(random, table.text.len());
    }
}

/// Strings from one text whose result is as long as allowed and one more.
fn long_result(random: &mut Random) -> Table {
    let result = near(random, MAX_BYTES);
    let first = 256 + random.below(result - 600);
    // Each string takes three bytes of header.
    let lengths = [first, result - first - 6];
    let kind = random.pick(&[5, 9]);
    let row = |length: usize| Row {
        kind,
        number: length as u64,
        start: 0,
    };
    Table {
        rows: lengths.map(row).to_vec(),
        text: vec![b'x'; first.max(lengths[1])],
        capacity: capacity(random, result),
    }
}

/// Several limits met at once, and then rows each of which may break one rule or more.
fn clash(random: &mut Random) -> Table {
    let made = random.pick(&[0, MAX_ENTRIES - 1, MAX_ENTRIES]);
    let open = random.pick(&[0, MAX_OPEN]);
    let mut items = symbols(0, made);
    items.extend(vec![Meaning::plain(8, 1); open]);
    let mut table = of_items(random, &items);
    let end = table.text.len();
    table.text.extend(b"yz\xFF");
    for _ in 0..1 + random.below(3) {
        let kind = random.pick(&[0, 5, 8, 9, 10, 11, 11]);
        let number = random.pick(&[0, 0, 1, 2, 3]);
        let start = random.pick(&[0, end, end + 1, end + 2]);
        table.rows.push(Row {
            kind,
            number,
            start,
        });
    }
    table
}

/// A good table with a few rows changed, removed, swapped or doubled.
fn damaged(random: &mut Random) -> Table {
    let mut table = good(random);
    for _ in 0..1 + random.below(3) {
        if !table.rows.is_empty() {
            damage(random, &mut table.rows);
        }
    }
    table
}

/// Changes the rows, of which there are some, in one place.
fn damage(random: &mut Random, rows: &mut Vec<Row>) {
    let (place, other) = (random.below(rows.len()), random.below(rows.len()));
    let row = &mut rows[place];
    match random.below(6) {
        0 => row.kind = random.below(13) as u8,
        1 => row.number = row.number.wrapping_add(random.pick(&[1, u64::MAX])),
        2 => row.start = row.start.wrapping_add(random.pick(&[1, usize::MAX])),
        3 => drop(rows.remove(place)),
        4 => rows.swap(place, other),
        _ => rows.insert(place, rows[other]),
    }
}

fn names_alike(random: &mut Random) -> Table {
    let items = alike(random);
    of_items(random, &items)
}

/// Names that differ in one byte or in their kind only, up to as many as allowed, and used again.
pub fn alike(random: &mut Random) -> Vec<Meaning> {
    let length = 1 + random.below(40);
    let changed = random.below(length);
    let name = |kind, byte| {
        let mut content = vec![b'x'; length];
        content[changed] = byte as u8;
        Meaning::with_content(kind, content)
    };
    // A key and a symbol for each byte.
    let bytes = random.pick(&[1, 12, 13, 60, MAX_ENTRIES / 2]);
    let mut items = Vec::new();
    for byte in 0..bytes {
        items.extend([name(11, byte), name(10, byte)]);
    }
    for _ in 0..random.below(3 * bytes) {
        let (key, symbol) = (random.below(bytes), random.below(bytes));
        items.extend([name(11, key), name(10, symbol)]);
    }
    items
}

/// Content anywhere in a short text: it overlaps, begins alike, or ends inside a character.
fn windows(random: &mut Random) -> Table {
    let length = 1 + random.below(20);
    let text = match random.below(3) {
        0 => model::text(random, length),
        _ => (0..length).map(|_| random.pick(b"ab")).collect(),
    };
    let mut rows = Vec::new();
    for _ in 0..random.below(60) {
        if random.one_in(2) {
            rows.push(window(random, 11, length));
        }
        let kind = random.pick(&[5, 9, 10, 10]);
        rows.push(window(random, kind, length));
    }
    fitted(random, rows, text)
}

/// A row with content anywhere in a text of this length.
fn window(random: &mut Random, kind: u8, text: usize) -> Row {
    let start = random.below(text + 1);
    let number = random.below(text - start + 1) as u64;
    Row {
        kind,
        number,
        start,
    }
}

/// Content that is long or stands at the end of a text about as long as allowed.
fn far(random: &mut Random) -> Table {
    let length = near(random, MAX_BYTES);
    let mut rows = Vec::new();
    for _ in 0..1 + random.below(3) {
        let number = random.pick(&[0, 1, 300, 8_000, MAX_BYTES - 100, MAX_BYTES - 4]);
        rows.push(Row {
            kind: random.pick(&[5, 9, 10, 10, 10]),
            number: number as u64,
            start: random.pick(&[0, 1, length - number]),
        });
    }
    fitted(random, rows, vec![b'x'; length])
}

/// A table of rows that all point into the text, with a capacity for them.
pub fn fitted(random: &mut Random, rows: Vec<Row>, text: Vec<u8>) -> Table {
    let result = canonical(&model::meanings(&rows, &text)).len();
    Table {
        rows,
        text,
        capacity: capacity(random, result),
    }
}
