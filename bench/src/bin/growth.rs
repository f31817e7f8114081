//! How the time of each call grows with a message: a Markdown table of nanoseconds for an item, or a byte of text.

use bench::calls::{Buffers, Call, CALLS};
use bench::codec::LIBRARY;
use bench::families::{ascii, integers, lines, names, nested, umlauts};
use bench::message::Message;
use bench::timing::nanoseconds;
use nachricht::limits::{MAX_BYTES, MAX_DEPTH, MAX_ENTRIES, MAX_ROWS};
use std::hint::black_box;

/// What the times of a family are divided by.
#[derive(Clone, Copy, PartialEq)]
enum Unit {
    Item,
    Byte,
}

fn main() {
    let titles: Vec<&str> = measured().map(|(_, name)| name).collect();
    println!(
        "| family | items | bytes | ns for | {} |",
        titles.join(" | ")
    );
    println!("|---|--:|--:|---|{}", "--:|".repeat(titles.len()));
    family("integers", Unit::Item, 1, MAX_ROWS, |n| integers(n, 1));
    family("lines", Unit::Item, 1, 64, lines);
    family("names", Unit::Item, 1, MAX_ENTRIES, |n| names(n, 1));
    family("text, ASCII", Unit::Byte, 16, MAX_BYTES, ascii);
    family("text, umlauts", Unit::Byte, 16, MAX_BYTES, umlauts);
    family("nested", Unit::Item, 1, MAX_DEPTH, nested);
}

/// Prints a row for each size, from the least on doubled up to the greatest.
fn family(
    name: &str,
    unit: Unit,
    least: usize,
    greatest: usize,
    message: impl Fn(usize) -> Vec<u8>,
) {
    let mut size = least;
    while size <= greatest {
        println!("{}", row(name, unit, message(size)));
        size *= 2;
    }
}

fn row(name: &str, unit: Unit, message: Vec<u8>) -> String {
    let message = Message::twice(message);
    let (items, bytes) = (message.rows.len(), message.canonical.len());
    let (unit, count, decimals) = match unit {
        Unit::Item => ("item", items, 1),
        Unit::Byte => ("byte", bytes, 3),
    };
    let mut row = format!("| {name} | {items} | {bytes} | {unit} |");
    for (call, _) in measured() {
        // A join has the message twice.
        let count = if call == Call::Join { 2 * count } else { count };
        row += &match time(call, &message) {
            Some(time) => format!(" {:.decimals$} |", time / count as f64),
            None => " - |".to_string(),
        };
    }
    row
}

/// The calls that are measured: all but that on a loose encoding.
fn measured() -> impl Iterator<Item = (Call, &'static str)> {
    CALLS
        .into_iter()
        .filter(|(call, _)| *call != Call::CanonicalizeLoose)
}

/// Nanoseconds of a call, if it answers without an error.
fn time(call: Call, message: &Message) -> Option<f64> {
    let mut buffers = Buffers::untouched();
    if call.make(&LIBRARY, message, &mut buffers).error != 0 {
        return None;
    }
    Some(nanoseconds(|| {
        black_box(
            call.make(&LIBRARY, black_box(message), black_box(&mut buffers))
                .count,
        );
    }))
}
