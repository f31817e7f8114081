//! Tables of what was measured, in Markdown: a row for each corpus, a column for each call.

use crate::calls::CALLS;
use crate::codec::ANCHORS;
use crate::ratios::{Measured, Run};

/// Prints the library's times, and its ratio to each anchor with the geometric mean of all corpora.
pub fn print(runs: &[Run]) {
    println!("\nThe library, nanoseconds for a message:\n");
    print_table(rows(runs, Measured::library), 0);
    for (number, anchor) in ANCHORS.iter().enumerate() {
        println!("\nThe library's time to that of \"{}\":\n", anchor.name);
        let mut ratios = rows(runs, |measured| measured.ratio(number));
        ratios.push(means(&ratios));
        print_table(ratios, 2);
    }
}

/// A name, and for each call the values of all runs.
type Row = (String, Vec<Vec<f64>>);

/// A row for each corpus.
fn rows(runs: &[Run], value: impl Fn(&Measured) -> f64) -> Vec<Row> {
    let row = |number: usize| {
        let calls = 0..CALLS.len();
        let values = |call: usize| {
            runs.iter()
                .map(|run| value(&run[number].calls[call]))
                .collect()
        };
        (runs[0][number].corpus.clone(), calls.map(values).collect())
    };
    (0..runs[0].len()).map(row).collect()
}

/// The geometric mean of the rows, in each run.
fn means(rows: &[Row]) -> Row {
    let mean = |call: usize, run: usize| {
        let logarithms = rows.iter().map(|(_, calls)| calls[call][run].ln());
        (logarithms.sum::<f64>() / rows.len() as f64).exp()
    };
    let runs = |call: usize| {
        (0..rows[0].1[call].len())
            .map(|run| mean(call, run))
            .collect()
    };
    (
        "geometric mean".to_string(),
        (0..CALLS.len()).map(runs).collect(),
    )
}

fn print_table(rows: Vec<Row>, decimals: usize) {
    println!("| message | {} |", CALLS.map(|(_, name)| name).join(" | "));
    println!("|---|{}", "--:|".repeat(CALLS.len()));
    for (name, calls) in rows {
        let ranges = calls.iter().map(|values| range(values, decimals));
        println!("| {name} | {} |", ranges.collect::<Vec<_>>().join(" | "));
    }
}

/// The least and the greatest value, or one where they look the same.
fn range(values: &[f64], decimals: usize) -> String {
    let least = values.iter().copied().fold(f64::INFINITY, f64::min);
    let greatest = values.iter().copied().fold(0.0, f64::max);
    let [least, greatest] = [least, greatest].map(|value| format!("{value:.decimals$}"));
    if least == greatest {
        least
    } else {
        format!("{least}-{greatest}")
    }
}
