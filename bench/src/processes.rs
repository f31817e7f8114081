//! A run in a process of its own: runs in one process agree with each other better than with those of the next.

use crate::calls::CALLS;
use crate::ratios::{Measured, Row, Run, CODECS};
use std::env;
use std::process::Command;

/// The argument with which this program measures once and prints numbers.
pub const ONE_RUN: &str = "--one-run";

/// Starts this program once more, and answers what it measured.
pub fn run() -> Result<Run, String> {
    let program = env::current_exe().map_err(|error| error.to_string())?;
    let output = Command::new(program).arg(ONE_RUN).output();
    let output = output.map_err(|error| error.to_string())?;
    if !output.status.success() {
        return Err(String::from_utf8_lossy(&output.stderr).into_owned());
    }
    let text = String::from_utf8_lossy(&output.stdout);
    parse(&text).ok_or_else(|| format!("a run printed\n{text}"))
}

/// Prints a line for each call on each corpus: the corpus, and the time of each codec.
pub fn print(run: &Run) {
    for Row { corpus, calls } in run {
        for Measured { times } in calls {
            println!("{corpus} {}", times.map(|time| time.to_string()).join(" "));
        }
    }
}

fn parse(text: &str) -> Option<Run> {
    let lines: Vec<&str> = text.lines().collect();
    lines.chunks(CALLS.len()).map(row).collect()
}

fn row(lines: &[&str]) -> Option<Row> {
    let (corpus, _) = lines[0].split_once(' ')?;
    let calls = lines.iter().map(|line| measured(corpus, line));
    Some(Row {
        corpus: corpus.to_string(),
        calls: calls.collect::<Option<Vec<_>>>()?,
    })
}

fn measured(corpus: &str, line: &str) -> Option<Measured> {
    let times = line.strip_prefix(corpus)?.split_whitespace();
    let times: Vec<f64> = times.map(|time| time.parse().ok()).collect::<Option<_>>()?;
    let times: [f64; CODECS.len()] = times.try_into().ok()?;
    Some(Measured { times })
}
