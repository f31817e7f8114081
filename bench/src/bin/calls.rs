//! How fast the library is beside the anchors: `calls [RUNS]`. What all answer is compared first.

use bench::agreement::differences;
use bench::corpora::corpora;
use bench::{processes, ratios, report};
use std::env;
use std::process::ExitCode;

/// How many runs there are unless said otherwise.
const RUNS: usize = 3;

fn main() -> ExitCode {
    let arguments: Vec<String> = env::args().skip(1).collect();
    let runs = match &arguments[..] {
        [] => Some(RUNS),
        [argument] if argument == processes::ONE_RUN => return one_run(),
        [runs] => runs.parse().ok().filter(|runs| *runs > 0),
        _ => None,
    };
    let Some(runs) = runs else {
        eprintln!("usage: calls [RUNS]");
        return ExitCode::FAILURE;
    };
    match measure(runs) {
        Ok(()) => ExitCode::SUCCESS,
        Err(error) => {
            eprintln!("calls: {error}");
            ExitCode::FAILURE
        }
    }
}

/// Measures once, for the process that started this one.
fn one_run() -> ExitCode {
    processes::print(&ratios::run(&corpora()));
    ExitCode::SUCCESS
}

fn measure(runs: usize) -> Result<(), String> {
    let differences = differences(&corpora());
    if !differences.is_empty() {
        return Err(format!("answers differ:\n{}", differences.join("\n")));
    }
    println!("Answers agree. Runs: {runs}.");
    let runs: Result<Vec<_>, _> = (0..runs).map(|_| processes::run()).collect();
    report::print(&runs?);
    Ok(())
}
