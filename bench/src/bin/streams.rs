//! Writes a stream of envelopes to standard output: `streams NAME MEGABYTES`. Without arguments it lists the names.

use bench::streams::{bundles, write_stream, STREAMS};
use std::env;
use std::io::{self, BufWriter};
use std::process::ExitCode;

fn main() -> ExitCode {
    let arguments: Vec<String> = env::args().skip(1).collect();
    if arguments.is_empty() {
        println!("{}", STREAMS.join("\n"));
        return ExitCode::SUCCESS;
    }
    match stream(&arguments) {
        Some(Ok(())) => ExitCode::SUCCESS,
        Some(Err(error)) => {
            eprintln!("streams: {error}");
            ExitCode::FAILURE
        }
        None => {
            eprintln!("usage: streams NAME MEGABYTES");
            ExitCode::FAILURE
        }
    }
}

/// Writes the stream, if the arguments name one and its size.
fn stream(arguments: &[String]) -> Option<io::Result<()>> {
    let [name, megabytes] = arguments else {
        return None;
    };
    let bytes = megabytes.parse::<usize>().ok()?.checked_mul(1_000_000)?;
    let mut out = BufWriter::with_capacity(1 << 20, io::stdout().lock());
    Some(write_stream(&bundles(name)?, bytes, &mut out))
}
