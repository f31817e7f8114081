//! Prints the rows of each bundle in the envelopes of its files or of standard input.

use std::process::ExitCode;

use reference::{command_line, Program};

fn main() -> ExitCode {
    command_line::main(Program::Listing)
}
