//! Copies the envelopes of its files or of standard input with each bundle canonical.

use std::process::ExitCode;

use reference::{command_line, Program};

fn main() -> ExitCode {
    command_line::main(Program::Tidy)
}
