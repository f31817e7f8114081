//! The command lines of the two programs: arguments, files, messages and exit status.

use std::env;
use std::ffi::{OsStr, OsString};
use std::fs::File;
use std::io::{self, Read, Write};
use std::os::unix::ffi::OsStrExt;
use std::process::ExitCode;

use crate::envelope::{is_cut, open};
use crate::programs::{message, Input, Program, Run};

/// A FILE of so many bytes or more has no name in messages.
const TOO_LONG: usize = 4_097;

const LISTING_HELP: &str = "usage: listing [FILE]...
Prints the rows of the nachricht messages in each FILE, or in standard input if none is named.
";

const TIDY_HELP: &str = "usage: tidy [FILE]...
Copies the nachricht messages of each FILE, or of standard input if none is named, to standard output, each in its
canonical encoding. It ends at the first that is refused.
";

const HELP_FOR_BOTH: &str = "
  --help     prints this
  --version  prints the version

Exit status: 0 if every message is good, 1 if one is refused, 2 if an argument is wrong or reading or writing fails.
";

/// What a run that ends with status 2 says on standard error.
type Failure = Vec<u8>;

/// Runs a program on the arguments of this process.
pub fn main(program: Program) -> ExitCode {
    let arguments = env::args_os().skip(1).collect::<Vec<_>>();
    let done = match first_option(&arguments) {
        None => run(program, &arguments),
        Some(b"--help") => put(program, help(program).as_bytes()),
        Some(b"--version") => put(program, version(program).as_bytes()),
        Some(other) => Err(message(program, other, b"unknown option, try --help")),
    };
    match done {
        Ok(status) => ExitCode::from(status),
        Err(failure) => {
            say(&failure);
            ExitCode::from(2)
        }
    }
}

fn first_option(arguments: &[OsString]) -> Option<&[u8]> {
    let mut arguments = arguments.iter().map(|argument| argument.as_bytes());
    arguments.find(|argument| argument.starts_with(b"-"))
}

fn help(program: Program) -> String {
    let start = match program {
        Program::Listing => LISTING_HELP,
        Program::Tidy => TIDY_HELP,
    };
    [start, HELP_FOR_BOTH].concat()
}

fn version(program: Program) -> String {
    format!("{} {}\n", program.name(), env!("CARGO_PKG_VERSION"))
}

/// Takes standard input, or one file after the other until a refusal ends the run.
fn run(program: Program, files: &[OsString]) -> Result<u8, Failure> {
    let mut run = Run::of(program);
    if files.is_empty() {
        return take(program, &mut run, b"standard input", io::stdin());
    }
    let mut status = 0;
    for file in files {
        if !run.is_over() {
            let opened = open_file(program, file)?;
            status = take(program, &mut run, file.as_bytes(), opened)?;
        }
    }
    Ok(status)
}

fn open_file(program: Program, file: &OsStr) -> Result<File, Failure> {
    let is_too_long = file.len() >= TOO_LONG;
    let name = if is_too_long {
        b"argument"
    } else {
        file.as_bytes()
    };
    File::open(file).map_err(|error| failure(program, name, &error))
}

/// Reads an input to its end, or until that fails, and prints what it makes.
fn take(program: Program, run: &mut Run, name: &[u8], mut file: impl Read) -> Result<u8, Failure> {
    let mut bytes = Vec::new();
    let read = file.read_to_end(&mut bytes);
    if read.is_err() {
        bytes.truncate(whole_envelopes(&bytes));
    }
    let bytes = &bytes;
    let printed = run.take(Input { name, bytes });
    let read = read.map_err(|error| failure(program, name, &error));
    // The refusal comes after the failure: it is said when the input has been dealt with.
    let ended = |failure: Failure| [&failure[..], &printed.error].concat();
    put(program, &printed.output).and(read).map_err(ended)?;
    say(&printed.error);
    Ok(printed.status)
}

/// The length of the bytes without an envelope at their end that is cut.
fn whole_envelopes(bytes: &[u8]) -> usize {
    let mut rest = bytes;
    while let Ok(bundle) = open(rest) {
        rest = &rest[3 + bundle.len()..];
    }
    let cut = if is_cut(rest) { rest.len() } else { 0 };
    bytes.len() - cut
}

fn put(program: Program, bytes: &[u8]) -> Result<u8, Failure> {
    let mut stdout = io::stdout();
    match stdout.write_all(bytes).and_then(|()| stdout.flush()) {
        Ok(()) => Ok(0),
        Err(error) => Err(failure(program, b"standard output", &error)),
    }
}

/// A line with the system's text, without the number that Rust puts after it.
fn failure(program: Program, about: &[u8], error: &io::Error) -> Failure {
    let text = error.to_string();
    let text = text.split(" (os error").next().unwrap_or_default();
    message(program, about, text.as_bytes())
}

/// There is nobody to tell if this fails.
fn say(lines: &[u8]) {
    let _ = io::stderr().write_all(lines);
}
