//! The two programs, as functions from whole inputs to what is printed and the exit status.

use crate::canonical::canonicalize;
use crate::envelope::{close, open};
use crate::error::Error;
use crate::limits::{MAX_BYTES, MAX_ROWS};
use crate::reading::{read_whole, Mode};

/// One of the two programs.
#[derive(Clone, Copy, PartialEq, Eq, Debug)]
pub enum Program {
    /// Prints the rows of each bundle. A bad bundle gets a line, a bad envelope ends the run.
    Listing,
    /// Copies envelopes with each bundle canonical, up to the first error of any sort.
    Tidy,
}

/// Bytes to read, and what messages call them.
#[derive(Clone, Copy)]
pub struct Input<'a> {
    pub name: &'a [u8],
    pub bytes: &'a [u8],
}

/// What goes to standard output and to standard error, and the exit status.
#[derive(PartialEq, Eq, Default, Debug)]
pub struct Printed {
    pub output: Vec<u8>,
    pub error: Vec<u8>,
    pub status: u8,
}

/// A run of a program, which takes one input after the other.
pub struct Run {
    program: Program,
    envelopes: usize,
    is_refused: bool,
    is_over: bool,
}

/// What one envelope comes to.
struct Step<'a> {
    printed: Vec<u8>,
    error: Option<Error>,
    /// The input after the envelope, or `None` where the run ends.
    rest: Option<&'a [u8]>,
}

impl Program {
    pub fn name(self) -> &'static str {
        match self {
            Program::Listing => "listing",
            Program::Tidy => "tidy",
        }
    }

    /// Runs the program over all of these inputs.
    pub fn run(self, inputs: &[Input]) -> Printed {
        let mut run = Run::of(self);
        let mut all = Printed::default();
        for input in inputs {
            let printed = run.take(*input);
            all.output.extend(printed.output);
            all.error.extend(printed.error);
            all.status = printed.status;
        }
        all
    }

    fn step(self, envelope: usize, input: &[u8]) -> Step<'_> {
        match self {
            Program::Listing => list(envelope, input),
            Program::Tidy => copy(input),
        }
    }
}

impl Run {
    pub fn of(program: Program) -> Run {
        Run {
            program,
            envelopes: 0,
            is_refused: false,
            is_over: false,
        }
    }

    /// A refusal has ended the run. Inputs that come now are not looked at.
    pub fn is_over(&self) -> bool {
        self.is_over
    }

    /// What is printed for an input that comes after the ones before, and the status so far.
    pub fn take(&mut self, input: Input) -> Printed {
        let mut printed = Printed::default();
        let mut rest = input.bytes;
        while !self.is_over && !rest.is_empty() {
            self.envelopes += 1;
            let step = self.program.step(self.envelopes, rest);
            printed.output.extend(step.printed);
            if let Some(error) = step.error {
                printed.error.extend(self.refuse(input.name, error));
            }
            self.is_over = step.rest.is_none();
            rest = step.rest.unwrap_or_default();
        }
        printed.status = u8::from(self.is_refused);
        printed
    }

    /// The line for the first refusal; later ones have none.
    fn refuse(&mut self, input: &[u8], error: Error) -> Vec<u8> {
        if self.is_refused {
            return Vec::new();
        }
        self.is_refused = true;
        let (envelope, number, place) = (self.envelopes, error.number, error.place);
        let words = words(number);
        let text = format!("envelope {envelope}: error {number} at {place}: {words}");
        message(self.program, input, text.as_bytes())
    }
}

/// A line on standard error.
pub fn message(program: Program, about: &[u8], text: &[u8]) -> Vec<u8> {
    [program.name().as_bytes(), b": ", about, b": ", text, b"\n"].concat()
}

/// The numbers that a program can meet: a bundle in an envelope is never too long.
fn words(number: u8) -> &'static str {
    match number {
        2 => "an item or part of it is due, and the bytes have ended",
        3 => "a string, symbol or key is not UTF-8",
        4 => "a reference to an entry not yet made",
        5 => "a key straight after a key",
        6 => "a container inside 32 open ones",
        7 => "more than 1024 rows",
        8 => "more than 256 entries",
        10 => "the canonical encoding is over 16384 bytes",
        12 => "the length of the envelope is bad, or bytes are missing",
        13 => "the version of the envelope is not 1",
        _ => unreachable!("error {number} in a program"),
    }
}

/// What `listing` prints for a whole standard input.
pub fn listing(input: &[u8]) -> Vec<u8> {
    printed(Program::Listing, input)
}

/// What `tidy` prints for a whole standard input.
pub fn tidy(input: &[u8]) -> Vec<u8> {
    printed(Program::Tidy, input)
}

fn printed(program: Program, bytes: &[u8]) -> Vec<u8> {
    let name = b"standard input";
    program.run(&[Input { name, bytes }]).output
}

/// The lines for the envelope that the input begins with.
fn list(envelope: usize, input: &[u8]) -> Step<'_> {
    match open(input) {
        Err(error) => Step {
            printed: format!("envelope {envelope} refused {}\n", error.number).into_bytes(),
            error: Some(error),
            rest: None,
        },
        Ok(bundle) => {
            let (lines, error) = listed(envelope, bundle);
            Step {
                printed: lines.into_bytes(),
                error,
                rest: Some(after(bundle, input)),
            }
        }
    }
}

/// The lines for one bundle, and why it is refused if it is.
fn listed(envelope: usize, bundle: &[u8]) -> (String, Option<Error>) {
    match read_whole(bundle, Mode::Lenient, MAX_ROWS) {
        Err(error) => {
            let (number, place) = (error.number, error.place);
            let line = format!("bundle {envelope} refused {number} at {place}\n");
            (line, Some(error))
        }
        Ok(reading) => {
            let (rows, entries) = (reading.counts.rows, reading.counts.entries);
            let mut lines = format!("bundle {envelope} rows {rows} names {entries}\n");
            for (index, row) in reading.rows.iter().enumerate() {
                let (kind, number, start) = (row.kind, row.number, row.start);
                lines += &format!("{index} {kind} {number} {start}\n");
            }
            (lines, None)
        }
    }
}

/// The envelope that the input begins with, its bundle canonical.
fn copy(input: &[u8]) -> Step<'_> {
    match canonical_envelope(input) {
        Err(error) => Step {
            printed: Vec::new(),
            error: Some(error),
            rest: None,
        },
        Ok((printed, rest)) => Step {
            printed,
            error: None,
            rest: Some(rest),
        },
    }
}

fn canonical_envelope(input: &[u8]) -> Result<(Vec<u8>, &[u8]), Error> {
    let loose = open(input)?;
    let mut bundle = vec![0; MAX_BYTES];
    let length = canonicalize(loose, &mut bundle)?;
    let mut envelope = vec![0; 3 + length];
    close(&bundle[..length], &mut envelope)?;
    Ok((envelope, after(loose, input)))
}

/// What comes after the envelope of this bundle, with which the input begins.
fn after<'a>(bundle: &[u8], input: &'a [u8]) -> &'a [u8] {
    &input[3 + bundle.len()..]
}
