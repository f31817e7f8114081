//! The programs `listing` and `tidy`, and what the reference says that they print.

use std::env;
use std::path::PathBuf;
use std::process::{Command, Stdio};

use crate::run::{Printed, Run};
use reference::Input;

/// Names a folder with other builds of the programs.
const FOLDER: &str = "NACHRICHT_BIN_DIR";

/// A program by its name, with the reference for it.
pub struct Program {
    pub name: &'static str,
    pub reference: reference::Program,
}

pub const LISTING: Program = Program {
    name: "listing",
    reference: reference::Program::Listing,
};

pub const TIDY: Program = Program {
    name: "tidy",
    reference: reference::Program::Tidy,
};

pub const PROGRAMS: [Program; 2] = [LISTING, TIDY];

impl Program {
    /// Where `programs/build` has put the program, or in the folder `NACHRICHT_BIN_DIR`.
    pub fn path(&self) -> PathBuf {
        let path = folder().join(self.name);
        assert!(path.exists(), "no {path:?}: run `programs/build` first");
        path
    }

    pub fn command(&self) -> Command {
        Command::new(self.path())
    }

    /// A shell that first does this, and then becomes the program, with the arguments that are added.
    pub fn command_after(&self, script: &str, redirections: &str) -> Command {
        let mut shell = Command::new("sh");
        let script = format!("{script}\nexec \"$0\" \"$@\" {redirections}");
        shell.arg("-c").arg(script).arg(self.path());
        shell
    }

    /// Runs the program with pipes.
    pub fn run(&self) -> Run {
        Run::of(self.command().stdin(Stdio::piped()))
    }

    /// What goes to standard output for this standard input.
    pub fn output(&self, input: &[u8]) -> Vec<u8> {
        self.reference.run(&[standard_input(input)]).output
    }

    /// Panics unless the program has printed this, said these lines after its name, and answered this status.
    pub fn assert_says(&self, printed: &Printed, output: &[u8], said: &[&str], status: i32) {
        let name = self.name;
        let said = said.iter().map(|line| format!("{name}: {line}\n"));
        let said = said.collect::<String>();
        assert_eq!(printed.error_text(), said);
        assert_eq!(printed.status.code(), Some(status), "{name} says {said:?}");
        let difference = first_difference(&printed.output, output);
        assert_eq!(
            difference, None,
            "differs from there on, {name} says {said:?}"
        );
    }

    /// Panics unless the program does what the reference does with this standard input.
    pub fn assert_prints(&self, printed: &Printed, input: &[u8]) {
        self.assert_prints_for(printed, &[standard_input(input)]);
    }

    /// Panics unless the program does what the reference does with these inputs: all that it prints, and its status.
    pub fn assert_prints_for(&self, printed: &Printed, inputs: &[Input]) {
        let expected = self.reference.run(inputs);
        let context = || format!("{}, {}", self.name, shown(inputs));
        let said = String::from_utf8_lossy(&expected.error);
        assert_eq!(printed.error_text(), said, "{}", context());
        let status = Some(i32::from(expected.status));
        assert_eq!(printed.status.code(), status, "{}", context());
        let difference = first_difference(&printed.output, &expected.output);
        assert_eq!(difference, None, "differs from there on, {}", context());
    }
}

fn folder() -> PathBuf {
    let built_here = || PathBuf::from(env!("CARGO_MANIFEST_DIR")).join("../target/bin");
    env::var_os(FOLDER).map_or_else(built_here, PathBuf::from)
}

fn standard_input(bytes: &[u8]) -> Input<'_> {
    let name = b"standard input";
    Input { name, bytes }
}

/// The length and the first bytes of each input.
fn shown(inputs: &[Input]) -> String {
    let shown = inputs.iter().map(|input| {
        let (length, start) = (
            input.bytes.len(),
            &input.bytes[..input.bytes.len().min(400)],
        );
        format!("{length} bytes of input, first {start:02X?}")
    });
    shown.collect::<Vec<_>>().join("; ")
}

/// Where two byte strings begin to differ.
fn first_difference(left: &[u8], right: &[u8]) -> Option<usize> {
    if left == right {
        return None;
    }
    let mut pairs = left.iter().zip(right);
    let differing = pairs.position(|(left, right)| left != right);
    Some(differing.unwrap_or(left.len().min(right.len())))
}
