//! Runs of the programs over several inputs: what is printed, what is said, and the status.

mod common;

use std::slice::from_ref;

use common::*;
use reference::generate::streams::{envelope, good, stream};
use reference::Program::{Listing, Tidy};
use reference::{Input, Printed, Program, Run};

const NAMES: [&[u8]; 4] = [b"a", b"b", b"c", b"d"];

/// Runs a program over these inputs, named a, b, c and d.
fn run(program: Program, inputs: &[Vec<u8>]) -> Printed {
    let inputs = NAMES.iter().zip(inputs);
    let inputs = inputs.map(|(name, bytes)| Input { name, bytes });
    program.run(&inputs.collect::<Vec<_>>())
}

/// Asserts what is printed, what is said after the program's name, and the status.
fn assert_prints(program: Program, inputs: &[Vec<u8>], output: &[u8], said: &str, status: u8) {
    let name = program.name();
    let said = said.lines().map(|line| format!("{name}: {line}\n"));
    let expected = Printed {
        output: output.to_vec(),
        error: said.collect::<String>().into_bytes(),
        status,
    };
    assert_eq!(run(program, inputs), expected);
}

#[test]
fn no_inputs_and_empty_ones() {
    for program in [Listing, Tidy] {
        assert_prints(program, &[], b"", "", 0);
        assert_prints(program, &[vec![], vec![]], b"", "", 0);
    }
}

#[test]
fn envelopes_are_numbered_over_all_inputs() {
    let inputs = ["00 01 01 00 01 01", "", "00 02 01 E0"].map(hex);
    let output = b"bundle 1 rows 0 names 0\nbundle 2 rows 0 names 0\nbundle 3 refused 4 at 0\n";
    let said = "c: envelope 3: error 4 at 0: a reference to an entry not yet made";
    assert_prints(Listing, &inputs, output, said, 1);
    assert_prints(Tidy, &inputs, &hex("00 01 01 00 01 01"), said, 1);
}

#[test]
fn a_cut_input_is_not_continued_in_the_next() {
    let inputs = ["00 02 01", "00 00 01 01"].map(hex);
    let said = "a: envelope 1: error 12 at 0: \
        the length of the envelope is bad, or bytes are missing";
    assert_prints(Listing, &inputs, b"envelope 1 refused 12\n", said, 1);
    assert_prints(Tidy, &inputs, b"", said, 1);
}

#[test]
fn one_refusal_is_said() {
    let inputs = [
        "00 02 01 81 00 02 01 E0",
        "00 02 01 E0 00 01 02",
        "00 01 01",
    ]
    .map(hex);
    let output = b"bundle 1 refused 2 at 0\nbundle 2 refused 4 at 0\n\
        bundle 3 refused 4 at 0\nenvelope 4 refused 13\n";
    let said = "a: envelope 1: error 2 at 0: \
        an item or part of it is due, and the bytes have ended";
    assert_prints(Listing, &inputs, output, said, 1);
    assert_prints(Tidy, &inputs, b"", said, 1);
}

#[test]
fn a_name_is_said_as_it_is() {
    let name = b"\xFF/ x\n";
    let bytes = &hex("00 01 02");
    let said =
        b"tidy: \xFF/ x\n: envelope 1: error 13 at 0: the version of the envelope is not 1\n";
    let printed = Tidy.run(&[Input { name, bytes }]);
    assert_eq!(printed.error, said);
}

#[test]
fn an_input_at_a_time() {
    let (name, bad) = (&b"a"[..], &envelope(&[0xE0])[..]);
    for program in [Listing, Tidy] {
        let mut run = Run::of(program);
        let bytes = &envelope(&[])[..];
        assert_eq!(run.take(Input { name, bytes }).status, 0);
        let refused = run.take(Input { name, bytes: bad });
        assert_eq!((refused.error.is_empty(), refused.status), (false, 1));
        assert_eq!(run.is_over(), program == Tidy);
        let after = run.take(Input { name, bytes: bad });
        assert_eq!((&after.error[..], after.status), (&b""[..], 1));
        assert_eq!(after.output.is_empty(), program == Tidy);
    }
}

#[test]
fn good_inputs_are_as_one() {
    for_seeds(2_000, |seed, random| {
        let inputs = [0; 3].map(|_| good(random));
        let last = stream(random);
        let together = [inputs.concat(), last.clone()].concat();
        let apart = [&inputs[..], &[last]].concat();
        for program in [Listing, Tidy] {
            let (apart, together) = (run(program, &apart), run(program, from_ref(&together)));
            assert_eq!(apart.output, together.output, "seed {seed}");
            assert_eq!(apart.status, together.status, "seed {seed}");
        }
    });
}

#[test]
fn at_most_one_line_is_said() {
    for_seeds(2_000, |seed, random| {
        let inputs = [0; 4].map(|_| stream(random));
        for program in [Listing, Tidy] {
            let printed = run(program, &inputs);
            let lines = printed.error.iter().filter(|byte| **byte == b'\n');
            assert_eq!(lines.count(), usize::from(printed.status), "seed {seed}");
        }
    });
}
