//! The programs as a user has them: they answer while the input stays open, say what they cannot
//! read or write, and take no more memory for a long stream.

use std::fs::File;
use std::io::Write;
use std::process::{Command, Stdio};
use std::thread;

use comparison::program::{Program, LISTING, PROGRAMS, TIDY};
use comparison::run::{Printed, Run};
use comparison::streams;
use reference::generate::streams::envelope;
use reference::generate::Random;

/// So much address space is lent to a program, in KB; a stream is four times as long.
const ADDRESS_SPACE: usize = 16 << 10;
const LONG_STREAM: usize = 64 << 20;

/// Sends the parts one after the other; all that they make comes before the next is sent.
fn assert_answers_at_once(program: &Program, parts: &[&[u8]]) {
    let mut run = program.run();
    let mut input = run.take_input();
    let mut sent = Vec::new();
    let mut before = 0;
    for part in parts {
        input.write_all(part).expect("a program that reads on");
        sent.extend_from_slice(part);
        let complete = &sent[..whole_envelopes(&sent)];
        let expected = &program.output(complete)[before..];
        let answered = run.next_exactly(expected.len());
        let (name, length) = (program.name, sent.len());
        assert!(answered == expected, "{name}, after {length} bytes");
        before += expected.len();
    }
    drop(input);
    let mut printed = run.finish();
    let answered = program.output(&sent)[..before].to_vec();
    printed.output.splice(0..0, answered);
    program.assert_prints(&printed, &sent);
}

/// The bytes of all envelopes that are complete.
fn whole_envelopes(stream: &[u8]) -> usize {
    let mut whole = 0;
    while let Ok(bundle) = reference::open(&stream[whole..]) {
        whole += 3 + bundle.len();
    }
    whole
}

#[test]
fn answers_while_the_input_stays_open() {
    let message = envelope(b"\x62\xC1d\x25\xC1m\x23");
    let longest = streams::longest();
    let lines = streams::longest_lines(6, u64::MAX);
    let two = message.repeat(2);
    let (start, end) = message.split_at(4);
    let end_and_start = [end, start].concat();
    // As many as a pipe holds: more would wait for the program, which may wait for its output to be taken.
    let many = message.repeat(6_500);
    for program in &PROGRAMS {
        assert_answers_at_once(program, &[&message, &message, &two]);
        assert_answers_at_once(program, &[start, &end_and_start, &end_and_start, end]);
        assert_answers_at_once(program, &[&longest, &message, &lines, &longest, &many]);
        assert_answers_at_once(program, &[&two, start]);
        assert_answers_at_once(program, &[&envelope(b""), &message, b"\x00"]);
    }
}

/// The run over an input ends, though that stays open.
fn assert_ends(program: &Program, input: &[u8]) {
    let mut run = program.run();
    let mut pipe = run.take_input();
    pipe.write_all(input).expect("a program that reads");
    program.assert_prints(&run.finish(), input);
    drop(pipe);
}

/// A length that is refused ends the run.
#[test]
fn ends_at_a_refused_envelope() {
    let message = envelope(b"\x00");
    for refused in [&b"\x00\x00"[..], b"\x40\x02", b"\x00\x01\x02"] {
        for program in &PROGRAMS {
            assert_ends(program, &[&message, refused].concat());
        }
    }
}

/// A bundle that is refused ends `tidy`, and what came before it is handed on.
#[test]
fn tidy_ends_at_a_refused_bundle() {
    assert_ends(&TIDY, &[envelope(b"\x38\x00"), envelope(b"\xE0")].concat());
}

#[test]
fn input_that_cannot_be_read() {
    for program in &PROGRAMS {
        let folder = File::open(env!("CARGO_MANIFEST_DIR")).expect("a folder");
        let folder = Run::of(program.command().stdin(folder)).finish();
        program.assert_says(&folder, b"", &["standard input: Is a directory"], 2);
        let closed = Run::of(&mut program.command_after("", "<&-")).finish();
        program.assert_says(&closed, b"", &["standard input: Bad file descriptor"], 2);
    }
}

/// Standard output that takes nothing, being full or closed, and what is said of it.
const NO_OUTPUT: [(&str, &str); 2] = [
    ("> /dev/full", "standard output: No space left on device"),
    (">&-", "standard output: Bad file descriptor"),
];

/// Runs a program with such an output.
fn without_output(program: &Program, redirection: &str, input: &[u8]) -> Printed {
    let mut command = program.command_after("", redirection);
    Run::of(command.stdin(Stdio::piped())).given(input)
}

#[test]
fn output_that_cannot_be_written() {
    let message = envelope(b"\x62\xC1d\x25\xC1m\x23");
    for program in &PROGRAMS {
        for (redirection, text) in NO_OUTPUT {
            for input in [message.clone(), message.repeat(50_000)] {
                let printed = without_output(program, redirection, &input);
                program.assert_says(&printed, b"", &[text], 2);
            }
            // What prints nothing has no error.
            let printed = without_output(program, redirection, b"");
            program.assert_prints(&printed, b"");
        }
    }
}

/// A reader that goes away ends the run, though the input stays open.
#[test]
fn output_that_nobody_reads() {
    let input = envelope(b"\x00").repeat(100_000);
    for program in &PROGRAMS {
        let mut command = program.command();
        command.stdin(Stdio::piped()).stdout(Stdio::piped());
        let mut child = command.stderr(Stdio::null()).spawn().expect("a process");
        drop(child.stdout.take());
        let mut pipe = child.stdin.take().expect("a pipe");
        let sent = pipe.write_all(&input);
        assert!(sent.is_err(), "{} reads on", program.name);
        child.wait().expect("a process that ends");
    }
}

/// What a program says on standard error, and its status, where nobody reads its output.
fn unread(program: &Program, input: &[u8]) -> (String, Option<i32>) {
    let mut command = program.command();
    command.stdin(Stdio::piped()).stdout(Stdio::piped());
    let mut child = command.stderr(Stdio::piped()).spawn().expect("a process");
    drop(child.stdout.take());
    let mut pipe = child.stdin.take().expect("a pipe");
    assert!(pipe.write_all(input).is_err(), "{} reads on", program.name);
    drop(pipe);
    let ended = child.wait_with_output().expect("a process that ends");
    (String::from_utf8(ended.stderr).expect("ASCII"), ended.status.code())
}

/// Of a reader that goes away nothing is said, but of a refusal met before.
#[test]
fn nothing_is_said_where_nobody_reads() {
    let good = envelope(b"\x00").repeat(100_000);
    let refused = [envelope(b"\xE0"), good.clone()].concat();
    for program in &PROGRAMS {
        assert_eq!(unread(program, &good), (String::new(), Some(2)));
    }
    let (said, status) = unread(&LISTING, &refused);
    assert!(said.starts_with("listing: standard input: envelope 1: error 4 at 0: "), "{said}");
    assert_eq!(said.lines().count(), 1);
    assert_eq!(status, Some(2));
}

/// What `listing` prints for a stream of these envelopes again and again, envelope by envelope.
fn listed_again_and_again(unit: &[u8]) -> impl Iterator<Item = Vec<u8>> {
    let listing = String::from_utf8(reference::listing(unit)).expect("ASCII");
    let bundles = listing.split("bundle ").skip(1);
    let without_number = |lines: &str| lines[lines.find(' ').expect("a number")..].to_string();
    let bundles = bundles.map(without_number).collect::<Vec<_>>();
    let numbered = (1_usize..).zip(bundles.into_iter().cycle());
    numbered.map(|(number, lines)| format!("bundle {number}{lines}").into_bytes())
}

/// Runs a command on a unit repeated so often, and compares the output as it comes.
fn assert_streams(
    command: &mut Command,
    unit: &[u8],
    repeats: usize,
    mut expected: impl Iterator<Item = u8>,
) {
    let mut run = Run::of(command.stdin(Stdio::piped()));
    let mut input = run.take_input();
    thread::scope(|scope| {
        scope.spawn(move || (0..repeats).all(|_| input.write_all(unit).is_ok()));
        let mut place = 0_usize;
        while let Some(bytes) = run.next_bytes() {
            let is_same = bytes.iter().all(|byte| expected.next() == Some(*byte));
            assert!(is_same, "differs after {place} bytes");
            place += bytes.len();
        }
        let printed = run.finish();
        assert_eq!(printed.error_text(), "", "after {place} bytes");
        assert_eq!(printed.status.code(), Some(0), "after {place} bytes");
        assert_eq!(expected.next(), None, "ends after {place} bytes");
    });
}

/// A stream of 64 MB in an address space of a quarter of it.
#[test]
fn memory_is_fixed() {
    let random = &mut Random::new(5);
    let large = streams::longest().repeat(10);
    let unit = [large, streams::long(random, 40_000)].concat();
    let repeats = LONG_STREAM / unit.len() + 1;
    let limit = format!("ulimit -v {ADDRESS_SPACE}");
    let envelopes = reference::listing(&unit);
    let envelopes = String::from_utf8_lossy(&envelopes)
        .matches("bundle")
        .count();
    let listed = listed_again_and_again(&unit).take(envelopes * repeats);
    let listing = &mut LISTING.command_after(&limit, "");
    assert_streams(listing, &unit, repeats, listed.flatten());
    let tidied = reference::tidy(&unit);
    let tidied = (0..repeats).flat_map(|_| tidied.iter().copied());
    assert_streams(&mut TIDY.command_after(&limit, ""), &unit, repeats, tidied);
}
