//! What the programs say of what they refuse, in standard input and in files, and that the status is 1 then.

use std::collections::BTreeSet;
use std::fs;
use std::io::Write;
use std::os::fd::OwnedFd;
use std::os::unix::net::UnixStream;
use std::process::{Command, Stdio};
use std::thread;

use comparison::folder::Folder;
use comparison::program::{Program, LISTING, PROGRAMS, TIDY};
use comparison::refusals::{
    good, refusal, refused, refused_bundles, refused_envelopes, BAD_LENGTH, BAD_VERSION, GROWN,
};
use comparison::run::{Printed, Run};
use comparison::streams;
use reference::generate::streams::{envelope, stream};
use reference::generate::Random;
use reference::{Input, MAX_BYTES};

/// So many lists of files are generated.
const LISTS: u64 = 200;

fn folder(name: &str) -> Folder {
    Folder::with_files(env!("CARGO_TARGET_TMPDIR"), name)
}

#[test]
fn every_refusal() {
    let folder = folder("every_refusal");
    for (bad, text) in [refused_bundles(), refused_envelopes()].concat() {
        let input = [good(), good(), bad].concat();
        let said = format!("standard input: envelope 3: {text}");
        for program in &PROGRAMS {
            let printed = program.run().given(&input);
            program.assert_says(&printed, &program.output(&input), &[&said], 1);
        }
        folder.put("input", &input);
        let said = format!("input: envelope 3: {text}");
        folder.assert_run(&["input"], &input, &[&said], 1);
    }
}

/// Only `tidy` minds a canonical encoding that is too long.
#[test]
fn canonical_encoding_too_long() {
    let folder = folder("canonical_encoding_too_long");
    let grown = streams::grown(MAX_BYTES + 1);
    folder.put("grown", &grown);
    let said = format!("grown: envelope 2: {GROWN}");
    let printed = folder.run(&TIDY, &["good", "grown", "good"]);
    TIDY.assert_says(&printed, &TIDY.output(&good()), &[&said], 1);
    let printed = folder.run(&LISTING, &["good", "grown", "good"]);
    let listed = LISTING.output(&[good(), grown, good()].concat());
    LISTING.assert_says(&printed, &listed, &[], 0);
}

/// Of many refusals the first is said, whether they are in one input or in several.
#[test]
fn one_refusal_is_said() {
    let folder = folder("one_refusal_is_said");
    let bad = envelope(b"\xC1d\xC1m");
    let many = [good(), refused(), bad, refused()].concat().repeat(3_000);
    let ended = [many.clone(), vec![0, 0]].concat();
    folder.put("many", &many);
    folder.put("ended", &ended);
    let said = refusal("standard input", 2);
    for program in &PROGRAMS {
        let printed = program.run().given(&ended);
        program.assert_says(&printed, &program.output(&ended), &[&said], 1);
    }
    let said = refusal("many", 2);
    folder.assert_run(&["many"], &many, &[&said], 1);
    let files = ["many", "many", "refused", "ended", "good"];
    let stream = [many.clone(), many, refused(), ended].concat();
    folder.assert_run(&files, &stream, &[&said], 1);
}

/// A refused bundle ends `tidy` only.
#[test]
fn refused_bundles_in_each_file() {
    let folder = folder("refused_bundles_in_each_file");
    for place in 0..3 {
        let mut files = ["good"; 3];
        let mut envelopes = [good(), good(), good()];
        files[place] = "refused";
        envelopes[place] = refused();
        let said = refusal("refused", place + 1);
        folder.assert_run(&files, &envelopes.concat(), &[&said], 1);
    }
}

/// A refused envelope ends both, and the files after it are not opened.
#[test]
fn refused_envelopes_in_each_file() {
    let folder = folder("refused_envelopes_in_each_file");
    folder.put("version", &[0, 1, 2]);
    for (name, bytes, text) in [
        ("cut", &good()[..4], BAD_LENGTH),
        ("version", &[0, 1, 2], BAD_VERSION),
    ] {
        for place in 0..3 {
            let files = [&["good"; 3][..place], &[name, "missing", "good"]].concat();
            let stream = [&good().repeat(place), bytes].concat();
            let said = format!("{name}: envelope {}: {text}", place + 1);
            folder.assert_run(&files, &stream, &[&said], 1);
        }
    }
}

/// An envelope ends with its file, wherever it is cut and though the next file has the rest.
#[test]
fn envelopes_over_two_files() {
    let folder = folder("envelopes_over_two_files");
    let said = format!("start: envelope 2: {BAD_LENGTH}");
    let whole = good();
    for end in 1..whole.len() {
        let (start, rest) = whole.split_at(end);
        let start = [&whole, start].concat();
        folder.put("start", &start);
        folder.put("rest", &[rest, &whole].concat());
        folder.assert_run(&["start", "rest"], &start, &[&said], 1);
    }
}

/// `listing` goes on to the file after a refused bundle, and both are said.
#[test]
fn refusal_and_failure() {
    let folder = folder("refusal_and_failure");
    let said = &refusal("refused", 2);
    let listed = LISTING.output(&[good(), refused(), good()].concat());
    for (name, text) in [
        ("missing", "missing: No such file or directory"),
        ("folder", "folder: Is a directory"),
    ] {
        let files = ["good", "refused", "good", name, "refused", "good"];
        let printed = folder.run(&LISTING, &files);
        LISTING.assert_says(&printed, &listed, &[said, text], 2);
        let printed = folder.run(&TIDY, &files);
        TIDY.assert_says(&printed, &TIDY.output(&good()), &[said], 1);
    }
}

/// Runs a program on a socket that has this input and then an error, which comes after the output.
fn on_broken_socket(program: &Program, input: &[u8], output: &[u8]) -> Printed {
    let (mut ours, mut theirs) = UnixStream::pair().expect("two sockets");
    // Since we do not take this byte, our closing is an error to the other side.
    theirs.write_all(b"x").expect("a socket that takes a byte");
    let mut run = Run::of(program.command().stdin(OwnedFd::from(theirs)));
    ours.write_all(input).expect("a program that reads");
    let before = run.next_exactly(output.len());
    drop(ours);
    let mut printed = run.finish();
    printed.output.splice(0..0, before);
    printed
}

/// Input that fails has not ended: an envelope is not refused for bytes that did not come.
#[test]
fn input_that_fails_at_last() {
    let failure = "standard input: Connection reset by peer";
    let input = [&good()[..], &good()[..4]].concat();
    for program in &PROGRAMS {
        let output = program.output(&good());
        let printed = on_broken_socket(program, &input, &output);
        program.assert_says(&printed, &output, &[failure], 2);
    }
    let input = [good(), refused(), good()].concat();
    let output = LISTING.output(&input);
    let printed = on_broken_socket(&LISTING, &input, &output);
    // The failure is said at once, the refusal when the input has been dealt with.
    let said = refusal("standard input", 2);
    LISTING.assert_says(&printed, &output, &[failure, &said], 2);
}

/// The same order where output fails.
#[test]
fn output_that_fails() {
    let folder = folder("output_that_fails");
    folder.put("both", &[good(), refused()].concat());
    let failure = "standard output: No space left on device";
    let said = refusal("both", 2);
    for program in &PROGRAMS {
        let command = program.command_after("", "> /dev/full");
        let printed = folder.run_command(command, &["both", "missing"]);
        program.assert_says(&printed, b"", &[failure, &said], 2);
    }
}

/// What is printed of an input is written before its refusal is said.
#[test]
fn printed_first() {
    let folder = folder("printed_first");
    let cut = [&good()[..], &good()[..4]].concat();
    let said = format!("standard input: envelope 2: {BAD_LENGTH}");
    for program in &PROGRAMS {
        let mut command = program.command_after("", "2>&1");
        let printed = Run::of(command.stdin(Stdio::piped())).given(&cut);
        let said = format!("{}: {said}\n", program.name);
        let expected = [&program.output(&cut), said.as_bytes()].concat();
        assert_eq!(printed.output, expected, "{}", program.name);
        let command = program.command_after("", "2>&1");
        let printed = folder.run_command(command, &["good", "cut", "good"]);
        let said = said.replace("standard input", "cut");
        let expected = [&program.output(&cut), said.as_bytes()].concat();
        assert_eq!(printed.output, expected, "{}", program.name);
    }
}

/// Runs a program on files of which the last is a pipe, and writes to it once all this has come.
fn before_a_pipe(folder: &Folder, program: &Program, files: &[&str], expected: &[u8]) -> Vec<u8> {
    let mut command = program.command_after("", "2>&1");
    command.args(files).current_dir(folder.path(""));
    let mut run = Run::of(command.stdin(Stdio::null()));
    let before = run.next_exactly(expected.len());
    assert_eq!(before, expected, "{}", program.name);
    let pipe = folder.path("pipe");
    thread::spawn(move || fs::write(pipe, [0]).expect("a program that reads"));
    run.finish().output
}

/// A file is printed and its refusal said before the next one is opened.
#[test]
fn answers_while_the_next_file_is_waited_for() {
    let folder = folder("answers_while_the_next_file_is_waited_for");
    let made = Command::new("mkfifo").arg(folder.path("pipe")).status();
    assert!(made.expect("a program of the system").success());
    let listed = LISTING.output(&[good(), refused()].concat());
    let said = format!("listing: {}\n", refusal("refused", 2));
    let expected = [&listed, said.as_bytes()].concat();
    let files = ["good", "refused", "pipe"];
    let rest = before_a_pipe(&folder, &LISTING, &files, &expected);
    assert_eq!(rest, b"envelope 3 refused 12\n");
    let tidied = TIDY.output(&good());
    let rest = before_a_pipe(&folder, &TIDY, &["good", "pipe"], &tidied);
    let said = format!("tidy: pipe: envelope 2: {BAD_LENGTH}\n");
    assert_eq!(rest, said.as_bytes());
}

/// A stream for a file, some of them long.
fn file(random: &mut Random) -> Vec<u8> {
    let length = random.pick(&[0, 0, 2_000, 30_000]);
    [streams::long(random, length), stream(random)].concat()
}

#[test]
fn generated_lists_of_files() {
    let folder = folder("generated_lists_of_files");
    let mut met = BTreeSet::new();
    for seed in 0..LISTS {
        let random = &mut Random::new(seed);
        let names = &["a", "b", "c", "d"][..1 + random.below(4)];
        let streams = names.iter().map(|_| file(random)).collect::<Vec<_>>();
        let mut inputs = Vec::new();
        for (name, bytes) in names.iter().zip(&streams) {
            folder.put(name, bytes);
            let name = name.as_bytes();
            inputs.push(Input { name, bytes });
        }
        for program in &PROGRAMS {
            let printed = folder.run(program, names);
            program.assert_prints_for(&printed, &inputs);
            let source = printed.error.get(program.name.len() + 2).copied();
            met.insert((names.len(), source));
        }
    }
    // For each number of files: no refusal, and one in each of the files.
    assert_eq!(met.len(), 2 + 3 + 4 + 5, "{met:?}");
}

#[test]
fn manual_pages_have_the_words() {
    let listing = include_str!("../../man/listing.1");
    let tidy = include_str!("../../man/tidy.1");
    let texts = [refused_bundles(), refused_envelopes()].concat();
    let texts = texts.iter().map(|(_, text)| text.as_str());
    for text in texts.chain([GROWN]) {
        let words = text.split(": ").nth(1).expect("words");
        assert!(tidy.contains(words), "{words}");
        assert_eq!(listing.contains(words), text != GROWN, "{words}");
    }
}
