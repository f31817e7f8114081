//! The programs' arguments, what they say of files, and that the status is 2 where something fails.

use std::ffi::OsStr;
use std::os::unix::ffi::OsStrExt;
use std::process::Stdio;

use comparison::folder::Folder;
use comparison::program::{LISTING, PROGRAMS};
use comparison::refusals::{good, refusal, refused};
use comparison::run::Run;
use comparison::streams;
use reference::generate::Random;

const LISTING_HELP: &str = "\
usage: listing [FILE]...
Prints the rows of the nachricht messages in each FILE, or in standard input if none is named.

  --help     prints this
  --version  prints the version

Exit status: 0 if every message is good, 1 if one is refused, 2 if an argument is wrong or reading or writing fails.
";

const TIDY_HELP: &str = "\
usage: tidy [FILE]...
Copies the nachricht messages of each FILE, or of standard input if none is named, to standard output, each in its
canonical encoding. It ends at the first that is refused.

  --help     prints this
  --version  prints the version

Exit status: 0 if every message is good, 1 if one is refused, 2 if an argument is wrong or reading or writing fails.
";

/// What neither program knows.
const UNKNOWN: [&str; 10] = [
    "-", "--", "---", "-h", "-good", "--hel", "--helpx", "--help=1", "--Help", "-\n",
];

const MISSING: &str = "missing: No such file or directory";

const NOT_TEXT: &[u8] = b"Invalid or incomplete multibyte or wide character\n";
const FULL: &str = "standard output: No space left on device";
const CLOSED: &str = "standard output: Bad file descriptor";

fn folder(name: &str) -> Folder {
    Folder::with_files(env!("CARGO_TARGET_TMPDIR"), name)
}

#[test]
fn several_files() {
    let folder = folder("several_files");
    let long = streams::long(&mut Random::new(6), 300_000);
    let longest = streams::longest().repeat(12);
    folder.put("empty", b"");
    folder.put("long", &long);
    folder.put("longest", &longest);
    folder.assert_run(&["good"], &good(), &[], 0);
    folder.assert_run(&["empty"], b"", &[], 0);
    folder.assert_run(&["good", "empty", "good"], &good().repeat(2), &[], 0);
    let files = ["longest", "good", "long", "empty", "longest", "long"];
    let stream = [&longest[..], &good(), &long, &longest, &long].concat();
    folder.assert_run(&files, &stream, &[], 0);
}

/// No more than one file is open at a time.
#[test]
fn files_are_closed() {
    let folder = folder("files_are_closed");
    let files = ["good"; 200];
    for program in &PROGRAMS {
        let command = program.command_after("ulimit -n 8", "");
        let printed = folder.run_command(command, &files);
        let output = program.output(&good().repeat(files.len()));
        program.assert_says(&printed, &output, &[], 0);
    }
}

/// A name in a message is the one that was given.
#[test]
fn names_as_given() {
    let folder = folder("names_as_given");
    let absolute = folder.path("refused").display().to_string();
    for name in ["refused", "folder/../refused", &absolute] {
        let said = refusal(name, 1);
        folder.assert_run(&[name], &refused(), &[&said], 1);
    }
    for name in ["a b", " ", "%s%n", "\u{e4}", "-x", "--help"] {
        folder.put(name, &refused());
        let below = &format!("./{name}");
        let said = refusal(below, 1);
        folder.assert_run(&[below], &refused(), &[&said], 1);
    }
}

/// The standard library of the programs has no path that is not UTF-8. Such a file is refused as one that cannot be opened,
/// and standard input takes it.
#[test]
fn name_that_is_not_utf8_is_not_opened() {
    let folder = folder("name_that_is_not_utf8_is_not_opened");
    let name = OsStr::from_bytes(b"\xFF\n");
    folder.put(name, &refused());
    for program in &PROGRAMS {
        let printed = folder.run(program, &[name]);
        let said = [program.name.as_bytes(), b": \xFF\n: ", NOT_TEXT].concat();
        assert_eq!(printed.error, said);
        assert_eq!(printed.output, b"");
        assert_eq!(printed.status.code(), Some(2));
    }
}

#[test]
#[ignore = "the standard library of the programs opens no path that is not UTF-8"]
fn name_that_is_not_utf8() {
    let folder = folder("name_that_is_not_utf8");
    let name = OsStr::from_bytes(b"\xFF\n");
    folder.put(name, &refused());
    for program in &PROGRAMS {
        let printed = folder.run(program, &[name]);
        let start = [program.name.as_bytes(), b": \xFF\n: envelope 1: "].concat();
        assert!(printed.error.starts_with(&start), "{:?}", printed.error);
        assert_eq!(printed.status.code(), Some(1));
    }
}

#[test]
fn files_that_cannot_be_read() {
    let folder = folder("files_that_cannot_be_read");
    for (name, said) in [
        ("missing", MISSING),
        ("folder", "folder: Is a directory"),
        ("good/x", "good/x: Not a directory"),
        ("", ": No such file or directory"),
    ] {
        folder.assert_run(&[name], b"", &[said], 2);
        folder.assert_run(&[name, "good"], b"", &[said], 2);
        folder.assert_run(&[name, "refused", "missing"], b"", &[said], 2);
        folder.assert_run(&["good", name, "refused"], &good(), &[said], 2);
        folder.assert_run(&["good", "good", name], &good().repeat(2), &[said], 2);
    }
}

/// The system takes 4,095 bytes.
#[test]
fn long_names() {
    let folder = folder("long_names");
    let long_name = |length: usize| [".", &"/".repeat(length - 8), "refused"].concat();
    let longest = &long_name(4_095);
    let said = refusal(longest, 1);
    folder.assert_run(&[longest], &refused(), &[&said], 1);
    let longer = &long_name(4_096);
    let said = format!("{longer}: File name too long");
    folder.assert_run(&["good", longer, "good"], &good(), &[&said], 2);
    let said = "argument: File name too long";
    for length in [4_097, 4_098, 10_000] {
        let name = &long_name(length);
        folder.assert_run(&[name], b"", &[said], 2);
        folder.assert_run(&["good", name, "good"], &good(), &[said], 2);
    }
}

/// After output that failed no file is opened.
#[test]
fn output_that_cannot_be_written() {
    let folder = folder("output_that_cannot_be_written");
    for program in &PROGRAMS {
        for (redirection, said) in [("> /dev/full", FULL), (">&-", CLOSED)] {
            for files in [&["good"][..], &["good", "missing", "refused"]] {
                let command = program.command_after("", redirection);
                let printed = folder.run_command(command, files);
                program.assert_says(&printed, b"", &[said], 2);
            }
        }
    }
}

/// Where files are named standard input is left alone.
#[test]
fn standard_input_beside_files() {
    let folder = folder("standard_input_beside_files");
    for program in &PROGRAMS {
        let mut command = program.command();
        command.arg("good").current_dir(folder.path(""));
        let mut run = Run::of(command.stdin(Stdio::piped()));
        let open = run.take_input();
        program.assert_says(&run.finish(), &program.output(&good()), &[], 0);
        drop(open);
    }
}

/// Where standard input is closed, a file may get its number.
#[test]
fn files_without_standard_input() {
    let folder = folder("files_without_standard_input");
    let command = LISTING.command_after("", "<&-");
    let printed = folder.run_command(command, &["good", "refused", "missing"]);
    let listed = LISTING.output(&[good(), refused()].concat());
    let said = refusal("refused", 2);
    LISTING.assert_says(&printed, &listed, &[&said, MISSING], 2);
}

/// Where standard error is closed, the status still tells.
#[test]
fn status_without_standard_error() {
    let folder = folder("status_without_standard_error");
    for program in &PROGRAMS {
        for (file, status) in [("good", 0), ("refused", 1), ("missing", 2), ("-x", 2)] {
            let command = program.command_after("", "2>&-");
            let printed = folder.run_command(command, &[file]);
            assert_eq!(printed.status.code(), Some(status), "{file}");
        }
    }
}

/// An option among files, none of which is read; nor is standard input, which stays open.
fn assert_option(folder: &Folder, option: &str, output: [&str; 2], said: &[&str], status: i32) {
    for arguments in [
        &[option][..],
        &[option, "good"],
        &["good", "refused", option],
        &["missing", option, "good"],
        &["", option, "folder"],
        // The first option decides.
        &["good", option, "--help"],
        &[option, "--version"],
        &[option, "-x", "missing"],
    ] {
        for (program, output) in PROGRAMS.iter().zip(output) {
            let mut command = program.command();
            command.args(arguments).current_dir(folder.path(""));
            let mut run = Run::of(command.stdin(Stdio::piped()));
            let open = run.take_input();
            program.assert_says(&run.finish(), output.as_bytes(), said, status);
            drop(open);
        }
    }
}

#[test]
fn help() {
    let folder = folder("help");
    let output = [LISTING_HELP, TIDY_HELP];
    assert_option(&folder, "--help", output, &[], 0);
}

#[test]
fn version() {
    let folder = folder("version");
    let output = ["listing 0.1.0\n", "tidy 0.1.0\n"];
    assert_option(&folder, "--version", output, &[], 0);
}

/// The version is that of the Rust crate.
#[test]
fn version_of_the_crate() {
    let manifest = include_str!("../../bindings/rust/Cargo.toml");
    let mut lines = manifest.lines();
    let version = lines.find_map(|line| line.strip_prefix("version = "));
    let version = version.expect("a version").trim_matches('"');
    for program in &PROGRAMS {
        let mut command = program.command();
        let printed = Run::of(command.arg("--version").stdin(Stdio::null())).finish();
        let output = format!("{} {version}\n", program.name);
        program.assert_says(&printed, output.as_bytes(), &[], 0);
    }
}

#[test]
fn help_and_version_that_cannot_be_written() {
    let folder = folder("help_and_version_that_cannot_be_written");
    for program in &PROGRAMS {
        for (redirection, said) in [("> /dev/full", FULL), (">&-", CLOSED)] {
            for option in ["--help", "--version"] {
                let command = program.command_after("", redirection);
                let printed = folder.run_command(command, &[option, "missing"]);
                program.assert_says(&printed, b"", &[said], 2);
            }
        }
    }
}

#[test]
fn unknown_options() {
    let folder = folder("unknown_options");
    for option in UNKNOWN {
        let said = format!("{option}: unknown option, try --help");
        assert_option(&folder, option, ["", ""], &[&said], 2);
    }
}

/// Whether a long option is said in full is left open.
#[test]
fn long_arguments_and_options() {
    let folder = folder("long_arguments_and_options");
    let file = &"x".repeat(10_000);
    let option = &["-", file].concat();
    let printed = folder.run(&LISTING, &[file, "--help"]);
    LISTING.assert_says(&printed, LISTING_HELP.as_bytes(), &[], 0);
    for program in &PROGRAMS {
        let printed = folder.run(program, &["good", file, option, "--help"]);
        let said = printed.error_text();
        assert!(said.starts_with(&format!("{}: ", program.name)), "{said}");
        assert!(said.ends_with(": unknown option, try --help\n"), "{said}");
        assert_eq!(said.lines().count(), 1, "{said}");
        assert_eq!((printed.output, printed.status.code()), (vec![], Some(2)));
    }
}
