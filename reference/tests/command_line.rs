//! The programs as processes: arguments, messages and exit status.

mod common;

use std::fs::{self, File};
use std::path::{Path, PathBuf};
use std::process::{Command, Stdio};

use common::hex;

const LISTING: &str = env!("CARGO_BIN_EXE_reference-listing");
const TIDY: &str = env!("CARGO_BIN_EXE_reference-tidy");

const GOOD: &str = "00 03 01 38 17";
const REFUSED: &str = "00 02 01 E0";

/// A folder with the files good, refused and cut.
fn folder(name: &str) -> PathBuf {
    let folder = Path::new(env!("CARGO_TARGET_TMPDIR")).join(name);
    fs::create_dir_all(&folder).expect("a folder");
    for (name, bytes) in [("good", GOOD), ("refused", REFUSED), ("cut", "00")] {
        fs::write(folder.join(name), hex(bytes)).expect("a file");
    }
    folder
}

/// What a process prints and says, and its status.
fn run(command: &mut Command) -> (Vec<u8>, String, Option<i32>) {
    let output = command.output().expect("a process that runs");
    let said = String::from_utf8(output.stderr).expect("UTF-8");
    (output.stdout, said, output.status.code())
}

fn program(path: &str, folder: &Path, arguments: &[&str]) -> Command {
    let mut command = Command::new(path);
    command.current_dir(folder).args(arguments);
    command.stdin(Stdio::null());
    command
}

#[test]
fn files() {
    let folder = folder("files");
    let line = "envelope 2: error 4 at 0: a reference to an entry not yet made\n";
    let (output, said, status) = run(&mut program(LISTING, &folder, &["good", "refused", "good"]));
    let listed = "bundle 1 rows 1 names 0\n0 6 23 0\nbundle 2 refused 4 at 0\n\
        bundle 3 rows 1 names 0\n0 6 23 0\n";
    assert_eq!(String::from_utf8_lossy(&output), listed);
    assert_eq!(said, format!("listing: refused: {line}"));
    assert_eq!(status, Some(1));
    let (output, said, status) = run(&mut program(TIDY, &folder, &["good", "refused", "good"]));
    assert_eq!(output, hex("00 02 01 37"));
    assert_eq!(said, format!("tidy: refused: {line}"));
    assert_eq!(status, Some(1));
}

#[test]
fn standard_input() {
    let folder = folder("standard_input");
    let from = |name| {
        let file = File::open(folder.join(name)).expect("a file");
        run(program(TIDY, &folder, &[]).stdin(file))
    };
    assert_eq!(from("good"), (hex("00 02 01 37"), String::new(), Some(0)));
    let line = "tidy: standard input: envelope 1: error 12 at 0: \
        the length of the envelope is bad, or bytes are missing\n";
    assert_eq!(from("cut"), (vec![], line.to_string(), Some(1)));
}

#[test]
fn failures() {
    let folder = folder("failures");
    let missing = "tidy: missing: No such file or directory\n";
    let after_good = run(&mut program(TIDY, &folder, &["good", "missing", "good"]));
    let tidied = hex("00 02 01 37");
    assert_eq!(after_good, (tidied, missing.to_string(), Some(2)));
    let (_, said, status) = run(&mut program(LISTING, &folder, &["refused", "."]));
    assert_eq!((said.lines().count(), status), (2, Some(2)));
    assert!(said.ends_with("\nlisting: .: Is a directory\n"), "{said}");
    for (length, name) in [(4_096, "x".repeat(4_096)), (4_097, "argument".to_string())] {
        let (_, said, status) = run(&mut program(TIDY, &folder, &["x".repeat(length).as_str()]));
        assert_eq!(said, format!("tidy: {name}: File name too long\n"));
        assert_eq!(status, Some(2));
    }
    let full = File::create("/dev/full").expect("a device");
    let (_, said, status) = run(program(TIDY, &folder, &["good"]).stdout(full));
    assert_eq!(said, "tidy: standard output: No space left on device\n");
    assert_eq!(status, Some(2));
}

#[test]
fn options() {
    let folder = folder("options");
    for arguments in [&["--version"][..], &["missing", "--version", "-x"]] {
        let (output, said, status) = run(&mut program(TIDY, &folder, arguments));
        assert_eq!(
            (&output[..], &said[..], status),
            (&b"tidy 0.1.0\n"[..], "", Some(0))
        );
    }
    let (output, said, status) = run(&mut program(LISTING, &folder, &["--help"]));
    assert!(output.starts_with(b"usage: listing [FILE]...\nPrints "));
    assert!(output.ends_with(b" reading or writing fails.\n"));
    assert_eq!((&said[..], status), ("", Some(0)));
    for option in ["-", "--", "-h", "--hel", "--help=1"] {
        let (output, said, status) = run(&mut program(LISTING, &folder, &["good", option]));
        assert_eq!(
            said,
            format!("listing: {option}: unknown option, try --help\n")
        );
        assert_eq!((output, status), (vec![], Some(2)));
    }
}
