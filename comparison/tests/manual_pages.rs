//! The examples of the manual pages print what the pages show, run in a shell as they stand there.

use comparison::folder::Folder;
use comparison::program::{Program, LISTING, TIDY};
use std::process::Command;

/// The commands of an example, each after a `$`, and the lines that it shows.
struct Example {
    commands: String,
    shown: String,
}

/// A line of the page without the marks of the typesetter.
fn plain(line: &str) -> String {
    line.replace(r"\(aq", "'")
        .replace(r"\e", r"\")
        .replace(r"\-", "-")
}

fn examples(page: &str) -> Vec<Example> {
    let blocks = page.split("\n.nf\n.RS\n").skip(1);
    let blocks = blocks.map(|block| block.split("\n.RE").next().expect("lines"));
    blocks.map(example).collect()
}

fn example(block: &str) -> Example {
    let (mut commands, mut shown) = (String::new(), String::new());
    for line in block.lines().map(plain) {
        match line.strip_prefix("$ ") {
            Some(command) => commands += &format!("{command}\n"),
            None => shown += &format!("{line}\n"),
        }
    }
    Example { commands, shown }
}

fn assert_shows(program: &Program, page: &str, count: usize) {
    let examples = examples(page);
    assert_eq!(examples.len(), count, "examples of {}", program.name);
    let built = program.path();
    let built = built.parent().expect("a folder").canonicalize();
    let path = built.expect("a folder").into_os_string();
    let path = path.into_string().expect("a name") + ":/usr/bin:/bin";
    for (number, Example { commands, shown }) in examples.iter().enumerate() {
        let folder = Folder::new(
            env!("CARGO_TARGET_TMPDIR"),
            &format!("{}-{number}", program.name),
        );
        let mut shell = Command::new("sh");
        shell
            .env("PATH", &path)
            .arg("-c")
            .arg(format!("exec 2>&1\n{commands}"));
        let printed = folder.run_command(shell, &[""; 0]);
        assert_eq!(&String::from_utf8_lossy(&printed.output), shown);
    }
}

#[test]
fn listing() {
    assert_shows(&LISTING, include_str!("../../man/listing.1"), 3);
}

#[test]
fn tidy() {
    assert_shows(&TIDY, include_str!("../../man/tidy.1"), 2);
}
