//! Files in a folder of their own, and the programs run there on their names.

use std::ffi::OsStr;
use std::fs;
use std::path::{Path, PathBuf};
use std::process::{Command, Stdio};

use crate::program::{Program, PROGRAMS};
use crate::refusals::{good, refused};
use crate::run::{Printed, Run};

pub struct Folder(PathBuf);

impl Folder {
    /// An empty folder. What is left of an earlier test is removed.
    pub fn new(parent: &str, name: &str) -> Folder {
        let path = Path::new(parent).join(name);
        if path.exists() {
            fs::remove_dir_all(&path).expect("a folder that can be removed");
        }
        fs::create_dir_all(&path).expect("a folder that can be made");
        Folder(path)
    }

    /// A folder with a file that is good, one that is refused, one that is cut, and a folder.
    pub fn with_files(parent: &str, name: &str) -> Folder {
        let folder = Folder::new(parent, name);
        folder.put("good", &good());
        folder.put("refused", &refused());
        folder.put("cut", &good()[..4]);
        fs::create_dir(folder.path("folder")).expect("a folder that can be made");
        folder
    }

    pub fn path(&self, name: impl AsRef<Path>) -> PathBuf {
        self.0.join(name)
    }

    /// Makes a file.
    pub fn put(&self, name: impl AsRef<Path>, bytes: &[u8]) {
        fs::write(self.path(name), bytes).expect("a file that can be written");
    }

    /// Runs a program here, with nothing on standard input.
    pub fn run(&self, program: &Program, arguments: &[impl AsRef<OsStr>]) -> Printed {
        self.run_command(program.command(), arguments)
    }

    /// The same with a command that becomes a program.
    pub fn run_command(&self, mut command: Command, arguments: &[impl AsRef<OsStr>]) -> Printed {
        command.args(arguments).current_dir(&self.0);
        Run::of(command.stdin(Stdio::null())).finish()
    }

    /// Runs both programs on files, and panics unless they print what they do for this stream, say these lines after
    /// their names, and answer this status.
    pub fn assert_run(&self, files: &[&str], stream: &[u8], said: &[&str], status: i32) {
        for program in &PROGRAMS {
            let output = program.output(stream);
            program.assert_says(&self.run(program, files), &output, said, status);
        }
    }
}
