//! A process that is given its standard input bit by bit and whose output and errors are taken meanwhile.

use std::io::{self, Read, Write};
use std::process::{Child, ChildStdin, Command, ExitStatus, Stdio};
use std::sync::mpsc::{sync_channel, Receiver, RecvTimeoutError, SyncSender};
use std::thread::{self, JoinHandle};
use std::time::Duration;

use crate::pipe::Pipe;

/// A program that prints nothing for so long hangs. It is far more than any needs.
const PATIENCE: Duration = Duration::from_secs(120);

/// What a process has printed, and how it ended.
pub struct Printed {
    pub output: Vec<u8>,
    pub error: Vec<u8>,
    pub status: ExitStatus,
}

impl Printed {
    pub fn error_text(&self) -> String {
        String::from_utf8_lossy(&self.error).into_owned()
    }
}

/// A process whose output a thread takes as it comes, and another what it says.
pub struct Run {
    child: Child,
    output: Receiver<Vec<u8>>,
    error: JoinHandle<Vec<u8>>,
    /// Output that was received and not yet handed on.
    received: Vec<u8>,
}

impl Run {
    /// Starts a command, whose standard input the caller has chosen.
    pub fn of(command: &mut Command) -> Run {
        command.stdout(Stdio::piped()).stderr(Stdio::piped());
        let mut child = command.spawn().expect("a process that starts");
        let stdout = child.stdout.take().expect("a pipe");
        // Bounded, so that a long output is not kept.
        let (sender, output) = sync_channel(64);
        thread::spawn(move || forward(stdout, &sender));
        let stderr = child.stderr.take().expect("a pipe");
        let error = thread::spawn(|| taken(stderr));
        Run {
            child,
            output,
            error,
            received: Vec::new(),
        }
    }

    pub fn take_input(&mut self) -> ChildStdin {
        self.child.stdin.take().expect("a pipe, taken once")
    }

    /// The next bytes of output, or `None` at its end.
    pub fn next_bytes(&mut self) -> Option<Vec<u8>> {
        if !self.received.is_empty() {
            return Some(std::mem::take(&mut self.received));
        }
        match self.output.recv_timeout(PATIENCE) {
            Ok(bytes) => Some(bytes),
            Err(RecvTimeoutError::Disconnected) => None,
            Err(RecvTimeoutError::Timeout) => {
                self.child.kill().expect("a process that can be killed");
                panic!("nothing printed for {} s", PATIENCE.as_secs());
            }
        }
    }

    /// The next so many bytes of output, or fewer if it ends.
    pub fn next_exactly(&mut self, length: usize) -> Vec<u8> {
        let mut bytes = Vec::new();
        while bytes.len() < length {
            let Some(more) = self.next_bytes() else { break };
            bytes.extend(more);
        }
        self.received = bytes.split_off(length.min(bytes.len()));
        bytes
    }

    /// Waits for the end of the output and of the process.
    pub fn finish(mut self) -> Printed {
        let mut output = Vec::new();
        while let Some(bytes) = self.next_bytes() {
            output.extend(bytes);
        }
        Printed {
            output,
            error: self.error.join().expect("a thread that ends"),
            status: self.child.wait().expect("a process that ends"),
        }
    }

    /// Gives the process this input, and then its end, while it prints.
    pub fn given(self, input: &[u8]) -> Printed {
        self.fed_by(|mut pipe| pipe.write_all(input))
    }

    /// The same in pieces, each of which the process has taken before it gets the next one.
    pub fn given_one_by_one<'a>(
        self,
        mut pieces: impl Iterator<Item = &'a [u8]> + Send,
    ) -> Printed {
        self.fed_by(|input| {
            let mut pipe = Pipe::to(input);
            pieces.try_for_each(|piece| pipe.hand_over(piece))
        })
    }

    fn fed_by(mut self, feed: impl FnOnce(ChildStdin) -> io::Result<()> + Send) -> Printed {
        let input = self.take_input();
        thread::scope(|scope| {
            // It fails where the process reads no more, which the process may choose to.
            scope.spawn(|| feed(input));
            self.finish()
        })
    }
}

fn forward(mut stdout: impl Read, sender: &SyncSender<Vec<u8>>) {
    let mut bytes = vec![0; 1 << 16];
    while let Ok(length @ 1..) = stdout.read(&mut bytes) {
        if sender.send(bytes[..length].to_vec()).is_err() {
            break;
        }
    }
}

fn taken(mut stderr: impl Read) -> Vec<u8> {
    let mut bytes = Vec::new();
    stderr.read_to_end(&mut bytes).expect("a pipe that is read");
    bytes
}
