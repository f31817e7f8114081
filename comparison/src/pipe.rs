//! A pipe into which a piece goes only once the reader has taken the one before.
//!
//! So the reader sees the pieces as they were cut, however fast either side is.

use std::ffi::{c_int, c_ulong};
use std::io::{self, Write};
use std::os::fd::AsRawFd;
use std::process::ChildStdin;
use std::thread;

extern "C" {
    fn ioctl(file: c_int, request: c_ulong, ...) -> c_int;
    fn poll(files: *mut Polled, count: c_ulong, timeout: c_int) -> c_int;
}

/// How many bytes wait in a pipe (Linux).
const FIONREAD: c_ulong = 0x541B;

/// The pipe has no reader any more.
const POLLERR: i16 = 8;

/// C's `struct pollfd`.
#[repr(C)]
struct Polled {
    file: c_int,
    events: i16,
    happened: i16,
}

/// The writing end of a pipe to a process.
pub struct Pipe(ChildStdin);

impl Pipe {
    pub fn to(input: ChildStdin) -> Pipe {
        Pipe(input)
    }

    /// Writes a piece and waits until it is taken, or fails if nobody is there to take it.
    pub fn hand_over(&mut self, piece: &[u8]) -> io::Result<()> {
        self.0.write_all(piece)?;
        while self.waiting()? > 0 {
            if self.is_abandoned() {
                return Err(io::ErrorKind::BrokenPipe.into());
            }
            thread::yield_now();
        }
        Ok(())
    }

    fn waiting(&self) -> io::Result<c_int> {
        let mut bytes: c_int = 0;
        // SAFETY: the file is open, and the request writes one number.
        match unsafe { ioctl(self.0.as_raw_fd(), FIONREAD, &mut bytes) } {
            0 => Ok(bytes),
            _ => Err(io::Error::last_os_error()),
        }
    }

    fn is_abandoned(&self) -> bool {
        let mut polled = Polled {
            file: self.0.as_raw_fd(),
            events: 0,
            happened: 0,
        };
        // SAFETY: there is one structure, and no waiting.
        unsafe { poll(&mut polled, 1, 0) };
        polled.happened & POLLERR != 0
    }
}
