//! Standard output, and how far long work has come, on standard error.

use crate::failure::Failure;
use std::io::{ErrorKind, IsTerminal, Write};

/// Writes all bytes to standard output.
pub fn write(bytes: &[u8]) -> Result<(), Failure> {
    let mut out = std::io::stdout().lock();
    out.write_all(bytes).and_then(|()| out.flush()).map_err(|error| match error.kind() {
        ErrorKind::BrokenPipe => Failure::ClosedPipe,
        _ => Failure::Transfer(format!("standard output: {error}")),
    })
}

/// How many bytes were written: a line on standard error, which is written anew for each piece and
/// is gone at the end. Only where standard error is a terminal and standard output is none.
pub struct Progress {
    shown: bool,
    bytes: usize,
}

impl Progress {
    pub fn new() -> Progress {
        let shown = std::io::stderr().is_terminal() && !std::io::stdout().is_terminal();
        Progress { shown, bytes: 0 }
    }

    pub fn add(&mut self, bytes: usize) {
        self.bytes += bytes;
        if self.shown {
            let tenths = self.bytes / 100_000;
            let _ = write!(std::io::stderr(), "\r{}.{} MB written", tenths / 10, tenths % 10);
        }
    }
}

impl Drop for Progress {
    fn drop(&mut self) {
        if self.shown {
            let _ = write!(std::io::stderr(), "\r\x1b[K");
        }
    }
}
