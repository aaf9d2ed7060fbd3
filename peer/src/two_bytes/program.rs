//! What the peer's own programs have in common: they read their input and write a text.

use std::fs::File;
use std::io::{self, BufWriter, Read, Write};
use std::os::fd::AsFd;
use std::process::ExitCode;

/// Where the text goes.
pub type Out = BufWriter<File>;

const BUFFER: usize = 1 << 16;

/// Reads the input and prints its text. No more than so many bytes are read: an input that has so many is refused
/// whatever follows. Where the input can't be read or the text can't be written, it says so and ends with status 1.
pub fn run(most: usize, print: impl FnOnce(&[u8], &mut Out) -> io::Result<()>) -> ExitCode {
    match read(most).and_then(|input| write(print, &input)) {
        Ok(()) => ExitCode::SUCCESS,
        Err(words) => {
            eprintln!("{words}");
            ExitCode::FAILURE
        }
    }
}

fn read(most: usize) -> Result<Vec<u8>, String> {
    let mut input = Vec::new();
    let read = io::stdin().lock().take(most as u64).read_to_end(&mut input);
    read.map(|_| input).map_err(|e| format!("standard input: {e}"))
}

/// Writes to the file itself, since `io::stdout` would look for the ends of lines.
fn write(
    print: impl FnOnce(&[u8], &mut Out) -> io::Result<()>,
    input: &[u8],
) -> Result<(), String> {
    let fault = |e: io::Error| format!("standard output: {e}");
    let file = File::from(io::stdout().as_fd().try_clone_to_owned().map_err(fault)?);
    let mut out = BufWriter::with_capacity(BUFFER, file);
    let written = print(input, &mut out).and_then(|()| out.flush());
    // After a fault nothing further is written, not even what is left in the buffer.
    let _ = out.into_parts();
    written.map_err(fault)
}
