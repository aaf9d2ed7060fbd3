//! aldebaran: reads two bytes, n and a length, and prints document 02's T-12: the lists of T-01 up to that
//! length as one transition system, in the Aldebaran text form; or `stopped 0 22` for any other input. Where
//! the input can't be read or the text can't be written, it says so and ends with status 1.

use peer::two_bytes::{program::run, ONE_TOO_MANY};
use std::process::ExitCode;

fn main() -> ExitCode {
    run(ONE_TOO_MANY, peer::aldebaran::print)
}
