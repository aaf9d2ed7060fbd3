//! short-lists: reads two bytes, n and a length, and prints document 02's T-01: every list of that many
//! events that the machine accepts, and `lists k`; or `stopped 0 16` for any other input. Where the
//! input can't be read or the text can't be written, it says so and ends with status 1.

use peer::two_bytes::{program::run, ONE_TOO_MANY};
use std::process::ExitCode;

fn main() -> ExitCode {
    run(ONE_TOO_MANY, peer::short::print)
}
