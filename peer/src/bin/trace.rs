//! trace: reads a list and prints its run step by step: each event with its answer, the record that changed, the messages
//! that were taken out and put in, and at the end the bench program's table. Where the input can't be read or the text
//! can't be written, it says so and ends with status 1.

use peer::list::MAX_LIST;
use peer::two_bytes::program::run;
use std::process::ExitCode;

fn main() -> ExitCode {
    run(MAX_LIST + 1, peer::trace::text::print)
}
