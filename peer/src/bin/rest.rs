//! rest: reads a list, runs it as the bench program does, goes round the pairs of T-09 from (1,2) on until no message
//! waits, and prints what the bench program would print of the table then, with a line `turns k` before the table
//! (T-13 of document 02). Where the input can't be read or the text can't be written, it says so and ends with status 1.

use peer::list::MAX_LIST;
use peer::two_bytes::program::run;
use std::process::ExitCode;

fn main() -> ExitCode {
    run(MAX_LIST + 1, peer::rest::text::print)
}
