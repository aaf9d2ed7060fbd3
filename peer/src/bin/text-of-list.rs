//! text-of-list: reads a list and prints it as text, a line for n and one for each event, and `stopped b r` where it is
//! damaged. Nothing is run. Where the input can't be read or the text can't be written, it says so and ends with status 1.

use peer::list::MAX_LIST;
use peer::two_bytes::program::run;
use std::process::ExitCode;

fn main() -> ExitCode {
    run(MAX_LIST + 1, peer::list_text::text_of_list::print)
}
