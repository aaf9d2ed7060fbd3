//! list-of-text: reads a text as `text-of-list` and T-01 of document 02 print it, and writes its list; or says on standard
//! error in which line and column the text is wrong and what was expected there, and writes nothing. The status is 0 then
//! too; where the input can't be read or the list can't be written, it says so and ends with status 1.

use peer::list_text::list_of_text::{print, MAX_TEXT};
use peer::two_bytes::program::run;
use std::process::ExitCode;

fn main() -> ExitCode {
    run(MAX_TEXT + 1, print)
}
