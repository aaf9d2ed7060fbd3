//! check-short-lists PROGRAM [FOLDER]: compares a program for document 02's T-01 with this crate's own
//! enumeration: on all 24 inputs, byte by byte, each once in one piece and once in two; and on wrong
//! inputs of every kind, random ones among them, the same ones each time. With a folder both are held to
//! its sums.txt, to its texts (N-L.txt) and to its wrong-inputs.txt. Then come calls of the proved library's
//! function, for all these kinds of inputs, from any byte of the text on and into buffers of any length.
//! Prints what was compared and how often each corner was met, and last `N passed, M failed`. It ends at the first
//! difference, with status 1; with 2 where the program or the vectors can't be read.

use peer::ending::ended;
use peer::two_bytes::{compare::compared, SHORT_LISTS};
use std::process::ExitCode;

fn main() -> ExitCode {
    ended(compared("check-short-lists", &SHORT_LISTS))
}
