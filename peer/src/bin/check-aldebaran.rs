//! check-aldebaran PROGRAM [FOLDER]: compares a program for document 02's T-12 with this crate's own text, as
//! check-short-lists does for T-01: on all 15 inputs, and on wrong inputs of every kind. Each text of the
//! program is also read by itself, without the enumeration. A folder has sums.txt, texts (N-L.aut) and
//! wrong-inputs.txt. Then come calls of the proved library's function, for all these kinds of inputs, into buffers that are
//! too short, just so or longer. The last line is `N passed, M failed`. It ends at the first difference, with status 1; with 2
//! where the program or the vectors can't be read.

use peer::ending::ended;
use peer::two_bytes::{compare::compared, ALDEBARAN};
use std::process::ExitCode;

fn main() -> ExitCode {
    ended(compared("check-aldebaran", &ALDEBARAN))
}
