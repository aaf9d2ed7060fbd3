//! check-trace PROGRAM [LISTS_DIR ..]: compares the proved library's trace, and the program `trace`, with this crate's, byte
//! for byte, and what the library prints for the bench program with that text read off the trace: on each NAME.list of the
//! directories, cut and damaged too, and on random lists, the same ones each time, some of them damaged, empty, as long as
//! may be, and longer. All go through the library, and a part through the program, since a process takes long. Prints
//! how often each corner was met, and last `N passed, M failed`. It ends at the first difference, with status 1; with 2
//! where the library, the program or the lists can't be had.

use peer::ending::ended;
use peer::trace::check::checked;
use std::process::ExitCode;

fn main() -> ExitCode {
    ended(checked("check-trace"))
}
