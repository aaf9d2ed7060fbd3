//! check-rest PROGRAM [LISTS_DIR ..]: compares the proved library's function and a program for document 02's T-13 with this
//! crate's `rest`, byte for byte: on each NAME.list of the directories, and on random lists, the same ones each time, some
//! of them damaged, empty, too long or nearly; and reads each text by itself. Most random lists go through this crate's
//! own text and its reading alone, since the others take long. Prints how often each corner was met, and last
//! `N passed, M failed`. It ends at the first difference, with status 1; with 2 where the program or the lists can't be
//! read.

use peer::ending::ended;
use peer::rest::check::checked;
use std::process::ExitCode;

fn main() -> ExitCode {
    ended(checked("check-rest"))
}
