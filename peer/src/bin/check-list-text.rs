//! check-list-text TEXT_OF_LIST LIST_OF_TEXT [LISTS_DIR ..]: compares the proved library's two functions, and the two
//! programs, with this crate's `text-of-list` and `list-of-text`, byte for byte, standard error too: on each NAME.list of
//! the directories, cut at each length and with single bytes changed, and on random lists; on the texts of these in any
//! manner, with other words and other bytes, and on lines of T-01; and at the limits of lists and texts. They are the same
//! each time. All go through the library and through other readings of this crate's own, and a part through the
//! programs, since a process takes long. Prints how often each corner was met, and last `N passed, M failed`. It ends at
//! the first difference, with status 1; with 2 where the library, a program or the lists can't be had.

use peer::ending::ended;
use peer::list_text::check::checked;
use std::process::ExitCode;

fn main() -> ExitCode {
    ended(checked("check-list-text"))
}
