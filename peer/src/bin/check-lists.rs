//! check-lists DIR: runs each NAME.list of a directory through the proved library, through this
//! program's machine and through the program written for speed, and compares them with each other and
//! with NAME.txt where it is there. Prints each difference, and last `N passed, M failed`. The exit code
//! is 1 if a list failed and 2 if the lists could not be read.

use peer::compare::{list_difference, run_difference};
use peer::ending::{counted, ended};
use peer::list::read_list;
use peer::print::run_list;
use peer::proved::{Library, Proved};
use peer::vectors::{read_lists, ListCase};
use std::path::Path;
use std::process::ExitCode;

fn main() -> ExitCode {
    ended(run())
}

fn run() -> Result<(u64, u64), String> {
    let arguments: Vec<String> = std::env::args().skip(1).collect();
    let [directory] = arguments.as_slice() else {
        return Err("check-lists DIR".to_string());
    };
    let cases = read_lists(Path::new(directory))?;
    let without = cases.iter().filter(|case| case.text.is_none()).count();
    println!("{} lists, {without} of them without a text", cases.len());
    counted(&cases, |case| Some(format!("list {}: {}", case.name, difference(&Proved, case)?)))
}

/// The text against this program's; against that the library's text and count, and the text of the program
/// written for speed; and every event through the library's step.
fn difference(library: &impl Library, case: &ListCase) -> Option<String> {
    if let Some(text) = &case.text {
        let printed = run_list(&case.list);
        if printed != *text {
            return Some(format!(
                "expected\n{}printed here\n{}",
                String::from_utf8_lossy(text),
                String::from_utf8_lossy(&printed)
            ));
        }
    }
    list_difference(library, &case.list).or_else(|| {
        let list = read_list(&case.list).ok()?;
        run_difference(library, list.n, list.limits, &list.events, None).map(|found| found.words)
    })
}
