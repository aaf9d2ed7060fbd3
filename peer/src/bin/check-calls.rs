//! check-calls FILE: makes each call of a file of calls (tests/README.md has the form) through the proved
//! library and through this program's machine, and compares both with what the file says: the answer, and
//! every byte of the lent buffer. Prints each difference, and last `N passed, M failed`. The exit code is
//! 1 if a call failed and 2 if the file could not be read.

use peer::calls::{read_calls, CallCase, FUNCTIONS};
use peer::compare::call_difference;
use peer::ending::{counted, ended};
use peer::proved::{Library, Own, Proved};
use std::process::ExitCode;

fn main() -> ExitCode {
    ended(run())
}

fn run() -> Result<(u64, u64), String> {
    let arguments: Vec<String> = std::env::args().skip(1).collect();
    let [file] = arguments.as_slice() else {
        return Err("check-calls FILE".to_string());
    };
    let text = std::fs::read_to_string(file).map_err(|e| format!("{file}: {e}"))?;
    counted(&read_calls(&text, &FUNCTIONS)?, |case| difference(&Proved, case))
}

fn difference(library: &impl Library, case: &CallCase) -> Option<String> {
    let by = |who: &str, library: &dyn Library| {
        Some(format!("{who}: {}", call_difference(library, case)?))
    };
    by("here", &Own).or_else(|| by("the library", library))
}
