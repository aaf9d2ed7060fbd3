//! check-steps FILE: runs each case of a file in the form of steps.txt through the proved library and
//! through this program's machine, and compares both with what the case says. Prints each difference,
//! and last `N passed, M failed`. The exit code is 1 if a case failed and 2 if the file could not be
//! read.

use peer::compare::walk_difference;
use peer::ending::{counted, ended};
use peer::machine::step;
use peer::proved::{Library, Proved};
use peer::vectors::{read_steps, table_text, StepCase};
use std::process::ExitCode;

fn main() -> ExitCode {
    ended(run())
}

fn run() -> Result<(u64, u64), String> {
    let arguments: Vec<String> = std::env::args().skip(1).collect();
    let [file] = arguments.as_slice() else {
        return Err("check-steps FILE".to_string());
    };
    let text = std::fs::read_to_string(file).map_err(|e| format!("{file}: {e}"))?;
    counted(&read_steps(&text)?, |case| difference(&Proved, case))
}

/// The case on this program's machine; then through the library's step, on a table with zeros in what is no
/// part of it, and on one with random bytes there.
fn difference(library: &impl Library, case: &StepCase) -> Option<String> {
    let tell = |words: String| {
        Some(format!(
            "case {}: {:?} on n {}\n{}expected {:?}\n{}{words}",
            case.number,
            case.event,
            case.table.n,
            table_text(&case.table),
            case.answer,
            table_text(&case.after)
        ))
    };
    let mut table = case.table.clone();
    let own = step(&mut table, &case.event);
    if own != case.answer || table != case.after {
        return tell(format!("here {own:?}\n{}", table_text(&table)));
    }
    [None, Some(u64::from(case.number))].into_iter().find_map(|noise| {
        let found = walk_difference(library, &case.table, &[case.event], noise, None)?;
        tell(format!("the library: {}", found.words))
    })
}
