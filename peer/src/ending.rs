//! How the programs end.

use std::process::ExitCode;

/// Prints `N passed, M failed`, or in words why nothing could be run. The exit status is 1 when something
/// failed and 2 when nothing could be run.
pub fn ended(counts: Result<(u64, u64), String>) -> ExitCode {
    match counts {
        Ok((passed, failed)) => {
            println!("{passed} passed, {failed} failed");
            ExitCode::from(u8::from(failed > 0))
        }
        Err(words) => {
            eprintln!("{words}");
            ExitCode::from(2)
        }
    }
}

/// Prints the first difference, if there is one, at which a program ended after so many had passed. Gives how many passed
/// and how many failed.
pub fn told((passed, found): (u64, Result<(), String>)) -> (u64, u64) {
    if let Err(words) = &found {
        println!("{words}");
    }
    (passed, u64::from(found.is_err()))
}

/// Prints what is found of some cases and gives how many passed and how many failed. No cases are no pass.
pub fn counted<T>(cases: &[T], found: impl Fn(&T) -> Option<String>) -> Result<(u64, u64), String> {
    if cases.is_empty() {
        return Err("there are no cases".to_string());
    }
    let mut failed = 0;
    for words in cases.iter().filter_map(found) {
        failed += 1;
        println!("{words}");
    }
    Ok((cases.len() as u64 - failed, failed))
}
