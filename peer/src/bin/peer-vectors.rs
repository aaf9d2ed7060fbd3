//! peer-vectors LISTS_DIR STEPS_FILE [CALLS_FILE ..]: runs every vector on this program's machine alone,
//! prints each difference, and last `N passed, M failed`. The run of each list is also checked against its
//! history. The exit code is 1 if a vector failed and 2 if the vectors could not be read.

use peer::calls::{read_calls, FUNCTIONS};
use peer::compare::call_difference;
use peer::ending::{counted, ended};
use peer::history::check_run;
use peer::list::read_list;
use peer::machine::step;
use peer::print::run_list;
use peer::proved::Own;
use peer::vectors::{read_lists, read_steps, table_text, ListCase, StepCase};
use std::path::Path;
use std::process::ExitCode;

fn main() -> ExitCode {
    ended(run())
}

fn run() -> Result<(u64, u64), String> {
    let arguments: Vec<String> = std::env::args().skip(1).collect();
    let [lists, steps, calls @ ..] = arguments.as_slice() else {
        return Err("peer-vectors LISTS_DIR STEPS_FILE [CALLS_FILE ..]".to_string());
    };
    let read = |file: &str| std::fs::read_to_string(file).map_err(|e| format!("{file}: {e}"));
    let mut counts = vec![
        counted(&read_lists(Path::new(lists))?, list_difference)?,
        counted(&read_steps(&read(steps)?)?, step_difference)?,
    ];
    for file in calls {
        let cases =
            read_calls(&read(file)?, &FUNCTIONS).map_err(|words| format!("{file}: {words}"))?;
        counts.push(counted(&cases, |case| call_difference(&Own, case))?);
    }
    Ok(counts.iter().fold((0, 0), |sum, count| (sum.0 + count.0, sum.1 + count.1)))
}

fn list_difference(case: &ListCase) -> Option<String> {
    let printed = run_list(&case.list);
    let Some(text) = &case.text else {
        return Some(format!("list {}: no text beside it", case.name));
    };
    if printed != *text {
        return Some(format!(
            "list {}: expected\n{}printed\n{}",
            case.name,
            String::from_utf8_lossy(text),
            String::from_utf8_lossy(&printed)
        ));
    }
    let list = read_list(&case.list).ok()?;
    let words = check_run(list.n, list.limits, &list.events).err()?;
    Some(format!("list {}: {words}", case.name))
}

fn step_difference(case: &StepCase) -> Option<String> {
    let mut table = case.table.clone();
    let answer = step(&mut table, &case.event);
    if answer == case.answer && table == case.after {
        return None;
    }
    Some(format!(
        "case {}: {:?} on n {}\n{}expected {:?}\n{}got {:?}\n{}",
        case.number,
        case.event,
        case.table.n,
        table_text(&case.table),
        case.answer,
        table_text(&case.after),
        answer,
        table_text(&table)
    ))
}
