//! read-aut FILE..: reads labelled transition systems in the Aldebaran form, `-` or no argument being
//! standard input. Prints a line of facts for each, e.g.
//!
//! NAME: states 5, transitions 4, labels 4, deterministic, deadlocks 3, depth 2, tree
//!
//! or, on standard error, where it breaks the form's rules, which edge it repeats or which state it
//! does not reach; and last `N passed, M failed`. The exit code is 1 if a system failed and 2 if a file
//! could not be read; it counts as failed, and the others are read all the same.

use peer::aut;
use std::ffi::{OsStr, OsString};
use std::fs;
use std::io::{self, Read};
use std::path::Path;
use std::process::ExitCode;

fn main() -> ExitCode {
    let mut names: Vec<OsString> = std::env::args_os().skip(1).collect();
    if names.is_empty() {
        names.push("-".into());
    }
    let mut passed = 0;
    let mut code = 0;
    for name in &names {
        let shown = if name == "-" { Path::new("standard input") } else { Path::new(name) };
        let shown = shown.display();
        let told = contents(name).map_err(|e| (2, e.to_string()));
        match told.and_then(|text| facts(&text).map_err(|words| (1, words))) {
            Ok(facts) => {
                passed += 1;
                println!("{shown}: {facts}");
            }
            Err((fault_code, words)) => {
                code = code.max(fault_code);
                eprintln!("{shown}: {words}");
            }
        }
    }
    println!("{passed} passed, {} failed", names.len() - passed);
    ExitCode::from(code)
}

fn contents(name: &OsStr) -> io::Result<Vec<u8>> {
    if name != "-" {
        return fs::read(name);
    }
    let mut text = Vec::new();
    io::stdin().lock().read_to_end(&mut text)?;
    Ok(text)
}

/// The facts, or words of what is wrong.
fn facts(text: &[u8]) -> Result<aut::Facts, String> {
    let system = aut::read(text).map_err(|fault| fault.to_string())?;
    match system.defect() {
        None => Ok(system.facts()),
        Some(defect) => Err(defect.to_string()),
    }
}
