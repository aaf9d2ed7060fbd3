//! fuzz SECONDS [SEED]: compares the proved library with this program's machine for so long, on
//! random runs, damaged lists and random tables, the same ones for the same seed. Prints how often
//! each corner was met; on a difference the shortest list or table it can find; and last
//! `N passed, M failed`. With 60 seconds or more it goes on while a corner was met fewer than a thousand
//! times, up to four times as long in all; such a corner is then a failure. The exit code is 1 on a failure.

use peer::ending::ended;
use peer::fuzz_loop::fuzzed;
use peer::fuzzing::Fuzz;
use std::process::ExitCode;

fn main() -> ExitCode {
    ended(fuzzed("fuzz", 60, Fuzz::new))
}
