//! bully-fuzz SECONDS [SEED]: compares the proved library's Bully machine (T-07) with this program's for so
//! long, on random runs from all Down, random tables and any bytes, the same ones for the same seed, and
//! checks T-07's claims on every table of the runs. Prints how often each corner was met; on a difference the
//! shortest list of events it can find; and last `N passed, M failed`. With 10 seconds or more it goes on while
//! a corner was met fewer than a thousand times, up to four times as long in all; such a corner is then a
//! failure. The exit code is 1 on a failure.

use peer::bully::fuzzing::Fuzz;
use peer::ending::ended;
use peer::fuzz_loop::fuzzed;
use std::process::ExitCode;

fn main() -> ExitCode {
    ended(fuzzed("bully-fuzz", 10, Fuzz::new))
}
