//! round-fuzz SECONDS [SEED]: compares the proved library's turns (T-09) with this program's for so long, on random
//! schedules of turns and other events and on turns of any bytes, the same ones for the same seed, and checks
//! T-09's bound on messages that it follows. Prints how often each corner was met, and how near the bound the
//! messages came; on a difference the shortest schedule it can find; and last `N passed, M failed`. With 10 seconds
//! or more it goes on while a corner was met fewer than a thousand times, up to four times as long in all; such a
//! corner is then a failure. The exit code is 1 on a failure.

use peer::ending::ended;
use peer::fuzz_loop::fuzzed;
use peer::round::fuzzing::Fuzz;
use std::process::ExitCode;

fn main() -> ExitCode {
    ended(fuzzed("round-fuzz", 10, Fuzz::new))
}
