//! rest-fuzz SECONDS [SEED]: takes random runs with stretches of deliver, lose, expire, tick and finish, and with turns
//! (T-09), through the proved library and this program's machine for so long, the same ones for the same seed, and
//! checks that the potential of T-13 falls in each of them that is accepted and that no table has a larger one than
//! the bound. Prints how often each corner was met, and the largest shares; on a difference the shortest run it can
//! find; and last `N passed, M failed`. With 10 seconds or more it goes on while a corner was met fewer than a
//! thousand times, up to four times as long in all; such a corner is then a failure. The exit code is 1 on a failure.

use peer::ending::ended;
use peer::fuzz_loop::fuzzed;
use peer::rest::fuzzing::Fuzz;
use std::process::ExitCode;

fn main() -> ExitCode {
    ended(fuzzed("rest-fuzz", 10, Fuzz::new))
}
