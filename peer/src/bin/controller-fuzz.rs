//! controller-fuzz SECONDS [SEED]: compares the proved library's controllers (T-11) with this program's for so long, on
//! calls of any cabinet with any event, message or bytes, and runs n of them over one queue of messages in bytes beside
//! the library's own step on the whole table, the same ones for the same seed. Prints how often each corner was met; on
//! a difference the smallest call or the fewest events it can find; and last `N passed, M failed`. With 10 seconds or
//! more it goes on while a corner was met fewer than a thousand times, up to four times as long in all; such a corner
//! is then a failure. The exit code is 1 on a failure.

use peer::controller::fuzzing::Fuzz;
use peer::ending::ended;
use peer::fuzz_loop::fuzzed;
use std::process::ExitCode;

fn main() -> ExitCode {
    ended(fuzzed("controller-fuzz", 10, Fuzz::new))
}
