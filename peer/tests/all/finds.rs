//! What a fuzzer finds, for the tests of libraries that are wrong on purpose.

use peer::fuzz_loop::Fuzzer;
use std::time::Duration;

/// Whether it finds something in so many of its parts.
pub fn found_soon(mut fuzz: impl Fuzzer, parts: u64) -> bool {
    (0..parts).any(|_| {
        fuzz.part();
        fuzz.outcome().failed > 0
    })
}

/// How many failures it finds in so many seconds; it ends at enough differences.
pub fn found_in(mut fuzz: impl Fuzzer, seconds: u64) -> u64 {
    fuzz.go_on(Duration::from_secs(seconds), 0);
    fuzz.tell(0).1
}
