//! How long the fuzzers go on.

use peer::fuzz_loop::{goes_on, Fuzzer};
use peer::fuzzing::Fuzz;
use peer::proved::Own;
use std::time::{Duration, Instant};

#[test]
fn time_to_go_on() {
    let after = |millis, too_seldom| {
        goes_on(Duration::from_secs(60), Duration::from_millis(millis), || too_seldom)
    };
    for too_seldom in [false, true] {
        assert!(after(0, too_seldom));
        assert!(after(59_999, too_seldom));
        assert!(!after(240_000, too_seldom));
        assert!(!after(300_000, too_seldom));
        assert!(!goes_on(Duration::ZERO, Duration::ZERO, || too_seldom));
    }
    for millis in [60_000, 60_001, 239_999] {
        assert!(after(millis, true));
        assert!(!after(millis, false));
    }
}

/// The fuzzers go on to the end of the longer time where no corner is met often enough.
#[test]
fn fuzzers_go_on() {
    let asked = Duration::from_millis(100);
    let start = Instant::now();
    Fuzz::new(Own, 1).go_on(asked, u64::MAX);
    assert!(start.elapsed() >= 4 * asked);
    let start = Instant::now();
    peer::bully::fuzzing::Fuzz::new(Own, 1).go_on(asked, u64::MAX);
    assert!(start.elapsed() >= 4 * asked);
    let start = Instant::now();
    peer::round::fuzzing::Fuzz::new(Own, 1).go_on(asked, u64::MAX);
    assert!(start.elapsed() >= 4 * asked);
    let start = Instant::now();
    peer::controller::fuzzing::Fuzz::new(Own, 1).go_on(asked, u64::MAX);
    assert!(start.elapsed() >= 4 * asked);
}
