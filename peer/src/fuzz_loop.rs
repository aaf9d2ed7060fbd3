//! What the fuzzers have in common: what their programs are given, how long they go on, and what they tell.

use crate::compare::Difference;
use crate::proved::Proved;
use crate::tally::Book;
use std::time::{Duration, Instant};

/// After so many differences a fuzzer ends.
pub const ENOUGH: u64 = 5;

const SEED: u64 = 20_260;

/// What each fuzzing program does with the fuzzer that `new` makes of the library and the seed. Gives how many
/// comparisons passed and how many failed. With fewer seconds than `enough` no corner must be met.
pub fn fuzzed<F: Fuzzer>(
    program: &str,
    enough: u64,
    new: impl FnOnce(Proved, u64) -> F,
) -> Result<(u64, u64), String> {
    let (seconds, seed) = seconds_and_seed(program)?;
    println!("seed {seed}");
    let least = if seconds < enough { 0 } else { 1000 };
    let mut fuzz = new(Proved, seed);
    fuzz.go_on(Duration::from_secs(seconds), least);
    Ok(fuzz.tell(least))
}

/// What a program is given that goes on for so long: SECONDS [SEED].
pub fn seconds_and_seed(program: &str) -> Result<(u64, u64), String> {
    let arguments: Vec<String> = std::env::args().skip(1).collect();
    let numbers: Option<Vec<u64>> = arguments.iter().map(|word| word.parse().ok()).collect();
    match numbers.as_deref() {
        Some(&[seconds]) => Ok((seconds, SEED)),
        Some(&[seconds, seed]) => Ok((seconds, seed)),
        _ => Err(format!("{program} SECONDS [SEED]")),
    }
}

/// Whether a fuzzer goes on: for the time asked, and then while it has met a corner too seldom, for no longer
/// than four times the time asked in all.
pub fn goes_on(asked: Duration, passed: Duration, too_seldom: impl FnOnce() -> bool) -> bool {
    passed < asked || (passed < 4 * asked && too_seldom())
}

/// What a fuzzer's comparisons came to, and how long they took.
#[derive(Debug, Default)]
pub struct Outcome {
    pub passed: u64,
    pub failed: u64,
    seconds: f64,
}

impl Outcome {
    /// Whether there are enough differences.
    pub fn enough(&self) -> bool {
        self.failed >= ENOUGH
    }

    /// Counts the comparisons of a run of so many events, up to its difference if there is one, which is told in
    /// these words. Gives how many were made.
    pub fn count(
        &mut self,
        length: usize,
        found: Option<&Difference>,
        words: impl FnOnce() -> String,
    ) -> u64 {
        let events = found.map_or(length, |found| found.events) as u64;
        self.passed += events - u64::from(found.is_some());
        if found.is_some() {
            self.difference(words());
        }
        events
    }

    pub fn difference(&mut self, words: String) {
        self.fails(format!("difference {}: {words}", self.failed + 1));
    }

    /// Counts and prints a failure.
    pub fn fails(&mut self, words: String) {
        self.failed += 1;
        println!("{words}");
    }
}

pub trait Fuzzer {
    /// So much of each kind as stands in one part of the time.
    fn part(&mut self);

    fn outcome(&mut self) -> &mut Outcome;

    /// What it met.
    fn book(&self) -> &dyn Book;

    /// How many comparisons it made, and of what.
    fn compared(&self) -> (u64, &'static str);

    /// Prints how many there were of each kind; and what else is a failure.
    fn tell_kinds(&mut self);

    /// What it does every 30 seconds.
    fn under_way(&self, _seconds: u64) {}

    /// Compares for so long, and longer while a corner was met less often than so many times (`goes_on`), or
    /// until there are enough differences, which it prints.
    fn go_on(&mut self, time: Duration, least: u64) {
        let start = Instant::now();
        let mut told = 0;
        while !self.outcome().enough()
            && goes_on(time, start.elapsed(), || !self.book().seldom(least).is_empty())
        {
            self.part();
            let seconds = start.elapsed().as_secs();
            if seconds / 30 > told {
                told = seconds / 30;
                self.under_way(seconds);
            }
        }
        self.outcome().seconds += start.elapsed().as_secs_f64();
    }

    /// Prints the counts and gives how many comparisons passed and how many failed. What was met less often than
    /// so many times, where it must be met, is a failure too.
    fn tell(&mut self, least: u64) -> (u64, u64) {
        print!("{}", self.book().text());
        for words in self.book().impossible() {
            self.outcome().fails(format!("the papers have no place for this: {words}"));
        }
        for words in self.book().seldom(least) {
            self.outcome().fails(format!("met fewer than {least} times: {words}"));
        }
        self.tell_kinds();
        let (sum, what) = self.compared();
        let &mut Outcome { passed, failed, seconds } = self.outcome();
        println!("{sum} {what} in {seconds:.1} s, {:.0} a second", sum as f64 / seconds);
        (passed, failed)
    }
}
