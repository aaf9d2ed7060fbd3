//! The fuzzer of T-13: takes random runs with quiet stretches and turns through a library and this program's machine, the
//! same ones for the same seed, checks the potential on every table, and counts what was met.

use crate::fuzz_loop::{Fuzzer, Outcome};
use crate::numbers::Numbers;
use crate::proved::Library;
use crate::rest::compare::{rest_difference, tell_rest, Potential};
use crate::rest::corners::Corners;
use crate::rest::potential::potential;
use crate::rest::runs::with_stretches;
use crate::tally::Book;

pub struct Fuzz<L> {
    library: L,
    potential: Potential,
    numbers: Numbers,
    corners: Corners,
    runs: u64,
    moves: u64,
    outcome: Outcome,
}

impl<L: Library> Fuzz<L> {
    pub fn new(library: L, seed: u64) -> Fuzz<L> {
        Fuzz::with(library, seed, potential)
    }

    /// The same with another number in place of the potential.
    pub fn with(library: L, seed: u64, potential: Potential) -> Fuzz<L> {
        Fuzz {
            library,
            potential,
            numbers: Numbers::new(seed),
            corners: Corners::default(),
            runs: 0,
            moves: 0,
            outcome: Outcome::default(),
        }
    }
}

impl<L: Library> Fuzzer for Fuzz<L> {
    fn part(&mut self) {
        for _ in 0..4 {
            if self.outcome.enough() {
                return;
            }
            self.runs += 1;
            let schedule = with_stretches(&mut self.numbers);
            let corners = &mut self.corners;
            let found = rest_difference(&self.library, self.potential, &schedule, corners);
            let words = || tell_rest(&self.library, self.potential, &schedule);
            self.moves += self.outcome.count(schedule.moves.len(), found.as_ref(), words);
        }
    }

    fn outcome(&mut self) -> &mut Outcome {
        &mut self.outcome
    }

    fn book(&self) -> &dyn Book {
        &self.corners
    }

    fn compared(&self) -> (u64, &'static str) {
        (self.moves, "turns and events")
    }

    fn tell_kinds(&mut self) {
        println!("runs: {}, quiet events accepted: {}", self.runs, self.corners.accepted);
    }
}
