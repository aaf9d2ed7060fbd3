//! How often each corner was met, held against where the papers make it possible: the counts of the books of the Bully
//! machine, of the round, of the controllers and of T-13, and what a fuzzer asks of any book.

use crate::corners::{counts_text, Count, Source};
use std::collections::{HashMap, HashSet};
use std::hash::Hash;

/// What a fuzzer asks of its book of corners.
pub trait Book {
    /// The counts in lines.
    fn text(&self) -> String;

    /// What was met though the papers have no place for it, or no run can meet it.
    fn impossible(&self) -> Vec<String>;

    /// What was met less often than so many times where it must be met.
    fn seldom(&self, times: u64) -> Vec<String>;
}

/// Where a corner must be met: in runs or schedules from the start and on tables made up, each by itself; in either,
/// together; or on these tables alone, since no run can meet it.
#[derive(Clone, Copy, Debug, PartialEq, Eq)]
pub enum Where {
    Both,
    Either,
    Tables,
}

/// How often each corner was met, in runs and on tables.
#[derive(Clone, Debug)]
pub struct Tally<C> {
    counts: HashMap<C, Count>,
    /// Every corner that the papers make possible.
    possible: fn() -> Vec<(C, Where)>,
    /// A corner's words.
    words: fn(&C) -> String,
}

impl<C: Eq + Hash> Tally<C> {
    pub fn new(possible: fn() -> Vec<(C, Where)>, words: fn(&C) -> String) -> Tally<C> {
        Tally { counts: HashMap::new(), possible, words }
    }

    pub fn add(&mut self, source: Source, corner: C) {
        self.counts.entry(corner).or_default()[source as usize] += 1;
    }

    /// Adds what another met.
    pub fn add_all(&mut self, other: Tally<C>) {
        for (corner, [runs, tables]) in other.counts {
            let count = self.counts.entry(corner).or_default();
            *count = [count[0] + runs, count[1] + tables];
        }
    }

    pub fn count(&self, corner: &C) -> Count {
        self.counts.get(corner).copied().unwrap_or_default()
    }
}

impl<C: Eq + Hash> Book for Tally<C> {
    /// The counts in lines, as those of document 01's machine.
    fn text(&self) -> String {
        let named = |(corner, _): &(C, Where)| ((self.words)(corner), self.count(corner));
        counts_text(&(self.possible)().iter().map(named).collect::<Vec<_>>())
    }

    fn impossible(&self) -> Vec<String> {
        let possible: HashMap<C, Where> = (self.possible)().into_iter().collect();
        let told = |(corner, [runs, _]): (&C, &Count)| match possible.get(corner) {
            None => Some((self.words)(corner)),
            Some(Where::Tables) if *runs > 0 => Some(format!("{}, in a run", (self.words)(corner))),
            Some(_) => None,
        };
        let mut found: Vec<String> = self.counts.iter().filter_map(told).collect();
        found.sort();
        found
    }

    fn seldom(&self, times: u64) -> Vec<String> {
        let mut found = Vec::new();
        for (corner, at) in (self.possible)() {
            let ([runs, tables], words) = (self.count(&corner), || (self.words)(&corner));
            if at == Where::Either && runs + tables < times {
                found.push(format!("{}: {}", words(), runs + tables));
            }
            if at != Where::Either && tables < times {
                found.push(format!("{}, on tables: {tables}", words()));
            }
            if at == Where::Both && runs < times {
                found.push(format!("{}, in runs: {runs}", words()));
            }
        }
        found
    }
}

/// How often each corner is met at least, and each of those that take long.
pub const TIMES: u64 = 1000;
pub const DEAR_TIMES: u64 = 10;

/// The counts of usual corners and of dear ones, which take long.
#[derive(Clone, Debug)]
pub struct Graded<C> {
    usual: Tally<C>,
    dear: Tally<C>,
    which_dear: HashSet<C>,
}

impl<C: Eq + Hash> Graded<C> {
    pub fn new(
        usual: fn() -> Vec<(C, Where)>,
        dear: fn() -> Vec<(C, Where)>,
        words: fn(&C) -> String,
    ) -> Graded<C> {
        let which_dear = dear().into_iter().map(|(corner, _)| corner).collect();
        Graded { usual: Tally::new(usual, words), dear: Tally::new(dear, words), which_dear }
    }

    pub fn add(&mut self, source: Source, corner: C) {
        match self.which_dear.contains(&corner) {
            true => self.dear.add(source, corner),
            false => self.usual.add(source, corner),
        }
    }

    pub fn add_all(&mut self, other: Graded<C>) {
        self.usual.add_all(other.usual);
        self.dear.add_all(other.dear);
    }

    /// The counts in lines.
    pub fn text(&self) -> String {
        let (usual, dear) = (self.usual.text(), self.dear.text());
        format!("{usual}of what takes long, at least {DEAR_TIMES} times each:\n{dear}")
    }

    /// What has no place or was met too seldom.
    pub fn wrong(&self) -> Vec<String> {
        let told = |(tally, times): (&Tally<C>, u64)| {
            let impossible = tally.impossible().into_iter();
            let seldom = tally.seldom(times).into_iter();
            let impossible = impossible.map(|words| format!("a corner that has no place: {words}"));
            let seldom = seldom.map(move |words| format!("met fewer than {times} times: {words}"));
            impossible.chain(seldom).collect::<Vec<_>>()
        };
        [(&self.usual, TIMES), (&self.dear, DEAR_TIMES)].into_iter().flat_map(told).collect()
    }
}
