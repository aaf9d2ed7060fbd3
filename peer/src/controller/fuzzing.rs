//! The fuzzer of the controllers: compares a library with this program's on calls of any cabinet with any event or
//! message, and runs n of the library's controllers over one queue beside its own step on the whole table; the same
//! ones for the same seed. Counts what they met.

use crate::compare::Lent;
use crate::controller::calls::any_call;
use crate::controller::compare::{call, tell_call, Made};
use crate::controller::corners::Corners;
use crate::controller::queue::{tell_walk, walk_difference, Walk};
use crate::controller::reading::Given;
use crate::corners::Source;
use crate::drive::{
    any_event, any_manner, any_node, full_queue, pick, run, run_with_full_peals,
    run_with_wrong_checks,
};
use crate::fuzz_loop::{Fuzzer, Outcome};
use crate::limit_tables::{any_limits, to_fill};
use crate::machine::{advance, Event, Table};
use crate::numbers::Numbers;
use crate::proved::Library;
use crate::tables::{in_range, move_to_ends, to_check};
use crate::tally::Book;
use crate::traffic_tables::to_send;

pub struct Fuzz<L> {
    library: L,
    numbers: Numbers,
    corners: Corners,
    calls: u64,
    runs: u64,
    tables: u64,
    events: u64,
    outcome: Outcome,
}

impl<L: Library> Fuzz<L> {
    pub fn new(library: L, seed: u64) -> Fuzz<L> {
        Fuzz {
            library,
            numbers: Numbers::new(seed),
            corners: Corners::default(),
            calls: 0,
            runs: 0,
            tables: 0,
            events: 0,
            outcome: Outcome::default(),
        }
    }
}

impl<L: Library> Fuzzer for Fuzz<L> {
    fn part(&mut self) {
        for _ in 0..2 {
            self.run();
        }
        for _ in 0..20 {
            self.table();
        }
        for _ in 0..1260 {
            let (given, made, room) = any_call(&mut self.numbers);
            self.call(&given, made, room);
        }
    }

    fn outcome(&mut self) -> &mut Outcome {
        &mut self.outcome
    }

    fn book(&self) -> &dyn Book {
        self.corners.book()
    }

    fn compared(&self) -> (u64, &'static str) {
        (self.calls + self.events, "calls and events")
    }

    fn tell_kinds(&mut self) {
        let (runs, tables) = (self.runs, self.tables);
        println!("calls: {}; n controllers from the starting table: {runs}, from tables: {tables}, events: {}",
            self.calls, self.events);
    }
}

impl<L: Library> Fuzz<L> {
    /// A call into so many bytes with random ones in them.
    fn call(&mut self, given: &Given, made: Made, room: usize) {
        if self.outcome.enough() {
            return;
        }
        self.calls += 1;
        let mut lent = Lent::new(room, &mut self.numbers);
        let corners = &mut self.corners;
        match call(&self.library, Source::Table, given, made, &mut lent, corners) {
            Ok(_) => self.outcome.passed += 1,
            Err(words) => {
                let words = tell_call(&self.library, given, room, &words);
                self.outcome.difference(words);
            }
        }
    }

    fn walk(&mut self, walk: &Walk) {
        if self.outcome.enough() {
            return;
        }
        let found = walk_difference(&self.library, walk, &mut self.corners);
        let words = || tell_walk(&self.library, walk);
        self.events += self.outcome.count(walk.events.len(), found.as_ref(), words);
    }

    /// Now and then a seed for other forms of the records' bytes.
    fn noise(&mut self) -> Option<u64> {
        let noise = self.numbers.bits();
        self.numbers.one_in(4).then_some(noise)
    }

    /// n controllers from the starting table: any run, with full queues, wrong checks or full peals.
    fn run(&mut self) {
        let numbers = &mut self.numbers;
        let (n, limits, events) = match numbers.below(4) {
            0 => full_queue(numbers),
            1 => run_with_wrong_checks(numbers),
            2 => run_with_full_peals(numbers),
            _ => {
                let limits = any_limits(numbers);
                let n = numbers.between(1, u32::from(limits.nodes)) as u8;
                let length = numbers.between(20, 200) as usize;
                (n, limits, run(n, limits, length, numbers))
            }
        };
        self.runs += 1;
        let events = with_others(n, &events, numbers);
        let (source, start, noise) = (Source::Run, Table::start(n, limits), self.noise());
        self.walk(&Walk { source, start, events, noise });
    }

    /// n controllers from a table in range, the tower's or the stand's, on which queues and numbers are often at
    /// their ends.
    fn table(&mut self) {
        let numbers = &mut self.numbers;
        let (start, first) = match numbers.below(8) {
            0 | 1 => to_send(numbers),
            2 => to_fill(numbers),
            3 => to_check(numbers),
            _ => {
                let mut start = in_range(numbers);
                if numbers.one_in(4) {
                    move_to_ends(&mut start, numbers);
                }
                let event = another_event(start.n, numbers);
                (start, event)
            }
        };
        if !start.in_range() {
            return;
        }
        let manner = any_manner(numbers);
        let mut table = start.clone();
        let mut events = vec![first];
        let _ = advance(&mut table, &first);
        for _ in 0..numbers.below(8) {
            let event = match numbers.one_in(4) {
                true => another_event(table.n, numbers),
                false => pick(&table, &manner, numbers),
            };
            let _ = advance(&mut table, &event);
            events.push(event);
        }
        self.tables += 1;
        let (source, noise) = (Source::Table, self.noise());
        self.walk(&Walk { source, start, events, noise });
    }
}

/// An event that is mostly refused: any, or one of a pair, of which there is often nothing on its way.
fn another_event(n: u8, numbers: &mut Numbers) -> Event {
    match any_event(n, numbers) {
        Event::Crash(i) | Event::Recover(i) | Event::Check(i) | Event::Lose(i, _) => {
            Event::Deliver(i, any_node(n, numbers))
        }
        event => event,
    }
}

/// The events with others between them now and then.
fn with_others(n: u8, events: &[Event], numbers: &mut Numbers) -> Vec<Event> {
    let mut all = Vec::with_capacity(2 * events.len());
    for &event in events {
        if numbers.one_in(5) {
            all.push(another_event(n, numbers));
        }
        all.push(event);
    }
    all
}
