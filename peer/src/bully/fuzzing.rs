//! The fuzzer of the Bully machine: compares a library with this program's on random runs from all Down,
//! random tables and any bytes, the same ones for the same seed, and counts what they met.

use crate::bully::bytes::{event_to_field, table_to_bytes, TABLE_BYTES};
use crate::bully::compare::{call, tell_walk, walk_difference, Walk};
use crate::bully::corners::Corners;
use crate::bully::machine::{advance, Table};
use crate::bully::runs::{any_event, run};
use crate::bully::tables::{break_rule, in_another_form, to_step};
use crate::compare::Lent;
use crate::corners::Source;
use crate::damage::no_event;
use crate::fuzz_loop::{Fuzzer, Outcome};
use crate::numbers::Numbers;
use crate::proved::Library;
use crate::tally::Book;

pub struct Fuzz<L> {
    library: L,
    numbers: Numbers,
    corners: Corners,
    runs: u64,
    run_events: u64,
    tables: u64,
    calls: u64,
    outcome: Outcome,
}

impl<L: Library> Fuzz<L> {
    pub fn new(library: L, seed: u64) -> Fuzz<L> {
        Fuzz {
            library,
            numbers: Numbers::new(seed),
            corners: Corners::default(),
            runs: 0,
            run_events: 0,
            tables: 0,
            calls: 0,
            outcome: Outcome::default(),
        }
    }
}

impl<L: Library> Fuzzer for Fuzz<L> {
    fn part(&mut self) {
        self.run();
        for _ in 0..80 {
            self.table();
        }
        for _ in 0..20 {
            self.broken();
        }
        for _ in 0..10 {
            self.field();
        }
        for _ in 0..4 {
            self.any_bytes();
        }
    }

    fn outcome(&mut self) -> &mut Outcome {
        &mut self.outcome
    }

    fn book(&self) -> &dyn Book {
        self.corners.book()
    }

    fn compared(&self) -> (u64, &'static str) {
        (self.run_events + self.tables + self.calls, "events")
    }

    fn tell_kinds(&mut self) {
        println!("runs: {}, {} events", self.runs, self.run_events);
        println!("tables: {}, an event each; calls of any bytes: {}", self.tables, self.calls);
    }
}

impl<L: Library> Fuzz<L> {
    /// Now and then a seed for other forms of the tables' bytes.
    fn noise(&mut self) -> Option<u64> {
        let noise = self.numbers.bits();
        self.numbers.one_in(4).then_some(noise)
    }

    fn walk(&mut self, walk: &Walk) {
        if self.outcome.enough() {
            return;
        }
        let found = walk_difference(&self.library, walk, Some(&mut self.corners));
        let words = || tell_walk(&self.library, walk);
        self.outcome.count(walk.events.len(), found.as_ref(), words);
    }

    /// A run from all Down.
    fn run(&mut self) {
        let (n, events) = run(advance, &mut self.numbers);
        self.runs += 1;
        self.run_events += events.len() as u64;
        let (source, start, noise) = (Source::Run, Table::start(n), self.noise());
        self.walk(&Walk { source, start, events, noise });
    }

    /// An event on a table in range.
    fn table(&mut self) {
        let (start, event) = to_step(&mut self.numbers);
        self.tables += 1;
        let (source, events, noise) = (Source::Table, vec![event], self.noise());
        self.walk(&Walk { source, start, events, noise });
    }

    /// A call into so many bytes with random ones in them; the answer, if there is no difference.
    fn call(&mut self, table: &[u8], field: &[u8], room: usize) -> Option<u8> {
        if self.outcome.enough() {
            return None;
        }
        self.calls += 1;
        let mut lent = Lent::new(room, &mut self.numbers);
        match call(&self.library, table, field, &mut lent) {
            Ok(answer) => {
                self.outcome.passed += 1;
                Some(answer)
            }
            Err(words) => {
                self.outcome.difference(format!(
                    "table {table:02x?}\nfield {field:02x?}\ninto {room} bytes: {words}"
                ));
                None
            }
        }
    }

    /// A table, in another form of its bytes now and then.
    fn bytes(&mut self, table: &Table) -> Vec<u8> {
        let bytes = table_to_bytes(table);
        match self.numbers.one_in(2) {
            true => in_another_form(&bytes, &mut self.numbers),
            false => bytes.to_vec(),
        }
    }

    /// An event on a table with one rule of the range broken; mostly it is accepted on the table as it was.
    fn broken(&mut self) {
        let (mut table, event) = to_step(&mut self.numbers);
        let i = self.numbers.between(1, u32::from(table.n)) as u8;
        if let Some(rule) = break_rule(&mut table, i, &mut self.numbers) {
            let bytes = self.bytes(&table);
            if let Some(answer) = self.call(&bytes, &event_to_field(&event), TABLE_BYTES) {
                self.corners.broken(rule, &event, answer);
            }
        }
    }

    /// A field that is no event, or has bytes behind it, on a table in range or not, into any room.
    fn field(&mut self) {
        let (mut table, event) = to_step(&mut self.numbers);
        let broken = self.numbers.one_in(3) && {
            let i = self.numbers.between(1, u32::from(table.n)) as u8;
            break_rule(&mut table, i, &mut self.numbers).is_some()
        };
        let mut field = match self.numbers.one_in(3) {
            true => event_to_field(&event),
            false => self.no_event(),
        };
        if self.numbers.one_in(3) {
            let mut behind = vec![0; self.numbers.place(40)];
            self.numbers.fill(&mut behind);
            field.extend(behind);
        }
        let room = match self.numbers.below(8) {
            0 => 0,
            1 => TABLE_BYTES - 1,
            2 => self.numbers.between(1, TABLE_BYTES as u32 - 2) as usize,
            3 | 4 => TABLE_BYTES,
            _ => TABLE_BYTES + self.numbers.between(1, 100) as usize,
        };
        let bytes = self.bytes(&table);
        if let Some(answer) = self.call(&bytes, &field, room) {
            self.corners.call(!broken, &field, room, answer);
        }
    }

    /// Mostly no event: one of document 01's machine, an unknown tag, a wrong length, cut, or any bytes.
    fn no_event(&mut self) -> Vec<u8> {
        if self.numbers.one_in(2) {
            return no_event(&mut self.numbers);
        }
        let mut bytes = vec![0; self.numbers.place(9)];
        self.numbers.fill(&mut bytes);
        bytes
    }

    /// An event on any bytes as table, or mostly zeros.
    fn any_bytes(&mut self) {
        let mut bytes = vec![0; self.numbers.of(&[TABLE_BYTES, TABLE_BYTES, 1, 13, 25, 37, 200])];
        self.numbers.fill(&mut bytes);
        let n = self.numbers.between(0, 18) as u8;
        bytes[0] = n;
        if self.numbers.one_in(2) {
            let zeros_from = 1 + self.numbers.place(bytes.len());
            bytes[zeros_from..].fill(0);
        }
        let event = any_event(n, &mut self.numbers);
        if let Some(answer) = self.call(&bytes, &event_to_field(&event), TABLE_BYTES) {
            self.corners.any_bytes(answer);
        }
    }
}
