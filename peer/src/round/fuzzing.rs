//! The fuzzer of the round: compares a library with this program's driver and machine on random schedules and on
//! turns of any bytes, the same ones for the same seed, and counts what they met.

use crate::compare::Lent;
use crate::corners::Source;
use crate::fuzz_loop::{Fuzzer, Outcome};
use crate::machine::Table;
use crate::numbers::Numbers;
use crate::proved::{table_to_bytes, Library, TABLE_BYTES};
use crate::round::bytes::TURN_BYTES;
use crate::round::compare::{call, schedule_difference, tell_schedule};
use crate::round::corners::Corners;
use crate::round::driver::Place;
use crate::round::schedules::{from_start, from_table, Schedule};
use crate::round::tables::{any_place, cut_short, in_another_form, no_pair, not_in_range, to_turn};
use crate::tally::Book;
use crate::vectors::write_hex;

pub struct Fuzz<L> {
    library: L,
    numbers: Numbers,
    corners: Corners,
    runs: u64,
    tables: u64,
    moves: u64,
    calls: u64,
    outcome: Outcome,
}

impl<L: Library> Fuzz<L> {
    pub fn new(library: L, seed: u64) -> Fuzz<L> {
        Fuzz {
            library,
            numbers: Numbers::new(seed),
            corners: Corners::default(),
            runs: 0,
            tables: 0,
            moves: 0,
            calls: 0,
            outcome: Outcome::default(),
        }
    }
}

impl<L: Library> Fuzzer for Fuzz<L> {
    fn part(&mut self) {
        self.runs += 1;
        let schedule = from_start(&mut self.numbers);
        self.schedule(&schedule);
        for _ in 0..8 {
            self.tables += 1;
            let schedule = from_table(&mut self.numbers);
            self.schedule(&schedule);
        }
        for _ in 0..60 {
            self.refused();
        }
        for _ in 0..4 {
            self.any_bytes();
        }
    }

    fn outcome(&mut self) -> &mut Outcome {
        &mut self.outcome
    }

    fn book(&self) -> &dyn Book {
        &self.corners
    }

    fn compared(&self) -> (u64, &'static str) {
        (self.moves + self.calls, "turns and events")
    }

    /// A bound that was never met in its last turn is a failure too.
    fn tell_kinds(&mut self) {
        if self.corners.bound_met() == 0 {
            let words = "no followed message went in the last turn that the bound allows";
            self.outcome.fails(words.to_string());
        }
        println!("schedules from the starting table: {}, from tables: {}", self.runs, self.tables);
        println!("turns and events: {}; turns of any bytes: {}", self.moves, self.calls);
    }
}

impl<L: Library> Fuzz<L> {
    fn schedule(&mut self, schedule: &Schedule) {
        if self.outcome.enough() {
            return;
        }
        let found = schedule_difference(&self.library, schedule, &mut self.corners);
        let words = || tell_schedule(&self.library, schedule);
        self.moves += self.outcome.count(schedule.moves.len(), found.as_ref(), words);
    }

    /// A turn into so many bytes with random ones in them.
    fn call(&mut self, table: &[u8], place: Place, room: usize) {
        if self.outcome.enough() {
            return;
        }
        self.calls += 1;
        let mut lent = Lent::new(room, &mut self.numbers);
        let corners = &mut self.corners;
        match call(&self.library, Source::Table, table, place, &mut lent, corners) {
            Ok(_) => self.outcome.passed += 1,
            Err(words) => {
                let (table, (a, b)) = (write_hex(table), place);
                // As the vectors write it.
                self.outcome
                    .difference(format!("nevraspu_turn {table} {a} {b} out {room}\n{words}"));
            }
        }
    }

    /// How many bytes are lent: mostly just so many as a turn writes.
    fn room(&mut self) -> usize {
        match self.numbers.below(16) {
            0 => 0,
            1 | 2 => TURN_BYTES - 1,
            3 => self.numbers.place(TURN_BYTES),
            4 => TABLE_BYTES,
            5..=7 => TURN_BYTES + self.numbers.between(1, 100) as usize,
            _ => TURN_BYTES,
        }
    }

    /// A turn that is mostly refused: on a table that is not in range or is cut short, at a place that is no pair,
    /// or into too few bytes.
    fn refused(&mut self) {
        let wrong_table = self.numbers.one_in(3);
        let table = match wrong_table {
            true => not_in_range(&mut self.numbers),
            false => to_turn(&mut self.numbers).0,
        };
        let place = match self.numbers.one_in(3) {
            true => any_place(table.n.clamp(1, 16), &mut self.numbers),
            false => no_pair(table.n, &mut self.numbers),
        };
        let bytes = self.bytes(&table);
        let room = self.room();
        self.call(&bytes, place, room);
    }

    /// A table in bytes; now and then in another form of them, or cut short.
    fn bytes(&mut self, table: &Table) -> Vec<u8> {
        let mut bytes = [0; TABLE_BYTES];
        table_to_bytes(table, &mut bytes);
        match self.numbers.below(8) {
            0 => cut_short(&bytes, &mut self.numbers),
            1 | 2 => in_another_form(&bytes, &mut self.numbers),
            _ => bytes.to_vec(),
        }
    }

    /// A turn on a table with some bytes changed, or on any bytes at all.
    fn any_bytes(&mut self) {
        let (table, pair) = to_turn(&mut self.numbers);
        let mut bytes = self.bytes(&table);
        let numbers = &mut self.numbers;
        if numbers.one_in(4) {
            numbers.fill(&mut bytes);
        }
        for _ in 0..numbers.below(4) {
            if !bytes.is_empty() {
                let place = numbers.place(bytes.len());
                bytes[place] = numbers.byte();
            }
        }
        let any = (numbers.byte(), numbers.byte());
        let place = pair.filter(|_| !numbers.one_in(4)).unwrap_or(any);
        let room = self.room();
        self.call(&bytes, place, room);
    }
}
