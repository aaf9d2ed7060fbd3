//! The fuzzer: compares a library with this program's machine on random runs, damaged lists and random
//! tables, the same ones for the same seed, and counts what they met.

use crate::compare::{
    field_difference, list_difference, printed_difference, recovery_difference, run_difference,
    tell_list, tell_recovery, tell_run, tell_walk, text_and_fold_difference, walk_difference,
};
use crate::corners::{Before, Corners, Source};
use crate::damage::{damage, first_tag_later, no_event, other_first};
use crate::drive::{
    any_event, any_manner, any_node, full_queue, member, pick, run, run_with_full_peals,
    run_with_wrong_checks, Ready,
};
use crate::fuzz_loop::{Fuzzer, Outcome};
use crate::limit_corners::BROKEN as BROKEN_LIMITS;
use crate::limit_tables::{any_limits, to_break, to_fill, wrong_pair};
use crate::list::{first_event, read_list, write_event, write_list, MAX_LIST};
use crate::machine::{advance, step, Event, Limits, Table};
use crate::numbers::Numbers;
use crate::print::run_list;
use crate::proved::{Library, RECORDS_BYTES, TABLE_BYTES};
use crate::tables::{in_range, move_to_ends, scramble, spoil, to_check, to_finish, to_recover};
use crate::tally::Book;
use crate::traffic_corners::BROKEN;
use crate::traffic_tables::{break_counts, raise_to_calls, to_send, to_take_last};

pub struct Fuzz<L> {
    library: L,
    numbers: Numbers,
    corners: Corners,
    runs: u64,
    run_events: u64,
    lists: u64,
    list_events: u64,
    tables: u64,
    table_events: u64,
    fields: u64,
    recoveries: u64,
    outcome: Outcome,
}

impl<L: Library> Fuzz<L> {
    pub fn new(library: L, seed: u64) -> Fuzz<L> {
        Fuzz {
            library,
            numbers: Numbers::new(seed),
            corners: Corners::default(),
            runs: 0,
            run_events: 0,
            lists: 0,
            list_events: 0,
            tables: 0,
            table_events: 0,
            fields: 0,
            recoveries: 0,
            outcome: Outcome::default(),
        }
    }
}

impl<L: Library> Fuzzer for Fuzz<L> {
    fn part(&mut self) {
        self.run();
        for _ in 0..200 {
            self.table();
        }
        for _ in 0..220 {
            self.sends();
        }
        for _ in 0..60 {
            self.broken_counts();
        }
        for _ in 0..20 {
            self.within_calls();
        }
        for _ in 0..8 {
            let (table, event) = to_take_last(&mut self.numbers);
            self.walk(&table, &[event]);
        }
        for _ in 0..4 {
            self.list_with_checks();
        }
        for _ in 0..205 {
            let (table, event) = to_fill(&mut self.numbers);
            self.walk(&table, &[event]);
        }
        for _ in 0..40 {
            self.broken_limits();
        }
        for _ in 0..66 {
            self.limits_first();
        }
        for _ in 0..3 {
            self.full_queue();
        }
        for _ in 0..150 {
            let (table, event) = to_check(&mut self.numbers);
            self.walk(&table, &[event]);
        }
        for _ in 0..160 {
            let (table, events) = to_finish(&mut self.numbers);
            self.walk(&table, &events);
        }
        for _ in 0..3 {
            self.full_peals();
        }
        for _ in 0..10 {
            self.field();
        }
        for _ in 0..118 {
            let (table, i) = to_recover(&mut self.numbers);
            self.recovery(Source::Table, &table, i);
        }
    }

    fn outcome(&mut self) -> &mut Outcome {
        &mut self.outcome
    }

    fn book(&self) -> &dyn Book {
        &self.corners
    }

    fn compared(&self) -> (u64, &'static str) {
        (self.run_events + self.list_events + self.table_events, "events")
    }

    fn tell_kinds(&mut self) {
        println!("runs: {}, {} events", self.runs, self.run_events);
        println!("lists printed and folded: {}, {} events", self.lists, self.list_events);
        println!("tables: {}, {} events; fields: {}", self.tables, self.table_events, self.fields);
        println!("recoveries: {}", self.recoveries);
    }

    fn under_way(&self, seconds: u64) {
        let (events, _) = self.compared();
        eprintln!("{seconds} s, {events} events, {} differences", self.outcome.failed);
    }
}

impl<L: Library> Fuzz<L> {
    /// A run, event by event; its list, printed; and lists that damage makes of it.
    fn run(&mut self) {
        // Half of the tower's are small, where groups form and meet sooner.
        let limits = any_limits(&mut self.numbers);
        let most = u32::from(limits.nodes);
        let n = match self.numbers.below(8) {
            0 => limits.nodes,
            1..=4 => self.numbers.between(2, most.min(6)) as u8,
            _ => self.numbers.between(1, most) as u8,
        };
        let length = match self.numbers.below(64) {
            0 => 13_000,
            1..=8 => 2000,
            9..=32 => 500,
            _ => self.numbers.between(1, 200) as usize,
        };
        let events = run(n, limits, length, &mut self.numbers);
        if !self.each_event(n, limits, &events) {
            return;
        }
        self.recoveries_of_run(n, limits, &events);
        let mut list = write_list(n, limits, &events);
        self.list(&list);
        let kept = list.len().min(self.numbers.between(4, 2000) as usize);
        list.truncate(kept);
        for _ in 0..4 {
            let mut damaged = list.clone();
            damage(&mut damaged, &mut self.numbers);
            self.list(&damaged);
        }
        self.small_buffers(&list);
        self.first_fields(&list);
        for _ in 0..2 {
            self.long_list(&list);
        }
    }

    /// The events of a run, one after another; whether there is no difference.
    fn each_event(&mut self, n: u8, limits: Limits, events: &[Event]) -> bool {
        if self.outcome.enough() {
            return false;
        }
        self.runs += 1;
        self.run_events += events.len() as u64;
        let found = run_difference(&self.library, n, limits, events, Some(&mut self.corners));
        let words = || tell_run(&self.library, n, limits, events);
        self.outcome.count(events.len(), found.as_ref(), words);
        found.is_none()
    }

    /// A short run of few nodes in which the queue is full soon, and its list.
    fn full_queue(&mut self) {
        let (n, limits, events) = full_queue(&mut self.numbers);
        if self.each_event(n, limits, &events) {
            self.list(&write_list(n, limits, &events));
        }
    }

    /// The records of recoveries, on some tables of a run.
    fn recoveries_of_run(&mut self, n: u8, limits: Limits, events: &[Event]) {
        let mut table = Table::start(n, limits);
        for event in events {
            if self.numbers.one_in(64) {
                let numbers = &mut self.numbers;
                let i = match Ready::of(&table).down {
                    down if down != 0 && numbers.one_in(2) => member(down, numbers),
                    _ => any_node(n, numbers),
                };
                self.recovery(Source::Run, &table, i);
            }
            let _ = advance(&mut table, event);
        }
    }

    /// The records of a recovery, into a buffer that is long enough, or just so, or too short.
    fn recovery(&mut self, source: Source, table: &Table, i: u8) {
        if self.outcome.enough() {
            return;
        }
        let room = match self.numbers.below(16) {
            0 => 0,
            1 => RECORDS_BYTES - 1,
            2 => self.numbers.place(RECORDS_BYTES),
            3..=8 => RECORDS_BYTES,
            _ => RECORDS_BYTES + self.numbers.between(1, 100) as usize,
        };
        let noise = self.numbers.bits();
        self.recoveries += 1;
        let corners = Some((&mut self.corners, source));
        if recovery_difference(&self.library, table, i, room, noise, corners).is_some() {
            let words = tell_recovery(&self.library, table, i, room, noise);
            return self.outcome.difference(words);
        }
        self.outcome.passed += 1;
    }

    /// A list of any bytes, printed and folded.
    fn list(&mut self, list: &[u8]) {
        if self.outcome.enough() {
            return;
        }
        self.lists += 1;
        let text = run_list(list);
        if text_and_fold_difference(&self.library, list, &text).is_some() {
            let words = tell_list(list, |list| list_difference(&self.library, list));
            return self.outcome.difference(words);
        }
        self.corners.fields(list, &text);
        match read_list(list) {
            Err(stop) => self.corners.refusal(stop.number),
            Ok(list) => {
                self.list_events += 2 * list.events.len() as u64;
                if let Some(stop) = list.stop {
                    self.corners.refusal(stop.number);
                }
                self.corners.printed(&list, &text);
            }
        }
        self.outcome.passed += 1;
    }

    /// Refusal 15: buffers too small for the text of a short list, and one that is just right.
    fn small_buffers(&mut self, list: &[u8]) {
        let list = &list[..list.len().min(400)];
        let text = run_list(list);
        let rooms = [
            text.len(),
            text.len() - 1,
            self.numbers.place(text.len()),
            self.numbers.place(text.len().min(24)),
        ];
        for room in rooms {
            self.lists += 1;
            if room < text.len() {
                self.corners.refusal(15);
            }
            if printed_difference(&self.library, list, &text, room).is_some() {
                let words = tell_list(list, |list| {
                    printed_difference(&self.library, list, &run_list(list), room)
                });
                return self.outcome.difference(words);
            }
            self.outcome.passed += 1;
        }
    }

    /// Other first fields, now and then with nothing behind them, and the tags of first ones in other places.
    fn first_fields(&mut self, list: &[u8]) {
        let mut short = list[..list.len().min(60)].to_vec();
        for _ in 0..26 {
            let other = other_first(&short, &mut self.numbers);
            self.list(&other);
            let later = first_tag_later(&short, &mut self.numbers);
            self.list(&later);
        }
        short.truncate(4);
        short[3] = self.numbers.byte();
        self.list(&short);
    }

    /// A list with checks that are refused 18.
    fn list_with_checks(&mut self) {
        let (n, limits, events) = run_with_wrong_checks(&mut self.numbers);
        self.short_list(n, limits, &events);
    }

    /// The list of a short run, which now and then a field that is no event stops.
    fn short_list(&mut self, n: u8, limits: Limits, events: &[Event]) {
        let mut list = write_list(n, limits, events);
        if self.numbers.one_in(3) {
            list.extend(no_event(&mut self.numbers));
        }
        self.list(&list);
    }

    /// A short run with full peals, and its list.
    fn full_peals(&mut self) {
        let (n, limits, events) = run_with_full_peals(&mut self.numbers);
        if self.each_event(n, limits, &events) {
            self.short_list(n, limits, &events);
        }
    }

    /// A list about as long as a list may be: 65,535 to 65,537 bytes, or longer by far.
    fn long_list(&mut self, list: &[u8]) {
        let length = match self.numbers.below(8) {
            0 => MAX_LIST - 1,
            1 => MAX_LIST,
            2 => self.numbers.between(65_536, 200_000) as usize,
            _ => MAX_LIST + 1,
        };
        let mut long = list.to_vec();
        // A field that is no event stops the list, so that the length is all there is to it.
        long.extend([0xff, 0, 0]);
        long.resize(length, 0);
        self.list(&long);
    }

    /// Events on a random table.
    fn table(&mut self) {
        let kind = self.numbers.below(16);
        let mut table = match kind {
            0 => {
                let limits = any_limits(&mut self.numbers);
                let n = self.numbers.between(1, u32::from(limits.nodes)) as u8;
                let length = self.numbers.between(1, 300) as usize;
                let mut table = Table::start(n, limits);
                for event in run(n, limits, length, &mut self.numbers) {
                    let _ = step(&mut table, &event);
                }
                move_to_ends(&mut table, &mut self.numbers);
                table
            }
            _ => in_range(&mut self.numbers),
        };
        match kind {
            1 | 2 => spoil(&mut table, &mut self.numbers),
            3 => table = scramble(&table, &mut self.numbers),
            _ => {}
        }
        let most = match kind {
            _ if !table.in_range() => 2,
            0 => 60,
            _ => 12,
        };
        let events = self.events(&table, most);
        self.walk(&table, &events);
    }

    /// An event that must send a message, where a count of messages is at its end.
    fn sends(&mut self) {
        let (table, event) = to_send(&mut self.numbers);
        self.walk(&table, &[event]);
    }

    /// An event on a table with one rule of the range broken in its counts. It is mostly one that is accepted
    /// on the table as it was.
    fn broken_counts(&mut self) {
        let mut table = in_range(&mut self.numbers);
        let events = self.events(&table, 4);
        let accepted = |event: &&Event| step(&mut table.clone(), event).is_ok();
        let event = *events.iter().find(accepted).unwrap_or(&events[0]);
        let which = self.numbers.place(BROKEN.len());
        if break_counts(&mut table, which, &mut self.numbers) && self.walk(&table, &[event]) {
            self.corners.broken_counts(which, step(&mut table, &event));
        }
    }

    /// An event on a table that is out of range by its limits alone. It is mostly one that is accepted where
    /// they are right.
    fn broken_limits(&mut self) {
        let which = self.numbers.place(BROKEN_LIMITS);
        let (mut table, fine) = to_break(which, &mut self.numbers);
        let events = self.events(&fine, 4);
        let accepted = |event: &&Event| step(&mut fine.clone(), event).is_ok();
        let event = *events.iter().find(accepted).unwrap_or(&events[0]);
        if self.walk(&table, &[event]) {
            self.corners.broken_limits(which, step(&mut table, &event));
        }
    }

    /// An event that is refused, or not, on a table whose limits become no allowed pair: ground 1 comes first.
    fn limits_first(&mut self) {
        let (mut table, event) = match self.numbers.below(9) {
            0 | 1 => to_check(&mut self.numbers),
            2 | 3 => to_fill(&mut self.numbers),
            4 => {
                let (table, i) = to_recover(&mut self.numbers);
                (table, Event::Recover(i))
            }
            5 => {
                let (table, events) = to_finish(&mut self.numbers);
                (table, events[0])
            }
            _ => {
                let table = in_range(&mut self.numbers);
                let event = any_event(table.n, &mut self.numbers);
                (table, event)
            }
        };
        let else_answer = step(&mut table.clone(), &event);
        table.limits = wrong_pair(&mut self.numbers);
        if self.walk(&table, &[event]) {
            self.corners.limits_first(step(&mut table, &event), else_answer);
        }
    }

    /// Events on a table whose counts are as high as the calls allow, on which ground 17 is never met.
    fn within_calls(&mut self) {
        let mut table = in_range(&mut self.numbers);
        raise_to_calls(&mut table, &mut self.numbers);
        let events = self.events(&table, 12);
        self.walk(&table, &events);
    }

    /// Events on a table, one after another; whether there is no difference.
    fn walk(&mut self, table: &Table, events: &[Event]) -> bool {
        if self.outcome.enough() {
            return false;
        }
        // In most cases random bytes stand in what is no part of the tables.
        let noise = self.numbers.bits();
        let noise = (!self.numbers.one_in(4)).then_some(noise);
        self.tables += 1;
        self.table_events += events.len() as u64;
        let found = walk_difference(&self.library, table, events, noise, Some(&mut self.corners));
        let words = || tell_walk(&self.library, table, events, noise);
        self.outcome.count(events.len(), found.as_ref(), words);
        found.is_none()
    }

    fn events(&mut self, table: &Table, most: u32) -> Vec<Event> {
        let numbers = &mut self.numbers;
        let manner = any_manner(numbers);
        let in_range = table.in_range();
        let mut table = table.clone();
        (0..numbers.between(1, most))
            .map(|_| {
                let event = if numbers.one_in(8) {
                    any_event(table.n, numbers)
                } else {
                    pick(&table, &manner, numbers)
                };
                if in_range {
                    let _ = advance(&mut table, &event);
                }
                event
            })
            .collect()
    }

    /// A field that is no event, or has bytes behind it, on any table, or too little room for the table.
    fn field(&mut self) {
        self.fields += 1;
        let mut table = in_range(&mut self.numbers);
        if self.numbers.one_in(8) {
            spoil(&mut table, &mut self.numbers);
        }
        let mut field = no_event(&mut self.numbers);
        match self.numbers.below(4) {
            0 => {
                field.clear();
                write_event(&mut field, &any_event(table.n, &mut self.numbers));
            }
            // Of a first field.
            1 => field = vec![self.numbers.of(&[0x01, 0x02]), 0, 1, table.n],
            _ => {}
        }
        if self.numbers.one_in(3) {
            let mut behind = vec![0; self.numbers.place(40)];
            self.numbers.fill(&mut behind);
            field.extend(behind);
        }
        let room = match self.numbers.below(8) {
            0 => self.numbers.place(TABLE_BYTES),
            1 => TABLE_BYTES - 1,
            2 => TABLE_BYTES,
            _ => TABLE_BYTES + self.numbers.place(100),
        };
        let noise = self.numbers.bits();
        if let Some(words) = field_difference(&self.library, &table, &field, room, noise) {
            return self.outcome.difference(words);
        }
        self.outcome.passed += 1;
        match first_event(&field) {
            _ if room < TABLE_BYTES => {}
            Err(number) => {
                self.corners.refusal(number);
                if table.in_range() {
                    self.corners.first_tag(&field, number);
                }
            }
            Ok(event) => {
                let before = Before::of(&table, &event);
                let answer = step(&mut table, &event);
                self.corners.begin();
                self.corners.event(Source::Table, &before, &event, answer, &table);
            }
        }
    }
}
