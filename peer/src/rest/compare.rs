//! Takes runs with quiet stretches through a library and through this program's machine, and checks on every table what
//! T-13 rests on: it is suited, its potential is within the bound, every accepted quiet event lowers it and a refused
//! one leaves the table; so many quiet events are accepted as the potential allows, and so many turns are made before
//! no message waits. A difference is shortened and told in words.

use crate::compare::{event_words, two_tables, Difference, Lent};
use crate::list::write_event;
use crate::machine::{advance, Event, Table};
use crate::numbers::Numbers;
use crate::proved::{
    same_table, table_from_bytes, table_to_bytes, Library, TableBytes, TABLE_BYTES,
};
use crate::rest::corners::Corners;
use crate::rest::potential::{is_quiet, rest_bound, suited, turns_bound};
use crate::rest::runs::at_rest;
use crate::round::bytes::{written, TURN_BYTES};
use crate::round::compare::fewest_moves;
use crate::round::driver::{turn_in_range, Done, Place};
use crate::round::schedules::{Move, Schedule};
use crate::traffic_tables::pairs;

/// How many bytes behind a table, or behind a turn's, are looked at.
const BEHIND: usize = 8;

/// A number read off a table: the right one, or a wrong one in the tests.
pub type Potential = fn(&Table) -> u64;

/// A run on its way through a library.
struct Walk<'a, L> {
    library: &'a L,
    potential: Potential,
    numbers: Numbers,
    /// The table that was left last, its potential, and the place of the next turn.
    bytes: TableBytes,
    table: Table,
    high: u64,
    place: Place,
    for_turns: Lent,
    for_events: Lent,
    /// Since the last event that is not quiet: the potential then, and the quiet events accepted.
    since: (u64, u64),
    /// Since the last event that is no turn: the potential then, and the turns; as long as a message waits.
    turns: Option<(u64, u64)>,
}

impl<'a, L: Library> Walk<'a, L> {
    fn new(library: &'a L, potential: Potential, schedule: &Schedule) -> Walk<'a, L> {
        let table = schedule.start.clone();
        let mut numbers = Numbers::new(u64::from(table.n));
        let mut bytes = [0; TABLE_BYTES];
        table_to_bytes(&table, &mut bytes);
        let high = potential(&table);
        Walk {
            library,
            potential,
            bytes,
            high,
            place: schedule.place,
            for_turns: Lent::new(TURN_BYTES + BEHIND, &mut numbers),
            for_events: Lent::new(TABLE_BYTES + BEHIND, &mut numbers),
            since: (high, 0),
            turns: None,
            table,
            numbers,
        }
    }

    fn go(&mut self, what: &Move, corners: &mut Corners) -> Result<(), String> {
        match what {
            Move::Turn => self.turn(corners),
            Move::Event(event) => self.event(event, corners),
        }
    }

    fn event(&mut self, event: &Event, corners: &mut Corners) -> Result<(), String> {
        let mut after = self.table.clone();
        let answer = advance(&mut after, event);
        let mut field = Vec::with_capacity(8);
        write_event(&mut field, event);
        let lent = &mut self.for_events;
        let expected = answer.map(|()| &after);
        if let Some(words) = lent.step_difference(self.library, &self.bytes, &field, expected) {
            return Err(words);
        }
        if let (Ok(()), Some(bytes)) = (answer, lent.now.first_chunk()) {
            self.bytes = *bytes;
            lent.renew(&mut self.numbers);
        }
        self.turns = None;
        match (answer, is_quiet(event)) {
            (Ok(()), true) => self.quiet(event, after, corners),
            (Ok(()), false) => self.other(after, corners),
            (Err(number), quiet) => {
                if quiet {
                    corners.refused(&self.table, number);
                }
                if after != self.table {
                    return Err("refused, and the table has changed".to_string());
                }
                Ok(())
            }
        }
    }

    fn turn(&mut self, corners: &mut Corners) -> Result<(), String> {
        let mut after = self.table.clone();
        let place = self.place;
        let (next, done) = turn_in_range(&mut after, place).expect("a pair of the round");
        self.turn_by_library(&after, next, done)?;
        self.place = next;
        corners.turn(&self.table, done);
        let start = self.turns.unwrap_or((self.high, 0));
        let waited = !self.table.messages.is_empty();
        let event = match done {
            Done::Nothing if after != self.table => {
                return Err("nothing is done, and the table has changed".to_string());
            }
            Done::Nothing => None,
            Done::Delivered => Some(Event::Deliver(place.0, place.1)),
            Done::Lost => Some(Event::Lose(place.0, place.1)),
        };
        if event.is_some() && !waited {
            return Err("no message waits, and a turn does something".to_string());
        }
        if let Some(event) = event {
            self.quiet(&event, after, corners)?;
        }
        let (high, turns) = (start.0, start.1 + 1);
        self.turns = Some((high, turns));
        if !self.table.messages.is_empty() && turns >= turns_bound(self.table.n, high) {
            return Err(format!("a message waits after {turns} turns, from a potential of {high}"));
        }
        if waited && self.table.messages.is_empty() {
            corners.turns_alone();
        }
        Ok(())
    }

    /// The library's turn must be this one.
    fn turn_by_library(&mut self, after: &Table, next: Place, done: Done) -> Result<(), String> {
        let ((a, b), lent) = (self.place, &mut self.for_turns);
        let answer = self.library.turn(&self.bytes, a, b, &mut lent.now);
        let (bytes, place, did) = match written(&lent.now) {
            Some(written) if answer == 0 => written,
            _ => return Err(format!("answered {answer}, accepted here")),
        };
        if (place, did) != (next, done as u8) {
            return Err(format!("next {place:?}, done {did}; here {next:?}, {done:?}"));
        }
        let mut own = [0; TABLE_BYTES];
        table_to_bytes(after, &mut own);
        if !same_table(bytes, &own) {
            return Err(format!("another table\n{}", two_tables(&table_from_bytes(bytes), after)));
        }
        self.bytes = *bytes;
        if let Some(place) = lent.changed(TURN_BYTES) {
            return Err(format!("byte {place} of the buffer, behind the turn, has changed"));
        }
        lent.renew(&mut self.numbers);
        Ok(())
    }

    /// An accepted event that is not quiet: a stretch is over.
    fn other(&mut self, after: Table, corners: &mut Corners) -> Result<(), String> {
        self.over(corners);
        self.take(after, corners)?;
        self.since = (self.high, 0);
        Ok(())
    }

    fn over(&mut self, corners: &mut Corners) {
        let (start, accepted) = self.since;
        corners.stretch(&self.table, accepted, start, at_rest(&self.table));
    }

    /// An accepted quiet event.
    fn quiet(&mut self, event: &Event, after: Table, corners: &mut Corners) -> Result<(), String> {
        let was = self.high;
        let before = self.take(after, corners)?;
        if self.high >= was {
            return Err(format!("the potential was {was} and is {}", self.high));
        }
        corners.quiet(&before, event, &self.table, was - self.high);
        self.since.1 += 1;
        let (start, accepted) = self.since;
        if accepted > start {
            return Err(format!("{accepted} quiet events from a potential of {start}"));
        }
        if at_rest(&self.table) {
            self.all_refused()?;
        }
        Ok(())
    }

    /// Takes a table over, which must be suited and within the bound. Gives the one before it.
    fn take(&mut self, after: Table, corners: &mut Corners) -> Result<Table, String> {
        let before = std::mem::replace(&mut self.table, after);
        self.high = (self.potential)(&self.table);
        suited(&self.table)?;
        let bound = rest_bound(self.table.n, self.table.messages.len());
        if self.high > bound {
            return Err(format!("the potential is {}, the bound {bound}", self.high));
        }
        corners.table(self.high, bound);
        Ok(before)
    }

    /// At rest every quiet event is refused.
    fn all_refused(&self) -> Result<(), String> {
        let n = self.table.n;
        let of_one =
            (1..=n).flat_map(|i| [Event::Tick(i), Event::Expire(i), Event::Finish(i, 200)]);
        let of_two = pairs(n).flat_map(|(a, b)| [Event::Deliver(a, b), Event::Lose(a, b)]);
        for event in of_one.chain(of_two) {
            if advance(&mut self.table.clone(), &event).is_ok() {
                return Err(format!("at rest, and {} is accepted", event_words(&event)));
            }
        }
        Ok(())
    }
}

/// Each move of a run from the starting table through the library, on the table that was left before it.
pub fn rest_difference(
    library: &impl Library,
    potential: Potential,
    schedule: &Schedule,
    corners: &mut Corners,
) -> Option<Difference> {
    let mut walk = Walk::new(library, potential, schedule);
    for (k, what) in schedule.moves.iter().enumerate() {
        let (a, b) = walk.place;
        if let Err(words) = walk.go(what, corners) {
            let events = k + 1;
            let at = match what {
                Move::Turn => format!("{events}, turn at {a} {b}"),
                Move::Event(_) => format!("{events}, {what}"),
            };
            return Some(Difference { events, words: format!("{at}: {words}") });
        }
    }
    walk.over(corners);
    None
}

/// A difference in words, with as few of the turns and events as still show one.
pub fn tell_rest(library: &impl Library, potential: Potential, schedule: &Schedule) -> String {
    let found = |moves: &[Move]| {
        let schedule = Schedule { moves: moves.to_vec(), ..schedule.clone() };
        rest_difference(library, potential, &schedule, &mut Corners::default())
    };
    let (names, words) = fewest_moves(&schedule.moves, found);
    let (start, (a, b)) = (&schedule.start, schedule.place);
    format!(
        "n {}, limits {} {}, from the place {a} {b}: {}\n{}",
        start.n, start.limits.nodes, start.limits.messages, names, words
    )
}
