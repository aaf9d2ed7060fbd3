//! Compares a library's turns with this program's, on schedules and on calls with any bytes, and judges them. A
//! difference is shortened and told in words.

use crate::compare::{two_tables, Difference, Lent};
use crate::corners::Source;
use crate::history::Checker;
use crate::list::write_event;
use crate::machine::{step, Event, Table};
use crate::numbers::Numbers;
use crate::proved::{table_from_bytes, table_to_bytes, Library, Own, TableBytes, TABLE_BYTES};
use crate::round::bound::{Following, Happened};
use crate::round::bytes::{free, written, TURN_BYTES};
use crate::round::corners::{Call, Corners};
use crate::round::driver::Place;
use crate::round::schedules::{taken, Move, Schedule};
use crate::round::tables::in_another_form;
use crate::shortest::shortest;
use crate::vectors::table_text;

/// How many bytes behind a table, or behind a turn's, are looked at.
const BEHIND: usize = 8;

/// While fewer than so many messages are followed, one that is sent is followed too.
const FOLLOWED: usize = 4;

/// Takes one turn through the library and through this program's driver, and compares the answers and every byte
/// of the lent buffer; then the turn is judged by itself, and counted in the corners. Gives the answer.
pub fn call(
    library: &impl Library,
    source: Source,
    table: &[u8],
    place: Place,
    lent: &mut Lent,
    corners: &mut Corners,
) -> Result<u8, String> {
    let (a, b) = place;
    let answer = library.turn(table, a, b, &mut lent.now);
    let mut own = [0; TURN_BYTES];
    let room = lent.now.len().min(TURN_BYTES);
    let number = Own.turn(table, a, b, &mut own[..room]);
    let expected = if number == 0 { &own[..] } else { &[] };
    if let Some(words) = lent.judge_bytes(answer, number, expected, &free(expected)) {
        let (Some((after, ..)), Some((own, ..)), 0) =
            (written(&lent.now), written(expected), answer)
        else {
            return Err(words);
        };
        let tables = two_tables(&table_from_bytes(after), &table_from_bytes(own));
        return Err(format!("{words}\n{tables}"));
    }
    corners.turn(source, library, &Call { table, place, answer, lent })?;
    Ok(answer)
}

/// A schedule on its way through a library.
struct Walk<'a, L> {
    library: &'a L,
    source: Source,
    noise: bool,
    numbers: Numbers,
    /// The table that was left last, and the place of the next turn.
    bytes: TableBytes,
    table: Table,
    place: Place,
    /// The buffers for turns and for events.
    for_turns: Lent,
    for_events: Lent,
    following: Following,
    /// In a run: demand 3, the range, and what T-05 says of runs.
    checker: Option<Checker>,
}

impl<'a, L: Library> Walk<'a, L> {
    fn new(library: &'a L, schedule: &Schedule) -> Walk<'a, L> {
        let table = schedule.start.clone();
        let mut numbers = Numbers::new(schedule.noise.unwrap_or(0));
        let mut bytes = [0; TABLE_BYTES];
        table_to_bytes(&table, &mut bytes);
        let mut following = Following::new(table.n);
        for &at in &schedule.followed {
            following.follow(&table, at);
        }
        let run = schedule.source == Source::Run;
        Walk {
            library,
            source: schedule.source,
            noise: schedule.noise.is_some(),
            bytes,
            place: schedule.place,
            for_turns: Lent::new(TURN_BYTES + BEHIND, &mut numbers),
            for_events: Lent::new(TABLE_BYTES + BEHIND, &mut numbers),
            following,
            checker: run.then(|| Checker::new(table.n, table.limits)),
            table,
            numbers,
        }
    }

    fn go(&mut self, what: &Move, corners: &mut Corners) -> Result<(), String> {
        let given = match self.noise {
            true => in_another_form(&self.bytes, &mut self.numbers),
            false => self.bytes.to_vec(),
        };
        let happened = match what {
            Move::Turn => self.turn(&given, corners)?,
            Move::Event(event) => self.event(&given, event, corners)?,
        };
        let after = table_from_bytes(&self.bytes);
        for gone in self.following.after(&self.table, &happened, &after)? {
            corners.gone(self.source, &gone);
        }
        // What was sent is the youngest.
        let left = self.table.messages.len() - usize::from(happened.taken.is_some());
        if after.messages.len() > left && self.following.count() < FOLLOWED {
            self.following.follow(&after, left);
        }
        self.table = after;
        Ok(())
    }

    fn turn(&mut self, given: &[u8], corners: &mut Corners) -> Result<Happened, String> {
        let place = self.place;
        let lent = &mut self.for_turns;
        let answer = call(self.library, self.source, given, place, lent, corners)?;
        let Some((after, next, done)) = written(&lent.now).filter(|_| answer == 0) else {
            return Err(format!("answered {answer}, in a schedule"));
        };
        (self.bytes, self.place) = (*after, next);
        lent.renew(&mut self.numbers);
        let (a, b) = place;
        match done {
            1 => self.check(&Event::Deliver(a, b), 0)?,
            2 => self.check(&Event::Lose(a, b), 0)?,
            _ => {}
        }
        Ok(Happened { turn: true, taken: (done > 0).then_some(place), lost: done == 2 })
    }

    fn event(
        &mut self,
        given: &[u8],
        event: &Event,
        corners: &mut Corners,
    ) -> Result<Happened, String> {
        let mut own = self.table.clone();
        let answer = step(&mut own, event);
        let mut field = Vec::with_capacity(8);
        write_event(&mut field, event);
        let lent = &mut self.for_events;
        let expected = answer.map(|()| &own);
        if let Some(words) = lent.step_difference(self.library, given, &field, expected) {
            return Err(words);
        }
        if let (Ok(()), Some(after)) = (answer, lent.now.first_chunk()) {
            self.bytes = *after;
            lent.renew(&mut self.numbers);
        }
        let number = answer.err().unwrap_or(0);
        corners.event(self.source, event, number);
        self.check(event, number)?;
        let taken = taken(event).filter(|_| number == 0);
        Ok(Happened { turn: false, taken, lost: matches!(event, Event::Lose(..)) })
    }

    /// In a run: the event that a turn was, or an event between turns, with its answer.
    fn check(&mut self, event: &Event, answer: u8) -> Result<(), String> {
        let Some(checker) = &mut self.checker else {
            return Ok(());
        };
        let entry = checker.check(event, &table_from_bytes(&self.bytes))?;
        match entry.answer.err().unwrap_or(0) {
            number if number != answer => {
                Err(format!("answered {answer}, by the history {number}"))
            }
            _ => Ok(()),
        }
    }
}

/// Each turn and event of a schedule through the library, on the table that was left before it, and each turn at
/// the place that the last one left. The turns are judged, and the bound is checked on the followed messages, and
/// on some that are sent on the way; in a run demand 3 and the range are checked on each of the library's tables.
pub fn schedule_difference(
    library: &impl Library,
    schedule: &Schedule,
    corners: &mut Corners,
) -> Option<Difference> {
    let mut walk = Walk::new(library, schedule);
    for (k, what) in schedule.moves.iter().enumerate() {
        let place = walk.place;
        if let Err(words) = walk.go(what, corners) {
            let events = k + 1;
            let at = match what {
                Move::Turn => format!("{events}, turn at {} {}", place.0, place.1),
                Move::Event(_) => format!("{events}, {what}"),
            };
            return Some(Difference { events, words: format!("{at}: {words}") });
        }
    }
    None
}

/// As few of the moves as still show a difference, by their names, and that difference in words.
pub fn fewest_moves(
    moves: &[Move],
    found: impl Fn(&[Move]) -> Option<Difference>,
) -> (String, String) {
    let mut moves = moves.to_vec();
    if let Some(found) = found(&moves) {
        moves.truncate(found.events);
    }
    let moves = shortest(moves, |moves| found(moves).is_some());
    let names: Vec<String> = moves.iter().map(Move::to_string).collect();
    (names.join(", "), found(&moves).map(|found| found.words).unwrap_or_default())
}

/// A difference in words, with as few of the turns and events as still show one.
pub fn tell_schedule(library: &impl Library, schedule: &Schedule) -> String {
    let found = |moves: &[Move]| {
        let schedule = Schedule { moves: moves.to_vec(), ..schedule.clone() };
        schedule_difference(library, &schedule, &mut Corners::default())
    };
    let (names, words) = fewest_moves(&schedule.moves, found);
    let (start, (a, b)) = (&schedule.start, schedule.place);
    format!(
        "a table, n {}:\n{}from the place {a} {b}: {}\n{}",
        start.n,
        table_text(start),
        names,
        words
    )
}
