//! Random schedules: turns, each with the place that the last one left, and any other events between them.

use crate::compare::event_words;
use crate::corners::Source;
use crate::drive::{any_event, any_manner, full_queue, pick, Manner, FULL};
use crate::limit_tables::any_limits;
use crate::machine::{advance, Event, Limits, Table};
use crate::numbers::Numbers;
use crate::round::bound::{allowed, line, pair_of};
use crate::round::driver::{next, turn_in_range, Place};
use crate::round::tables::{any_place, to_turn};
use std::fmt;

/// A turn, or an event between turns.
#[derive(Clone, Copy, Debug, PartialEq, Eq)]
pub enum Move {
    Turn,
    Event(Event),
}

impl fmt::Display for Move {
    fn fmt(&self, f: &mut fmt::Formatter) -> fmt::Result {
        match self {
            Move::Turn => f.write_str("turn"),
            Move::Event(event) => f.write_str(&event_words(event)),
        }
    }
}

/// Turns and events one after another, with where they begin.
#[derive(Clone, Debug)]
pub struct Schedule {
    /// A run is from the starting table.
    pub source: Source,
    pub start: Table,
    /// The place of the first turn.
    pub place: Place,
    pub moves: Vec<Move>,
    /// The messages of the first table that are followed, by their places in its queue.
    pub followed: Vec<usize>,
    /// A seed: then each table is given in another form of its bytes.
    pub noise: Option<u64>,
}

/// A schedule that is being made.
pub struct Making {
    pub table: Table,
    pub place: Place,
    pub moves: Vec<Move>,
}

impl Making {
    pub fn turn(&mut self) {
        (self.place, _) = turn_in_range(&mut self.table, self.place).expect("a pair of the round");
        self.moves.push(Move::Turn);
    }

    pub fn event(&mut self, event: Event) {
        let _ = advance(&mut self.table, &event);
        self.moves.push(Move::Event(event));
    }

    /// Mostly one that fits the table, else any, which is often refused.
    pub fn any_event(&self, manner: &Manner, numbers: &mut Numbers) -> Event {
        match numbers.one_in(6) {
            true => any_event(self.table.n, numbers),
            false => pick(&self.table, manner, numbers),
        }
    }
}

/// A seed for other forms of the tables' bytes, now and then.
fn any_noise(numbers: &mut Numbers) -> Option<u64> {
    let noise = numbers.bits();
    numbers.one_in(4).then_some(noise)
}

/// A schedule from a random table in range, mostly made for one message, which is followed with a few others. In
/// half of these, or fewer where the round is long, it begins at the pair behind the message's own, and nothing
/// between the turns takes one out of that pair, so that it goes in the last turn that the bound allows, which is
/// the schedule's last. Else it begins anywhere, often at the pair, and is short.
pub fn from_table(numbers: &mut Numbers) -> Schedule {
    let (start, pair) = to_turn(numbers);
    let n = start.n;
    let most = if numbers.one_in(40) { 4000 } else { 500 };
    let message = message_to_follow(&start, pair, most, numbers);
    let times = if n > 6 { 6 } else { 2 };
    let to_the_bound = message.filter(|_| numbers.one_in(times));
    let own_pair = to_the_bound.map(|(at, _)| pair_of(&start.messages[at]));
    let place = match (own_pair, pair) {
        (Some(pair), _) => next(n, pair),
        (None, Some(pair)) if !numbers.one_in(3) => pair,
        _ => any_place(n, numbers),
    };
    let turns = match to_the_bound {
        Some((_, allowed)) => allowed,
        None => u64::from(numbers.between(1, 30)),
    };
    let mut making = Making { table: start.clone(), place, moves: Vec::new() };
    let (often, manner) = (numbers.of(&[0, 1, 4, 8, 14]), any_manner(numbers));
    for _ in 0..turns {
        while numbers.below(24) < often {
            let event = making.any_event(&manner, numbers);
            if own_pair.is_none() || taken(&event) != own_pair {
                making.event(event);
            }
        }
        making.turn();
    }
    let mut followed: Vec<usize> = message.iter().map(|&(at, _)| at).collect();
    for _ in 0..numbers.below(4) {
        if !start.messages.is_empty() {
            followed.push(numbers.place(start.messages.len()));
        }
    }
    followed.sort();
    followed.dedup();
    let noise = any_noise(numbers);
    Schedule { source: Source::Table, start, place, moves: making.moves, followed, noise }
}

/// The pair out of which an event takes a message, if it is accepted.
pub fn taken(event: &Event) -> Option<Place> {
    match *event {
        Event::Deliver(a, b) | Event::Lose(a, b) => Some((a, b)),
        _ => None,
    }
}

/// A waiting message that may not wait longer than so many turns, by its place in the queue, with how many turns it
/// may; mostly one of a pair, with as many older ones as can be or with an equal one among them.
fn message_to_follow(
    table: &Table,
    pair: Option<Place>,
    most: u64,
    numbers: &mut Numbers,
) -> Option<(usize, u64)> {
    if table.messages.is_empty() {
        return None;
    }
    let any = pair_of(&table.messages[numbers.place(table.messages.len())]);
    let pair = pair.filter(|_| !numbers.one_in(3)).unwrap_or(any);
    let mut line = line(table, pair);
    line.truncate((1..=line.len()).rev().find(|&k| allowed(k - 1, table.n) <= most)?);
    let any = numbers.place(line.len());
    let equal = (0..line.len()).rev().find(|&k| line[..k].contains(&line[k]));
    let older = numbers.of(&[any, line.len() - 1, equal.unwrap_or(any)]);
    let mut places = (0..table.messages.len()).filter(|&at| pair_of(&table.messages[at]) == pair);
    Some((places.nth(older)?, allowed(older, table.n)))
}

/// A schedule from the starting table. In a third of them the queue is full soon, and the first turn is at the pair
/// of a message that waits then, whose receiver often crashes before. In half of them nothing is delivered or lost
/// but by turns.
pub fn from_start(numbers: &mut Numbers) -> Schedule {
    let full = numbers.one_in(3);
    let (n, limits, events) = if full {
        full_queue(numbers)
    } else {
        let limits = any_limits(numbers);
        (any_n(limits, numbers), limits, Vec::new())
    };
    let start = Table::start(n, limits);
    let mut making = Making { table: start.clone(), place: (0, 0), moves: Vec::new() };
    for event in events {
        making.event(event);
    }
    let waiting = &making.table.messages;
    let pair = full.then(|| waiting.get(numbers.place(waiting.len() + 1)).map(pair_of)).flatten();
    let place = pair.unwrap_or_else(|| any_place(n, numbers));
    making.place = place;
    if let Some((_, b)) = pair.filter(|_| numbers.one_in(2)) {
        making.event(Event::Crash(b));
    }
    let length = making.moves.len() + numbers.between(10, 300) as usize;
    let (often, by_turns) = (numbers.of(&[2, 4, 8, 12]), numbers.one_in(2));
    let mut manner = if full { FULL } else { any_manner(numbers) };
    while making.moves.len() < length {
        if numbers.one_in(100) {
            manner = any_manner(numbers);
        }
        let event = making.any_event(&manner, numbers);
        if numbers.below(16) < often || by_turns && taken(&event).is_some() {
            making.turn();
        } else {
            making.event(event);
        }
    }
    let noise = any_noise(numbers);
    let (source, followed) = (Source::Run, Vec::new());
    Schedule { source, start, place, moves: making.moves, followed, noise }
}

/// A number of nodes: often few, of whose pairs each comes up soon.
fn any_n(limits: Limits, numbers: &mut Numbers) -> u8 {
    match numbers.below(16) {
        0 => 1,
        1..=6 => numbers.between(2, 4) as u8,
        _ => numbers.between(1, u32::from(limits.nodes)) as u8,
    }
}
