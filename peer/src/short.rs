//! Document 02's T-01, all short lists: every list of so many events that the machine accepts one
//! after another, as text. Words in quotation marks in the comments are that request's.

use crate::compare::event_words;
use crate::machine::{advance, Event, PairCounts, Table, TOWER};
use std::io::{Result, Write};

/// "n from 1 to 3"
pub const MAX_N: u8 = 3;
/// "a length from 0 to 7"
pub const MAX_LENGTH: u8 = 7;
/// "Finish uses task 100 only."
const TASK: u16 = 100;
/// "A refusal prints `stopped 0 16` alone."
pub const REFUSAL: &[u8] = b"stopped 0 16\n";

/// What was done for a text.
#[derive(Clone, Copy, Debug, Default, PartialEq, Eq)]
pub struct Counts {
    /// The lists printed.
    pub lists: u64,
    /// The events that the machine was given, and those of them that it accepted.
    pub tried: u64,
    pub accepted: u64,
}

/// n and the length. None is ground 16: "not exactly two bytes, or one outside its range".
pub fn read_input(input: &[u8]) -> Option<(u8, u8)> {
    match *input {
        [n, length] if (1..=MAX_N).contains(&n) && length <= MAX_LENGTH => Some((n, length)),
        _ => None,
    }
}

/// Prints the text of an input.
pub fn print(input: &[u8], out: &mut impl Write) -> Result<()> {
    match read_input(input) {
        Some((n, length)) => print_lists(n, length, out).map(|_| ()),
        None => out.write_all(REFUSAL),
    }
}

/// Prints "every list of exactly that many events", and the "last line". They are the tower's.
pub fn print_lists(n: u8, length: u8, out: &mut impl Write) -> Result<Counts> {
    let counts = walk(n, length, |_, line| out.write_all(line))?;
    writeln!(out, "lists {}", counts.lists)?;
    Ok(counts)
}

/// The same lists as events, in the same order.
pub fn lists(n: u8, length: u8) -> Vec<Vec<Event>> {
    let mut lists = Vec::new();
    let walked = walk(n, length, |events, _| {
        lists.push(events.to_vec());
        Ok(())
    });
    walked.expect("a Vec takes every list");
    lists
}

/// Does something with each list in turn, which is given as events and as its line.
fn walk(n: u8, length: u8, found: impl FnMut(&[Event], &[u8]) -> Result<()>) -> Result<Counts> {
    let words = |event| (event, event_words(&event));
    let alphabet: Vec<_> = alphabet(n).into_iter().map(words).collect();
    let counts = Counts::default();
    let mut walk =
        Walk { alphabet: &alphabet, events: Vec::new(), line: Vec::new(), counts, found };
    let mut room = vec![Table::start(n, TOWER); usize::from(length)];
    walk.go_on(&Table::start(n, TOWER), &mut room)?;
    Ok(walk.counts)
}

/// All events that a list can have, "tag first, then contents as bytes".
pub fn alphabet(n: u8) -> Vec<Event> {
    let single = [
        Event::Crash,
        Event::Recover,
        Event::Check,
        Event::Timeout,
        Event::Tick,
        Event::Expire,
        |i| Event::Finish(i, TASK),
    ];
    let mut events = Vec::new();
    for event in single {
        events.extend((1..=n).map(event));
    }
    for event in [Event::Deliver, Event::Lose] {
        for a in 1..=n {
            events.extend((1..=n).filter(|&b| b != a).map(|b| event(a, b)));
        }
    }
    events
}

struct Walk<'a, F> {
    /// The events with their words.
    alphabet: &'a [(Event, String)],
    /// The events so far, and their text.
    events: Vec<Event>,
    line: Vec<u8>,
    counts: Counts,
    found: F,
}

impl<F: FnMut(&[Event], &[u8]) -> Result<()>> Walk<'_, F> {
    /// Finds every list that begins with the events so far, which led to the table, and has one more
    /// for each table that there is room for. All lists that begin alike stand together, so the order
    /// of the next event is the order of the lists.
    fn go_on(&mut self, table: &Table, room: &mut [Table]) -> Result<()> {
        let so_far = self.line.len();
        let Some((next, room)) = room.split_first_mut() else {
            self.counts.lists += 1;
            self.line.push(b'\n');
            return (self.found)(&self.events, &self.line);
        };
        self.counts.tried += self.alphabet.len() as u64;
        copy(table, next);
        for (event, words) in self.alphabet {
            // A refused event leaves the table as it was.
            if advance(next, event).is_err() {
                continue;
            }
            self.counts.accepted += 1;
            if so_far > 0 {
                self.line.extend_from_slice(b", ");
            }
            self.line.extend_from_slice(words.as_bytes());
            self.events.push(*event);
            self.go_on(next, room)?;
            self.events.pop();
            self.line.truncate(so_far);
            copy(table, next);
        }
        Ok(())
    }
}

/// Makes a table what another of the same n is. Nodes above n and their counts are never written.
fn copy(from: &Table, to: &mut Table) {
    let n = usize::from(from.n);
    to.nodes[..n].copy_from_slice(&from.nodes[..n]);
    to.messages.clone_from(&from.messages);
    copy_counts(&from.traffic.sent, &mut to.traffic.sent);
    copy_counts(&from.traffic.delivered, &mut to.traffic.delivered);
    copy_counts(&from.traffic.lost, &mut to.traffic.lost);
}

/// The counts between the nodes that there can be here.
fn copy_counts(from: &PairCounts, to: &mut PairCounts) {
    const NODES: usize = MAX_N as usize;
    for (from, to) in from.iter().zip(to).take(NODES) {
        to[..NODES].copy_from_slice(&from[..NODES]);
    }
}
