//! Document 02's T-12, "For the model-checking tools": the lists of T-01 up to a length as one transition
//! system, in the Aldebaran text form. Words in quotation marks in the comments are that request's.

use crate::compare::event_words;
use crate::machine::Event;
use crate::short::lists;
use std::io::{Result, Write};

/// "a length L from 0 to 4"
pub const MAX_LENGTH: u8 = 4;
/// "then `stopped 0 22` alone is printed"
pub const REFUSAL: &[u8] = b"stopped 0 22\n";

/// n and L. None is ground 22: "input not exactly the two bytes n and L, n outside 1 to 3 or L outside 0
/// to 4".
pub fn read_input(input: &[u8]) -> Option<(u8, u8)> {
    match *input {
        [n @ 1..=3, length @ 0..=MAX_LENGTH] => Some((n, length)),
        _ => None,
    }
}

/// Prints the text of an input.
pub fn print(input: &[u8], out: &mut impl Write) -> Result<()> {
    match read_input(input) {
        Some((n, length)) => out.write_all(text(n, length).as_bytes()),
        None => out.write_all(REFUSAL),
    }
}

/// "a state for each accepted list of length 0 to L, numbered from 0 by length and then by T-01's order":
/// the list of state k stands at place k.
pub fn states(n: u8, length: u8) -> Vec<Vec<Event>> {
    (0..=length).flat_map(|length| lists(n, length)).collect()
}

/// "Print the lists of T-01 up to a length L ... as one".
pub fn text(n: u8, length: u8) -> String {
    let states = states(n, length);
    let mut transitions = Vec::new();
    // "ordered by b"
    for (b, list) in states.iter().enumerate() {
        // "where b's list is a's with one event more". The list of no events is no such list.
        let Some((event, shorter)) = list.split_last() else {
            continue;
        };
        let a = states.iter().position(|list| list == shorter);
        let a = a.expect("the beginning of an accepted list is accepted");
        transitions.push(format!("({a}, \"{}\", {b})\n", label(event)));
    }
    // "The first line is `des (0, t, s)` with the counts of transitions and states. Then come t lines
    // `(a, "LABEL", b)`".
    let first = format!("des (0, {}, {})\n", transitions.len(), states.len());
    first + &transitions.concat()
}

/// "The label is the event's name in capitals and its numbers, parted by single spaces."
fn label(event: &Event) -> String {
    event_words(event).to_uppercase()
}
