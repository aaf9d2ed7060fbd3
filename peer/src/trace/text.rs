//! The trace of a list: the bench program's first line; each event with its answer and, where it was accepted, the record
//! that changed and the messages that were taken out and put in; and the end of the bench program's text.

use crate::compare::event_words;
use crate::machine::{advance, Event, Table};
use crate::print::{line, node_words, run_list_telling};
use crate::rows::oldest;
use crate::trace::words::{activity_words, message_words};
use std::io::Write;

/// A trace, and where its pieces end, each of which is written whole or not at all: the first line, the lines of each
/// event, and what stands behind them.
#[derive(Clone, Debug, PartialEq, Eq)]
pub struct Trace {
    pub text: Vec<u8>,
    pub ends: Vec<usize>,
}

impl Trace {
    /// How many bytes of it are written where so many are free: its pieces up to the first that does not fit.
    pub fn fitting(&self, free: usize) -> usize {
        self.ends.iter().copied().take_while(|&end| end <= free).last().unwrap_or(0)
    }

    /// Writes the pieces that fit. Gives its length, if it fits whole.
    pub fn write(&self, out: &mut [u8]) -> Option<usize> {
        let length = self.fitting(out.len());
        out[..length].copy_from_slice(&self.text[..length]);
        (length == self.text.len()).then_some(length)
    }
}

/// The trace of a list.
pub fn trace(list: &[u8]) -> Trace {
    trace_by(advance, list)
}

/// The same by any machine.
pub fn trace_by(machine: impl Fn(&mut Table, &Event) -> Result<(), u8>, list: &[u8]) -> Trace {
    let mut ends = Vec::new();
    let tell = |text: &mut String, table: &mut Table, e: usize, event: &Event| {
        tell_event(&machine, text, table, e, event);
        ends.push(text.len());
    };
    let text = run_list_telling(list, tell, |_, _| {});
    let first_line = text.iter().position(|&byte| byte == b'\n').map_or(0, |place| place + 1);
    ends.insert(0, first_line);
    // Where the list is refused, the first line is all.
    if first_line < text.len() {
        ends.push(text.len());
    }
    Trace { text, ends }
}

/// Does event e and adds its lines.
fn tell_event(
    machine: &impl Fn(&mut Table, &Event) -> Result<(), u8>,
    text: &mut String,
    table: &mut Table,
    e: usize,
    event: &Event,
) {
    let (nodes, waiting) = (table.nodes, table.messages.len());
    let taken = match *event {
        Event::Deliver(a, b) | Event::Lose(a, b) => oldest(table, a, b).copied(),
        _ => None,
    };
    let words = event_words(event);
    if let Err(r) = machine(table, event) {
        line(text, format_args!("{e} {words} refused {r}"));
        return;
    }
    line(text, format_args!("{e} {words} accepted"));
    for i in 1..=table.n {
        let node = table.node(i);
        if *node != nodes[usize::from(i) - 1] {
            let activity = activity_words(&node.activity);
            line(text, format_args!("  {} {activity}", node_words(i, node)));
        }
    }
    if let Some(m) = &taken {
        line(text, format_args!("  taken {}", message_words(m)));
    }
    // What was put in stands behind what was left.
    for m in table.messages.iter().skip(waiting - usize::from(taken.is_some())) {
        line(text, format_args!("  sent {}", message_words(m)));
    }
}

/// Prints it.
pub fn print(list: &[u8], out: &mut impl Write) -> std::io::Result<()> {
    out.write_all(&trace(list).text)
}
