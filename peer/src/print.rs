//! The text that the bench program prints for a list.

use crate::list::{read_list, Stop};
use crate::machine::{advance, total, Event, Node, Table};
use std::fmt::Write;

/// Runs a list from the starting table and gives the whole text.
pub fn run_list(list: &[u8]) -> Vec<u8> {
    run_list_by(advance, list)
}

/// The same by any machine.
pub fn run_list_by(machine: impl Fn(&mut Table, &Event) -> Result<(), u8>, list: &[u8]) -> Vec<u8> {
    run_list_and(machine, list, |_, _| {})
}

/// The same with something done to the table between the list and the printing of the table, which may add lines
/// before it. Where the whole list or the first field failed, it is not done.
pub fn run_list_and(
    machine: impl Fn(&mut Table, &Event) -> Result<(), u8>,
    list: &[u8],
    then: impl FnOnce(&mut Table, &mut String),
) -> Vec<u8> {
    let tell = |text: &mut String, table: &mut Table, e: usize, event: &Event| {
        if let Err(r) = machine(table, event) {
            line(text, format_args!("refused {e} {r}"));
        }
    };
    run_list_telling(list, tell, then)
}

/// The same with anything told of each event, which is to be done to the table: "e counts events from 1".
pub fn run_list_telling(
    list: &[u8],
    mut tell: impl FnMut(&mut String, &mut Table, usize, &Event),
    then: impl FnOnce(&mut Table, &mut String),
) -> Vec<u8> {
    let mut text = String::new();
    match read_list(list) {
        // "if the whole list or the first field failed, that line is all that is printed"
        Err(stop) => print_stop(&mut text, stop),
        Ok(list) => {
            let mut table = Table::start(list.n, list.limits);
            line(&mut text, format_args!("cabinets {}", list.n));
            for (k, event) in list.events.iter().enumerate() {
                tell(&mut text, &mut table, k + 1, event);
            }
            if let Some(stop) = list.stop {
                print_stop(&mut text, stop);
            }
            then(&mut table, &mut text);
            print_table(&mut text, &table);
        }
    }
    text.into_bytes()
}

/// "`stopped b r`"
pub fn print_stop(text: &mut String, stop: Stop) {
    line(text, format_args!("stopped {} {}", stop.offset, stop.number));
}

/// "a line per cabinet"; "last `messages` and how many wait". T-05: "three more lines, `sent`, `delivered` and
/// `lost`, each with its total".
pub fn print_table(text: &mut String, table: &Table) {
    for i in 1..=table.n {
        line(text, format_args!("{}", node_words(i, table.node(i))));
    }
    line(text, format_args!("messages {}", table.messages.len()));
    let traffic = &table.traffic;
    line(text, format_args!("sent {}", total(&traffic.sent)));
    line(text, format_args!("delivered {}", total(&traffic.delivered)));
    line(text, format_args!("lost {}", total(&traffic.lost)));
}

/// "number, status, coordinator, group, task, counter, count of members"
pub fn node_words(i: u8, node: &Node) -> String {
    let &Node { coordinator, group, task, counter, .. } = node;
    let (status, members) = (node.status as u8, node.members.count_ones());
    format!("{i} {status} {coordinator} {group} {task} {counter} {members}")
}

/// "0x0A ends each line"
pub fn line(text: &mut String, words: std::fmt::Arguments) {
    text.write_fmt(words).expect("a String takes every line");
    text.push('\n');
}
