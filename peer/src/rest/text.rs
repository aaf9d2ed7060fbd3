//! The text of the program `rest`: a list is run as the bench program runs it, then the round of T-09 is gone until no
//! message waits.

use crate::machine::{advance, Event, Table};
use crate::print::{line, run_list_and};
use crate::round::driver::{turn_in_range, Place};
use std::io::{Result, Write};

/// The place of the first turn.
pub const FIRST: Place = (1, 2);

/// Makes turns from the first place on until no message waits. Gives how many. The table must be in range.
pub fn turn_to_rest(table: &mut Table) -> u64 {
    let mut place = FIRST;
    let mut turns = 0;
    while !table.messages.is_empty() {
        (place, _) = turn_in_range(table, place).expect("a pair of the round");
        turns += 1;
    }
    turns
}

/// The text of a list.
pub fn rest(list: &[u8]) -> Vec<u8> {
    rest_by(advance, turn_to_rest, list)
}

/// The same by any machine and any row of turns.
pub fn rest_by(
    machine: impl Fn(&mut Table, &Event) -> std::result::Result<(), u8>,
    turns: impl FnOnce(&mut Table) -> u64,
    list: &[u8],
) -> Vec<u8> {
    run_list_and(machine, list, |table, text| {
        let made = turns(table);
        line(text, format_args!("turns {made}"));
    })
}

/// Prints it.
pub fn print(list: &[u8], out: &mut impl Write) -> Result<()> {
    out.write_all(&rest(list))
}
