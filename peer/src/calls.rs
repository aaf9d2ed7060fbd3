//! Calls of functions that fill a lent buffer, as the vectors have them, a call a line:
//! `FUNCTION ARGUMENT.. out LENGTH answer NUMBER OUT`. A slice is in hex, a number is decimal, and OUT is
//! what out begins with after the call, or `same`.

use crate::bully;
use crate::controller;
use crate::machine::TOWER;
use crate::proved::{
    limits_to_bytes, table_from_bytes, traffic_to_bytes, Library, COUNTS_AT, TABLE_BYTES,
};
use crate::round;
use crate::traffic_tables::count_waiting;
use crate::vectors::{number, read_hex};
use std::ops::Range;

/// What a function takes, one after another.
#[derive(Clone, Copy, Debug)]
pub enum Takes {
    Slice,
    /// A slice too: a table, which stands in the vectors without counts and limits, as it was before T-05.
    OlderTable,
    Number,
}

/// What a call gives to a function: the slices in their order, and the numbers in theirs.
#[derive(Clone, Debug, Default, PartialEq, Eq)]
pub struct Arguments {
    pub slices: Vec<Vec<u8>>,
    pub numbers: Vec<u8>,
}

/// A function that vectors call.
#[derive(Debug)]
pub struct Function {
    pub name: &'static str,
    pub takes: &'static [Takes],
    pub call: fn(&dyn Library, &Arguments, &mut [u8]) -> u8,
    /// Which of the bytes that out begins with after the call are free, and which directly behind them.
    pub free: fn(&[u8]) -> Vec<Range<usize>>,
}

/// Every byte is as the vector says.
pub fn none_free(_: &[u8]) -> Vec<Range<usize>> {
    Vec::new()
}

/// The functions of the library that vectors call.
pub static FUNCTIONS: [Function; 5] = [
    Function {
        name: "nevraspu_recovery",
        takes: &[Takes::OlderTable, Takes::Number],
        call: |library, given, out| library.recovery(&given.slices[0], given.numbers[0], out),
        free: none_free,
    },
    Function {
        name: "nevraspu_bully_step",
        takes: &[Takes::Slice, Takes::Slice],
        call: |library, given, out| library.bully_step(&given.slices[0], &given.slices[1], out),
        free: |written| vec![bully::bytes::free(written)],
    },
    Function {
        name: "nevraspu_turn",
        takes: &[Takes::Slice, Takes::Number, Takes::Number],
        call: |library, given, out| {
            library.turn(&given.slices[0], given.numbers[0], given.numbers[1], out)
        },
        free: round::bytes::free,
    },
    Function {
        name: "nevraspu_controller_event",
        takes: &[Takes::Number, Takes::Number, Takes::Slice, Takes::Slice],
        call: |library, Arguments { slices, numbers }, out| {
            library.controller_event(numbers[0], numbers[1], &slices[0], &slices[1], out)
        },
        free: controller::bytes::free,
    },
    Function {
        name: "nevraspu_controller_message",
        takes: &[Takes::Number, Takes::Number, Takes::Slice, Takes::Slice],
        call: |library, Arguments { slices, numbers }, out| {
            library.controller_message(numbers[0], numbers[1], &slices[0], &slices[1], out)
        },
        free: controller::bytes::free,
    },
];

/// A call, and what follows.
#[derive(Clone, Debug)]
pub struct CallCase {
    /// The line that it stands in, from 1.
    pub line: usize,
    pub function: &'static Function,
    pub arguments: Arguments,
    /// How many bytes out is lent with.
    pub room: usize,
    pub answer: u8,
    /// What out begins with after the call; the bytes behind that stay as they were. For `same` it is empty.
    pub written: Vec<u8>,
}

/// Reads every call of a text; empty lines are skipped. The error names the line.
pub fn read_calls(text: &str, functions: &'static [Function]) -> Result<Vec<CallCase>, String> {
    let lines = text.lines().enumerate().filter(|(_, words)| !words.trim().is_empty());
    lines
        .map(|(k, words)| {
            let line = k + 1;
            let start: String = words.chars().take(200).collect();
            read_call(line, words, functions).ok_or(format!("line {line}: {start}"))
        })
        .collect()
}

/// None when the line is not in form, or out would begin with more bytes than it has.
fn read_call(line: usize, words: &str, functions: &'static [Function]) -> Option<CallCase> {
    let w = &mut words.split_whitespace();
    let name = w.next()?;
    let function = functions.iter().find(|function| function.name == name)?;
    let mut arguments = Arguments::default();
    for takes in function.takes {
        match takes {
            Takes::Slice => arguments.slices.push(read_hex(w.next()?)?),
            Takes::OlderTable => arguments.slices.push(completed(&read_hex(w.next()?)?)),
            Takes::Number => arguments.numbers.push(number(w)?),
        }
    }
    let room = (w.next()? == "out").then(|| number(w))??;
    let answer = (w.next()? == "answer").then(|| number(w))??;
    let written = match w.next()? {
        "same" => Vec::new(),
        word => read_hex(word)?,
    };
    let whole = w.next().is_none() && written.len() <= room;
    whole.then_some(CallCase { line, function, arguments, room, answer, written })
}

/// A table of T-04's vectors with counts and limits. They were made for the table of that time, 1,362 bytes,
/// behind which zeros are read; as counts zeros put every table with a waiting message out of range, and as
/// limits every table, and its answer would be 1. So that each call asks for what it was made for, and answer
/// and OUT stay, each pair gets what waits of it as sent, and nothing as delivered or lost, and the table gets
/// the tower's limits, which were those of every table then. A message whose sender or receiver is none of the
/// n nodes, or the same, is of no pair and not counted; such a table is out of range with any counts. A table
/// that was cut short is filled with zeros up to its counts; what stood behind a longer one, which is not
/// looked at, stands behind the limits.
pub fn completed(given: &[u8]) -> Vec<u8> {
    let (old, behind) = given.split_at(given.len().min(COUNTS_AT));
    let mut bytes = [0; TABLE_BYTES];
    bytes[..old.len()].copy_from_slice(old);
    let mut table = table_from_bytes(&bytes);
    count_waiting(&mut table);
    traffic_to_bytes(&table.traffic, &mut bytes);
    limits_to_bytes(TOWER, &mut bytes);
    [&bytes, behind].concat()
}
