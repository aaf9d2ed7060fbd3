//! T-01 and T-12 of document 02: programs that are given two bytes, n and a length, and print a text, and one
//! line for any other input; and the library's functions for the same texts. What the peer's own have in common, and what
//! compares others with them.

pub mod compare;
pub mod corners;
pub mod library;
pub mod process;
pub mod program;

use crate::proved::Texts;
use crate::{aldebaran, aldebaran_reading, short};
use std::io::Result;

/// An input of so many bytes is refused whatever follows, so that no more of it is read.
pub const ONE_TOO_MANY: usize = 3;

/// What sets the programs of one request apart from those of another.
#[derive(Debug)]
pub struct Request {
    /// The lengths are 0 to this one. n is 1 to 3 in both requests.
    pub max_length: u8,
    /// What is printed for an input that is refused.
    pub refusal: &'static [u8],
    /// n and the length of an input that is not refused.
    pub read_input: fn(&[u8]) -> Option<(u8, u8)>,
    /// Prints the peer's text of any input.
    pub print: fn(&[u8], &mut Vec<u8>) -> Result<()>,
    /// What a text is of, and how many of them the peer has for n and a length.
    pub items: &'static str,
    pub count: fn(u8, u8) -> u64,
    /// Reads the text of n and a length by itself, where that is possible. The error is what is wrong with it.
    pub reading: Option<Reading>,
    /// How the names of the vectors' texts end.
    pub ending: &'static str,
    /// The library's.
    pub function: Function,
}

/// A library's function for the text of an input: all of it or nothing, or as much as there is room for from a byte on.
#[derive(Clone, Copy, Debug)]
pub enum Function {
    Whole(fn(&dyn Texts, &[u8], &mut [u8]) -> Option<usize>),
    Window(fn(&dyn Texts, &[u8], u64, &mut [u8]) -> usize),
}

pub type Reading = fn(u8, u8, &[u8]) -> std::result::Result<(), String>;

pub static SHORT_LISTS: Request = Request {
    max_length: short::MAX_LENGTH,
    refusal: short::REFUSAL,
    read_input: short::read_input,
    print: short::print,
    items: "lists",
    count: |n, length| {
        let counts = short::print_lists(n, length, &mut std::io::sink());
        counts.expect("it takes every text").lists
    },
    reading: None,
    ending: "txt",
    function: Function::Window(|library, input, from, out| library.short_lists(input, from, out)),
};

pub static ALDEBARAN: Request = Request {
    max_length: aldebaran::MAX_LENGTH,
    refusal: aldebaran::REFUSAL,
    read_input: aldebaran::read_input,
    print: aldebaran::print,
    items: "states",
    count: |n, length| aldebaran::states(n, length).len() as u64,
    reading: Some(aldebaran_reading::read),
    ending: "aut",
    function: Function::Whole(|library, input, out| library.aldebaran(input, out)),
};

impl Request {
    /// All inputs that are not refused: n and length.
    pub fn inputs(&self) -> impl Iterator<Item = (u8, u8)> {
        let lengths = 0..=self.max_length;
        (1..=short::MAX_N).flat_map(move |n| lengths.clone().map(move |length| (n, length)))
    }

    /// The peer's text of any input.
    pub fn text(&self, input: &[u8]) -> Vec<u8> {
        let mut text = Vec::new();
        (self.print)(input, &mut text).expect("a Vec takes every text");
        text
    }
}
