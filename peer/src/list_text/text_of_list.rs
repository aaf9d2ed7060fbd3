//! A list as text: its first field and its events, a line each. Nothing is run, so that an event which the machine would
//! refuse is printed like any other.

use crate::compare::event_words;
use crate::list::read_list;
use crate::list_text::FIRST_WORDS;
use crate::machine::Limits;
use crate::print::{line, print_stop};
use std::io::{Result, Write};

/// The text of a list: up to the damage, if it is damaged, with `stopped b r`.
pub fn text_of_list(list: &[u8]) -> Vec<u8> {
    let mut text = String::new();
    match read_list(list) {
        // Where the whole list or the first field fails, that line is all that is printed.
        Err(stop) => print_stop(&mut text, stop),
        Ok(list) => {
            line(&mut text, format_args!("{} {}", first_word(list.limits), list.n));
            for event in &list.events {
                line(&mut text, format_args!("{}", event_words(event)));
            }
            if let Some(stop) = list.stop {
                print_stop(&mut text, stop);
            }
        }
    }
    text.into_bytes()
}

/// The word that the limits of a list are named by.
pub fn first_word(limits: Limits) -> &'static str {
    let by_limits = FIRST_WORDS.iter().find(|&&(_, given)| given == limits);
    by_limits.expect("no list has other limits").0
}

/// Prints it.
pub fn print(list: &[u8], out: &mut impl Write) -> Result<()> {
    out.write_all(&text_of_list(list))
}
