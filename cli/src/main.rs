//! The command `nevraspu`, a tester's desk: lists of events as text and as bytes, run, traced and
//! shown. Every answer comes from the proved library, through the crate `nevraspu`; this program
//! reads, asks and writes.

mod arguments;
mod failure;
mod help;
mod input;
mod output;
mod show;

use arguments::{Ask, Source};
use failure::Failure;
use nevraspu::lists;
use std::process::ExitCode;

fn main() -> ExitCode {
    let words = std::env::args_os().skip(1).collect();
    match arguments::read(words).and_then(answer) {
        Ok(()) => ExitCode::SUCCESS,
        Err(failure) => failure.tell(),
    }
}

/// Does what was asked for.
fn answer(ask: Ask) -> Result<(), Failure> {
    match ask {
        Ask::Help(text) => output::write(text.as_bytes()),
        Ask::Run(source) => printed(&source, lists::print),
        Ask::Trace(source) => printed(&source, lists::trace),
        Ask::Rest(source) => printed(&source, lists::rest),
        Ask::Text(source) => printed(&source, lists::text_of_list),
        Ask::List(source) => list(&source),
        Ask::ShortLists(n, length) => short_lists(n, length),
        Ask::Aldebaran(n, length) => {
            let text = lists::aldebaran(n, length);
            output::write(&text)?;
            unless_stopped(&text, "N and L")
        }
        Ask::Show(source, form) => show(&source, form),
    }
}

/// A list's text, and a failure behind it where the list stops.
fn printed(source: &Source, text_of: fn(&[u8]) -> Vec<u8>) -> Result<(), Failure> {
    let text = text_of(&input::list(source)?.bytes);
    output::write(&text)?;
    unless_stopped(&text, &source.name())
}

/// The list of a text; a list in bytes as it stands, unless its text says that it stops.
fn list(source: &Source) -> Result<(), Failure> {
    let list = input::list(source)?;
    if !list.from_text {
        unless_stopped(&lists::text_of_list(&list.bytes), &source.name())?;
    }
    output::write(&list.bytes)
}

fn short_lists(n: u8, length: u8) -> Result<(), Failure> {
    let mut progress = output::Progress::new();
    let mut last = Vec::new();
    for piece in lists::short_lists(n, length) {
        output::write(&piece)?;
        progress.add(piece.len());
        last = piece;
    }
    drop(progress);
    unless_stopped(&last, "N and LENGTH")
}

fn show(source: &Source, form: arguments::Form) -> Result<(), Failure> {
    let list = input::list(source)?.bytes;
    let trace = lists::trace(&list);
    let run = show::Shown {
        trace: &String::from_utf8_lossy(&trace),
        title: &source.name(),
        stand: lists::text_of_list(&list).starts_with(b"stand "),
    };
    let text = match form {
        arguments::Form::Page => show::html(&run),
        arguments::Form::Svg => show::svg(&run),
    };
    output::write(text.as_bytes())?;
    unless_stopped(&trace, &source.name())
}

/// Bad input where the text says that what it was asked for stopped.
fn unless_stopped(text: &[u8], what: &str) -> Result<(), Failure> {
    match lists::stopped(text) {
        None => Ok(()),
        Some(stopped) => Err(Failure::Input(format!("{what}: {stopped}"))),
    }
}
