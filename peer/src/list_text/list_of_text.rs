//! The list of a text, or where the text is wrong and what was expected there.

use crate::list::{write_event, write_list, MAX_LIST};
use crate::list_text::FIRST_WORDS;
use crate::machine::Event;
use std::io::{self, Write};

/// A text has no more bytes.
pub const MAX_TEXT: usize = 1_048_576;

/// What is expected where a text is wrong.
#[derive(Clone, Copy, Debug, PartialEq, Eq)]
pub enum Expected {
    FirstWord,
    Byte,
    Task,
    Event,
    Separator,
    EndOfList,
    EndOfText,
}

pub const EXPECTED: [Expected; 7] = [
    Expected::FirstWord,
    Expected::Byte,
    Expected::Task,
    Expected::Event,
    Expected::Separator,
    Expected::EndOfList,
    Expected::EndOfText,
];

impl Expected {
    pub fn words(self) -> &'static str {
        match self {
            Expected::FirstWord => "cabinets or stand",
            Expected::Byte => "a number from 0 to 255",
            Expected::Task => "a number from 0 to 65535",
            Expected::Event => {
                "an event: crash, recover, check, timeout, tick, expire, finish, deliver or lose"
            }
            Expected::Separator => "a comma or the end of the line",
            Expected::EndOfList => {
                "the end of the text before this event: a list has at most 65536 bytes"
            }
            Expected::EndOfText => "the end of the text: a text has at most 1048576 bytes",
        }
    }
}

/// The first thing that is wrong with a text.
#[derive(Clone, Copy, Debug, PartialEq, Eq)]
pub struct Wrong {
    pub offset: usize,
    pub expected: Expected,
}

/// Reads a text.
pub fn list_of_text(text: &[u8]) -> Result<Vec<u8>, Wrong> {
    if text.len() > MAX_TEXT {
        return Err(Wrong { offset: MAX_TEXT, expected: Expected::EndOfText });
    }
    let mut reader = Reader { text, at: 0 };
    let mut list = reader.first()?;
    loop {
        if !reader.goes_on()? {
            return Ok(list);
        }
        let event = reader.event()?;
        write_event(&mut list, &event);
        if list.len() > MAX_LIST {
            return Err(Wrong { offset: reader.at, expected: Expected::EndOfList });
        }
    }
}

/// The list, or the line that is told of a wrong text.
pub fn list_or_line(text: &[u8]) -> Result<Vec<u8>, Vec<u8>> {
    list_of_text(text).map_err(|wrong| told(text, wrong))
}

/// The line and the column of an offset. Both count from 1, and a column is a byte.
pub fn line_and_column(text: &[u8], offset: usize) -> (usize, usize) {
    let before = &text[..offset];
    let line_ends = before.iter().filter(|&&byte| byte == b'\n').count();
    let in_line = before.iter().rev().take_while(|&&byte| byte != b'\n').count();
    (line_ends + 1, in_line + 1)
}

/// The line that is told.
pub fn told(text: &[u8], wrong: Wrong) -> Vec<u8> {
    let (line, column) = line_and_column(text, wrong.offset);
    format!("line {line}, column {column}: expected {}\n", wrong.expected.words()).into_bytes()
}

/// Prints the list, or tells on standard error what is wrong.
pub fn print(text: &[u8], out: &mut impl Write) -> io::Result<()> {
    match list_or_line(text) {
        Ok(list) => out.write_all(&list),
        Err(line) => {
            // Where that can't be written, there is nobody to tell.
            let _ = io::stderr().write_all(&line);
            Ok(())
        }
    }
}

/// Space, tab and carriage return.
pub fn is_blank(byte: u8) -> bool {
    matches!(byte, b' ' | b'\t' | b'\r')
}

/// A word is all such bytes that stand together.
pub fn is_of_word(byte: u8) -> bool {
    !is_blank(byte) && !matches!(byte, b'\n' | b'#' | b',')
}

/// Goes through a text.
struct Reader<'a> {
    text: &'a [u8],
    at: usize,
}

impl<'a> Reader<'a> {
    fn next(&self) -> Option<u8> {
        self.text.get(self.at).copied()
    }

    fn wrong(&self, expected: Expected) -> Wrong {
        Wrong { offset: self.at, expected }
    }

    /// Goes past all bytes from here on that are such.
    fn past(&mut self, is: impl Fn(u8) -> bool) -> &'a [u8] {
        let rest = &self.text[self.at..];
        let length = rest.iter().position(|&byte| !is(byte)).unwrap_or(rest.len());
        self.at += length;
        &rest[..length]
    }

    /// Past blanks, line ends and comments.
    fn past_lines(&mut self) {
        loop {
            self.past(|byte| is_blank(byte) || byte == b'\n');
            if self.next() != Some(b'#') {
                return;
            }
            self.past(|byte| byte != b'\n');
        }
    }

    /// `cabinets N` or `stand N`, as a list.
    fn first(&mut self) -> Result<Vec<u8>, Wrong> {
        self.past_lines();
        let wrong = self.wrong(Expected::FirstWord);
        let word = self.past(is_of_word);
        let by_word = FIRST_WORDS.iter().find(|(name, _)| name.as_bytes() == word);
        let &(_, limits) = by_word.ok_or(wrong)?;
        Ok(write_list(self.byte()?, limits, &[]))
    }

    /// Goes to where the next event is due, if the text does not end before.
    fn goes_on(&mut self) -> Result<bool, Wrong> {
        self.past(is_blank);
        match self.next() {
            None => Ok(false),
            Some(b',') => {
                self.at += 1;
                self.past(is_blank);
                Ok(true)
            }
            Some(b'\n' | b'#') => {
                self.past_lines();
                Ok(self.next().is_some())
            }
            Some(_) => Err(self.wrong(Expected::Separator)),
        }
    }

    fn event(&mut self) -> Result<Event, Wrong> {
        let wrong = self.wrong(Expected::Event);
        match self.past(is_of_word) {
            b"crash" => Ok(Event::Crash(self.byte()?)),
            b"recover" => Ok(Event::Recover(self.byte()?)),
            b"check" => Ok(Event::Check(self.byte()?)),
            b"timeout" => Ok(Event::Timeout(self.byte()?)),
            b"tick" => Ok(Event::Tick(self.byte()?)),
            b"expire" => Ok(Event::Expire(self.byte()?)),
            b"finish" => Ok(Event::Finish(self.byte()?, self.task()?)),
            b"deliver" => Ok(Event::Deliver(self.byte()?, self.byte()?)),
            b"lose" => Ok(Event::Lose(self.byte()?, self.byte()?)),
            _ => Err(wrong),
        }
    }

    fn byte(&mut self) -> Result<u8, Wrong> {
        self.number(Expected::Byte)
    }

    fn task(&mut self) -> Result<u16, Wrong> {
        self.number(Expected::Task)
    }

    /// The next word on this line as a number of digits alone, however many.
    fn number<N: TryFrom<u32>>(&mut self, expected: Expected) -> Result<N, Wrong> {
        self.past(is_blank);
        let wrong = self.wrong(expected);
        let word = self.past(is_of_word);
        if word.is_empty() || !word.iter().all(u8::is_ascii_digit) {
            return Err(wrong);
        }
        let digits = word.iter().map(|&digit| u32::from(digit - b'0'));
        let value =
            digits.fold(0, |value: u32, digit| value.saturating_mul(10).saturating_add(digit));
        N::try_from(value).map_err(|_| wrong)
    }
}
