//! What lists and texts meet, read from their bytes.

use crate::compare::event_words;
use crate::corners::EVENTS;
use crate::list::{read_list, Stop, MAX_LIST};
use crate::list_text::compare::ROOMS;
use crate::list_text::list_of_text::Expected::{self, *};
use crate::list_text::list_of_text::{
    is_blank, is_of_word, line_and_column, list_of_text, Wrong, MAX_TEXT,
};
use crate::list_text::reading::words;
use crate::list_text::text_of_list::first_word;
use crate::list_text::FIRST_WORDS;
use crate::tally::Graded;
use crate::tally::Where::{self, Either};

/// What is met: of what, and how.
pub type Corner = (&'static str, &'static str);

const DIGITS: [&str; 5] = ["1 digit", "2 digits", "3 digits", "4 digits", "5 digits"];
const REFUSALS: [&str; 7] = ["0", "1", "2", "3", "4", "5", "6"];
const LINES: [&str; 4] = ["1", "2 to 9", "10 to 99", "100 to 999,999"];
const MILLION: &str = "a million or more";

/// What stands where a text is wrong.
const PLACES: [&str; 5] = [
    "expected at a word",
    "expected at a comma",
    "expected at the end of a line",
    "expected at a comment",
    "expected at the end of the text",
];

/// Which number of a part it is: of `cabinets` or `stand`, the first or the second of an event, the task.
const NUMBERS: [&str; 4] = ["N", "a first number", "a second number", "a task"];
const RIGHT_NUMBERS: [&str; 4] =
    ["0", "at its limit", "with zeros before it", "of more than 20 digits"];
const WRONG_NUMBERS: [&str; 4] = [
    "over its limit by one",
    "over its limit by more",
    "over its limit, of 20 digits or more",
    "not of digits alone",
];

/// What parts two parts of a text.
const PARTED: [&str; 10] = [
    "a comma and a space",
    "a comma alone",
    "a comma with blanks before it",
    "a comma with more or other blanks behind it",
    "a line end alone",
    "a line end with blanks before it",
    "a line end with a carriage return before it",
    "a line end with a comment before it",
    "several line ends",
    "a line end with blanks behind it",
];

const COMMENTS: [&str; 8] = [
    "before the first word",
    "behind N",
    "behind an event",
    "directly behind a number",
    "on a line of its own, between",
    "on a line of its own, behind the last part",
    "with a comma in it",
    "as the end of the text",
];

const ENDS: [&str; 5] = [
    "right behind a number",
    "behind blanks",
    "behind a line end",
    "behind several line ends",
    "in a comment",
];

/// What a word is, where another was due.
const NO_NAMES: [&str; 6] = [
    "with capitals",
    "with more behind it",
    "cut short",
    "a number",
    "a name of the other kind",
    "another word",
];

/// The corners of long lists and texts, which take long.
const DEAR: [Corner; 15] = [
    ("a list", "of 65,536 bytes, whole"),
    ("a list", "of 65,536 bytes, stopped"),
    ("stopped at an offset of", DIGITS[4]),
    ("a text gives a list", "of 65,536 bytes"),
    ("a text", "of 1,048,576 bytes, right"),
    ("a text", "of 1,048,576 bytes, wrong"),
    ("a text", "of 1,048,577 bytes"),
    ("a text", "of more bytes"),
    ("told of line", MILLION),
    ("told of column", MILLION),
    ("an event too many", "with no byte left"),
    ("an event too many", "with some bytes left"),
    ("an event too many", "behind a comma"),
    ("an event too many", "behind a line end"),
    ("an event too many", "wrong by itself"),
];

/// Every other corner.
fn usual() -> Vec<Corner> {
    let mut corners: Vec<Corner> = Vec::new();
    let mut all = |of: &'static str, how: &[&'static str]| {
        corners.extend(how.iter().map(|&how| (of, how)));
    };
    all("a list", &["of no bytes", "of 65,537 bytes", "of more bytes", "whole", "without events"]);
    all("a list stopped at once by", &REFUSALS[2..=6]);
    all("a list stopped later by", &REFUSALS[3..=5]);
    all("stopped at an offset of", &DIGITS[..4]);
    all("printed", &FIRST_WORDS.map(|(word, _)| word));
    all("printed", &EVENTS);
    all("printed, a number of", &DIGITS[..3]);
    all("printed, a task of", &DIGITS);
    all("text_of_list, a buffer", &ROOMS);
    all(
        "text_of_list, then list_of_text",
        &["all of it", "up to where it stops", "nothing to read back"],
    );
    all(
        "a right text",
        &[
            "of a list",
            "with n out of range",
            "with blanks at its start",
            "with tabs or carriage returns in a part",
        ],
    );
    all("read", &FIRST_WORDS.map(|(word, _)| word));
    all("read", &EVENTS);
    for number in NUMBERS {
        all(number, &RIGHT_NUMBERS);
        all(number, &WRONG_NUMBERS);
    }
    all("behind N", &PARTED);
    all("behind an event", &PARTED);
    all("a comment", &COMMENTS);
    all("the text ends", &ENDS);
    all("list_of_text, a buffer for the list,", &ROOMS);
    all("list_of_text, a buffer for what is told,", &ROOMS);
    // Line ends and comments are gone past there.
    all(FirstWord.words(), &[PLACES[0], PLACES[1], PLACES[4]]);
    for expected in [Byte, Task, Event] {
        all(expected.words(), &PLACES);
    }
    // All else is right there.
    all(Separator.words(), &PLACES[..1]);
    all("no cabinets or stand:", &NO_NAMES);
    all("no event:", &NO_NAMES);
    all("told of line", &LINES);
    all("told of column", &LINES);
    all("a line of T-01", &["behind a line with n", "behind n and a comma"]);
    corners
}

/// What a list meets.
pub fn of_list(list: &[u8]) -> Vec<Corner> {
    let mut met = Vec::new();
    match list.len() {
        0 => met.push(("a list", "of no bytes")),
        65_537 => met.push(("a list", "of 65,537 bytes")),
        65_538.. => met.push(("a list", "of more bytes")),
        _ => {}
    }
    let read = match read_list(list) {
        Ok(read) => read,
        Err(stop) => {
            met.push(("a list stopped at once by", REFUSALS[usize::from(stop.number)]));
            return met;
        }
    };
    match read.stop {
        None => met.push(("a list", "whole")),
        Some(Stop { offset, number }) => {
            met.push(("a list stopped later by", REFUSALS[usize::from(number)]));
            met.push(("stopped at an offset of", digits(offset)));
        }
    }
    if list.len() == MAX_LIST {
        let whole = read.stop.is_none();
        met.push((
            "a list",
            if whole { "of 65,536 bytes, whole" } else { "of 65,536 bytes, stopped" },
        ));
    }
    if read.events.is_empty() {
        met.push(("a list", "without events"));
    }
    met.push(("printed", first_word(read.limits)));
    // Of many events the last ones are enough.
    for event in read.events.iter().rev().take(20) {
        let words = event_words(event);
        let mut words = words.split(' ');
        let name = words.next().and_then(|word| EVENTS.into_iter().find(|&name| name == word));
        met.extend(name.map(|name| ("printed", name)));
        for (k, number) in words.enumerate() {
            let task = name == Some("finish") && k == 1;
            let of = if task { "printed, a task of" } else { "printed, a number of" };
            met.push((of, DIGITS[number.len() - 1]));
        }
    }
    once(met)
}

fn digits(number: usize) -> &'static str {
    DIGITS[number.to_string().len() - 1]
}

fn once(mut met: Vec<Corner>) -> Vec<Corner> {
    met.sort();
    met.dedup();
    met
}

/// What a text meets of which this was read.
pub fn of_text(text: &[u8], read: &Result<Vec<u8>, Wrong>) -> Vec<Corner> {
    let mut met = match read {
        Ok(list) => of_right(text, list),
        Err(wrong) => of_wrong(text, *wrong),
    };
    let length = match text.len() {
        MAX_TEXT if read.is_ok() => Some("of 1,048,576 bytes, right"),
        MAX_TEXT => Some("of 1,048,576 bytes, wrong"),
        1_048_577 => Some("of 1,048,577 bytes"),
        1_048_578.. => Some("of more bytes"),
        _ => None,
    };
    met.extend(length.map(|length| ("a text", length)));
    once(met)
}

/// What stands in a text.
#[derive(Clone, Copy, Debug, PartialEq, Eq)]
enum Kind {
    Word,
    Blanks,
    Comma,
    LineEnd,
    Comment,
}

type Item<'a> = (Kind, &'a [u8]);

fn items(text: &[u8]) -> Vec<Item<'_>> {
    let mut items = Vec::new();
    let mut rest = text;
    while let Some(&first) = rest.first() {
        let along = |is: fn(u8) -> bool| rest.iter().take_while(|&&byte| is(byte)).count();
        let (kind, length) = match first {
            b',' => (Kind::Comma, 1),
            b'\n' => (Kind::LineEnd, 1),
            b'#' => (Kind::Comment, along(|byte| byte != b'\n')),
            _ if is_blank(first) => (Kind::Blanks, along(is_blank)),
            _ => (Kind::Word, along(is_of_word)),
        };
        items.push((kind, &rest[..length]));
        rest = &rest[length..];
    }
    items
}

/// What a text meets that is right.
fn of_right(text: &[u8], list: &[u8]) -> Vec<Corner> {
    let mut met = Vec::new();
    let out_of_range = read_list(list).is_err();
    met.push(("a right text", if out_of_range { "with n out of range" } else { "of a list" }));
    if list.len() == MAX_LIST {
        met.push(("a text gives a list", "of 65,536 bytes"));
    }
    let items = items(text);
    // How many parts there were, the words of the last, and what stands behind them.
    let mut parts = 0;
    let mut words: Vec<&[u8]> = Vec::new();
    let mut behind: Vec<Item> = Vec::new();
    for &(kind, bytes) in &items {
        if kind != Kind::Word {
            behind.push((kind, bytes));
            continue;
        }
        match behind.as_slice() {
            [(Kind::Blanks, blanks)] if parts > 0 => {
                let other = blanks.iter().any(|&byte| byte != b' ');
                met.extend(
                    other.then_some(("a right text", "with tabs or carriage returns in a part")),
                );
            }
            between => {
                of_words(&words, &mut met);
                words.clear();
                between_parts(parts, between, &mut met);
                parts += 1;
            }
        }
        words.push(bytes);
        behind.clear();
    }
    of_words(&words, &mut met);
    comments(parts, &behind, true, &mut met);
    let line_ends = behind.iter().filter(|(kind, _)| *kind == Kind::LineEnd).count();
    let end = match behind.last() {
        None => ENDS[0],
        Some((Kind::Blanks, _)) => ENDS[1],
        Some((Kind::Comment, _)) => ENDS[4],
        Some(_) => ENDS[if line_ends > 1 { 3 } else { 2 }],
    };
    met.push(("the text ends", end));
    met
}

/// What the words of a part meet.
fn of_words(words: &[&[u8]], met: &mut Vec<Corner>) {
    let Some((name, numbers)) = words.split_first() else {
        return;
    };
    let names = EVENTS.into_iter().chain(FIRST_WORDS.map(|(word, _)| word));
    met.extend(names.filter(|word| word.as_bytes() == *name).map(|word| ("read", word)));
    for (k, number) in numbers.iter().enumerate() {
        let of = number_place(name, k);
        let value = without_zeros(number);
        let limit: &[u8] = if of == "a task" { b"65535" } else { b"255" };
        let is = [
            value.is_empty(),
            value == limit,
            number.len() > value.len().max(1),
            number.len() > 20,
        ];
        met.extend(RIGHT_NUMBERS.iter().zip(is).filter(|(_, is)| *is).map(|(&how, _)| (of, how)));
    }
}

/// Which number the one behind k others of a name is.
fn number_place(name: &[u8], k: usize) -> &'static str {
    match (name, k) {
        (b"cabinets" | b"stand", _) => NUMBERS[0],
        (b"finish", 1) => NUMBERS[3],
        (_, 0) => NUMBERS[1],
        _ => NUMBERS[2],
    }
}

fn without_zeros(number: &[u8]) -> &[u8] {
    &number[number.iter().take_while(|&&digit| digit == b'0').count()..]
}

/// What stands before a part, behind so many others.
fn between_parts(parts: usize, between: &[Item], met: &mut Vec<Corner>) {
    comments(parts, between, false, met);
    let of = match parts {
        0 => {
            let blanks = matches!(between.first(), Some((Kind::Blanks, _)));
            met.extend(blanks.then_some(("a right text", "with blanks at its start")));
            return;
        }
        1 => "behind N",
        _ => "behind an event",
    };
    let place = |kind: Kind| between.iter().position(|(one, _)| *one == kind);
    let mut is = [false; PARTED.len()];
    if let Some(comma) = place(Kind::Comma) {
        let (before, behind) = (&between[..comma], &between[comma + 1..]);
        let space = matches!(behind, [(_, b" ")]);
        is[0] = before.is_empty() && space;
        is[1] = before.is_empty() && behind.is_empty();
        is[2] = !before.is_empty();
        is[3] = !behind.is_empty() && !space;
    } else if let Some(end) = place(Kind::LineEnd) {
        let (before, behind) = (&between[..end], &between[end + 1..]);
        is[4] = before.is_empty() && behind.is_empty();
        is[5] = matches!(before, [(Kind::Blanks, _)]);
        is[6] = matches!(before, [(_, b"\r")]);
        is[7] = matches!(before.last(), Some((Kind::Comment, _)));
        is[8] = behind.iter().any(|(kind, _)| *kind == Kind::LineEnd);
        is[9] = matches!(behind.last(), Some((Kind::Blanks, _)));
    }
    met.extend(PARTED.iter().zip(is).filter(|(_, is)| *is).map(|(&how, _)| (of, how)));
}

/// The comments before a part, or behind the last.
fn comments(parts: usize, items: &[Item], last: bool, met: &mut Vec<Corner>) {
    for (k, (_, comment)) in
        items.iter().enumerate().filter(|(_, (kind, _))| *kind == Kind::Comment)
    {
        let own_line = items[..k].iter().any(|(kind, _)| *kind == Kind::LineEnd);
        let is = [
            parts == 0,
            parts == 1 && !own_line,
            parts > 1 && !own_line,
            parts > 0 && k == 0,
            parts > 0 && own_line && !last,
            parts > 0 && own_line && last,
            comment.contains(&b','),
            last && k + 1 == items.len(),
        ];
        met.extend(
            COMMENTS.iter().zip(is).filter(|(_, is)| *is).map(|(&how, _)| ("a comment", how)),
        );
    }
}

/// What a text meets that is wrong.
fn of_wrong(text: &[u8], Wrong { offset, expected }: Wrong) -> Vec<Corner> {
    let (before, behind) = text.split_at(offset);
    let (line, column) = line_and_column(text, offset);
    let mut met = vec![("told of line", size(line)), ("told of column", size(column))];
    match expected {
        EndOfText => return met,
        EndOfList => {
            let part = last_parted(before);
            let full = list_of_text(&before[..part]).is_ok_and(|list| list.len() == MAX_LIST);
            let comma = before[part] == b',';
            met.push((
                "an event too many",
                if full { "with no byte left" } else { "with some bytes left" },
            ));
            met.push((
                "an event too many",
                if comma { "behind a comma" } else { "behind a line end" },
            ));
            return met;
        }
        _ => {}
    }
    let length = behind.iter().take_while(|&&byte| is_of_word(byte)).count();
    let place = match behind.first() {
        None => PLACES[4],
        Some(b',') => PLACES[1],
        Some(b'\n') => PLACES[2],
        Some(b'#') => PLACES[3],
        Some(_) => PLACES[0],
    };
    met.push((expected.words(), place));
    if length > 0 {
        met.extend(of_word(&before[offset + 1 - column..], &behind[..length], expected));
    }
    if before.len() > MAX_LIST && expected != Separator {
        let full = list_of_text(&before[..last_parted(before)])
            .is_ok_and(|list| list.len() + 4 > MAX_LIST);
        met.extend(full.then_some(("an event too many", "wrong by itself")));
    }
    met
}

/// Where the comma or the line end before the last part stands.
fn last_parted(text: &[u8]) -> usize {
    text.iter().rposition(|&byte| byte == b'\n' || byte == b',').unwrap_or(0)
}

fn size(number: usize) -> &'static str {
    match number {
        0..=1 => LINES[0],
        2..=9 => LINES[1],
        10..=99 => LINES[2],
        100..=999_999 => LINES[3],
        _ => MILLION,
    }
}

/// What a wrong word meets that stands behind this in its line.
fn of_word(before: &[u8], word: &[u8], expected: Expected) -> Option<Corner> {
    let events: Vec<&str> = EVENTS.to_vec();
    let first: Vec<&str> = FIRST_WORDS.iter().map(|&(word, _)| word).collect();
    match expected {
        FirstWord => Some(("no cabinets or stand:", no_name(word, &first, &events))),
        Event => Some(("no event:", no_name(word, &events, &first))),
        Byte | Task => {
            let piece = before.rsplit(|&byte| byte == b',').next()?;
            let mut words = words(piece);
            let of = number_place(words.next()?, words.count());
            let value = without_zeros(word);
            let next: &[u8] = if expected == Task { b"65536" } else { b"256" };
            let how = match word.iter().all(u8::is_ascii_digit) {
                true if value == next => WRONG_NUMBERS[0],
                true if value.len() < 20 => WRONG_NUMBERS[1],
                true => WRONG_NUMBERS[2],
                false => WRONG_NUMBERS[3],
            };
            Some((of, how))
        }
        Separator | EndOfList | EndOfText => None,
    }
}

/// What a word is that is none of these names.
fn no_name(word: &[u8], names: &[&str], others: &[&str]) -> &'static str {
    let any = |is: &dyn Fn(&[u8]) -> bool| names.iter().any(|name| is(name.as_bytes()));
    let is = [
        any(&|name| word.eq_ignore_ascii_case(name)),
        any(&|name| word.starts_with(name)),
        any(&|name| name.starts_with(word)),
        word.iter().all(u8::is_ascii_digit),
        others.iter().any(|name| name.as_bytes() == word),
        true,
    ];
    let place = is.iter().position(|&is| is).unwrap_or(NO_NAMES.len() - 1);
    NO_NAMES[place]
}

/// The counts of all corners, through a program too or through the library alone.
pub fn book() -> Graded<Corner> {
    let words = |(of, how): &Corner| format!("{of} {how}");
    Graded::new(|| anywhere(&usual()), || anywhere(&DEAR), words)
}

/// By a program or not, in all.
fn anywhere(corners: &[Corner]) -> Vec<(Corner, Where)> {
    corners.iter().map(|&corner| (corner, Either)).collect()
}
