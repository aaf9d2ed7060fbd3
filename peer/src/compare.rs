//! Compares a library with this program's machine: on runs, on lists of any bytes, and on events and
//! recoveries from any table; and with calls of the vectors. A difference is shortened and told in words.

use crate::calls::CallCase;
use crate::corners::{Before, Corners, Source};
use crate::history::Checker;
use crate::list::{first_event, read_list, write_event, write_list};
use crate::machine::{count_mut, count_of, step, Event, Limits, Message, Node, Table, MAX_NODES};
use crate::numbers::Numbers;
use crate::print::run_list;
use crate::proved::{
    fill_unused, fitting, fold, records_from_bytes, same_table, table_from_bytes, table_to_bytes,
    Library, Own, TableBytes, RECORDS_BYTES, TABLE_BYTES, TOO_SHORT,
};
use crate::recovery_corners::Call;
use crate::shortest::shortest;
use crate::traffic_tables::pairs;
use crate::tuned;
use crate::two_bytes::compare::difference;
use crate::vectors::{node_text, table_text};
use std::fmt::Write;
use std::ops::Range;

/// How many bytes behind a text or a table are looked at.
pub const BEHIND: usize = 64;
/// Texts of more bytes are not printed whole.
const LONG: usize = 20_000;

/// A buffer that is lent to a library with random bytes in it, and what it held before.
pub struct Lent {
    before: Vec<u8>,
    pub now: Vec<u8>,
}

impl Lent {
    pub fn new(room: usize, numbers: &mut Numbers) -> Lent {
        let mut before = vec![0; room];
        numbers.fill(&mut before);
        Lent { now: before.clone(), before }
    }

    /// A buffer that is a little longer than a table.
    fn for_table(numbers: &mut Numbers) -> Lent {
        Lent::new(TABLE_BYTES + BEHIND, numbers)
    }

    /// Other random bytes, made of those that it was lent with.
    pub fn renew(&mut self, numbers: &mut Numbers) {
        let change = numbers.bits();
        let (words, rest) = self.before.as_chunks_mut();
        for word in words {
            *word = (u64::from_le_bytes(*word) ^ change).to_le_bytes();
        }
        numbers.fill(rest);
        self.now.copy_from_slice(&self.before);
    }

    /// The first byte from a place on that is not as it was.
    pub fn changed(&self, from: usize) -> Option<usize> {
        if self.now[from..] == self.before[from..] {
            return None;
        }
        (from..self.now.len()).find(|&place| self.now[place] != self.before[place])
    }

    fn table(&self) -> Option<&TableBytes> {
        self.now.first_chunk()
    }

    /// Lends the buffer to a library's step and gives in words what is not as it must be: the answer, the
    /// table after an accepted event, and all else in the buffer. An expected error is the answer.
    pub fn step_difference(
        &mut self,
        library: &impl Library,
        table: &[u8],
        field: &[u8],
        expected: Result<&Table, u8>,
    ) -> Option<String> {
        let answer = library.step(table, field, &mut self.now);
        self.judge(answer, expected)
    }

    /// The same for a call that was made.
    fn judge(&self, answer: u8, expected: Result<&Table, u8>) -> Option<String> {
        let number = expected.err().unwrap_or(0);
        if answer != number {
            return Some(format!("{}, {} here", answer_words(answer), answer_words(number)));
        }
        match (expected, self.table()) {
            (Ok(table), Some(after)) => {
                let mut bytes = [0; TABLE_BYTES];
                table_to_bytes(table, &mut bytes);
                if !same_table(after, &bytes) {
                    let words = two_tables(&table_from_bytes(after), table);
                    return Some(format!("another table\n{words}"));
                }
                let place = self.changed(TABLE_BYTES)?;
                Some(format!("byte {place} of the buffer, behind the table, has changed"))
            }
            _ => {
                let place = self.changed(0)?;
                Some(format!("{}: byte {place} of the buffer has changed", answer_words(answer)))
            }
        }
    }

    /// The same where the answer and the bytes that the buffer begins with are known, some of which are free, as
    /// may be some behind them.
    pub fn judge_bytes(
        &self,
        answer: u8,
        number: u8,
        written: &[u8],
        free: &[Range<usize>],
    ) -> Option<String> {
        if answer != number {
            let expected = answer_words(number);
            return Some(format!("{}, expected: {expected}", answer_words(answer)));
        }
        let is_free = |place: usize| free.iter().any(|places| places.contains(&place));
        let mut places = self.now.iter().zip(written).enumerate();
        let differs = |&(place, (now, byte)): &(usize, (&u8, &u8))| now != byte && !is_free(place);
        let differing = if self.now.starts_with(written) { None } else { places.find(differs) };
        if let Some((place, (now, byte))) = differing {
            return Some(format!("byte {place} of the buffer is {now:02x}, expected: {byte:02x}"));
        }
        let ends = free.iter().map(|places| places.end);
        let place = self.changed(ends.fold(written.len(), usize::max).min(self.now.len()))?;
        let behind = if written.is_empty() { "" } else { ", behind what is expected," };
        Some(format!("{}: byte {place} of the buffer{behind} has changed", answer_words(answer)))
    }
}

/// Where in a run a difference showed, and what it is.
#[derive(Clone, Debug)]
pub struct Difference {
    /// The events up to it.
    pub events: usize,
    pub words: String,
}

/// Runs the events from the starting table of n through the library's step, each on the table that it
/// gave before, and compares answer, table and buffer with this program's. Demand 3 and the range are
/// checked on each of the library's tables. The events are counted in the corners.
pub fn run_difference(
    library: &impl Library,
    n: u8,
    limits: Limits,
    events: &[Event],
    mut corners: Option<&mut Corners>,
) -> Option<Difference> {
    let mut checker = Checker::new(n, limits);
    let mut bytes = [0; TABLE_BYTES];
    table_to_bytes(&Table::start(n, limits), &mut bytes);
    let mut numbers = Numbers::new(u64::from(n));
    let mut lent = Lent::for_table(&mut numbers);
    let mut field = Vec::with_capacity(8);
    if let Some(corners) = &mut corners {
        corners.begin();
    }
    for (k, event) in events.iter().enumerate() {
        let fault = |words: String| {
            Some(Difference { events: k + 1, words: format!("{} {words}", at(k, event)) })
        };
        field.clear();
        write_event(&mut field, event);
        let answer = library.step(&bytes, &field, &mut lent.now);
        let before = Before::of(checker.history().table(), event);
        if answer == 0 {
            bytes = *lent.table()?;
        }
        let entry = match checker.check(event, &table_from_bytes(&bytes)) {
            Ok(entry) => entry,
            Err(words) => return fault(words),
        };
        let own = checker.history().table();
        if let Some(words) = lent.judge(answer, entry.answer.map(|()| own)) {
            return fault(words);
        }
        if let Some(corners) = &mut corners {
            corners.event(Source::Run, &before, event, entry.answer, own);
        }
        if answer == 0 {
            lent.renew(&mut numbers);
        }
    }
    None
}

fn at(k: usize, event: &Event) -> String {
    format!("event {}, {}:", k + 1, event_words(event))
}

fn answer_words(answer: u8) -> String {
    match answer {
        0 => "accepted".to_string(),
        TOO_SHORT => format!("answered {TOO_SHORT}"),
        r => format!("refused {r}"),
    }
}

pub fn two_tables(library: &Table, own: &Table) -> String {
    format!(
        "library's, n {}:\n{}here, n {}:\n{}",
        library.n,
        table_text(library),
        own.n,
        table_text(own)
    )
}

/// Prints and folds a list, and compares: the library and this program's machine, and the program
/// written for speed.
pub fn list_difference(library: &impl Library, list: &[u8]) -> Option<String> {
    text_and_fold_difference(library, list, &run_list(list))
}

/// The same where this program's text is known.
pub fn text_and_fold_difference(
    library: &impl Library,
    list: &[u8],
    text: &[u8],
) -> Option<String> {
    printed_difference(library, list, text, text.len() + BEHIND)
        .or_else(|| fold_difference(library, list))
}

/// Prints a list into buffers of so many bytes, by the library and by the program written for speed, and
/// compares each with the text.
pub fn printed_difference(
    library: &impl Library,
    list: &[u8],
    text: &[u8],
    room: usize,
) -> Option<String> {
    text_difference(|out| library.print(list, out), text, room).or_else(|| {
        let words = text_difference(|out| tuned::print(list, out), text, room)?;
        Some(format!("the program written for speed, {words}"))
    })
}

/// Prints into a buffer of so many bytes with random ones in it, and compares with the text: all of it, or
/// refusal 15 and its lines up to the first that does not fit. All else must be as it was.
pub fn text_difference(
    print: impl FnOnce(&mut [u8]) -> Option<usize>,
    text: &[u8],
    room: usize,
) -> Option<String> {
    written_difference(print, text, fitting(text, room), room)
}

/// The same where so many bytes of the text are to be written.
pub fn written_difference(
    print: impl FnOnce(&mut [u8]) -> Option<usize>,
    text: &[u8],
    written: usize,
    room: usize,
) -> Option<String> {
    let mut lent = Lent::new(room, &mut Numbers::new((room + text.len()) as u64));
    let length = print(&mut lent.now);
    let expected = (written == text.len()).then_some(written);
    if length != expected {
        return Some(format!(
            "into {room} bytes: printed length {length:?}, here {expected:?}\n{}",
            two_texts(&lent.now[..length.unwrap_or(0).min(room)], text)
        ));
    }
    if lent.now[..written] != text[..written] {
        return Some(format!(
            "another text\n{}",
            two_texts(&lent.now[..written], &text[..written])
        ));
    }
    let place = lent.changed(written)?;
    Some(format!("into {room} bytes: byte {place}, behind the {written} printed, has changed"))
}

/// Both texts, or of long ones where they differ.
fn two_texts(library: &[u8], own: &[u8]) -> String {
    if library.len().max(own.len()) > LONG {
        return difference(("library's", library), ("here", own)).err().unwrap_or_default();
    }
    format!(
        "library's:\n{}here:\n{}",
        String::from_utf8_lossy(library),
        String::from_utf8_lossy(own)
    )
}

fn fold_difference(library: &impl Library, list: &[u8]) -> Option<String> {
    let (accepted, own) = (library.fold(list), fold(list));
    (accepted != own).then(|| format!("folded: {accepted} accepted, here {own}"))
}

/// Events from any table, which may be out of range, through the library's step, each on the table
/// that it gave before. The noise is a seed: then random bytes stand in all places that are no part of
/// the tables, also in what a message's kind does not carry.
pub fn walk_difference(
    library: &impl Library,
    start: &Table,
    events: &[Event],
    noise: Option<u64>,
    mut corners: Option<&mut Corners>,
) -> Option<Difference> {
    let mut own = start.clone();
    let mut numbers = Numbers::new(noise.unwrap_or(0));
    let mut bytes = [0; TABLE_BYTES];
    table_to_bytes(start, &mut bytes);
    let mut lent = Lent::for_table(&mut numbers);
    let mut field = Vec::with_capacity(8);
    if let Some(corners) = &mut corners {
        corners.begin();
    }
    for (k, event) in events.iter().enumerate() {
        if noise.is_some() {
            fill_unused(&mut bytes, &mut numbers);
        }
        field.clear();
        write_event(&mut field, event);
        let before = Before::of(&own, event);
        let answer = step(&mut own, event);
        if let Some(words) = lent.step_difference(library, &bytes, &field, answer.map(|()| &own)) {
            return Some(Difference { events: k + 1, words: format!("{} {words}", at(k, event)) });
        }
        if let Some(corners) = &mut corners {
            corners.event(Source::Table, &before, event, answer, &own);
        }
        if answer.is_ok() {
            bytes = *lent.table()?;
            lent.renew(&mut numbers);
        }
    }
    None
}

/// Any bytes as a field, on any table, into a buffer of so many bytes. Document 01 puts ground 1 above
/// those of a field; where both apply either answer passes.
pub fn field_difference(
    library: &impl Library,
    table: &Table,
    field: &[u8],
    room: usize,
    noise: u64,
) -> Option<String> {
    let mut numbers = Numbers::new(noise);
    let bytes = filled_bytes(table, &mut numbers);
    let mut lent = Lent::new(room, &mut numbers);
    let answer = library.step(&bytes, field, &mut lent.now);
    let mut own = table.clone();
    let expected = match first_event(field) {
        _ if room < TABLE_BYTES => Err(TOO_SHORT),
        Err(_) if !table.in_range() => Err(1),
        Err(number) => Err(number),
        Ok(event) => step(&mut own, &event),
    };
    let words = lent.judge(answer, expected.map(|()| &own))?;
    Some(format!(
        "field {field:02x?} into {room} bytes: {words}\non a table, n {}:\n{}",
        table.n,
        table_text(table)
    ))
}

/// A table in bytes, with random ones in all places that are no part of it.
fn filled_bytes(table: &Table, numbers: &mut Numbers) -> TableBytes {
    let mut bytes = [0; TABLE_BYTES];
    table_to_bytes(table, &mut bytes);
    fill_unused(&mut bytes, numbers);
    bytes
}

/// The records of the recovery of node i, on any table, into a buffer of so many bytes. The noise is a seed
/// for the random bytes that stand in all places that are no part of the table. The call is counted in the
/// corners, with the step recover on the same table.
pub fn recovery_difference(
    library: &impl Library,
    table: &Table,
    i: u8,
    room: usize,
    noise: u64,
    corners: Option<(&mut Corners, Source)>,
) -> Option<String> {
    let mut numbers = Numbers::new(noise);
    let bytes = filled_bytes(table, &mut numbers);
    let mut lent = Lent::new(room, &mut numbers);
    let answer = library.recovery(&bytes, i, &mut lent.now);
    let mut own = vec![0; room];
    let number = Own.recovery(&bytes, i, &mut own);
    let written = if number == 0 { RECORDS_BYTES } else { 0 };
    if let Some(words) = lent.judge_bytes(answer, number, &own[..written], &[]) {
        if (answer, number) != (0, 0) {
            return Some(words);
        }
        let (library, own) = (records_text(i, &lent.now), records_text(i, &own));
        return Some(format!("{words}\nlibrary's:\n{library}here:\n{own}"));
    }
    if let Some((corners, source)) = corners {
        let mut field = Vec::with_capacity(8);
        write_event(&mut field, &Event::Recover(i));
        let mut stepped = Lent::for_table(&mut numbers);
        let step_answer = library.step(&bytes, &field, &mut stepped.now);
        let (out, step_out) = (&lent.now, &stepped.now);
        let call = Call { table: &bytes, node: i, answer, out, step_answer, step_out };
        corners.recovery(source, &call);
    }
    None
}

/// The records that a buffer begins with, a line each.
fn records_text(i: u8, bytes: &[u8]) -> String {
    let records = bytes.first_chunk().map(records_from_bytes);
    records.iter().flatten().map(|record| node_text(i, record)).collect()
}

/// Makes a call of the vectors, into a buffer with random bytes in it, and gives in words what is not as
/// the vector says.
pub fn call_difference(library: &dyn Library, case: &CallCase) -> Option<String> {
    let mut lent = Lent::new(case.room, &mut Numbers::new(case.line as u64));
    let answer = (case.function.call)(library, &case.arguments, &mut lent.now);
    let free = (case.function.free)(&case.written);
    let words = lent.judge_bytes(answer, case.answer, &case.written, &free)?;
    Some(format!("line {}, {}: {words}", case.line, case.function.name))
}

/// The shortest run found that still shows a difference, by its step, its text or its count.
pub fn shortest_run(
    library: &impl Library,
    n: u8,
    limits: Limits,
    events: &[Event],
) -> (u8, Vec<Event>) {
    let differs = |n: u8, events: &[Event]| {
        run_difference(library, n, limits, events, None).is_some()
            || list_difference(library, &write_list(n, limits, events)).is_some()
    };
    let (mut n, mut events) = (n, events.to_vec());
    if let Some(found) = run_difference(library, n, limits, &events, None) {
        events.truncate(found.events);
    }
    // With fewer nodes fewer events may do.
    loop {
        n = (1..n).find(|&fewer| differs(fewer, &events)).unwrap_or(n);
        events = shortest(events, |events| differs(n, events));
        let (fewer, renamed) = renumbered(n, &events);
        if fewer < n && differs(fewer, &renamed) {
            (n, events) = (fewer, renamed);
        } else if !(1..n).any(|fewer| differs(fewer, &events)) {
            return (n, events);
        }
    }
}

/// The same events with the nodes that they name numbered from 1 in their order, and how many they are.
fn renumbered(n: u8, events: &[Event]) -> (u8, Vec<Event>) {
    let mut named = Vec::new();
    for event in events {
        map_nodes(event, |i| {
            named.push(i);
            i
        });
    }
    named.retain(|i| (1..=n).contains(i));
    named.sort();
    named.dedup();
    let rename = |i: u8| named.binary_search(&i).map_or(i, |place| place as u8 + 1);
    let renamed = events.iter().map(|event| map_nodes(event, rename)).collect();
    (named.len().max(1) as u8, renamed)
}

fn map_nodes(event: &Event, mut to: impl FnMut(u8) -> u8) -> Event {
    match *event {
        Event::Crash(i) => Event::Crash(to(i)),
        Event::Recover(i) => Event::Recover(to(i)),
        Event::Check(i) => Event::Check(to(i)),
        Event::Timeout(i) => Event::Timeout(to(i)),
        Event::Tick(i) => Event::Tick(to(i)),
        Event::Expire(i) => Event::Expire(to(i)),
        Event::Finish(i, task) => Event::Finish(to(i), task),
        Event::Deliver(a, b) => Event::Deliver(to(a), to(b)),
        Event::Lose(a, b) => Event::Lose(to(a), to(b)),
    }
}

/// A run's difference, shortened, in words.
pub fn tell_run(library: &impl Library, n: u8, limits: Limits, events: &[Event]) -> String {
    let (n, events) = shortest_run(library, n, limits, events);
    let list = write_list(n, limits, &events);
    let words = match run_difference(library, n, limits, &events, None) {
        Some(found) => found.words,
        None => list_difference(library, &list).unwrap_or_default(),
    };
    format!("{}{words}\n", list_words(&list))
}

/// The shortest list of bytes found of which `difference` still has something to say, with that.
pub fn tell_list(list: &[u8], difference: impl Fn(&[u8]) -> Option<String>) -> String {
    let list = shortest(list.to_vec(), |list| difference(list).is_some());
    format!("{}{}\n", list_words(&list), difference(&list).unwrap_or_default())
}

/// A list in words: its bytes, and its events.
pub fn list_words(list: &[u8]) -> String {
    let mut words = format!("a list of {} bytes:", list.len());
    for byte in list.iter().take(4000) {
        write!(words, " {byte:02x}").expect("a String takes it");
    }
    words.push('\n');
    match read_list(list) {
        Err(stop) => writeln!(words, "  stopped {} {}", stop.offset, stop.number),
        Ok(list) => {
            let Limits { nodes, messages } = list.limits;
            let events = list.events.len();
            writeln!(words, "  n {}, limits {nodes} {messages}, {events} events", list.n)
                .expect("a String takes it");
            for event in list.events.iter().take(1000) {
                writeln!(words, "  {}", event_words(event)).expect("a String takes it");
            }
            match list.stop {
                None => Ok(()),
                Some(stop) => writeln!(words, "  stopped {} {}", stop.offset, stop.number),
            }
        }
    }
    .expect("a String takes it");
    words
}

/// An event in the words of steps.txt, which are those of T-01 too.
pub fn event_words(event: &Event) -> String {
    match *event {
        Event::Crash(i) => format!("crash {i}"),
        Event::Recover(i) => format!("recover {i}"),
        Event::Check(i) => format!("check {i}"),
        Event::Timeout(i) => format!("timeout {i}"),
        Event::Tick(i) => format!("tick {i}"),
        Event::Expire(i) => format!("expire {i}"),
        Event::Finish(i, task) => format!("finish {i} {task}"),
        Event::Deliver(a, b) => format!("deliver {a} {b}"),
        Event::Lose(a, b) => format!("lose {a} {b}"),
    }
}

/// A walk's difference in words: the events shortened, and the table with fewer messages and nodes.
pub fn tell_walk(
    library: &impl Library,
    start: &Table,
    events: &[Event],
    noise: Option<u64>,
) -> String {
    let found =
        |start: &Table, events: &[Event]| walk_difference(library, start, events, noise, None);
    let events = shortest(events.to_vec(), |events| found(start, events).is_some());
    let start = smallest(start, |start| found(start, &events).is_some());
    let mut words = format!("a table, n {}:\n{}", start.n, table_text(&start));
    for event in &events {
        writeln!(words, "event {}", event_words(event)).expect("a String takes it");
    }
    let difference = found(&start, &events).map(|found| found.words).unwrap_or_default();
    format!("{words}{difference}\n")
}

/// The table with fewer messages, with as many nodes as can be as in the starting table, and with as many
/// pairs as can be of which only what waits was sent.
fn smallest(table: &Table, differs: impl Fn(&Table) -> bool) -> Table {
    let messages =
        shortest(table.messages.clone(), |messages| differs(&with_messages(table, messages)));
    let mut table = with_messages(table, &messages);
    let waiting = table.waiting();
    for (a, b) in pairs(table.n.min(MAX_NODES)) {
        let mut plain = table.clone();
        *count_mut(&mut plain.traffic.sent, a, b) = count_of(&waiting, a, b);
        *count_mut(&mut plain.traffic.delivered, a, b) = 0;
        *count_mut(&mut plain.traffic.lost, a, b) = 0;
        if differs(&plain) {
            table = plain;
        }
    }
    for k in 0..usize::from(table.n.min(MAX_NODES)) {
        let mut plain = table.clone();
        plain.nodes[k] = Node::START;
        if differs(&plain) {
            table = plain;
        }
    }
    table
}

/// The table with other messages; what is no longer waiting was not sent either, so that a sum that held
/// still does.
fn with_messages(table: &Table, messages: &[Message]) -> Table {
    let mut other = Table { messages: messages.to_vec(), ..table.clone() };
    let (before, now) = (table.waiting(), other.waiting());
    for (a, b) in pairs(table.n.min(MAX_NODES)) {
        let sent = count_mut(&mut other.traffic.sent, a, b);
        let fewer = count_of(&before, a, b) - count_of(&now, a, b);
        *sent = sent.wrapping_sub(fewer);
    }
    other
}

/// A recovery's difference in words, with a table that has fewer messages and nodes.
pub fn tell_recovery(
    library: &impl Library,
    table: &Table,
    i: u8,
    room: usize,
    noise: u64,
) -> String {
    let found = |table: &Table| recovery_difference(library, table, i, room, noise, None);
    let table = smallest(table, |table| found(table).is_some());
    format!(
        "the records of the recovery of {i}, into {room} bytes, on a table, n {}:\n{}{}\n",
        table.n,
        table_text(&table),
        found(&table).unwrap_or_default()
    )
}
