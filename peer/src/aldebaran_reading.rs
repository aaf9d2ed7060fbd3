//! A text of T-12 read by itself, without T-01's enumeration and the printer of `aldebaran.rs`: the form of each line,
//! the order of the lines, and by the machine which lines there must be. Only the right text has nothing wrong: where
//! sources do not fall and the events of one source ascend, the lists stand by length and then in T-01's order. Words
//! in quotation marks in the comments are T-12's, or T-01's where that is said.

use crate::compare::event_words;
use crate::list::first_event;
use crate::machine::{step, Event, Table, TOWER};

/// The events' names in capitals, with their tags.
const NAMES: [(&str, u8); 9] = [
    ("CRASH", 0x10),
    ("RECOVER", 0x11),
    ("CHECK", 0x12),
    ("TIMEOUT", 0x13),
    ("TICK", 0x14),
    ("EXPIRE", 0x15),
    ("FINISH", 0x16),
    ("DELIVER", 0x17),
    ("LOSE", 0x18),
];

/// An event's field, as a list has it. T-01's order, "tag first, then contents as bytes", is that of these bytes,
/// since the lengths between them are the same where the tags are.
type Field = Vec<u8>;

/// What the line of b has: a, and the event of its label.
struct Transition {
    source: usize,
    label: String,
    field: Field,
}

/// Reads the text of n and a length. The error is the first thing that is wrong, with its line.
pub fn read(n: u8, length: u8, text: &[u8]) -> Result<(), String> {
    let transitions = transitions(&String::from_utf8_lossy(text))?;
    ascending(&transitions)?;
    let mut tables = Vec::new();
    for b in 0..=transitions.len() {
        let list = list(&transitions, b);
        let table = accepted(n, length, &list).map_err(|words| on_line(b, words))?;
        tables.push((list.len(), table));
    }
    // "a state for each accepted list of length 0 to L"
    for (state, (events, table)) in tables.iter().enumerate() {
        if *events < usize::from(length) {
            complete(&transitions, state, table)?;
        }
    }
    Ok(())
}

/// The line of state b is the one with as many before it: the first is that of the counts.
fn on_line(b: usize, words: impl std::fmt::Display) -> String {
    format!("line {}: {words}", b + 1)
}

/// "The first line is `des (0, t, s)` with the counts of transitions and states. Then come t lines
/// `(a, "LABEL", b)`, ordered by b". The transition to b stands at place b - 1.
fn transitions(text: &str) -> Result<Vec<Transition>, String> {
    let lines: Vec<&str> = text.split('\n').collect();
    let [first, lines @ .., behind] = lines.as_slice() else {
        return Err(on_line(0, "it has no end"));
    };
    let (t, s) = counts(first).ok_or(on_line(0, "it is not of the form des (0, t, s)"))?;
    if s.checked_sub(1) != Some(t) {
        return Err(on_line(0, "not one transition fewer than states"));
    }
    let mut transitions = Vec::new();
    for (b, line) in (1..).zip(lines) {
        let wrong = |words: &str| on_line(b, format!("{words}: {line}"));
        let form = r#"it is not of the form (a, "LABEL", b)"#;
        let (source, label, target) = parts(line).ok_or(wrong(form))?;
        if target != b {
            return Err(wrong("the states that are reached are not 1, 2 and so on"));
        }
        if source >= b {
            return Err(wrong("the source is not before the state"));
        }
        let field = field(label).ok_or(wrong("the label is no event's in capitals"))?;
        transitions.push(Transition { source, label: label.to_string(), field });
    }
    if !behind.is_empty() {
        return Err(on_line(lines.len() + 1, "it has no end"));
    }
    if transitions.len() != t {
        let words = format!("{t} transitions, but there are {} lines", transitions.len());
        return Err(on_line(0, words));
    }
    Ok(transitions)
}

/// t and s.
fn counts(line: &str) -> Option<(usize, usize)> {
    let (t, s) = line.strip_prefix("des (0, ")?.strip_suffix(')')?.split_once(", ")?;
    Some((number(t)?, number(s)?))
}

/// a, the label and b.
fn parts(line: &str) -> Option<(usize, &str, usize)> {
    let (a, rest) = line.strip_prefix('(')?.strip_suffix(')')?.split_once(", \"")?;
    let (label, b) = rest.split_once("\", ")?;
    Some((number(a)?, label, number(b)?))
}

/// A number without leading zeros.
fn number(word: &str) -> Option<usize> {
    word.parse().ok().filter(|number: &usize| number.to_string() == word)
}

/// "The label is the event's name in capitals and its numbers, parted by single spaces."
fn field(label: &str) -> Option<Field> {
    let mut words = label.split(' ');
    let name = words.next()?;
    let &(_, tag) = NAMES.iter().find(|(capitals, _)| *capitals == name)?;
    let numbers: Vec<usize> = words.map(number).collect::<Option<_>>()?;
    let byte = |number: usize| u8::try_from(number).ok();
    let contents = match (tag, numbers.as_slice()) {
        (0x10..=0x15, &[i]) => vec![byte(i)?],
        (0x16, &[i, task]) => vec![byte(i)?, byte(task >> 8)?, task as u8],
        (0x17.., &[a, b]) => vec![byte(a)?, byte(b)?],
        _ => return None,
    };
    Some([vec![tag, 0, contents.len() as u8], contents].concat())
}

/// "numbered from 0 by length and then by T-01's order"
fn ascending(transitions: &[Transition]) -> Result<(), String> {
    for (b, pair) in (2..).zip(transitions.windows(2)) {
        let [before, here] = pair else { unreachable!("windows of two") };
        if here.source < before.source {
            return Err(on_line(b, "the source is smaller than on the line before"));
        }
        if here.source == before.source && here.field <= before.field {
            return Err(on_line(b, "its event does not come after that of the line before"));
        }
    }
    Ok(())
}

/// The list of a state: from source to source back to state 0, which has the list of no events.
fn list(transitions: &[Transition], state: usize) -> Vec<&Transition> {
    let mut list = Vec::new();
    let mut at = state;
    while at > 0 {
        let last = &transitions[at - 1];
        list.push(last);
        at = last.source;
    }
    list.reverse();
    list
}

/// The table that a list leads to. T-01: "that the machine accepts one after another from the starting table"
fn accepted(n: u8, length: u8, list: &[&Transition]) -> Result<Table, String> {
    let labels = || list.iter().map(|event| &event.label[..]).collect::<Vec<_>>().join(", ");
    if list.len() > usize::from(length) {
        return Err(format!("its list has more than {length} events: {}", labels()));
    }
    let mut table = Table::start(n, TOWER);
    for Transition { field, .. } in list {
        let refused = |r| format!("its list is refused {r}: {}", labels());
        step(&mut table, &event(field)).map_err(refused)?;
    }
    Ok(table)
}

fn event(field: &Field) -> Event {
    first_event(field).expect("the field is that of an event")
}

/// Whether each event that is accepted on the table of a state has its line. One that is missing is told with the line
/// on which it would stand.
fn complete(transitions: &[Transition], state: usize, table: &Table) -> Result<(), String> {
    for field in fields(table.n) {
        let there = transitions.iter().any(|t| t.source == state && t.field == field);
        let event = event(&field);
        if !there && step(&mut table.clone(), &event).is_ok() {
            let before = |t: &&Transition| (t.source, &t.field) < (state, &field);
            let words = format!("state {state} accepts {}, which is missing", event_words(&event));
            return Err(on_line(transitions.iter().filter(before).count() + 1, words));
        }
    }
    Ok(())
}

/// The events that lists can have, with numbers just outside those of the nodes too. T-01: "Finish uses task 100 only."
fn fields(n: u8) -> Vec<Field> {
    let numbers = 0..=n + 1;
    let mut fields = Vec::new();
    for tag in 0x10..=0x18 {
        for i in numbers.clone() {
            match tag {
                0x10..=0x15 => fields.push(vec![tag, 0, 1, i]),
                0x16 => fields.push(vec![tag, 0, 3, i, 0, 100]),
                _ => fields.extend(numbers.clone().map(|j| vec![tag, 0, 2, i, j])),
            }
        }
    }
    fields
}
