//! Printers of T-12 that are wrong on purpose. The comparison finds each: a wrong text by its bytes and again by reading
//! it by itself, each without the other, and a wrong refusal by a corner of the wrong inputs. The vectors have no part in it.

use peer::aldebaran::{read_input, states, text};
use peer::compare::event_words;
use peer::machine::{step, Event, Table, STAND, TOWER};
use peer::short::alphabet;
use peer::two_bytes::compare::{compare, Vectors};
use peer::two_bytes::corners::Corner;
use peer::two_bytes::process::Input;
use peer::two_bytes::ALDEBARAN;
use peer::vectors::table_text;
use std::cmp::Reverse;

type List = Vec<Event>;

/// What the comparison says of a printer that is given any input.
fn compared(prints: impl Fn(&[u8]) -> Vec<u8> + Sync) -> (u64, Result<(), String>) {
    compare(&ALDEBARAN, &Vectors::default(), |input: &Input| Ok(prints(&input.bytes)))
}

/// The same of one that refuses as it must and prints another text for the other inputs.
fn compared_texts(prints: impl Fn(u8, u8) -> String + Sync) -> (u64, Result<(), String>) {
    compared(|input| match read_input(input) {
        Some((n, length)) => prints(n, length).into_bytes(),
        None => ALDEBARAN.refusal.to_vec(),
    })
}

/// The lists of length 0 to L that a machine accepts, from those of each length to those of the next, with each event
/// of an alphabet in turn.
fn lists_by(
    alphabet: &[Event],
    start: &Table,
    length: u8,
    machine: impl Fn(&mut Table, &Event) -> Result<(), u8>,
) -> Vec<List> {
    let mut lists = vec![(vec![], start.clone())];
    let mut from = 0;
    for _ in 0..length {
        let to = lists.len();
        for k in from..to {
            for event in alphabet {
                let (mut list, mut table) = lists[k].clone();
                if machine(&mut table, event).is_ok() {
                    list.push(*event);
                    lists.push((list, table));
                }
            }
        }
        from = to;
    }
    lists.into_iter().map(|(list, _)| list).collect()
}

fn lists_of(alphabet: &[Event], n: u8, length: u8) -> Vec<List> {
    lists_by(alphabet, &Table::start(n, TOWER), length, step)
}

/// The places of some events in T-01's order.
fn places<'a>(n: u8, events: impl Iterator<Item = &'a Event>) -> Vec<Option<usize>> {
    let alphabet = alphabet(n);
    events.map(|event| alphabet.iter().position(|other| other == event)).collect()
}

fn label(event: &Event) -> String {
    event_words(event).to_uppercase()
}

fn header(transitions: usize, states: usize) -> String {
    format!("des (0, {transitions}, {states})\n")
}

fn line(a: usize, label: &str, b: usize) -> String {
    format!("({a}, \"{label}\", {b})\n")
}

/// The text of some lists in their order, with lines that are made of a, the event and b.
fn text_with(lists: &[List], line: impl Fn(usize, &Event, usize) -> String) -> String {
    let mut lines = String::new();
    for (b, list) in lists.iter().enumerate() {
        if let Some((event, shorter)) = list.split_last() {
            let a = lists.iter().position(|list| list == shorter).unwrap_or(0);
            lines += &line(a, event, b);
        }
    }
    header(lists.len() - 1, lists.len()) + &lines
}

fn text_of(lists: &[List]) -> String {
    text_with(lists, |a, event, b| line(a, &label(event), b))
}

/// The right text with each line but the first changed.
fn lines_changed(n: u8, length: u8, change: impl Fn(&str) -> String) -> String {
    let text = text(n, length);
    let (first, lines) = text.split_once('\n').unwrap();
    lines.lines().fold(format!("{first}\n"), |text, line| text + &change(line) + "\n")
}

/// The right text with the first line changed, which is given how many transitions and states there are.
fn first_changed(n: u8, length: u8, change: impl Fn(usize, usize) -> String) -> String {
    let text = text(n, length);
    let count = states(n, length).len();
    change(count - 1, count) + text.split_once('\n').unwrap().1
}

/// The same text comes of the lists found here, on the tower's limits and on the stand's: so few events don't meet them.
#[test]
fn limits_are_no_difference() {
    for limits in [TOWER, STAND] {
        let (passed, found) = compared_texts(|n, length| {
            text_of(&lists_by(&alphabet(n), &Table::start(n, limits), length, step))
        });
        assert_eq!(found, Ok(()));
        // Each of the 15 inputs in two ways, a thousand of each of 11 corners and 250 of two others.
        assert_eq!(passed, 2 * 15 + 11 * 1000 + 2 * 250);
    }
}

/// A wrong printer, the input with which it is found first, and what the reading finds in its text.
type Wrong = (&'static str, fn(u8, u8) -> String, &'static str, &'static str);

const NO_FORM: &str = r#"line 2: it is not of the form (a, "LABEL", b)"#;
const NO_COUNTS: &str = "line 1: it is not of the form des (0, t, s)";

/// The states and their numbers.
const WRONG_STATES: [Wrong; 17] = [
    (
        "numbers from 1",
        |n, length| text_with(&states(n, length), |a, event, b| line(a + 1, &label(event), b + 1)),
        "n 1, length 1",
        "line 2: the states that are reached are not 1, 2 and so on",
    ),
    (
        "depth first",
        |n, length| {
            let mut lists = states(n, length);
            lists.sort_by_key(|list| places(n, list.iter()));
            text_of(&lists)
        },
        "n 1, length 3",
        "line 5: the source is smaller than on the line before",
    ),
    (
        "by length and then by the last event",
        |n, length| {
            let mut lists = states(n, length);
            lists.sort_by_key(|list| (list.len(), places(n, list.iter().rev())));
            text_of(&lists)
        },
        "n 1, length 3",
        "line 8: the source is smaller than on the line before",
    ),
    (
        "by length alone, events from the last to the first",
        |n, length| {
            let reversed: Vec<Event> = alphabet(n).into_iter().rev().collect();
            text_of(&lists_of(&reversed, n, length))
        },
        "n 1, length 2",
        "line 4: its event does not come after that of the line before",
    ),
    (
        "events by their names",
        |n, length| {
            let mut events = alphabet(n);
            events.sort_by_key(event_words);
            text_of(&lists_of(&events, n, length))
        },
        "n 1, length 2",
        "line 4: its event does not come after that of the line before",
    ),
    (
        "the longest lists first",
        |n, length| {
            let mut lists = states(n, length);
            lists.sort_by_key(|list| Reverse(list.len()));
            text_of(&lists)
        },
        "n 1, length 1",
        "line 2: the states that are reached are not 1, 2 and so on",
    ),
    (
        "lists of exactly that length",
        |n, length| {
            let mut lists = states(n, length);
            lists.retain(|list| list.is_empty() || list.len() == usize::from(length));
            text_of(&lists)
        },
        "n 1, length 2",
        "line 2: its list is refused 9: CRASH 1",
    ),
    (
        "lists that are shorter",
        |n, length| text(n, length.max(1) - 1),
        "n 1, length 1",
        "line 2: state 0 accepts recover 1, which is missing",
    ),
    (
        "lists that are longer by one",
        |n, length| text_of(&lists_of(&alphabet(n), n, length + 1)),
        "n 1, length 0",
        "line 2: its list has more than 0 events: RECOVER 1",
    ),
    (
        "its own state as the source",
        |n, length| text_with(&states(n, length), |_, event, b| line(b, &label(event), b)),
        "n 1, length 1",
        "line 2: the source is not before the state",
    ),
    (
        "the state before as the source",
        |n, length| text_with(&states(n, length), |_, event, b| line(b - 1, &label(event), b)),
        "n 1, length 2",
        "line 4: its list has more than 2 events: RECOVER 1, CRASH 1, CHECK 1",
    ),
    (
        "a state for each table",
        by_tables,
        "n 1, length 2",
        "line 1: not one transition fewer than states",
    ),
    (
        "refused events as loops",
        |n, length| {
            let lists = states(n, length);
            let mut lines = String::new();
            for (a, list) in lists.iter().enumerate() {
                for event in alphabet(n) {
                    let longer = [&list[..], &[event]].concat();
                    let b = lists.iter().position(|list| *list == longer).unwrap_or(a);
                    lines += &line(a, &label(&event), b);
                }
            }
            header(lines.lines().count(), lists.len()) + &lines
        },
        "n 1, length 0",
        "line 1: not one transition fewer than states",
    ),
    (
        "no timeouts",
        |n, length| {
            let mut events = alphabet(n);
            events.retain(|event| !matches!(event, Event::Timeout(_)));
            text_of(&lists_of(&events, n, length))
        },
        "n 1, length 2",
        "line 5: state 1 accepts timeout 1, which is missing",
    ),
    (
        "crashes of nodes that are Down",
        |n, length| {
            let machine = |table: &mut Table, event: &Event| match step(table, event) {
                Err(9) if matches!(event, Event::Crash(_)) => Ok(()),
                answer => answer,
            };
            text_of(&lists_by(&alphabet(n), &Table::start(n, TOWER), length, machine))
        },
        "n 1, length 1",
        "line 2: its list is refused 9: CRASH 1",
    ),
    (
        "finishes of nodes that do not collect",
        |n, length| {
            let machine = |table: &mut Table, event: &Event| match step(table, event) {
                Err(10) if matches!(event, Event::Finish(..)) => Ok(()),
                answer => answer,
            };
            text_of(&lists_by(&alphabet(n), &Table::start(n, TOWER), length, machine))
        },
        "n 1, length 2",
        "line 6: its list is refused 10: RECOVER 1, FINISH 1 100",
    ),
    (
        "deliveries to nodes that are Down",
        |n, length| {
            let machine = |table: &mut Table, event: &Event| match (step(table, event), event) {
                (Err(9), &Event::Deliver(a, b)) => step(table, &Event::Lose(a, b)),
                (answer, _) => answer,
            };
            text_of(&lists_by(&alphabet(n), &Table::start(n, TOWER), length, machine))
        },
        "n 2, length 3",
        "line 23: its list is refused 9: RECOVER 1, CHECK 1, DELIVER 1 2",
    ),
];

/// Lists that lead to the same table are one state.
fn by_tables(n: u8, length: u8) -> String {
    let table = |list: &List| {
        let mut table = Table::start(n, TOWER);
        assert!(list.iter().all(|event| step(&mut table, event).is_ok()));
        table_text(&table)
    };
    let mut tables: Vec<String> = Vec::new();
    let mut lines: Vec<String> = Vec::new();
    for list in states(n, length) {
        let mut state = |list: &List| {
            let text = table(list);
            let place = tables.iter().position(|other| *other == text);
            place.unwrap_or_else(|| {
                tables.push(text);
                tables.len() - 1
            })
        };
        if let Some((event, shorter)) = list.split_last() {
            let line = line(state(&shorter.to_vec()), &label(event), state(&list));
            if !lines.contains(&line) {
                lines.push(line);
            }
        } else {
            state(&list);
        }
    }
    header(lines.len(), tables.len()) + &lines.concat()
}

/// The lines and labels.
const WRONG_FORMS: [Wrong; 21] = [
    (
        "small letters",
        |n, length| text_with(&states(n, length), |a, event, b| line(a, &event_words(event), b)),
        "n 1, length 1",
        "line 2: the label is no event's in capitals: (0, \"recover 1\", 1)",
    ),
    (
        "the whole list as the label",
        |n, length| {
            let lists = states(n, length);
            let labels = |b: usize| lists[b].iter().map(label).collect::<Vec<_>>();
            text_with(&lists, |a, _, b| line(a, &labels(b).join(", "), b))
        },
        "n 1, length 2",
        "line 3: the label is no event's in capitals: (1, \"RECOVER 1, CRASH 1\", 2)",
    ),
    (
        "underscores in labels",
        |n, length| lines_changed(n, length, |line| line.replace("R 1", "R_1")),
        "n 1, length 1",
        "line 2: the label is no event's in capitals: (0, \"RECOVER_1\", 1)",
    ),
    (
        "a comma between numbers",
        |n, length| lines_changed(n, length, |line| line.replace("LOSE 1 2", "LOSE 1, 2")),
        "n 2, length 3",
        "line 23: the label is no event's in capitals: (5, \"LOSE 1, 2\", 22)",
    ),
    (
        "nodes from 0",
        |n, length| lines_changed(n, length, |line| line.replace("R 1", "R 0")),
        "n 1, length 1",
        "line 2: its list is refused 7: RECOVER 0",
    ),
    (
        "as many transitions as states",
        |n, length| first_changed(n, length, |_, states| header(states, states)),
        "n 1, length 0",
        "line 1: not one transition fewer than states",
    ),
    (
        "the counts exchanged",
        |n, length| first_changed(n, length, |transitions, states| header(states, transitions)),
        "n 1, length 0",
        "line 1: not one transition fewer than states",
    ),
    (
        "the counts of the longest text",
        |n, length| first_changed(n, length, |_, _| header(600, 601)),
        "n 1, length 0",
        "line 1: 600 transitions, but there are 0 lines",
    ),
    (
        "state 1 as the first",
        |n, length| text(n, length).replace("des (0", "des (1"),
        "n 1, length 0",
        NO_COUNTS,
    ),
    (
        "no first line",
        |n, length| first_changed(n, length, |_, _| String::new()),
        "n 1, length 0",
        "line 1: it has no end",
    ),
    (
        "the first line last",
        |n, length| {
            let text = text(n, length);
            let (first, lines) = text.split_once('\n').unwrap();
            format!("{lines}{first}\n")
        },
        "n 1, length 1",
        NO_COUNTS,
    ),
    (
        "no space behind des",
        |n, length| text(n, length).replace("des ", "des"),
        "n 1, length 0",
        NO_COUNTS,
    ),
    (
        "two bytes at the end of a line",
        |n, length| text(n, length).replace('\n', "\r\n"),
        "n 1, length 0",
        NO_COUNTS,
    ),
    (
        "no second quotation mark",
        |n, length| lines_changed(n, length, |line| line.replace("\", ", ", ")),
        "n 1, length 1",
        NO_FORM,
    ),
    (
        "no quotation marks",
        |n, length| lines_changed(n, length, |line| line.replace('"', "")),
        "n 1, length 1",
        NO_FORM,
    ),
    (
        "no spaces between the parts",
        |n, length| lines_changed(n, length, |line| line.replace(", ", ",")),
        "n 1, length 1",
        NO_FORM,
    ),
    (
        "the two states exchanged",
        |n, length| text_with(&states(n, length), |a, event, b| line(b, &label(event), a)),
        "n 1, length 1",
        "line 2: the states that are reached are not 1, 2 and so on",
    ),
    (
        "no end of the last line",
        |n, length| text(n, length).trim_end().to_string(),
        "n 1, length 0",
        "line 1: it has no end",
    ),
    (
        "more behind the end of the last line",
        |n, length| text(n, length) + " ",
        "n 1, length 0",
        "line 2: it has no end",
    ),
    ("an empty line behind the last", |n, length| text(n, length) + "\n", "n 1, length 0", NO_FORM),
    (
        "T-01's last line",
        |n, length| text(n, length) + &format!("lists {}\n", states(n, length).len()),
        "n 1, length 0",
        NO_FORM,
    ),
];

/// Each wrong text is found by its bytes and by the reading, each without the other.
#[test]
fn wrong_texts() {
    for (name, printer, first, words) in WRONG_STATES.iter().chain(&WRONG_FORMS) {
        let (_, found) = compared_texts(printer);
        let told = found.expect_err(name);
        assert!(told.starts_with(&format!("{first}: difference at byte ")), "{name}: {told}");
        assert!(told.contains(&format!("\nread by itself, {words}")), "{name}: {told}");
    }
}

/// The input that a difference is told of. Its first bytes are told; zeros stand for the others here.
fn wrong_input(told: &str) -> Vec<u8> {
    let (count, rest) = told.strip_prefix("input of ").unwrap().split_once(" bytes [").unwrap();
    let (bytes, _) = rest.split_once("]: difference at byte ").unwrap();
    let bytes = bytes.split_whitespace().map(|byte| u8::from_str_radix(byte, 16).unwrap());
    let mut input: Vec<u8> = bytes.collect();
    input.resize(count.parse().unwrap(), 0);
    input
}

/// What is taken for n and L though it is wrong, and a corner of the input that finds it.
type Taken = (&'static str, fn(&[u8]) -> Option<[u8; 2]>, Corner);

const TAKEN: [Taken; 15] = [
    ("no bytes", |input| input.is_empty().then_some([1, 0]), Corner::NoBytes),
    (
        "n alone",
        |input| input.first().map(|&n| [n, 0]).filter(|_| input.len() == 1),
        Corner::OneByte,
    ),
    (
        "L alone",
        |input| input.first().map(|&l| [1, l]).filter(|_| input.len() == 1),
        Corner::OneByte,
    ),
    ("three bytes, n in the second", |input| pair(input, 1, 3), Corner::ThreeBytes),
    ("three bytes, n in the first", |input| pair(input, 0, 3), Corner::FurtherByte),
    (
        "the end of a line behind n and L",
        |input| pair(input, 0, 3).filter(|_| input[2] == b'\n'),
        Corner::FurtherByte,
    ),
    (
        "some bytes behind n and L",
        |input| (4..100).find_map(|length| pair(input, 0, length)),
        Corner::MoreBytes,
    ),
    ("many bytes behind n and L", |input| pair(input, 0, 1_000_000), Corner::MillionBytes),
    ("n = 0", |input| pair(input, 0, 2).filter(|p| p[0] == 0).map(|p| [1, p[1]]), Corner::ZeroN),
    ("n = 4", |input| pair(input, 0, 2).filter(|p| p[0] == 4).map(|p| [3, p[1]]), Corner::FourN),
    (
        "the lowest two bits of n",
        |input| pair(input, 0, 2).map(|p| [p[0] & 3, p[1]]),
        Corner::HigherN,
    ),
    (
        "L = 5",
        |input| pair(input, 0, 2).filter(|p| p[1] == 5).map(|p| [p[0], 4]),
        Corner::NextLength,
    ),
    (
        "L up to 7",
        |input| pair(input, 0, 2).filter(|p| p[1] <= 7).map(|p| [p[0], p[1].min(4)]),
        Corner::LengthOfShortLists,
    ),
    (
        "the lowest seven bits of L",
        |input| pair(input, 0, 2).map(|p| [p[0], p[1] & 0x7f]),
        Corner::HigherLength,
    ),
    (
        "n and L, where both are wrong",
        |input| pair(input, 0, 2).filter(|p| !(1..=3).contains(&p[0]) && p[1] > 4).map(|_| [1, 0]),
        Corner::Both,
    ),
];

/// Two bytes of an input of some length, from one on.
fn pair(input: &[u8], from: usize, length: usize) -> Option<[u8; 2]> {
    (input.len() == length).then(|| [input[from], input[from + 1]])
}

#[test]
fn wrong_inputs_that_are_taken_for_right_ones() {
    for (name, taken, corner) in TAKEN {
        let (_, found) = compared(|input| match taken(input) {
            Some(input) => ALDEBARAN.text(&input),
            None => ALDEBARAN.text(input),
        });
        let input = wrong_input(&found.expect_err(name));
        assert!(corner.met(&ALDEBARAN, &input), "{name}: {input:?}");
    }
}

#[test]
fn wrong_words_of_a_refusal() {
    let behind = [ALDEBARAN.refusal, b"des (0, 0, 1)\n"].concat();
    let cases: [(&[u8], &str); 6] = [
        (b"stopped 0 16\n", "input of 0 bytes []: difference at byte 10, in line 1"),
        (b"stopped 1 22\n", "input of 0 bytes []: difference at byte 8, in line 1"),
        (b"refused 0 22\n", "input of 0 bytes []: difference at byte 0, in line 1"),
        (b"stopped 0 22", "input of 0 bytes []: difference at byte 12, in line 1"),
        (b"", "input of 0 bytes []: difference at byte 0, in line 1"),
        (&behind, "input of 0 bytes []: difference at byte 13, in line 2"),
    ];
    for (refusal, words) in cases {
        let (passed, found) = compared(|input| match ALDEBARAN.text(input) {
            text if text == ALDEBARAN.refusal => refusal.to_vec(),
            text => text,
        });
        assert_eq!(passed, 2 * 15);
        let told = found.expect_err(words);
        assert!(told.starts_with(words), "{told}");
    }
}
