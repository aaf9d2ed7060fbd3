//! T-01's lists: their order, that they are the lists that the machine accepts and no others, the vectors'
//! counts and texts, the inputs that are refused, and the program where it can't read or write.

use crate::programs::{
    cannot_read, cannot_write, nobody_reads, prints_texts, refuses_wrong_inputs,
};
use peer::list::write_event;
use peer::machine::{step, Event, Table, TOWER};
use peer::sha256::sha256;
use peer::short::{self, alphabet, print, print_lists, Counts, REFUSAL};
use peer::two_bytes::SHORT_LISTS;
use peer::vectors::{read_hex, read_sums, table_text, write_hex};
use std::collections::BTreeMap;
use std::path::PathBuf;

fn text(n: u8, length: u8) -> String {
    let mut text = Vec::new();
    print(&[n, length], &mut text).unwrap();
    String::from_utf8(text).unwrap()
}

/// The lists of a text, as events.
fn lists(n: u8, length: u8) -> Vec<Vec<Event>> {
    let text = text(n, length);
    let (lists, last) = text.trim_end_matches('\n').rsplit_once('\n').unwrap();
    let lists: Vec<Vec<Event>> = lists.split('\n').map(events).collect();
    assert_eq!(last, format!("lists {}", lists.len()));
    lists
}

fn events(line: &str) -> Vec<Event> {
    line.split(", ").filter(|words| !words.is_empty()).map(event).collect()
}

fn event(words: &str) -> Event {
    let (name, numbers) = words.split_once(' ').unwrap();
    let numbers: Vec<u16> = numbers.split(' ').map(|number| number.parse().unwrap()).collect();
    let number = |k: usize| u8::try_from(numbers[k]).unwrap();
    match (name, numbers.len()) {
        ("crash", 1) => Event::Crash(number(0)),
        ("recover", 1) => Event::Recover(number(0)),
        ("check", 1) => Event::Check(number(0)),
        ("timeout", 1) => Event::Timeout(number(0)),
        ("tick", 1) => Event::Tick(number(0)),
        ("expire", 1) => Event::Expire(number(0)),
        ("finish", 2) => Event::Finish(number(0), numbers[1]),
        ("deliver", 2) => Event::Deliver(number(0), number(1)),
        ("lose", 2) => Event::Lose(number(0), number(1)),
        _ => panic!("{words}"),
    }
}

/// An event's tag and contents, as a list has them.
fn tag_and_contents(event: &Event) -> (u8, Vec<u8>) {
    let mut field = Vec::new();
    write_event(&mut field, event);
    (field[0], field[3..].to_vec())
}

fn accepted(n: u8, events: &[Event]) -> bool {
    let mut table = Table::start(n, TOWER);
    events.iter().all(|event| step(&mut table, event).is_ok())
}

/// All rows of so many events, in order.
fn rows(events: &[Event], length: usize) -> Vec<Vec<Event>> {
    let mut rows = vec![vec![]];
    for _ in 0..length {
        rows = rows
            .iter()
            .flat_map(|row| events.iter().map(|&event| [&row[..], &[event]].concat()))
            .collect();
    }
    rows
}

#[test]
fn first_texts() {
    assert_eq!(text(1, 0), "\nlists 1\n");
    assert_eq!(text(3, 0), "\nlists 1\n");
    assert_eq!(text(1, 1), "recover 1\nlists 1\n");
    assert_eq!(
        text(1, 2),
        "recover 1, crash 1\nrecover 1, check 1\nrecover 1, timeout 1\nlists 3\n"
    );
}

#[test]
fn events_in_order() {
    for n in 1..=3 {
        let events = alphabet(n);
        assert_eq!(events.len(), usize::from(7 * n + 2 * n * (n - 1)));
        assert!(events.is_sorted_by(|a, b| tag_and_contents(a) < tag_and_contents(b)));
    }
}

#[test]
fn lists_as_events() {
    for n in 1..=3 {
        for length in 0..=5 {
            assert_eq!(short::lists(n, length), lists(n, length));
        }
    }
}

/// An ascending text has each list once.
#[test]
fn lists_in_order() {
    for n in 1..=3 {
        for length in 0..=6 {
            let lists = lists(n, length);
            let keys = |list: &[Event]| list.iter().map(tag_and_contents).collect::<Vec<_>>();
            assert!(lists.is_sorted_by(|a, b| keys(a) < keys(b)));
            assert!(lists.iter().all(|list| list.len() == usize::from(length)));
        }
    }
}

/// Against every row of events, run from the start with the range checked at each step.
#[test]
fn those_that_are_accepted() {
    for (n, length) in [(1, 4), (1, 5), (2, 3), (2, 4), (3, 2), (3, 3)] {
        let mut rows = rows(&alphabet(n), usize::from(length));
        rows.retain(|row| accepted(n, row));
        assert_eq!(lists(n, length), rows);
    }
}

#[test]
fn every_printed_list_is_accepted() {
    for (n, length) in [(1, 7), (2, 6), (3, 5)] {
        assert!(lists(n, length).iter().all(|list| accepted(n, list)));
    }
}

/// What is not tried is refused, but for a finish with another task.
#[test]
fn no_other_event_is_accepted() {
    for (n, length) in [(1, 4), (2, 4), (3, 3)] {
        let tried = alphabet(n);
        let others: Vec<Event> = alphabet(4)
            .into_iter()
            .chain((0..=4).map(|i| Event::Finish(i, 99)))
            .chain((0..=4).flat_map(|i| [Event::Crash(i), Event::Recover(i), Event::Lose(i, i)]))
            .chain((0..=4).flat_map(|i| [Event::Deliver(0, i), Event::Deliver(i, i)]))
            .filter(|event| !tried.contains(event))
            .collect();
        for list in lists(n, length) {
            for &other in &others {
                assert!(!accepted(n, &[&list[..], &[other]].concat()), "{list:?} {other:?}");
            }
        }
    }
}

/// T-06: "The lists of T-01 are too short to meet this and stay the same." No check on a table that a list of
/// up to seven events leads to is refused 18; two nodes come to one by eight events, and not by fewer.
#[test]
fn too_short_for_ground_18() {
    for n in 1..=3 {
        let events = alphabet(n);
        let mut tables = vec![Table::start(n, TOWER)];
        for length in 0..=if n == 2 { 8 } else { 7 } {
            let refused = |table: &Table| {
                (1..=n).any(|i| step(&mut table.clone(), &Event::Check(i)) == Err(18))
            };
            assert_eq!(tables.iter().any(refused), (n, length) == (2, 8), "{n} {length}");
            // Each table that one event more leads to, once.
            let mut next = BTreeMap::new();
            for table in &tables {
                for event in &events {
                    let mut after = table.clone();
                    if step(&mut after, event).is_ok() {
                        next.insert(table_text(&after), after);
                    }
                }
            }
            tables = next.into_values().collect();
        }
    }
}

/// T-10 leaves out three lists of two nodes and seven events: they end with a finish of one of two nodes. All others
/// are too short to meet ground 19.
#[test]
fn three_lists_fewer_by_ground_19() {
    for n in 1..=3 {
        for length in 0..=6 {
            let mut refused = 0;
            for list in lists(n, length) {
                let mut table = Table::start(n, TOWER);
                assert!(list.iter().all(|event| step(&mut table, event).is_ok()));
                let finish = |i: u8| step(&mut table.clone(), &Event::Finish(i, 100));
                refused += (1..=n).filter(|&i| finish(i) == Err(19)).count();
            }
            assert_eq!(refused, if (n, length) == (2, 6) { 3 } else { 0 }, "{n} {length}");
        }
    }
}

#[test]
fn counts() {
    // Each list of no event up to length - 1 events is followed by each event once.
    for (n, length) in [(1, 7), (2, 5), (3, 4)] {
        let shorter: Vec<u64> = (0..=length).map(|k| lists(n, k).len() as u64).collect();
        let counts = Counts {
            lists: shorter[usize::from(length)],
            tried: shorter[..usize::from(length)].iter().sum::<u64>() * alphabet(n).len() as u64,
            accepted: shorter[1..].iter().sum(),
        };
        assert_eq!(print_lists(n, length, &mut std::io::sink()).unwrap(), counts);
    }
}

fn vectors() -> PathBuf {
    PathBuf::from(env!("CARGO_MANIFEST_DIR")).join("../tests/short-lists")
}

fn vector(name: &str) -> String {
    std::fs::read_to_string(vectors().join(name)).unwrap()
}

#[test]
fn sums_of_the_vectors() {
    let sums = read_sums(&vector("sums.txt")).unwrap();
    assert_eq!(sums.len(), 24);
    for sum in sums.iter().filter(|sum| sum.length <= 6) {
        let text = text(sum.n, sum.length);
        assert_eq!(text.lines().count() as u64, sum.count + 1);
        assert_eq!(text.len() as u64, sum.bytes);
        assert_eq!(sha256(text.as_bytes()), sum.sha256);
    }
}

#[test]
fn texts_of_the_vectors() {
    let mut texts = 0;
    for n in 1..=3 {
        for length in 0..=7 {
            let name = format!("{n}-{length}.txt");
            if vectors().join(&name).exists() {
                texts += 1;
                assert_eq!(text(n, length), vector(&name));
            }
        }
    }
    assert_eq!(texts, 11);
}

#[test]
fn wrong_inputs() {
    assert_eq!(REFUSAL, b"stopped 0 16\n");
    refuses_wrong_inputs(&SHORT_LISTS, &vector("wrong-inputs.txt"));
}

#[test]
fn bytes_in_hex() {
    assert_eq!(read_hex("-"), Some(vec![]));
    assert_eq!(read_hex("03ff"), Some(vec![3, 255]));
    assert_eq!(read_hex("_3_"), Some(vec![0; 3]));
    assert_eq!(read_hex("01_2_0a_1_"), Some(vec![1, 0, 0, 10, 0]));
    for wrong in ["3", "0g", "_3", "01_x_", "01_2_a"] {
        assert_eq!(read_hex(wrong), None, "{wrong}");
    }
    for (bytes, word) in [
        (&[][..], "-"),
        (&[3, 0, 0, 0, 255], "03000000ff"),
        (&[0, 0, 0, 0], "_4_"),
        (&[1, 0, 0, 0, 0, 0, 10, 0], "01_5_0a00"),
    ] {
        assert_eq!(write_hex(bytes), word);
        assert_eq!(read_hex(word), Some(bytes.to_vec()));
    }
}

const PROGRAM: &str = env!("CARGO_BIN_EXE_short-lists");

#[test]
fn the_program_prints_the_text() {
    let inputs: [&[u8]; 9] =
        [&[2, 5], &[3, 0], &[3, 6], &[], &[1], &[0, 0], &[4, 1], &[1, 8], &[3, 7, 10]];
    prints_texts(PROGRAM, &SHORT_LISTS, &inputs);
}

#[test]
fn input_that_cannot_be_read() {
    cannot_read(PROGRAM);
}

/// A text that is written at the end alone, and one that is not.
#[test]
fn text_that_cannot_be_written() {
    cannot_write(PROGRAM, &[[1, 0], [3, 7]]);
    nobody_reads(PROGRAM, [3, 7]);
}
