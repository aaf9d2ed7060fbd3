//! The judgement of the Bully machine's events: whatever follows that the papers have no place for is told,
//! though there is nothing to compare it with.

use peer::bully::bytes::{event_to_field, TABLE_BYTES};
use peer::bully::corners::Corners;
use peer::bully::machine::*;
use peer::bully::tables::to_step;
use peer::corners::Source;
use peer::machine::{Set, Status};
use peer::numbers::Numbers;

/// What is told of one event on a table.
fn told(source: Source, before: &Table, event: &Event, answer: u8, after: &Table) -> Vec<String> {
    let mut corners = Corners::default();
    corners.event(source, before, event, answer, after);
    corners.book().impossible()
}

/// Another record, in one thing.
fn changed(node: &Node, what: u32) -> Node {
    let mut node = *node;
    match what {
        0 => node.runs = !node.runs,
        1 => {
            node.status = if node.status == Status::Normal { Status::Down } else { Status::Normal }
        }
        2 => node.coordinator ^= 1,
        3 => node.task ^= 1,
        4 => node.halter ^= 1,
        5 => node.up ^= 1 as Set,
        _ => node.place = if node.place == Place::Point { Place::Idle } else { Place::Point },
    }
    node
}

/// On random tables nothing is told of what the machine does, and every other answer and table is.
#[test]
fn every_other_answer_and_table_is_told() {
    let mut numbers = Numbers::new(1);
    let mut accepted = 0;
    for _ in 0..5000 {
        let (before, event) = to_step(&mut numbers);
        let mut after = before;
        let answer = step(&mut after, &event).err().unwrap_or(0);
        let told = |answer: u8, after: &Table| told(Source::Table, &before, &event, answer, after);
        assert_eq!(told(answer, &after), [""; 0], "{event} {before:?}");
        for other in [0, 1, 3, 7, 8, 9, 10, 11, 18, 255] {
            assert_eq!(told(other, &after).is_empty(), other == answer, "{event} {other}");
        }
        if answer == 0 {
            accepted += 1;
            for i in 1..=before.n {
                for what in 0..=6 {
                    let mut other = after;
                    *other.node_mut(i) = changed(after.node(i), what);
                    let words = told(0, &other);
                    assert_eq!(words.len(), 1, "{event}, {i}, {what}");
                    assert!(words[0].ends_with("another table than by the papers"), "{words:?}");
                }
            }
        }
    }
    assert!(accepted > 3000);
}

/// What can be met on tables alone is told where a run meets it.
#[test]
fn what_no_run_meets_is_told_in_a_run() {
    let mut table = Table::start(2);
    *table.node_mut(1) = Node { runs: true, status: Status::Normal, ..Node::START };
    let event = Event::Timeout(1);
    let mut after = table;
    step(&mut after, &event).unwrap();
    assert_eq!(told(Source::Table, &table, &event, 0, &after), [""; 0]);
    let words = told(Source::Run, &table, &event, 0, &after);
    assert_eq!(words, ["timeout, coordinator 0, contacts, in a run"]);
}

/// A table out of range that both sides leave is told. The one before has another coordinator than any.
#[test]
fn every_table_must_be_in_range() {
    let mut before = Table::start(2);
    *before.node_mut(1) = Node { runs: true, coordinator: 3, ..Node::START };
    let mut after = before;
    *after.node_mut(1) = Node { runs: false, ..*before.node(1) };
    let words = told(Source::Table, &before, &Event::Crash(1), 0, &after);
    assert_eq!(words, ["crash, out of range after it"]);
}

#[test]
fn a_broken_rule_must_be_refused_1() {
    for answer in [0, 1, 7, 9] {
        let mut corners = Corners::default();
        corners.broken("n 0", &Event::Crash(1), answer);
        assert_eq!(corners.book().impossible().is_empty(), answer == 1, "{answer}");
    }
}

/// The buffer comes before the field, and the field before the range.
#[test]
fn calls_are_judged_by_buffer_field_and_range() {
    let event = event_to_field(&Event::Crash(1));
    let cases: [(bool, &[u8], usize, &[u8]); 8] = [
        (true, &event, TABLE_BYTES - 1, &[255]),
        (false, &[], 0, &[255]),
        (true, &[], TABLE_BYTES, &[3]),
        (false, &[0x14, 0, 0], TABLE_BYTES, &[4]),
        (true, &[0x19, 0, 0], TABLE_BYTES, &[5]),
        (false, &event, TABLE_BYTES, &[1]),
        (true, &event, TABLE_BYTES, &[0, 7, 8, 9, 10]),
        (true, &event, TABLE_BYTES + 1, &[0, 7, 8, 9, 10]),
    ];
    for (in_range, field, room, right) in cases {
        for answer in 0..=255 {
            let mut corners = Corners::default();
            corners.call(in_range, field, room, answer);
            let words = format!("{in_range} {field:?} {room} {answer}");
            assert_eq!(corners.book().impossible().is_empty(), right.contains(&answer), "{words}");
        }
    }
}
