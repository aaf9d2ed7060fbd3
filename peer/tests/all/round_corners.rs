//! The judgement of turns and the bound of T-09: whatever must not follow is told, though there is nothing to
//! compare it with.

use crate::functions;

use functions::Functions;
use peer::compare::Lent;
use peer::corners::Source;
use peer::machine::*;
use peer::numbers::Numbers;
use peer::proved::*;
use peer::round::bound::{allowed, Following, Gone, Happened};
use peer::round::bytes::TURN_BYTES;
use peer::round::corners::{Call, Corners};
use peer::round::driver::{next, turn, Done, Place};
use peer::round::tables::{any_place, to_turn};
use peer::tally::Book;
use peer::traffic_tables::count_waiting;
use std::ops::Range;

fn bytes_of(table: &Table) -> TableBytes {
    let mut bytes = [0; TABLE_BYTES];
    table_to_bytes(table, &mut bytes);
    bytes
}

/// What is told of an answer and of what a buffer of so many bytes then holds, whoever made them.
fn told(table: &[u8], place: Place, answer: u8, room: usize, out: &[u8]) -> Option<String> {
    let mut lent = Lent::new(room, &mut Numbers::new(1));
    lent.now[..out.len()].copy_from_slice(out);
    let call = Call { table, place, answer, lent: &lent };
    Corners::default().turn(Source::Table, &Own, &call).err()
}

/// The bytes of a turn.
fn turned(table: &Table, (a, b): Place) -> Vec<u8> {
    let mut out = vec![0; TURN_BYTES];
    assert_eq!(Own.turn(&bytes_of(table), a, b, &mut out), 0);
    out
}

/// On random tables nothing is told of what the driver does, and every other answer, place and deed is, and every
/// other table.
#[test]
fn every_other_answer_and_table_is_told() {
    let mut numbers = Numbers::new(2);
    let mut done = [0; 3];
    for _ in 0..400 {
        let (table, pair) = to_turn(&mut numbers);
        let place = pair.unwrap_or_else(|| any_place(table.n, &mut numbers));
        let (bytes, out) = (bytes_of(&table), turned(&table, place));
        let room = TURN_BYTES + 3;
        assert_eq!(told(&bytes, place, 0, room, &out), None);
        done[usize::from(out[4438])] += 1;
        for answer in 1..=255 {
            assert!(told(&bytes, place, answer, room, &[]).is_some(), "{answer}");
        }
        // The next place, and what was done.
        for at in 4436..4439 {
            for change in [1, 2, 3] {
                let mut other = out.clone();
                other[at] ^= change;
                assert!(told(&bytes, place, 0, room, &other).is_some(), "{at}");
            }
        }
        // A byte behind the turn.
        let longer = [&out[..], &[0]].concat();
        assert!(told(&bytes, place, 0, room, &longer).is_some());
        // Numbers of the records, the messages, how many wait, the counts, the limits.
        let after = table_from_bytes(out.first_chunk().unwrap());
        for what in 0..8 {
            let mut other = after.clone();
            let k = numbers.place(usize::from(other.n));
            match what {
                0 => other.nodes[k].counter ^= 1,
                1 => other.nodes[k].last_call ^= 1,
                2 => other.nodes[k].task ^= 1,
                3 => other.traffic.sent[0][1] ^= 1,
                4 => other.traffic.delivered[1][0] ^= 1,
                5 => other.traffic.lost[k][1] ^= 1,
                6 => other.limits.messages ^= 1,
                _ => match other.messages.pop() {
                    Some(_) => {}
                    None => other.n ^= 1,
                },
            }
            let wrong = [&bytes_of(&other)[..], &out[TABLE_BYTES..]].concat();
            assert!(told(&bytes, place, 0, room, &wrong).is_some(), "{what}");
        }
    }
    assert!(done.iter().all(|&times| times > 50), "{done:?}");
}

/// The buffer comes first, then the range, then n = 1, then the place; and what is refused leaves the buffer.
#[test]
fn answers_are_judged_by_buffer_range_and_place() {
    let (three, one) = (Table::start(3, TOWER), Table::start(1, TOWER));
    let (good, alone) = (bytes_of(&three), bytes_of(&one));
    let cases: [(&[u8], Place, usize, u8); 10] = [
        (&good, (1, 2), 4438, 255),
        (&good, (0, 0), 0, 255),
        (&[], (1, 2), 4438, 255),
        (&[], (1, 2), 4439, 1),
        (&[], (0, 0), 4439, 1),
        (&[1], (1, 2), 4439, 1),
        (&good, (0, 1), 4439, 7),
        (&good, (4, 1), 4440, 7),
        (&good, (1, 1), 4439, 7),
        (&good, (3, 17), 5000, 7),
    ];
    for (table, place, room, number) in cases {
        for answer in 0..=255 {
            let words = told(table, place, answer, room, &[]);
            assert_eq!(words.is_none(), answer == number, "{place:?} {room} {answer}: {words:?}");
        }
        if room > 0 {
            let mut lent = Lent::new(room, &mut Numbers::new(1));
            lent.now[0] ^= 1;
            let call = Call { table, place, answer: number, lent: &lent };
            assert!(Corners::default().turn(Source::Table, &Own, &call).is_err());
        }
    }
    for place in [(1, 2), (0, 0), (1, 1), (255, 9)] {
        assert_eq!(told(&alone, place, 0, 4439, &turned(&one, place)), None);
        assert!(told(&alone, place, 7, 4439, &[]).is_some());
        let mut moved = turned(&one, place);
        moved[4437] ^= 1;
        assert!(told(&alone, place, 0, 4439, &moved).is_some());
    }
}

/// A step of the library that refuses a delivery by another ground is told, since a turn has no place for it.
#[test]
fn another_ground_of_a_delivery_is_told() {
    let mut table = Table::start(2, STAND);
    for i in 1..=2 {
        step(&mut table, &Event::Recover(i)).unwrap();
    }
    let body = Body::AreYouCoordinator;
    table.messages.push(Message { sender: 1, receiver: 2, call: 1, body });
    count_waiting(&mut table);
    let full = Functions { step: Box::new(|_, _, _| 14), ..Functions::default() };
    let mut lent = Lent::new(TURN_BYTES, &mut Numbers::new(1));
    lent.now.copy_from_slice(&turned(&table, (1, 2)));
    let call = Call { table: &bytes_of(&table), place: (1, 2), answer: 0, lent: &lent };
    let words = Corners::default().turn(Source::Table, &full, &call).unwrap_err();
    assert_eq!(words, "the delivery meets 14");
}

/// What can be met on tables alone is told where a run meets it.
#[test]
fn what_no_run_meets_is_told_in_a_run() {
    let mut table = Table::start(2, TOWER);
    for i in 1..=2 {
        step(&mut table, &Event::Recover(i)).unwrap();
    }
    let body = Body::Invitation { group: group_number(3, 1) };
    table.messages.push(Message { sender: 1, receiver: 2, call: 1, body });
    table.nodes[1].last_call = MAX_CALL;
    count_waiting(&mut table);
    let mut lent = Lent::new(TURN_BYTES + 1, &mut Numbers::new(1));
    let length = TURN_BYTES;
    lent.now[..length].copy_from_slice(&turned(&table, (1, 2)));
    let call = Call { table: &bytes_of(&table), place: (1, 2), answer: 0, lent: &lent };
    for (source, told) in [
        (Source::Table, vec![]),
        (Source::Run, vec!["lost, the delivery meets 13, in a run".to_string()]),
    ] {
        let mut corners = Corners::default();
        corners.turn(source, &Own, &call).unwrap();
        assert_eq!(corners.impossible(), told);
    }
}

/// The corners that were met once, by their names.
fn met(corners: &Corners) -> Vec<String> {
    let text = corners.text();
    let line = |line: &str| {
        let (counts, name) = line.split_at_checked(21)?;
        counts.split_whitespace().eq(["0", "1"]).then(|| name.trim_start().to_string())
    };
    text.lines().filter_map(line).collect()
}

/// What a turn by this program's driver meets, into a buffer of so many bytes.
fn in_a_table(table: &[u8], place: Place, room: usize) -> Vec<String> {
    let mut lent = Lent::new(room, &mut Numbers::new(1));
    let answer = Own.turn(table, place.0, place.1, &mut lent.now);
    let mut corners = Corners::default();
    let call = Call { table, place, answer, lent: &lent };
    corners.turn(Source::Table, &Own, &call).unwrap();
    assert_eq!(corners.impossible(), [""; 0]);
    met(&corners)
}

/// Three nodes that have recovered, and questions from 2 to 1, from 1 to 3 and from 3 to 2, as often as is said.
fn asked(limits: Limits, times: usize) -> Table {
    let mut table = Table::start(3, limits);
    for i in 1..=3 {
        step(&mut table, &Event::Recover(i)).unwrap();
    }
    for _ in 0..times {
        for (sender, receiver) in [(2, 1), (1, 3), (3, 2)] {
            let body = Body::AreYouCoordinator;
            table.messages.push(Message { sender, receiver, call: 1, body });
        }
    }
    count_waiting(&mut table);
    table
}

/// Each corner is counted where it is met, and nowhere else.
#[test]
fn accepted_turns_are_counted() {
    let next_receiver = "next the next receiver";
    let over_itself = "next the receiver behind the sender itself";
    let next_sender = "next the first receiver of the next sender";
    let from_the_start = "next (1, 2) behind (n, n - 1)";
    let stand = asked(STAND, 1);
    for (place, done, next) in [
        ((1, 2), "nothing", next_receiver),
        ((1, 3), "delivered", next_sender),
        ((2, 1), "delivered", over_itself),
        ((2, 3), "nothing", next_sender),
        ((3, 1), "nothing", next_receiver),
        ((3, 2), "delivered", from_the_start),
    ] {
        let expected = [
            format!("{done}, stand"),
            format!("{done}, {next}"),
            "turn, n = 3".to_string(),
            "buffer, 4,439 bytes".to_string(),
        ];
        assert_eq!(in_a_table(&bytes_of(&stand), place, TURN_BYTES), expected, "{place:?}");
    }
    // Of two questions the receiver is Down; and the table is longer, with another byte for its status.
    let mut down = asked(TOWER, 2);
    step(&mut down, &Event::Crash(1)).unwrap();
    let mut bytes = [&bytes_of(&down)[..], &[7]].concat();
    bytes[1] = 8;
    let expected = [
        "lost, tower",
        &format!("lost, {over_itself}"),
        "turn, n = 3",
        "lost, the receiver Down",
        "lost, others of the pair wait behind it",
        "table, longer",
        "table, in other bytes of the same",
        "buffer, more bytes",
    ];
    assert_eq!(in_a_table(&bytes, (2, 1), TURN_BYTES + 1), expected);
    // As many wait as may, and the reply is sent.
    let full = asked(STAND, 4);
    let expected = [
        "delivered, stand",
        &format!("delivered, {from_the_start}"),
        "turn, n = 3",
        "delivered, as many wait as may",
        "delivered, as many wait as may, after it too",
        "delivered, others of the pair wait behind it",
        "buffer, 4,439 bytes",
    ];
    assert_eq!(in_a_table(&bytes_of(&full), (3, 2), TURN_BYTES), expected);
    // Of 17, a reply that can't be counted.
    let mut no_count = asked(TOWER, 1);
    (no_count.traffic.sent[0][1], no_count.traffic.lost[0][1]) = (MAX_COUNT, MAX_COUNT);
    let met = in_a_table(&bytes_of(&no_count), (2, 1), TURN_BYTES);
    assert_eq!(met[3], "lost, the delivery meets 17");
    let one = bytes_of(&Table::start(1, STAND));
    for (place, like) in [((3, 16), "the place like a pair"), ((1, 1), "any other place")] {
        let expected = ["nothing, stand", "turn, n = 1", &format!("n = 1, {like}")];
        assert_eq!(in_a_table(&one, place, TURN_BYTES)[..3], expected);
    }
}

#[test]
fn refused_turns_are_counted() {
    let good = bytes_of(&asked(STAND, 1));
    let (mut n_0, mut n_1, mut n_5) = (good, good, good);
    (n_0[0], n_1[0], n_5[0]) = (0, 1, 5);
    let just = TURN_BYTES;
    let cases: [(&[u8], Place, usize, &[&str]); 18] = [
        (&good, (0, 1), just, &["refused 7, sender 0"]),
        (&good, (1, 0), just, &["refused 7, receiver 0"]),
        (&good, (4, 1), just, &["refused 7, sender over n, up to 16"]),
        (&good, (17, 1), just, &["refused 7, sender over 16"]),
        (&good, (1, 16), just, &["refused 7, receiver over n, up to 16"]),
        (&good, (1, 255), just, &["refused 7, receiver over 16"]),
        (&good, (2, 2), just, &["refused 7, sender equals receiver"]),
        (&good, (0, 4), just, &["refused 7, both out of range"]),
        (&good, (4, 4), just, &["refused 7, both out of range"]),
        (&n_0, (1, 2), just, &["refused 1, at no pair", "refused 1, n 0"]),
        (&n_1, (1, 2), just, &["refused 1, at no pair", "refused 1, n = 1"]),
        (&n_5, (1, 2), just, &["refused 1, at a pair", "refused 1, n over the limit"]),
        (&good[..4435], (1, 2), just, &["refused 1, at a pair", "refused 1, the table cut short"]),
        (&good, (1, 2), 0, &["answered 255, no byte"]),
        (&good, (1, 2), 4438, &["answered 255, 4,438 bytes"]),
        (&good, (1, 2), 4437, &[]),
        (&good, (1, 1), 9, &["answered 255, 7 too"]),
        (&n_1, (1, 1), 9, &["answered 255, 1 too"]),
    ];
    for (table, place, room, expected) in cases {
        assert_eq!(in_a_table(table, place, room), expected, "{place:?} {room}");
    }
}

/// Two nodes that have recovered, and so many questions from 1 to 2.
fn line(waiting: u32) -> Table {
    let mut table = Table::start(2, TOWER);
    for i in 1..=2 {
        step(&mut table, &Event::Recover(i)).unwrap();
    }
    let ask = |call| Message { sender: 1, receiver: 2, call, body: Body::AreYouCoordinator };
    table.messages = (1..=waiting).map(ask).collect();
    count_waiting(&mut table);
    table
}

const TURN: Happened = Happened { turn: true, taken: None, lost: false };
const DELIVERED: Happened = Happened { turn: true, taken: Some((1, 2)), lost: false };

/// A message is followed until it goes, by turns and by events between them.
#[test]
fn a_message_is_followed() {
    assert_eq!((allowed(0, 2), allowed(2, 3), allowed(63, 16)), (2, 18, 15_360));
    let mut table = line(3);
    let mut following = Following::new(2);
    following.follow(&table, 2);
    let (mut place, mut gone) = ((2, 1), Vec::new());
    for turns in 1.. {
        let before = table.clone();
        let (next, done) = turn(&mut table, place).unwrap();
        let taken = (done != Done::Nothing).then_some(place);
        let happened = Happened { turn: true, taken, lost: done == Done::Lost };
        place = next;
        gone.extend(following.after(&before, &happened, &table).unwrap());
        assert_eq!(following.count(), 1 - gone.len());
        if turns == 6 {
            break;
        }
        assert_eq!(gone, []);
        // A refused event, and one that takes out of no pair.
        for event in [Event::Recover(1), Event::Check(1), Event::Crash(1), Event::Recover(1)] {
            let before = table.clone();
            let _ = step(&mut table, &event);
            let happened = Happened { turn: false, ..TURN };
            assert_eq!(following.after(&before, &happened, &table), Ok(vec![]));
        }
    }
    assert_eq!(gone, [Gone { k: 2, equal: false, by: DELIVERED, turns: 6, allowed: 6 }]);
    // By events between turns, before any turn.
    let mut table = line(2);
    let mut following = Following::new(2);
    following.follow(&table, 1);
    for went in [0, 1] {
        let before = table.clone();
        step(&mut table, &Event::Lose(1, 2)).unwrap();
        let happened = Happened { turn: false, taken: Some((1, 2)), lost: true };
        assert_eq!(following.after(&before, &happened, &table).unwrap().len(), went);
    }
}

/// It may not wait after its last turn, and not one turn longer.
#[test]
fn going_late_is_told() {
    for k in 0..3 {
        let table = line(4);
        let mut following = Following::new(2);
        following.follow(&table, k);
        for turns in 1..=allowed(k, 2) {
            let told = following.after(&table, &TURN, &table);
            assert_eq!(told.is_err(), turns == allowed(k, 2), "{k} {turns}");
            if let Err(words) = told {
                let still = format!("still waits after {turns} turns");
                assert!(words.ends_with(&still), "{words}");
            }
        }
    }
}

/// As long as it waits it is the same message, at the place that its older ones say.
#[test]
fn another_message_in_its_place_is_told() {
    let before = line(3);
    let told = |happened: &Happened, change: &dyn Fn(&mut Table)| {
        let mut following = Following::new(2);
        following.follow(&before, 1);
        let mut after = before.clone();
        change(&mut after);
        following.after(&before, happened, &after).is_err()
    };
    let remove =
        |places: Range<usize>| move |table: &mut Table| drop(table.messages.drain(places.clone()));
    assert!(!told(&TURN, &|_| {}));
    assert!(!told(&DELIVERED, &remove(0..1)));
    // A field of it, or another one in its place.
    assert!(told(&TURN, &|table| table.messages[1].call = 9));
    assert!(told(&TURN, &|table| table.messages[1].body = Body::Reply { yes: true }));
    assert!(told(&TURN, &|table| table.messages.swap(0, 1)));
    assert!(told(&TURN, &|table| table.messages.swap(1, 2)));
    // Another than the oldest was taken out, or two, or none, or one though nothing was done.
    assert!(told(&DELIVERED, &remove(1..2)));
    assert!(told(&DELIVERED, &remove(2..3)));
    assert!(told(&DELIVERED, &remove(0..2)));
    assert!(told(&DELIVERED, &|_| {}));
    assert!(told(&TURN, &remove(0..1)));
    assert!(told(&TURN, &remove(2..3)));
    // One may be sent behind it, and not two; and none by a delivery of its own pair.
    let again = before.messages[2];
    assert!(!told(&TURN, &|table| table.messages.push(again)));
    assert!(told(&TURN, &|table| table.messages.extend([again, again])));
    // Messages of the other pair are no matter.
    let back = Message { sender: 2, receiver: 1, ..again };
    assert!(!told(&TURN, &|table| table.messages.insert(0, back)));
}

/// Of two equal messages the younger goes second.
#[test]
fn an_equal_message() {
    let mut table = line(2);
    table.messages[1] = table.messages[0];
    let mut following = Following::new(2);
    following.follow(&table, 1);
    let (mut place, mut went) = (next(2, (1, 2)), Vec::new());
    for _ in 0..4 {
        let before = table.clone();
        let (next, done) = turn(&mut table, place).unwrap();
        let taken = (done != Done::Nothing).then_some(place);
        let happened = Happened { turn: true, taken, lost: false };
        place = next;
        went.push(following.after(&before, &happened, &table).unwrap().len());
    }
    assert_eq!(went, [0, 0, 0, 1]);
}

/// How a message went is counted, and how near it came to the bound.
#[test]
fn messages_that_went_are_counted() {
    let mut corners = Corners::default();
    assert_eq!(corners.bound_met(), 0);
    assert!(corners.text().ends_with("no followed message went; met in its last turn 0 times\n"));
    let gone = Gone { k: 1, equal: true, by: DELIVERED, turns: 3, allowed: 12 };
    corners.gone(Source::Table, &gone);
    let share = "largest share of the bound: 0.250, 3 of 12 turns; met in its last turn 0 times\n";
    assert!(corners.text().ends_with(share), "{}", corners.text());
    corners.gone(Source::Table, &Gone { turns: 2, ..gone });
    assert!(corners.text().ends_with(share));
    corners.gone(Source::Table, &Gone { turns: 12, ..gone });
    // Of equal shares the longest is told.
    corners.gone(Source::Table, &Gone { k: 0, turns: 6, allowed: 6, equal: false, ..gone });
    let met = "largest share of the bound: 1.000, 12 of 12 turns; met in its last turn 2 times\n";
    assert!(corners.text().ends_with(met), "{}", corners.text());
    assert!(corners
        .text()
        .contains("         0          1  the bound, met in its last turn, k > 0\n"));
    assert!(corners
        .text()
        .contains("         0          3  followed, behind an equal one of its pair\n"));
    assert_eq!(corners.impossible(), [""; 0]);
    // No run has two equal messages of a pair.
    corners.gone(Source::Run, &gone);
    assert_eq!(corners.impossible(), ["followed, behind an equal one of its pair, in a run"]);
}
