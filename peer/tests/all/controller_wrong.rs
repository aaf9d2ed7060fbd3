//! Controllers and boundaries of T-11 that are wrong on purpose: the fuzzer finds each of them soon, and the judgement
//! of calls finds each by itself.

use crate::finds;
use crate::functions;

use finds::{found_in, found_soon};
use functions::Functions;
use peer::compare::Lent;
use peer::controller::bytes::{event_by, message_by, own_event, SHARE_BYTES};
use peer::controller::calls::any_call;
use peer::controller::compare::{answered, call_words, smallest, tell_call};
use peer::controller::corners::{Call, Corners};
use peer::controller::fuzzing::Fuzz;
use peer::controller::message::{decode, encode};
use peer::controller::queue::{tell_walk, walk_difference, Walk};
use peer::controller::reading::{Given, Input};
use peer::controller::records::record_bytes;
use peer::controller::share::Cabinet;
use peer::corners::Source;
use peer::fuzz_loop::{Fuzzer, ENOUGH};
use peer::machine::*;
use peer::numbers::Numbers;
use peer::proved::{step_by, Library, Own, NODE_BYTES, TOO_SHORT};
use std::cell::Cell;
use std::time::Duration;
use Event::*;

/// So many parts of the fuzzer's are a small number.
const SOON: u64 = 4;

type OnEvent = fn(&Cabinet, &Event) -> Result<Share, u8>;
type OnMessage = fn(&Cabinet, &[u8]) -> Result<Share, u8>;

/// A library whose controllers are others.
fn controllers(on_event: OnEvent, on_message: OnMessage) -> Functions<'static> {
    Functions {
        controller_event: Box::new(move |n, own, record, field, out| {
            event_by(on_event, (n, own), record, field, out)
        }),
        controller_message: Box::new(move |n, own, record, message, out| {
            message_by(on_message, (n, own), record, message, out)
        }),
        ..Functions::default()
    }
}

fn on_event(on_event: OnEvent) -> Functions<'static> {
    controllers(on_event, Cabinet::message)
}

fn on_message(on_message: OnMessage) -> Functions<'static> {
    controllers(Cabinet::event, on_message)
}

/// The message as if these were its numbers, where the right answer is this ground.
fn but_with(
    c: &Cabinet,
    bytes: &[u8],
    number: u8,
    change: impl FnOnce(&mut Message),
) -> Result<Share, u8> {
    match (c.message(bytes), decode(bytes)) {
        (Err(met), Some(mut m)) if met == number => {
            change(&mut m);
            c.message(&encode(&m)).map_err(|_| number)
        }
        (answer, _) => answer,
    }
}

/// This ground before all others but 1, where it applies.
fn first(answer: Result<Share, u8>, number: u8, applies: bool) -> Result<Share, u8> {
    match answer {
        Err(met) if met != 1 && applies => Err(number),
        answer => answer,
    }
}

fn receiver(bytes: &[u8]) -> Option<u8> {
    bytes.get(4).copied()
}

fn down(c: &Cabinet) -> bool {
    c.record.status == Status::Down
}

fn acting(event: &Event) -> u8 {
    peer::corners::acting(event)
}

/// What the record would do, with something else in it: the answer is then the changed record's.
fn with_record(c: &Cabinet, change: impl FnOnce(&mut Node)) -> Cabinet {
    let mut other = *c;
    change(&mut other.record);
    other
}

/// Each with its name.
fn wrong_controllers() -> Vec<(&'static str, Functions<'static>)> {
    vec![
        (
            "takes messages for another",
            on_message(|c, bytes| but_with(c, bytes, 21, |m| m.receiver = c.own)),
        ),
        (
            "21 before 20",
            on_message(|c, bytes| {
                let other = receiver(bytes).is_some_and(|receiver| receiver != c.own);
                first(c.message(bytes), 21, other)
            }),
        ),
        (
            "takes bytes behind",
            on_message(|c, bytes| match c.message(bytes) {
                Err(20) => {
                    let begins = (0..bytes.len()).find(|&end| decode(&bytes[..end]).is_some());
                    begins.map_or(Err(20), |end| c.message(&bytes[..end]))
                }
                answer => answer,
            }),
        ),
        (
            "takes yes 2",
            on_message(|c, bytes| match bytes {
                [before @ .., 0x24, 0, 1, 2] => c.message(&[before, &[0x24, 0, 1, 1]].concat()),
                _ => c.message(bytes),
            }),
        ),
        (
            "writes the call low byte first",
            on_event(|c, event| {
                let mut share = c.event(event)?;
                if let Some(m) = &mut share.sent {
                    m.call = m.call.swap_bytes();
                }
                Ok(share)
            }),
        ),
        (
            "reads the group low byte first",
            on_message(|c, bytes| match decode(bytes) {
                Some(mut m) => {
                    if let Body::Accept { group } = &mut m.body {
                        *group = group.swap_bytes();
                    }
                    c.message(&encode(&m))
                }
                None => c.message(bytes),
            }),
        ),
        (
            "takes a question with a group",
            on_message(|c, bytes| match bytes {
                [_, _, _, _, _, 1, .., 0x22, 0, 4, _, _, _, _] if bytes.len() == 20 => {
                    c.message(&bytes[..13])
                }
                _ => c.message(bytes),
            }),
        ),
        (
            "9 before 21",
            controllers(
                |c, event| {
                    let refused = down(c) != matches!(event, Recover(_));
                    let other = acting(event) != c.own;
                    match c.event(event) {
                        Err(21) if other && refused => Err(9),
                        answer => answer,
                    }
                },
                |c, bytes| match c.message(bytes) {
                    Err(21) if down(c) => Err(9),
                    answer => answer,
                },
            ),
        ),
        (
            "8 after 21",
            on_event(|c, event| match c.event(event) {
                Err(8) if acting(event) != c.own => Err(21),
                answer => answer,
            }),
        ),
        (
            "8 after 9",
            on_event(|c, event| match c.event(event) {
                Err(8) if acting(event) == c.own && down(c) => Err(9),
                answer => answer,
            }),
        ),
        (
            "21 before 7",
            on_event(|c, event| match c.event(event) {
                Err(7) => Err(21),
                answer => answer,
            }),
        ),
        (
            "7 before 1",
            on_event(|c, event| match c.event(event) {
                Err(1) if acting(event) == 0 || acting(event) > c.n => Err(7),
                answer => answer,
            }),
        ),
        (
            "20 before 1",
            on_message(|c, bytes| match c.message(bytes) {
                Err(1) if decode(bytes).is_none() => Err(20),
                answer => answer,
            }),
        ),
        (
            "20 after 9",
            on_message(|c, bytes| {
                first(c.message(bytes), 9, down(c) && receiver(bytes) == Some(c.own))
            }),
        ),
        (
            "13 before 12",
            controllers(
                |c, event| match c.event(event) {
                    Err(12) if c.record.last_call == MAX_CALL => {
                        let spare = with_record(c, |r| r.counter = 1);
                        Err(spare.event(event).err().unwrap_or(12))
                    }
                    answer => answer,
                },
                Cabinet::message,
            ),
        ),
        (
            "18 before 10",
            on_event(|c, event| match (c.event(event), event) {
                (Err(10), Check(_)) => {
                    let idle = with_record(c, |r| r.activity = Activity::Idle);
                    Err(if idle.event(event) == Err(18) { 18 } else { 10 })
                }
                (answer, _) => answer,
            }),
        ),
        (
            "19 before 10",
            on_event(|c, event| match (c.event(event), event) {
                (Err(10), Finish(..)) => {
                    let collecting = with_record(c, |r| r.activity = Activity::Collecting);
                    Err(if collecting.event(event) == Err(19) { 19 } else { 10 })
                }
                (answer, _) => answer,
            }),
        ),
        (
            "no 18",
            on_event(|c, event| match c.event(event) {
                Err(18) => Ok(Share { node: c.record, sent: None, formed: None }),
                answer => answer,
            }),
        ),
        (
            "a member counts itself twice for a full peal",
            on_event(|c, event| match c.event(event) {
                Err(19) if 2 * c.record.members.count_ones() + 3 > u32::from(c.n) => {
                    c.event(&Finish(c.own, 200))
                }
                answer => answer,
            }),
        ),
        (
            "does not look at the members' range",
            controllers(
                |c, event| {
                    let others = !only(c.own.clamp(1, 16));
                    with_record(c, |r| r.members &= others).event(event)
                },
                |c, bytes| {
                    let others = !only(c.own.clamp(1, 16));
                    with_record(c, |r| r.members &= others).message(bytes)
                },
            ),
        ),
        (
            "a Down one need not be idle",
            on_event(|c, event| {
                let down = down(c);
                with_record(c, |r| {
                    if down {
                        r.activity = Activity::Idle;
                    }
                })
                .event(event)
            }),
        ),
        (
            "does not look at the counter's range",
            on_event(|c, event| {
                with_record(c, |r| r.counter = r.counter.min(MAX_COUNTER)).event(event)
            }),
        ),
        (
            "hands any task",
            on_event(|c, event| match c.record.activity {
                Activity::Handing { .. } if c.record.task < MIN_TASK => {
                    with_record(c, |r| r.task = MIN_TASK).event(event)
                }
                _ => c.event(event),
            }),
        ),
        (
            "treats its own number as n",
            controllers(
                |c, event| Cabinet { own: c.n, ..*c }.event(event),
                |c, bytes| Cabinet { own: c.n, ..*c }.message(bytes),
            ),
        ),
        (
            "the stand's limit of four",
            controllers(
                |c, event| if c.n > 4 { Err(1) } else { c.event(event) },
                |c, bytes| if c.n > 4 { Err(1) } else { c.message(bytes) },
            ),
        ),
        (
            "an own number up to 16",
            on_event(|c, event| match c.event(event) {
                Err(1) if (c.n..=16).contains(&c.own) && (1..16).contains(&c.n) => {
                    Cabinet { n: 16, ..*c }.event(event)
                }
                answer => answer,
            }),
        ),
        (
            "a sender may be the receiver",
            on_message(|c, bytes| {
                but_with(c, bytes, 20, |m| {
                    if m.sender == m.receiver {
                        m.sender = if m.receiver == 1 { 2 } else { 1 };
                    }
                })
            }),
        ),
        (
            "a sender up to 16",
            on_message(|c, bytes| {
                but_with(c, bytes, 20, |m| {
                    if m.sender <= 16 && m.sender > c.n {
                        m.sender = if m.receiver == 1 { 2 } else { 1 };
                    }
                })
            }),
        ),
        (
            "a group of counter 0",
            on_message(|c, bytes| {
                but_with(c, bytes, 20, |m| {
                    if let Body::Invitation { group } | Body::Ready { group, .. } = &mut m.body {
                        *group = if *group < 16 { *group + 16 } else { *group };
                    }
                })
            }),
        ),
        (
            "an owner up to 16",
            on_message(|c, bytes| {
                but_with(c, bytes, 20, |m| {
                    if let Body::AreYouThere { group } = &mut m.body {
                        *group &= !15;
                    }
                })
            }),
        ),
        (
            "a call of 16,777,216",
            on_message(|c, bytes| but_with(c, bytes, 20, |m| m.call = m.call.min(MAX_CALL))),
        ),
        ("a call of 0", on_message(|c, bytes| but_with(c, bytes, 20, |m| m.call = m.call.max(1)))),
        (
            "a task of 99",
            on_message(|c, bytes| {
                but_with(c, bytes, 20, |m| {
                    if let Body::Ready { task, .. } = &mut m.body {
                        *task = (*task).max(100);
                    }
                })
            }),
        ),
        (
            "fields in any order",
            on_message(|c, bytes| match c.message(bytes) {
                Err(20) if bytes.len() > 13 => {
                    let swapped = [&bytes[7..13], &bytes[..7], &bytes[13..]].concat();
                    c.message(&swapped).or(Err(20))
                }
                answer => answer,
            }),
        ),
        (
            "a reply by its sender",
            on_message(|c, bytes| match decode(bytes) {
                Some(m) if m.body.kind() == 6 && m.in_range(c.n) => {
                    let call = c.record.last_call.max(1);
                    c.message(&encode(&Message { call, ..m }))
                }
                _ => c.message(bytes),
            }),
        ),
        (
            "a crash clears the counter",
            on_event(|c, event| {
                let mut share = c.event(event)?;
                if matches!(event, Crash(_)) {
                    share.node.counter = 0;
                }
                Ok(share)
            }),
        ),
        (
            "an acceptance in Reorganization joins",
            on_message(|c, bytes| {
                let mut share = c.message(bytes)?;
                let group =
                    decode(bytes).filter(|m| m.body.kind() == 4).and_then(|m| m.body.group());
                if c.record.status == Status::Reorganization
                    && c.record.coordinator == c.own
                    && group == Some(c.record.group)
                {
                    share.node.members |= only(bytes[3]);
                }
                Ok(share)
            }),
        ),
        (
            "sends under the receiver's number",
            controllers(
                |c, event| {
                    let mut share = c.event(event)?;
                    if let Some(m) = &mut share.sent {
                        (m.sender, m.receiver) = (m.receiver, m.sender);
                    }
                    Ok(share)
                },
                Cabinet::message,
            ),
        ),
        (
            "keeps its call number",
            on_event(|c, event| {
                let mut share = c.event(event)?;
                share.node.last_call = c.record.last_call;
                Ok(share)
            }),
        ),
        (
            "says nothing",
            controllers(
                |c, event| c.event(event).map(|share| Share { sent: None, ..share }),
                |c, bytes| c.message(bytes).map(|share| Share { sent: None, ..share }),
            ),
        ),
        ("refuses every event", on_event(|_, _| Err(9))),
        (
            "moves nothing",
            on_event(|c, event| c.event(event).map(|share| Share { node: c.record, ..share })),
        ),
    ]
}

/// Boundaries that are nearly right.
fn wrong_boundaries() -> Vec<(&'static str, Functions<'static>)> {
    /// A library whose functions are this program's with something done behind them, or instead.
    fn behind(change: fn(u8, &Given, &mut [u8]) -> u8) -> Functions<'static> {
        let by = move |n: u8, own: u8, record: &[u8], input: Input, out: &mut [u8]| {
            let given = Given { n, own, record: record.to_vec(), input };
            let answer = answered(&Own, &given, out);
            change(answer, &given, out)
        };
        Functions {
            controller_event: Box::new(move |n, own, record, field, out| {
                by(n, own, record, Input::Field(field.to_vec()), out)
            }),
            controller_message: Box::new(move |n, own, record, message, out| {
                by(n, own, record, Input::Message(message.to_vec()), out)
            }),
            ..Functions::default()
        }
    }
    fn refused(answer: u8) -> bool {
        (1..TOO_SHORT).contains(&answer)
    }
    /// What is answered where there is room.
    fn with_room(given: &Given) -> u8 {
        answered(&Own, given, &mut [0; SHARE_BYTES])
    }
    vec![
        (
            "writes where it refuses",
            behind(|answer, _, out| {
                if refused(answer) {
                    out[0] ^= 1;
                }
                answer
            }),
        ),
        (
            "writes the record where it refuses 13",
            behind(|answer, given, out| {
                if answer == 13 {
                    let length = given.record.len().min(NODE_BYTES);
                    out[..length].copy_from_slice(&given.record[..length]);
                }
                answer
            }),
        ),
        (
            "writes behind 55",
            behind(|answer, _, out| {
                if answer == 0 && out.len() > SHARE_BYTES {
                    out[SHARE_BYTES] ^= 1;
                }
                answer
            }),
        ),
        (
            "writes into a buffer that is too short",
            behind(|answer, _, out| {
                if let (TOO_SHORT, Some(last)) = (answer, out.last_mut()) {
                    *last ^= 1;
                }
                answer
            }),
        ),
        (
            "is content with 54 bytes",
            behind(|answer, given, out| match answer {
                TOO_SHORT if out.len() == 54 => {
                    let mut longer = [0; SHARE_BYTES];
                    let answer = answered(&Own, given, &mut longer);
                    if answer == 0 {
                        out.copy_from_slice(&longer[..54]);
                    }
                    answer
                }
                _ => answer,
            }),
        ),
        (
            "looks at the buffer last",
            behind(|answer, given, _| match (answer, with_room(given)) {
                (TOO_SHORT, other) if other != 0 => other,
                _ => answer,
            }),
        ),
        (
            "answers 255 where it refuses",
            behind(|answer, _, _| if refused(answer) { 255 } else { answer }),
        ),
        (
            "the range before the field",
            behind(|answer, given, _| match (answer, &given.input) {
                (3..=5, Input::Field(_)) => {
                    let crash = Input::Field(vec![0x10, 0, 1, given.own]);
                    let other = with_room(&Given { input: crash, ..given.clone() });
                    if other == 1 {
                        1
                    } else {
                        answer
                    }
                }
                _ => answer,
            }),
        ),
        (
            "5 for a deliver of another length",
            behind(|answer, given, _| match (answer, &given.input) {
                (4, Input::Field(field)) if matches!(field[..], [0x17 | 0x18, _, length, ..] if length != 2) => {
                    5
                }
                _ => answer,
            }),
        ),
        (
            "takes a deliver for another's event",
            behind(|answer, given, _| match (answer, &given.input) {
                (4, Input::Field(field)) if field[0] == 0x17 => 21,
                _ => answer,
            }),
        ),
        (
            "looks behind the field",
            behind(|answer, given, _| match (&given.input, own_event(given.input.bytes())) {
                (Input::Field(field), Ok(_))
                    if field.len() > 3 + usize::from(field[2]) && answer != TOO_SHORT =>
                {
                    5
                }
                _ => answer,
            }),
        ),
        (
            "no length where nothing is sent",
            behind(|answer, _, out| {
                if answer == 0 && out[29] == 0 {
                    out[29] = 7;
                }
                answer
            }),
        ),
        (
            "a length of one too many",
            behind(|answer, _, out| {
                if answer == 0 && out[29] > 0 {
                    out[29] += 1;
                }
                answer
            }),
        ),
        (
            "keeps the form of the status",
            behind(|answer, given, out| {
                let first = given.record.first().copied().unwrap_or(0);
                if answer == 0 && first % 4 == out[0] {
                    out[0] = first;
                }
                answer
            }),
        ),
        (
            "keeps what the activity does not have",
            behind(|answer, given, out| {
                if answer == 0 && out[18] == 0 && given.record.len() >= NODE_BYTES {
                    out[25..29].copy_from_slice(&given.record[25..29]);
                }
                answer
            }),
        ),
        (
            "a record that is cut short is none",
            behind(
                |answer, given, _| {
                    if answer == 0 && given.record.len() < NODE_BYTES {
                        1
                    } else {
                        answer
                    }
                },
            ),
        ),
        (
            "a record that is longer is none",
            behind(
                |answer, given, _| {
                    if answer == 0 && given.record.len() > NODE_BYTES {
                        1
                    } else {
                        answer
                    }
                },
            ),
        ),
        (
            "a status over 3 is none",
            behind(|answer, given, _| {
                if answer == 0 && given.record.first().is_some_and(|&byte| byte > 3) {
                    1
                } else {
                    answer
                }
            }),
        ),
    ]
}

/// What it does depends on the call before: an event that it was given just now too is refused.
fn remembers() -> Functions<'static> {
    let before = Cell::new(0);
    Functions {
        controller_event: Box::new(move |n, own, record, field, out| {
            let tag = field.first().copied().unwrap_or(0);
            match before.replace(tag) {
                same if same == tag && tag == 0x10 && out.len() >= SHARE_BYTES => 9,
                _ => Own.controller_event(n, own, record, field, out),
            }
        }),
        ..Functions::default()
    }
}

fn all_wrong() -> Vec<(&'static str, Functions<'static>)> {
    let mut all = wrong_controllers();
    all.extend(wrong_boundaries());
    all.push(("remembers", remembers()));
    all
}

#[test]
fn wrong_ones_are_found_soon() {
    let all = all_wrong();
    assert_eq!(all.len(), 61);
    for (name, library) in all {
        assert!(found_soon(Fuzz::new(library, 1), SOON), "{name}");
    }
    assert!(!found_soon(Fuzz::new(Own, 1), SOON));
}

/// Whether the judgement of calls alone, without this program's controller beside it, finds a library.
fn judgement_finds(library: &impl Library) -> bool {
    let mut numbers = Numbers::new(5);
    let mut corners = Corners::default();
    (0..8000).any(|_| {
        let (given, made, room) = any_call(&mut numbers);
        let mut lent = Lent::new(room, &mut numbers);
        let answer = answered(library, &given, &mut lent.now);
        let (damage, broken) = (made.damage, made.broken);
        let call = Call { given: &given, damage, broken, answer, lent: &lent };
        corners.call(Source::Table, &call).is_err()
    })
}

#[test]
fn the_judgement_alone_finds_each() {
    for (name, library) in all_wrong() {
        assert!(judgement_finds(&library), "{name}");
    }
    assert!(!judgement_finds(&Own));
}

fn walk(start: Table, events: Vec<Event>, source: Source) -> Walk {
    Walk { source, start, events, noise: None }
}

/// Two cabinets up.
fn two_up() -> Table {
    let mut table = Table::start(2, STAND);
    for i in 1..=2 {
        step(&mut table, &Recover(i)).unwrap();
    }
    table
}

/// Where the controllers are right and the whole table is not, the queue finds it: n of them answer and leave
/// behind what the table does.
#[test]
fn the_whole_table_is_compared() {
    type Step = fn(&mut Table, &Event) -> Result<(), u8>;
    let with = |machine: Step| {
        let step =
            move |table: &[u8], field: &[u8], out: &mut [u8]| step_by(machine, table, field, out);
        Functions { step: Box::new(step), ..Functions::default() }
    };
    let clears: Step = |table, event| {
        step(table, event)?;
        if let Crash(i) = *event {
            table.nodes[usize::from(i) - 1].counter = 0;
        }
        Ok(())
    };
    let yes: Step = |table, event| {
        step(table, event)?;
        if let Some(Message { body: Body::Reply { yes }, .. }) = table.messages.last_mut() {
            *yes = true;
        }
        Ok(())
    };
    let nine_last: Step = |table, event| match step(table, event) {
        Err(9) if matches!(event, Deliver(..)) => Err(11),
        answer => answer,
    };
    let uncounted: Step = |table, event| {
        step(table, event)?;
        if let Lose(a, b) = *event {
            *count_mut(&mut table.traffic.lost, a, b) -= 1;
            *count_mut(&mut table.traffic.delivered, a, b) += 1;
        }
        Ok(())
    };
    let told = |machine: Step, events: &[Event]| {
        let walk = walk(two_up(), events.to_vec(), Source::Table);
        assert!(walk_difference(&Own, &walk, &mut Corners::default()).is_none());
        walk_difference(&with(machine), &walk, &mut Corners::default()).map(|found| found.words)
    };
    let record = "event 2, crash 1: the record of 1 is another than the whole table's";
    assert_eq!(told(clears, &[Tick(1), Crash(1), Check(2)]).unwrap(), record);
    // In Election it says no.
    let no = [Check(2), Deliver(2, 1), Deliver(1, 2), Check(1), Deliver(1, 2)];
    let messages = "event 5, deliver 1 2: other messages wait than in the whole table";
    assert_eq!(told(yes, &no).unwrap(), messages);
    assert_eq!(
        told(nine_last, &[Crash(1), Deliver(2, 1)]).unwrap(),
        "event 2, deliver 2 1: answered 9, by the whole table 11"
    );
    assert_eq!(
        told(uncounted, &[Check(2), Lose(2, 1)]).unwrap(),
        "event 2, lose 2 1: the counts are others than the whole table's"
    );
    for machine in [clears, yes, nine_last, uncounted] {
        assert!(found_soon(Fuzz::new(with(machine), 1), SOON));
    }
}

/// A run is checked by demand 3: both sides may begin with another table.
#[test]
fn runs_are_checked() {
    let mut start = Table::start(2, TOWER);
    start.nodes[0].counter = 1;
    let events = vec![Crash(1), Recover(1)];
    let run = walk(start, events, Source::Run);
    let found = walk_difference(&Own, &run, &mut Corners::default()).unwrap();
    assert_eq!(
        found.words,
        "event 2, recover 1: node 1 has group 32, the history's new group is 16"
    );
    let table = Walk { source: Source::Table, ..run };
    assert!(walk_difference(&Own, &table, &mut Corners::default()).is_none());
}

/// A difference is told with the events that it needs, and no others.
#[test]
fn walks_are_shortened() {
    let (_, library) =
        wrong_controllers().into_iter().find(|(name, _)| *name == "keeps its call number").unwrap();
    let events = vec![Tick(1), Crash(1), Crash(1), Check(2), Recover(1)];
    let walk = walk(two_up(), events, Source::Table);
    assert_eq!(walk_difference(&library, &walk, &mut Corners::default()).unwrap().events, 4);
    let words = tell_walk(&library, &walk);
    assert!(words.contains("\ncheck 2\nevent 1, check 2: the controller of 2: "), "{words}");
    assert!(words.starts_with("n controllers over one queue, from a table, n 2:\n"), "{words}");
}

/// A call is told with as few bytes as it needs.
#[test]
fn calls_are_made_smaller() {
    let (_, library) =
        wrong_controllers().into_iter().find(|(name, _)| *name == "takes yes 2").unwrap();
    let record = Node { counter: 9, group: 18, coordinator: 3, members: 3, ..Node::START };
    let message = vec![0x20, 0, 3, 2, 1, 6, 0x21, 0, 4, 0, 0, 0, 7, 0x24, 0, 1, 2];
    let record =
        [&record_bytes(&Node { status: Status::Election, members: 4, ..record })[..], &[9]]
            .concat();
    let given = Given { n: 3, own: 1, record, input: Input::Message(message) };
    let (small, room) = smallest(&library, &given, 90);
    assert_eq!(room, 55);
    // Down, with nothing else in its record, it answers 9.
    let smallest = "nevraspu_controller_message 3 1 - 2000030201062100040000000724000102 out 55";
    assert_eq!(call_words(&small, room), smallest);
    let words = tell_call(&library, &given, 90, "");
    assert!(words.ends_with("refused 9, expected: refused 20"), "{words}");
}

/// What stands between the message and 55 is free.
#[test]
fn what_is_behind_the_message_is_free() {
    fn fill(answer: u8, out: &mut [u8]) -> u8 {
        if answer == 0 {
            let end = 30 + usize::from(out[29]);
            Numbers::new(3).fill(&mut out[end..SHARE_BYTES]);
        }
        answer
    }
    let library = Functions {
        controller_event: Box::new(|n, own, record, field, out| {
            fill(Own.controller_event(n, own, record, field, out), out)
        }),
        controller_message: Box::new(|n, own, record, message, out| {
            fill(Own.controller_message(n, own, record, message, out), out)
        }),
        ..Functions::default()
    };
    assert!(!found_soon(Fuzz::new(library, 1), SOON));
}

/// With this program's own controller the fuzzer finds nothing; one that meets a corner too seldom fails, and it ends
/// at enough differences.
#[test]
fn corners_must_be_met() {
    assert_eq!(found_in(Fuzz::new(Own, 1), 1), 0);
    let mut fuzz = Fuzz::new(Own, 1);
    fuzz.go_on(Duration::ZERO, 0);
    assert_eq!(fuzz.tell(0).1, 0);
    assert!(fuzz.tell(1).1 > 900);
    let refuses =
        Functions { controller_event: Box::new(|_, _, _, _, _| 9), ..Functions::default() };
    assert_eq!(found_in(Fuzz::new(refuses, 1), 30), ENOUGH);
}
