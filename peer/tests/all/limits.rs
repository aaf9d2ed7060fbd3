//! T-08 of document 02, "A practice stand": document 01's named cases on the stand, the first field, the grounds
//! that read the limits, the bytes of a table, the random tables of the fuzzer, and libraries that are wrong on
//! purpose. The boundary is that of this program's own machine, and of the proved library where it is linked.

use crate::functions;
use crate::printing;
use crate::wrong_libraries;

use functions::Functions;
use peer::compare::{list_difference, run_difference, shortest_run, tell_walk, walk_difference};
use peer::drive::{fill, full_queue, run, Run};
use peer::fuzz_loop::Fuzzer;
use peer::fuzzing::Fuzz;
use peer::history::check_run;
use peer::limit_corners::{BROKEN, PAIRS, TOO_MANY_FROM, WRONG_N_FROM};
use peer::limit_tables::{any_limits, to_break, to_fill, wrong_pair};
use peer::list::{read_list, write_event, write_list};
use peer::machine::*;
use peer::numbers::Numbers;
use peer::print::{print_table, run_list};
use peer::proved::*;
use peer::traffic_corners::{need, WAYS};
use peer::traffic_tables::count_waiting;
use printing::{by_all, Prints};
use std::time::Duration;
use wrong_libraries::{found, steps, texts};
use Event::*;

const BOTH: [Limits; 2] = [TOWER, STAND];

fn after(n: u8, limits: Limits, events: &[Event]) -> Table {
    let mut table = Table::start(n, limits);
    for event in events {
        assert_eq!(step(&mut table, event), Ok(()), "{event:?}");
    }
    table
}

/// A table of n nodes that have each recovered once.
fn recovered(n: u8, limits: Limits) -> Table {
    after(n, limits, &(1..=n).map(Recover).collect::<Vec<_>>())
}

fn refused(table: &Table, event: Event, number: u8) {
    let mut same = table.clone();
    assert_eq!(step(&mut same, &event), Err(number), "{event:?}");
    assert_eq!(&same, table);
}

fn message(sender: u8, receiver: u8, call: u32, body: Body) -> Message {
    Message { sender, receiver, call, body }
}

/// A table of two nodes that have recovered, in which so many questions from 1 to 2 wait.
fn with_waiting(limits: Limits, waiting: usize) -> Table {
    let mut table = recovered(2, limits);
    table.messages = vec![message(1, 2, 1, Body::AreYouCoordinator); waiting];
    count_waiting(&mut table);
    table
}

#[test]
fn the_two_pairs() {
    assert_eq!((TOWER.nodes, TOWER.messages), (16, 64));
    assert_eq!((STAND.nodes, STAND.messages), (4, 12));
}

/// K1 on the stand: 0 and 5 give 6, 1 and 4 pass; and the same byte n with 0x01 is the tower's.
fn k1_number_of_nodes(print: Prints) {
    for n in 0..=255 {
        for (tag, most) in [(1, 16), (2, 4)] {
            let text = print(&[tag, 0, 1, n]);
            if !(1..=most).contains(&n) {
                assert_eq!(text, "stopped 0 6\n");
                continue;
            }
            let mut expected = format!("cabinets {n}\n");
            for i in 1..=n {
                expected += &format!("{i} 0 0 0 0 0 0\n");
            }
            expected += "messages 0\nsent 0\ndelivered 0\nlost 0\n";
            assert_eq!(text, expected);
        }
    }
}

/// "Ground 4 lets 0x02 stand first as well, and nowhere else." 3 comes before it, and 5 and 6 behind it.
fn first_field(print: Prints) {
    let stopped = |list: &[u8], words: &str| {
        assert_eq!(print(list), format!("stopped {words}\n"), "{list:02x?}");
    };
    for tag in [0x00, 0x03, 0x04, 0x0f, 0x10, 0x11, 0x12, 0x18, 0x19, 0x20, 0x80, 0x82, 0xff] {
        stopped(&[tag, 0, 1, 2], "0 4");
        // Whatever the length and n are.
        stopped(&[tag, 0, 1, 0], "0 4");
        stopped(&[tag, 0, 0], "0 4");
        stopped(&[tag, 0, 2, 2, 2], "0 4");
        stopped(&[tag, 0, 2, 2], "0 3");
        stopped(&[tag, 0, 1, 2, 0x02, 0, 1, 2], "0 4");
    }
    for tag in [0x01, 0x02] {
        stopped(&[tag], "0 3");
        stopped(&[tag, 0], "0 3");
        stopped(&[tag, 0, 1], "0 3");
        stopped(&[tag, 1, 1, 2], "0 3");
        stopped(&[tag, 0, 0], "0 5");
        stopped(&[tag, 0, 0, 2], "0 5");
        stopped(&[tag, 0, 2, 2, 2], "0 5");
        // 5 before 6, and before what stands behind it.
        stopped(&[tag, 0, 2, 0, 0], "0 5");
        stopped(&[tag, 0, 2, 255, 255, 0x02], "0 5");
        stopped(&[tag, 0, 1, 17, 0x02], "0 6");
        let long = [&[tag, 1, 1][..], &[2; 257]].concat();
        stopped(&long, "0 5");
    }
    stopped(&[0x02, 0, 1, 5, 0x11, 0, 1, 1], "0 6");
    let mut long = vec![0; 65_537];
    long[..4].copy_from_slice(&[0x02, 0, 1, 2]);
    stopped(&long, "0 2");
}

/// 0x01 and 0x02 that are not first: 4, whatever is in them; the events before them keep their effect.
fn first_tags_later(print: Prints) {
    let down = "1 0 0 0 0 0 0\n2 0 0 0 0 0 0\n";
    let up = "1 3 1 16 1 1 0\n2 0 0 0 0 0 0\n";
    let totals = "messages 0\nsent 0\ndelivered 0\nlost 0\n";
    for first in [0x01, 0x02] {
        for tag in [0x01, 0x02] {
            let fields: [&[u8]; 6] = [
                &[tag, 0, 1, 2],
                &[tag, 0, 1, 0],
                &[tag, 0, 1, 255],
                &[tag, 0, 0],
                &[tag, 0, 2, 2, 2],
                &[tag, 0, 3, 1, 0, 100],
            ];
            let cut: [&[u8]; 4] = [&[tag], &[tag, 0], &[tag, 0, 1], &[tag, 1, 0, 2]];
            let all = fields.map(|field| (field, 4)).into_iter().chain(cut.map(|cut| (cut, 3)));
            for (field, number) in all {
                let behind: &[u8] = if number == 4 { &[0x11, 0, 1, 2] } else { &[] };
                let second = [&[first, 0, 1, 2], field, behind].concat();
                let text = format!("cabinets 2\nstopped 4 {number}\n{down}{totals}");
                assert_eq!(print(&second), text);
                let later =
                    [&[first, 0, 1, 2, 0x11, 0, 1, 1, 0x11, 0, 1, 1], field, behind].concat();
                let text = format!("cabinets 2\nrefused 2 9\nstopped 12 {number}\n{up}{totals}");
                assert_eq!(print(&later), text);
            }
        }
    }
}

/// "with the same byte n": what is printed has the same form, and a number over n is 7.
fn a_run_on_the_stand(print: Prints) {
    // K10.
    let mut events = vec![Recover(1), Recover(2), Check(2)];
    for _ in 0..3 {
        events.extend([Deliver(2, 1), Deliver(1, 2)]);
    }
    events.extend([Finish(2, 100), Deliver(2, 1), Deliver(1, 2)]);
    let text = "cabinets 2\n1 3 2 33 100 1 0\n2 3 2 33 100 2 1\nmessages 0\n\
                sent 8\ndelivered 8\nlost 0\n";
    for limits in BOTH {
        assert_eq!(print(&write_list(2, limits, &events)), text);
        // K13 and K3.
        let text = "cabinets 2\nrefused 1 7\nrefused 3 9\n1 3 1 16 1 1 0\n2 0 0 0 0 0 0\n\
                    messages 0\nsent 0\ndelivered 0\nlost 0\n";
        assert_eq!(print(&write_list(2, limits, &[Finish(9, 5), Recover(1), Recover(1)])), text);
        // A cabinet that the tower could have.
        let text =
            print(&write_list(4, limits, &[Recover(5), Deliver(5, 1), Lose(1, 5), Check(16)]));
        assert!(
            text.starts_with("cabinets 4\nrefused 1 7\nrefused 2 7\nrefused 3 7\nrefused 4 7\n1 ")
        );
    }
}

/// Four nodes ask all others, and nobody answers: 12 wait. The next check is refused on the stand and asks in
/// the tower; a delivery passes, and when it leaves one less, so does a check.
fn a_full_queue(print: Prints) {
    let mut events: Vec<Event> = (1..=4).map(Recover).collect();
    for i in 1..=4 {
        events.extend([Check(i), Expire(i), Expire(i), Expire(i)]);
    }
    let nodes = "1 3 1 16 1 1 0\n2 3 2 17 2 1 0\n3 3 3 18 3 1 0\n4 3 4 19 4 1 0\n";
    let text = |refused: &str, waiting: u32, delivered: u32, lost: u32| {
        let sent = waiting + delivered + lost;
        format!(
            "cabinets 4\n{refused}{nodes}messages {waiting}\nsent {sent}\n\
             delivered {delivered}\nlost {lost}\n"
        )
    };
    for limits in BOTH {
        assert_eq!(print(&write_list(4, limits, &events)), text("", 12, 0, 0));
    }
    let with = |more: &[Event]| [&events[..], more].concat();
    let on_the_stand = |more: &[Event]| print(&write_list(4, STAND, &with(more)));
    assert_eq!(print(&write_list(4, TOWER, &with(&[Check(1)]))), text("", 13, 0, 0));
    assert_eq!(on_the_stand(&[Check(1)]), text("refused 21 14\n", 12, 0, 0));
    // A question is answered; two are, and the replies are dropped.
    assert_eq!(on_the_stand(&[Deliver(1, 2)]), text("", 12, 1, 0));
    let answered = [Deliver(1, 2), Deliver(2, 1), Deliver(2, 1), Deliver(1, 2)];
    assert_eq!(on_the_stand(&answered), text("", 10, 4, 0));
    let again = [&answered[..], &[Check(1), Check(2), Check(3)]].concat();
    assert_eq!(on_the_stand(&again), text("refused 27 14\n", 12, 4, 0));
    assert_eq!(on_the_stand(&[Lose(1, 2), Check(1), Check(2)]), text("refused 23 14\n", 12, 0, 1));
}

#[test]
fn printed_by_all() {
    let tests =
        [k1_number_of_nodes, first_field, first_tags_later, a_run_on_the_stand, a_full_queue];
    tests.into_iter().for_each(by_all);
}

#[test]
fn k2_k3_k4_recover() {
    let mut table = after(2, STAND, &[Recover(1)]);
    let node = *table.node(1);
    assert_eq!((node.group, node.task, node.status), (16, 1, Status::Normal));
    refused(&table, Recover(1), 9);
    step(&mut table, &Crash(1)).unwrap();
    step(&mut table, &Recover(1)).unwrap();
    assert_eq!(table.node(1).group, 32);
    assert_eq!(table.limits, STAND);
}

/// Of cabinet 4; the stand has no cabinet 16.
#[test]
fn k5_last_counter() {
    let mut table = Table::start(4, STAND);
    table.nodes[3].counter = 1_048_574;
    step(&mut table, &Recover(4)).unwrap();
    assert_eq!(table.node(4).group, 16_777_203);
    step(&mut table, &Crash(4)).unwrap();
    refused(&table, Recover(4), 12);
    refused(&table, Recover(16), 7);
}

#[test]
fn k6_finish_task() {
    let mut table = recovered(2, STAND);
    table.nodes[0].activity = Activity::Collecting;
    refused(&table, Finish(1, 99), 8);
    assert_eq!(step(&mut table, &Finish(1, 200)), Ok(()));
}

#[test]
fn k7_ticks() {
    let events = [Recover(1), Recover(3), Check(1), Expire(1), Deliver(1, 3), Deliver(3, 1)];
    let mut table = after(3, STAND, &events);
    assert_eq!(table.node(1).activity, Activity::Waiting { ticks: 2, found: only(3) });
    step(&mut table, &Tick(1)).unwrap();
    assert_eq!(table.node(1).status, Status::Normal);
    step(&mut table, &Tick(1)).unwrap();
    assert_eq!((table.node(1).status, table.node(1).group), (Status::Election, 32));
}

#[test]
fn k8_invitation_in_election() {
    let mut table = recovered(2, STAND);
    table.nodes[0].status = Status::Election;
    table.messages.push(message(2, 1, 7, Body::Invitation { group: 17 }));
    count_waiting(&mut table);
    let nodes = table.nodes;
    step(&mut table, &Deliver(2, 1)).unwrap();
    assert_eq!(table.nodes, nodes);
    assert_eq!(table.messages, [message(1, 2, 7, Body::Reply { yes: true })]);
}

#[test]
fn k9_older_reply() {
    let mut table = recovered(2, STAND);
    table.nodes[0].activity = Activity::Asking { asked: 2, found: 0 };
    table.nodes[0].last_call = 5;
    table.messages.push(message(2, 1, 4, Body::Reply { yes: true }));
    count_waiting(&mut table);
    let nodes = table.nodes;
    step(&mut table, &Deliver(2, 1)).unwrap();
    assert_eq!((table.nodes, table.messages), (nodes, vec![]));
}

/// K11, for both: "with 64 waiting, a check that must ask: 14; a delivery passes", and with 12 on the stand. One
/// less, and the check passes; in the tower it does with 12 and 13.
#[test]
fn k11_full() {
    for (limits, most) in [(TOWER, 64), (STAND, 12)] {
        let table = with_waiting(limits, most);
        refused(&table, Check(1), 14);
        let mut delivered = table.clone();
        assert_eq!(step(&mut delivered, &Deliver(1, 2)), Ok(()));
        assert_eq!((delivered.messages.len(), delivered.limits), (most, limits));
        // With the reply dropped there is room for one.
        step(&mut delivered, &Deliver(2, 1)).unwrap();
        step(&mut delivered, &Check(1)).unwrap();
        assert_eq!(delivered.messages.len(), most);
        refused(&delivered, Check(2), 14);
        let mut nearly = with_waiting(limits, most - 1);
        assert_eq!(step(&mut nearly, &Check(1)), Ok(()));
        assert_eq!(nearly.messages.len(), most);
        refused(&nearly, Check(2), 14);
        // One more is out of range, whatever the event.
        let over = with_waiting(limits, most + 1);
        for event in [Check(1), Deliver(1, 2), Lose(1, 2), Crash(1), Recover(9)] {
            refused(&over, event, 1);
        }
    }
    for waiting in [11, 12, 13, 14, 63] {
        let mut table = with_waiting(TOWER, waiting);
        assert_eq!(step(&mut table, &Check(1)), Ok(()));
        assert_eq!(table.messages.len(), waiting + 1);
    }
}

#[test]
fn k12_late_accept() {
    let mut table = recovered(2, STAND);
    table.nodes[0].status = Status::Reorganization;
    table.messages.push(message(2, 1, 1, Body::Accept { group: 16 }));
    count_waiting(&mut table);
    step(&mut table, &Deliver(2, 1)).unwrap();
    assert_eq!(table.node(1).members, 0);
}

#[test]
fn k13_order_of_grounds() {
    refused(&Table::start(2, STAND), Finish(9, 5), 7);
    refused(&Table::start(4, STAND), Finish(5, 5), 7);
    refused(&Table::start(4, STAND), Finish(4, 5), 8);
}

/// "no other pair is allowed": of all pairs of bytes two are.
#[test]
fn every_pair() {
    let up = recovered(1, TOWER);
    for nodes in 0..=255 {
        for messages in 0..=255 {
            let table = Table { limits: Limits { nodes, messages }, ..up.clone() };
            let allowed = matches!((nodes, messages), (16, 64) | (4, 12));
            assert_eq!(table.in_range(), allowed);
            assert_eq!(step(&mut table.clone(), &Crash(1)), if allowed { Ok(()) } else { Err(1) });
            // With the rule of the two pairs left out, any that are not above the tower's.
            let not_above = (1..=16).contains(&nodes) && messages <= 64;
            assert_eq!(table.in_range_of_any_pair(), not_above);
        }
    }
    for (nodes, messages) in PAIRS {
        assert!(!BOTH.contains(&Limits { nodes, messages }));
    }
}

/// n within the own limit of nodes.
#[test]
fn every_n() {
    for (limits, most) in [(TOWER, 16), (STAND, 4)] {
        for n in 0..=255 {
            let table = Table::start(n, limits);
            assert_eq!(table.in_range(), (1..=most).contains(&n), "{limits:?} {n}");
            assert_eq!(step(&mut table.clone(), &Recover(1)).is_ok(), table.in_range());
            assert_eq!(recovery(&table, 1).is_ok(), table.in_range());
        }
    }
}

/// As many waiting messages as its own limit says.
#[test]
fn every_waiting() {
    for (limits, most) in [(TOWER, 64), (STAND, 12)] {
        for waiting in 0..=255 {
            let table = with_waiting(limits, waiting);
            assert_eq!(table.in_range(), waiting <= most, "{limits:?} {waiting}");
            assert_eq!(step(&mut table.clone(), &Crash(1)).is_ok(), table.in_range());
        }
    }
}

/// The order of the grounds where the queue of the stand is full: 1, 10, 12, 13, 14, 17, and 18 before them.
#[test]
fn order_of_grounds() {
    let mut table = with_waiting(STAND, 12);
    table.nodes[1].activity = Activity::Waiting { ticks: 1, found: only(1) };
    let set = |table: &mut Table, sent: u32| {
        (table.traffic.sent[1][0], table.traffic.lost[1][0]) = (sent, sent);
    };
    set(&mut table, MAX_COUNT);
    refused(&table, Tick(2), 14);
    // A delivery is not stopped by the queue, but by the count of its reply.
    refused(&table, Deliver(1, 2), 17);
    table.nodes[1].last_call = MAX_CALL;
    refused(&table, Tick(2), 13);
    table.nodes[1].counter = MAX_COUNTER;
    refused(&table, Tick(2), 12);
    refused(&table, Check(2), 10);
    (table.nodes[1].activity, table.nodes[1].status) = (Activity::Idle, Status::Reorganization);
    refused(&table, Check(2), 18);
    table.nodes[1].status = Status::Normal;
    refused(&table, Check(2), 13);
    table.nodes[1].last_call = 0;
    refused(&table, Check(2), 14);
    table.messages.pop();
    table.traffic.sent[0][1] = 11;
    refused(&table, Check(2), 17);
    set(&mut table, MAX_COUNT - 1);
    step(&mut table.clone(), &Check(2)).unwrap();
    // Limits that are no pair come before all of them.
    for (nodes, messages) in PAIRS {
        let table = Table { limits: Limits { nodes, messages }, ..table.clone() };
        for event in [Check(2), Check(9), Finish(1, 5), Recover(1), Tick(1), Deliver(2, 1)] {
            refused(&table, event, 1);
        }
        assert_eq!(recovery(&table, 1), Err(1));
        assert_eq!(recovery(&table, 9), Err(1));
    }
}

fn bytes_of(table: &Table) -> TableBytes {
    let mut bytes = [0; TABLE_BYTES];
    table_to_bytes(table, &mut bytes);
    bytes
}

fn field(event: Event) -> Vec<u8> {
    let mut field = Vec::new();
    write_event(&mut field, &event);
    field
}

/// "behind the counts: limit of nodes 1, limit of messages 1. 4,436 bytes": what is cut off is read as zeros,
/// and then the table is out of range; what stands behind is not looked at.
fn limits_in_bytes(library: &impl Library) {
    for limits in BOTH {
        let table = Table::start(2, limits);
        let bytes = bytes_of(&table);
        assert_eq!(bytes[4434..], [limits.nodes, limits.messages]);
        let recover = field(Recover(1));
        let mut out = [0xa5; TABLE_BYTES + 9];
        assert_eq!(library.step(&bytes, &recover, &mut out), 0);
        assert_eq!(out[4434..4436], [limits.nodes, limits.messages]);
        assert_eq!(out[4436..], [0xa5; 9]);
        assert_eq!(table_from_bytes(out.first_chunk().unwrap()).limits, limits);
        let mut records = [0; RECORDS_BYTES];
        for length in (0..4436).step_by(100).chain([1362, 4433, 4434, 4435]) {
            assert_eq!(library.step(&bytes[..length], &recover, &mut out), 1, "{length}");
            assert_eq!(library.recovery(&bytes[..length], 1, &mut records), 1, "{length}");
        }
        for more in 0..5 {
            let longer = [&bytes[..], &vec![7; more]].concat();
            assert_eq!(library.step(&longer, &recover, &mut out), 0);
            assert_eq!(library.recovery(&longer, 1, &mut records), 0);
        }
        // A buffer for the table of the time before is too short.
        for room in [0, 1362, 4434, 4435] {
            let mut out = vec![0x5a; room];
            assert_eq!(library.step(&bytes, &recover, &mut out), TOO_SHORT);
            assert_eq!(out, vec![0x5a; room]);
        }
        // Every other pair, and either limit with a bit changed.
        for (nodes, messages) in PAIRS {
            let wrong = [&bytes[..4434], &[nodes, messages]].concat();
            assert_eq!(library.step(&wrong, &recover, &mut out), 1);
            assert_eq!(library.recovery(&wrong, 1, &mut records), 1);
        }
        for bit in 0..16 {
            let mut wrong = bytes;
            wrong[4434 + bit / 8] ^= 1 << (bit % 8);
            assert_eq!(library.step(&wrong, &recover, &mut out), 1);
        }
    }
}

/// A field with a first field's tag is no event: 4, and 1 on a table out of range, 3 and 255 before it.
fn first_tags_as_events(library: &impl Library) {
    let mut out = [0x5a; TABLE_BYTES];
    for limits in BOTH {
        let bytes = bytes_of(&Table::start(2, limits));
        for tag in [0x01, 0x02] {
            for field in
                [&[tag, 0, 1, 2][..], &[tag, 0, 0], &[tag, 0, 2, 1, 2], &[tag, 0, 1, 2, 0x11]]
            {
                assert_eq!(library.step(&bytes, field, &mut out), 4);
                assert_eq!(library.step(&bytes[..4434], field, &mut out), 1);
                assert_eq!(library.step(&bytes, field, &mut out[..4435]), TOO_SHORT);
            }
            assert_eq!(library.step(&bytes, &[tag, 0, 1], &mut out), 3);
        }
    }
    assert_eq!(out, [0x5a; TABLE_BYTES]);
}

/// Tables that break one rule by their limits, in bytes, and the same in range; and full queues.
fn random_tables(library: &impl Library) {
    let mut numbers = Numbers::new(1);
    for k in 0..BROKEN * 200 {
        let (broken, fine) = to_break(k % BROKEN, &mut numbers);
        let events = [Recover(1), Crash(1), Timeout(1)];
        for table in [&broken, &fine] {
            let found = walk_difference(library, table, &events, Some(k as u64), None);
            assert!(found.is_none(), "{}", tell_walk(library, table, &events, Some(k as u64)));
        }
        let (table, event) = to_fill(&mut numbers);
        let found = walk_difference(library, &table, &[event], Some(k as u64), None);
        assert!(found.is_none(), "{}", tell_walk(library, &table, &[event], Some(k as u64)));
    }
}

fn boundary(library: &impl Library) {
    limits_in_bytes(library);
    first_tags_as_events(library);
    random_tables(library);
}

#[test]
fn own_machine() {
    boundary(&Own);
}

#[test]
fn proved_library() {
    Proved::linked().iter().for_each(boundary);
}

/// No event changes the limits, and runs on both hold demand 3; on the stand 12 messages wait often.
#[test]
fn runs_on_both() {
    let mut numbers = Numbers::new(2);
    let (mut full, mut refused_14, mut sixty_four) = (0, 0, 0);
    for _ in 0..300 {
        let limits = any_limits(&mut numbers);
        let n = numbers.between(1, u32::from(limits.nodes)) as u8;
        let events = run(n, limits, 400, &mut numbers);
        assert_eq!(check_run(n, limits, &events).unwrap().limits, limits);
        let mut table = Table::start(n, limits);
        for event in events {
            let answer = step(&mut table, &event);
            assert_eq!(table.limits, limits);
            let most = usize::from(limits.messages);
            assert!(table.messages.len() <= most);
            let stand = limits == STAND;
            full += u32::from(stand && table.messages.len() == most);
            refused_14 += u32::from(stand && answer == Err(14));
            sixty_four += u32::from(!stand && answer == Err(14));
        }
    }
    assert!(full > 1000 && refused_14 > 300, "{full} {refused_14}");
    assert!(sixty_four > 50, "{sixty_four}");
}

/// Short runs mostly end with 12 waiting on the stand, and with more in the tower; filling ends there.
#[test]
fn full_queues() {
    let mut numbers = Numbers::new(3);
    let mut ends = [0; 2];
    for _ in 0..400 {
        let (n, limits, events) = full_queue(&mut numbers);
        let table = check_run(n, limits, &events).unwrap();
        match limits {
            STAND => ends[0] += u32::from(table.messages.len() == 12),
            _ => ends[1] += u32::from(table.messages.len() > 12),
        }
    }
    assert!(ends.iter().all(|&count| count > 100), "{ends:?}");
    for limits in BOTH {
        let mut run = Run { table: recovered(4, limits), events: Vec::new() };
        fill(&mut run, 12, &mut numbers);
        assert_eq!(run.table.messages.len(), 12);
        refused(&run.table, Recover(1), 9);
    }
}

/// The tables that the fuzzer makes for the limits of messages: in range, each way of sending, each answer.
#[test]
fn every_way_of_sending() {
    let mut numbers = Numbers::new(4);
    let mut met = vec![std::collections::BTreeMap::new(); WAYS.len()];
    for _ in 0..120_000 {
        let (table, event) = to_fill(&mut numbers);
        assert!(table.in_range());
        let need = need(&table, &event).unwrap();
        let mut after = table.clone();
        let answer = step(&mut after, &event);
        assert_eq!(after.limits, table.limits);
        let out = usize::from(need.way.delivers());
        let full = table.messages.len() - out >= usize::from(table.limits.messages);
        assert_eq!(answer == Err(14), full && !matches!(answer, Err(12 | 13)), "{event:?}");
        if answer.is_ok() {
            assert_eq!(after.messages.len(), table.messages.len() + 1 - out);
        } else {
            assert_eq!(after, table);
        }
        let side = (table.limits.messages, table.messages.len(), answer.err().unwrap_or(0));
        *met[need.way as usize].entry(side).or_insert(0) += 1;
    }
    for ((way, name), met) in WAYS.iter().zip(met) {
        let at_limit = if way.delivers() { 0 } else { 14 };
        let mut expected = vec![(12, 11, 0), (12, 12, at_limit)];
        expected.extend(way.forms().then_some((12, 12, 12)));
        expected.extend(way.calls().then_some((12, 12, 13)));
        // Where it is not a delivery, 14 comes before it.
        expected.extend(way.delivers().then_some((12, 12, 17)));
        expected.extend([(64, 12, 0), (64, 13, 0), (64, 63, 0), (64, 64, at_limit)]);
        expected.sort();
        assert_eq!(met.keys().copied().collect::<Vec<_>>(), expected, "{name}");
        assert!(met.values().all(|&count| count > 100), "{name}: {met:?}");
    }
}

/// Each rule that the limits give is broken by itself, where that can be, and any event and every recovery is
/// refused by 1.
#[test]
fn broken_rules() {
    let mut numbers = Numbers::new(5);
    for which in 0..BROKEN {
        for _ in 0..200 {
            let (broken, fine) = to_break(which, &mut numbers);
            assert!(fine.in_range() && !broken.in_range());
            assert_eq!(
                (broken.nodes, &broken.messages[..fine.messages.len()]),
                (fine.nodes, &fine.messages[..])
            );
            let Limits { nodes, messages } = broken.limits;
            let pair = BOTH.contains(&broken.limits);
            let n = (1..=nodes).contains(&broken.n);
            let waiting = broken.messages.len() <= usize::from(messages);
            let expected = match which {
                ..WRONG_N_FROM => [false, nodes > 0, true],
                WRONG_N_FROM..TOO_MANY_FROM => [true, false, true],
                _ => [true, true, false],
            };
            assert_eq!([pair, n, waiting], expected, "{which}");
            for event in [Recover(1), Crash(1), Check(0), Finish(1, 5), Deliver(1, 2)] {
                refused(&broken, event, 1);
            }
            assert_eq!(recovery(&broken, 1), Err(1));
        }
    }
    for _ in 0..1000 {
        assert!(!BOTH.contains(&wrong_pair(&mut numbers)));
    }
}

/// A step that takes the limits for others than they are, if it does; they are put back.
fn with_limits(table: &mut Table, event: &Event, limits: Limits) -> Result<(), u8> {
    let own = table.limits;
    table.limits = limits;
    let answer = step(table, event);
    table.limits = own;
    answer
}

/// Machines with other limits are found.
#[test]
fn wrong_limits_are_found() {
    type Step = fn(&mut Table, &Event) -> Result<(), u8>;
    let machines: [(&str, Step); 13] = [
        ("14 at 64 on the stand", |table, event| {
            if !table.in_range() {
                return Err(1);
            }
            let own = table.limits;
            table.limits = TOWER;
            let answer = advance(table, event);
            table.limits = own;
            answer
        }),
        ("14 at 12 in the tower", |table, event| {
            let mut after = table.clone();
            step(&mut after, event)?;
            if table.messages.len() >= 12 && after.messages.len() > table.messages.len() {
                return Err(14);
            }
            *table = after;
            Ok(())
        }),
        ("4 and 64 pass", |table, event| match table.limits {
            Limits { nodes: 4, messages: 64 } if table.n <= 4 => with_limits(table, event, TOWER),
            _ => step(table, event),
        }),
        ("16 and 12 pass", |table, event| match table.limits {
            Limits { nodes: 16, messages: 12 } if table.n <= 4 => with_limits(table, event, STAND),
            _ => step(table, event),
        }),
        ("any pair up to the tower's passes", |table, event| {
            if !table.in_range_of_any_pair() {
                return Err(1);
            }
            advance(table, event)
        }),
        ("the limit of messages is not looked at", |table, event| match table.limits.nodes {
            16 => with_limits(table, event, TOWER),
            4 => with_limits(table, event, STAND),
            _ => Err(1),
        }),
        ("the limit of nodes is not looked at", |table, event| match table.limits.messages {
            64 => with_limits(table, event, TOWER),
            12 => with_limits(table, event, STAND),
            _ => Err(1),
        }),
        ("n over 4 on the stand", |table, event| match table.limits {
            STAND if table.n > 4 && table.messages.len() <= 12 => with_limits(table, event, TOWER),
            _ => step(table, event),
        }),
        ("n = 5 on the stand", |table, event| match table.limits {
            STAND if table.n == 5 && table.messages.len() <= 12 => with_limits(table, event, TOWER),
            _ => step(table, event),
        }),
        ("13 waiting messages on the stand", |table, event| match table.limits {
            STAND if table.n <= 4 && table.messages.len() == 13 => with_limits(table, event, TOWER),
            _ => step(table, event),
        }),
        ("the delivered one still counts", |table, event| {
            let full = table.messages.len() == usize::from(table.limits.messages);
            let delivers = need(table, event).is_some_and(|need| need.way.delivers());
            let mut after = table.clone();
            step(&mut after, event)?;
            if full && delivers && table.limits == STAND {
                return Err(14);
            }
            *table = after;
            Ok(())
        }),
        ("the limits change in a step", |table, event| {
            step(table, event)?;
            if let Recover(_) = event {
                table.limits = TOWER;
            }
            Ok(())
        }),
        ("a loss changes the limits", |table, event| {
            step(table, event)?;
            if let (Lose(..), true) = (event, table.n <= 4 && table.messages.len() <= 12) {
                table.limits = STAND;
            }
            Ok(())
        }),
    ];
    for (name, machine) in machines {
        assert!(found(steps(machine)) > 0, "{name}");
    }
    // The right one behind the same boundary is not.
    let mut fuzz = Fuzz::new(steps(step), 1);
    fuzz.go_on(Duration::from_millis(500), 0);
    assert_eq!(fuzz.tell(0).1, 0);
}

/// Of these, those that a run can show are shown by one, which is shortened.
#[test]
fn wrong_limits_show_in_runs() {
    let at_64 = |table: &mut Table, event: &Event| {
        let own = table.limits;
        table.limits = TOWER;
        let answer = advance(table, event);
        table.limits = own;
        answer
    };
    let library = steps(at_64);
    let mut numbers = Numbers::new(6);
    let shown = (0..2000).find_map(|_| {
        let events = run(4, STAND, 300, &mut numbers);
        run_difference(&library, 4, STAND, &events, None).map(|_| events)
    });
    let (n, events) = shortest_run(&library, 4, STAND, &shown.unwrap());
    // Each of 12 waiting messages is sent by an event of its own, and so would be the next.
    assert!(events.len() > 12 && n <= 4, "{n} {events:?}");
    assert!(run_difference(&library, n, TOWER, &events, None).is_none());
    // A change of the limits shows at once.
    let changes = steps(|table, event| {
        step(table, event)?;
        table.limits = if table.limits == TOWER { STAND } else { TOWER };
        Ok(())
    });
    for limits in BOTH {
        let found = run_difference(&changes, 2, limits, &[Recover(1), Recover(2)], None).unwrap();
        assert_eq!(found.events, 1);
        assert!(found.words.contains("the table has other limits"), "{}", found.words);
    }
}

/// List programs that read the first tags otherwise are found by the fuzzer, and by short lists.
#[test]
fn wrong_readers_are_found() {
    /// What is read instead of a list.
    type Reads = fn(&[u8]) -> Vec<u8>;
    fn with_first(list: &[u8], tag: u8) -> Vec<u8> {
        let mut other = list.to_vec();
        if let Some(first) = other.first_mut() {
            *first = tag;
        }
        other
    }
    let readers: [(&str, Reads, &[u8]); 6] = [
        (
            "0x02 is the tower",
            |list| if list.first() == Some(&2) { with_first(list, 1) } else { list.to_vec() },
            &[2, 0, 1, 5],
        ),
        (
            "0x01 is the stand",
            |list| if list.first() == Some(&1) { with_first(list, 2) } else { list.to_vec() },
            &[1, 0, 1, 5],
        ),
        (
            "0x02 is unknown",
            |list| if list.first() == Some(&2) { with_first(list, 9) } else { list.to_vec() },
            &[2, 0, 1, 1],
        ),
        (
            "0x03 is the tower too",
            |list| if list.first() == Some(&3) { with_first(list, 1) } else { list.to_vec() },
            &[3, 0, 1, 1],
        ),
        (
            "0x00 is the stand too",
            |list| if list.first() == Some(&0) { with_first(list, 2) } else { list.to_vec() },
            &[0, 0, 1, 1],
        ),
        (
            "0x02 with n over 4 is the tower",
            |list| match list {
                [2, 0, 1, 5..=16, ..] => with_first(list, 1),
                _ => list.to_vec(),
            },
            &[2, 0, 1, 16],
        ),
    ];
    for (name, reads, shows) in readers {
        let print = move |list: &[u8]| String::from_utf8(run_list(&reads(list))).unwrap();
        assert!(list_difference(&texts(print), shows).is_some(), "{name}");
        assert!(found(texts(print)) > 0, "{name}");
        // The same in folding.
        let folds = move |list: &[u8]| Own.fold(&reads(list));
        assert!(found(Functions { fold: Box::new(folds), ..Functions::default() }) > 0, "{name}");
    }
    // A list in which 0x02 is skipped where it is not first.
    let skips = |list: &[u8]| {
        let Ok(read) = read_list(list) else {
            return String::from_utf8(run_list(list)).unwrap();
        };
        let second = list.get(4..8).filter(|field| field[..3] == [2, 0, 1]);
        let list = match second {
            Some(_) => [&list[..4], &list[8..]].concat(),
            None => list.to_vec(),
        };
        let text = String::from_utf8(run_list(&list)).unwrap();
        assert!(text.starts_with(&format!("cabinets {}\n", read.n)));
        text
    };
    assert!(list_difference(&texts(skips), &[2, 0, 1, 1, 2, 0, 1, 1]).is_some());
    assert!(found(texts(skips)) > 0);
    // A field of the tag 0x02 as an event that changes nothing.
    let step = |table: &[u8], field: &[u8], out: &mut [u8]| {
        let answer = Own.step(table, field, out);
        match (answer, field) {
            (4, [2, 0, 1, ..]) => 5,
            _ => answer,
        }
    };
    assert!(found(Functions { step: Box::new(step), ..Functions::default() }) > 0);
}

/// A list program that has the stand's n and the tower's queue, or prints more than the list asks for.
#[test]
fn wrong_texts_are_found() {
    fn text_by(
        list: &[u8],
        limits: fn(Limits) -> Limits,
        first: fn(u8, Limits) -> String,
    ) -> String {
        let Ok(list) = read_list(list) else {
            return String::from_utf8(run_list(list)).unwrap();
        };
        let mut table = Table::start(list.n, limits(list.limits));
        let mut text = first(list.n, list.limits);
        for (k, event) in list.events.iter().enumerate() {
            if let Err(r) = step(&mut table, event) {
                text += &format!("refused {} {r}\n", k + 1);
            }
        }
        if let Some(stop) = list.stop {
            text += &format!("stopped {} {}\n", stop.offset, stop.number);
        }
        print_table(&mut text, &table);
        text
    }
    let cabinets = |n: u8, _: Limits| format!("cabinets {n}\n");
    let right = texts(move |list| text_by(list, |limits| limits, cabinets));
    let mut events: Vec<Event> = (1..=4).map(Recover).collect();
    for i in 1..=4 {
        events.extend([Check(i), Expire(i), Expire(i), Expire(i)]);
    }
    events.push(Check(1));
    let list = write_list(4, STAND, &events);
    assert_eq!(list_difference(&right, &list), None);
    let queue = texts(move |list| text_by(list, |_| TOWER, cabinets));
    assert!(list_difference(&queue, &list).is_some());
    assert_eq!(list_difference(&queue, &list[..list.len() - 4]), None);
    assert!(found(queue) > 0);
    let told = texts(move |list| {
        text_by(list, |limits| limits, |n, limits| format!("cabinets {n} of {}\n", limits.nodes))
    });
    assert!(list_difference(&told, &[2, 0, 1, 1]).is_some());
}

/// A difference is told with the limits.
#[test]
fn differences_are_told() {
    let library = steps(|table, event| {
        let stand = table.limits == STAND;
        step(table, event)?;
        if let (Crash(i), true) = (*event, stand) {
            table.nodes[usize::from(i) - 1].counter = 0;
        }
        Ok(())
    });
    let mut table = recovered(3, STAND);
    table.messages = vec![message(1, 2, 1, Body::AreYouCoordinator); 12];
    count_waiting(&mut table);
    let words = tell_walk(&library, &table, &[Recover(1), Crash(2), Crash(1)], None);
    assert!(words.starts_with("a table, n 3:\nlimits 4 12\ncabinet 1 "), "{words}");
    assert!(!words.contains("message "), "{words}");
    let words = peer::compare::tell_run(&library, 3, STAND, &[Recover(1), Recover(2), Crash(1)]);
    assert!(words.contains("a list of 12 bytes: 02 00 01 01 11 00 01 01 10 00 01 01\n"), "{words}");
    assert!(words.contains("  n 1, limits 4 12, 2 events\n"), "{words}");
}
