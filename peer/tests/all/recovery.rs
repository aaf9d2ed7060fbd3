//! T-04 of document 02, "Recovery as the paper prints it": the eight records by hand, the refusals and their
//! order, the recoveries inside other events, the bytes at the boundary, and libraries that are wrong on
//! purpose. The boundary is that of this program's own machine, and of the proved library where it is
//! linked.

use crate::functions;
use crate::other_forms;
use crate::wrong_libraries;

use functions::Functions;
use other_forms::in_another_form;
use peer::compare::{recovery_difference, tell_recovery};
use peer::list::write_event;
use peer::machine::*;
use peer::numbers::Numbers;
use peer::proved::*;
use peer::tables::{in_range, to_recover};
use peer::traffic_tables::count_waiting;
use wrong_libraries::found;
use Event::*;
use Status::*;

/// status, counter, group, coordinator, members, task
type Fields = (Status, u32, u32, u8, Set, u16);

fn fields(node: &Node) -> Fields {
    (node.status, node.counter, node.group, node.coordinator, node.members, node.task)
}

/// The records of node i are these; the last call number and the activity stay, and the step recover leaves
/// the last record and no other.
fn records_are(table: &Table, i: u8, expected: [Fields; 8]) {
    let records = recovery(table, i).unwrap();
    assert_eq!(records.each_ref().map(fields), expected);
    let before = table.node(i);
    for record in &records {
        assert_eq!((record.last_call, record.activity), (before.last_call, Activity::Idle));
    }
    let mut after = table.clone();
    step(&mut after, &Recover(i)).unwrap();
    let mut left = table.clone();
    left.nodes[usize::from(i) - 1] = records[7];
    assert_eq!(after, left);
}

fn refused(table: &Table, i: u8, number: u8) {
    assert_eq!(recovery(table, i), Err(number));
    assert_eq!(step(&mut table.clone(), &Recover(i)), Err(number));
}

/// K2: "n = 2, recover 1: group 16, task 1, Normal". Every number of the record before is 0.
#[test]
fn k2_first_recovery() {
    let expected = [
        (Election, 0, 0, 0, 0, 0),
        (Election, 1, 0, 0, 0, 0),
        (Election, 1, 16, 0, 0, 0),
        (Election, 1, 16, 1, 0, 0),
        (Election, 1, 16, 1, 0, 0),
        (Reorganization, 1, 16, 1, 0, 0),
        (Reorganization, 1, 16, 1, 0, 1),
        (Normal, 1, 16, 1, 0, 1),
    ];
    records_are(&Table::start(2, TOWER), 1, expected);
}

/// K3 and K4: "recover 1 again: 9"; "crash 1, recover 1: group 32". Coordinator, members and task are
/// already so.
#[test]
fn k3_k4_second_recovery() {
    let mut table = Table::start(2, TOWER);
    step(&mut table, &Recover(1)).unwrap();
    refused(&table, 1, 9);
    step(&mut table, &Crash(1)).unwrap();
    let expected = [
        (Election, 1, 16, 1, 0, 1),
        (Election, 2, 16, 1, 0, 1),
        (Election, 2, 32, 1, 0, 1),
        (Election, 2, 32, 1, 0, 1),
        (Election, 2, 32, 1, 0, 1),
        (Reorganization, 2, 32, 1, 0, 1),
        (Reorganization, 2, 32, 1, 0, 1),
        (Normal, 2, 32, 1, 0, 1),
    ];
    records_are(&table, 1, expected);
}

/// K5: "cabinet 16 with counter 1,048,574 recovers into group 16,777,215; with 1,048,575: 12". Here every
/// assignment changes its field.
#[test]
fn k5_last_counter() {
    let mut table = Table::start(16, TOWER);
    let members = only(1) | only(9);
    table.nodes[15] = Node {
        counter: 1_048_574,
        group: 34,
        coordinator: 3,
        task: 300,
        members,
        last_call: 16_777_215,
        ..Node::START
    };
    let (last, new) = (1_048_575, 16_777_215);
    let expected = [
        (Election, 1_048_574, 34, 3, members, 300),
        (Election, last, 34, 3, members, 300),
        (Election, last, new, 3, members, 300),
        (Election, last, new, 16, members, 300),
        (Election, last, new, 16, 0, 300),
        (Reorganization, last, new, 16, 0, 300),
        (Reorganization, last, new, 16, 0, 16),
        (Normal, last, new, 16, 0, 16),
    ];
    records_are(&table, 16, expected);
    table.nodes[15].counter = 1_048_575;
    refused(&table, 16, 12);
}

/// With one node, and a group that is already the one that the recovery forms, which no run has.
#[test]
fn one_node() {
    let mut table = Table::start(1, TOWER);
    table.nodes[0] = Node { counter: 1, group: 32, task: 65_535, ..Node::START };
    let expected = [
        (Election, 1, 32, 0, 0, 65_535),
        (Election, 2, 32, 0, 0, 65_535),
        (Election, 2, 32, 0, 0, 65_535),
        (Election, 2, 32, 1, 0, 65_535),
        (Election, 2, 32, 1, 0, 65_535),
        (Reorganization, 2, 32, 1, 0, 65_535),
        (Reorganization, 2, 32, 1, 0, 1),
        (Normal, 2, 32, 1, 0, 1),
    ];
    records_are(&table, 1, expected);
    for i in (0..=255).filter(|&i| i != 1) {
        refused(&table, i, 7);
    }
}

/// "Checked from the top; the first that applies is given": 1, 7, 9, 12.
#[test]
fn grounds_and_their_order() {
    let mut table = Table::start(3, TOWER);
    step(&mut table, &Recover(2)).unwrap();
    for i in [0, 4, 16, 17, 255] {
        refused(&table, i, 7);
    }
    for status in [Election, Reorganization, Normal] {
        table.nodes[1].status = status;
        refused(&table, 2, 9);
        // 9 comes before 12.
        table.nodes[1].counter = MAX_COUNTER;
        refused(&table, 2, 9);
        table.nodes[1].counter = 1;
    }
    table.nodes[0].counter = MAX_COUNTER;
    refused(&table, 1, 12);
    assert!(recovery(&table, 3).is_ok());
    // 1 comes before all of them, whichever node is out of range.
    table.nodes[2].coordinator = 4;
    for i in 0..=255 {
        refused(&table, i, 1);
    }
    for n in [0, 17, 255] {
        refused(&Table { n, ..Table::start(1, TOWER) }, 1, 1);
    }
    // A counter above its end is out of range, and not its end.
    let mut table = Table::start(2, TOWER);
    table.nodes[0].counter = MAX_COUNTER + 1;
    refused(&table, 1, 1);
    refused(&table, 2, 1);
}

/// Messages do not count: 64 wait, and some are for the node.
#[test]
fn messages_do_not_count() {
    let mut table = Table::start(2, TOWER);
    let body = Body::Reply { yes: true };
    let m = Message { sender: 2, receiver: 1, call: MAX_CALL, body };
    for waiting in [0, 1, 63, 64] {
        table.messages = vec![m; waiting];
        count_waiting(&mut table);
        assert_eq!(recovery(&table, 1), recovery(&Table::start(2, TOWER), 1));
    }
    table.messages = vec![m; 65];
    count_waiting(&mut table);
    refused(&table, 1, 1);
}

/// Nor do their counts, as long as they are in range.
#[test]
fn counts_do_not_count() {
    let mut table = Table::start(2, TOWER);
    for lost in [1, MAX_COUNT] {
        table.traffic.sent[0][1] = lost;
        table.traffic.lost[0][1] = lost;
        assert_eq!(recovery(&table, 1), recovery(&Table::start(2, TOWER), 1));
    }
    table.traffic.sent[0][1] = MAX_COUNT - 1;
    refused(&table, 1, 1);
}

/// "Handing, accepting, contacting: it recovers", and contacting "recovers on no": then it is idle.
#[test]
fn recoveries_inside_other_events() {
    let cases = [
        (Activity::Handing { rest: only(2), now: 3 }, Expire(1)),
        (Activity::Accepting { caller: 2, call: 9 }, Expire(1)),
        (Activity::Contacting, Expire(1)),
        (Activity::Contacting, Deliver(3, 1)),
    ];
    let no = Message { sender: 3, receiver: 1, call: 40, body: Body::Reply { yes: false } };
    for (activity, event) in cases {
        for status in [Election, Reorganization, Normal] {
            let mut table = Table::start(3, TOWER);
            table.nodes[0] = Node {
                status,
                counter: 5,
                group: group_number(7, 3),
                coordinator: 3,
                task: 300,
                members: only(2),
                last_call: 40,
                activity,
            };
            table.messages = vec![no];
            count_waiting(&mut table);
            let mut last = table.clone();
            last.nodes[0].counter = MAX_COUNTER;
            assert_eq!(step(&mut last, &event), Err(12));
            step(&mut table, &event).unwrap();
            let node = table.node(1);
            assert_eq!(fields(node), (Normal, 6, 96, 1, 0, 1));
            assert_eq!((node.last_call, node.activity), (40, Activity::Idle));
        }
    }
}

/// The last record is the one that recover leaves, and the answer is the same, on random tables.
#[test]
fn last_record_is_what_recover_leaves() {
    let mut numbers = Numbers::new(1);
    let mut answers = [0; 13];
    for _ in 0..30_000 {
        let (table, i) = to_recover(&mut numbers);
        let mut after = table.clone();
        let answer = step(&mut after, &Recover(i));
        let records = recovery(&table, i);
        assert_eq!(records.map(|_| ()), answer);
        if let Ok(records) = records {
            assert_eq!(*after.node(i), records[7]);
        }
        answers[usize::from(answer.err().unwrap_or(0))] += 1;
    }
    for number in [0, 1, 7, 9, 12] {
        assert!(answers[number] > 1000, "{number}: {}", answers[number]);
    }
}

fn bytes_of(table: &Table) -> TableBytes {
    let mut bytes = [0; TABLE_BYTES];
    table_to_bytes(table, &mut bytes);
    bytes
}

/// "the first 232 bytes of out are the eight records (29 bytes each, as in a table's bytes)", by hand, and what
/// stands behind them stays.
fn bytes_by_hand(library: &impl Library) {
    let mut table = Table::start(3, TOWER);
    table.nodes[2] = Node {
        counter: 0x0001_0203,
        group: 0x21,
        coordinator: 2,
        task: 0x0506,
        members: 3,
        last_call: 0x0001_0203,
        ..Node::START
    };
    let counter = [0, 1, 2, 4];
    let group = [0, 0x10, 0x20, 0x42];
    let record = |status: u8, set: usize| {
        let mut bytes = vec![status];
        bytes.extend(if set > 1 { counter } else { [0, 1, 2, 3] });
        bytes.extend(if set > 2 { group } else { [0, 0, 0, 0x21] });
        bytes.push(if set > 3 { 3 } else { 2 });
        bytes.extend(if set > 6 { [0, 3] } else { [5, 6] });
        bytes.extend(if set > 4 { [0, 0] } else { [0, 3] });
        bytes.extend([0, 1, 2, 3]);
        bytes.extend([0; 11]);
        bytes
    };
    let status = [1, 1, 1, 1, 1, 2, 2, 3];
    let expected: Vec<u8> = (0..8).flat_map(|k| record(status[k], k + 1)).collect();
    assert_eq!(expected.len(), 232);
    for room in [232, 233, 300, 2000] {
        let mut out = vec![0xa5; room];
        assert_eq!(library.recovery(&bytes_of(&table), 3, &mut out), 0);
        assert_eq!(out[..232], expected);
        assert_eq!(out[232..], vec![0xa5; room - 232]);
    }
}

/// "255 stands only for a buffer that is too short, which is looked at first, and is left as it was": whatever
/// the table and the number are. A refusal leaves it too.
fn buffers_left_as_they_were(library: &impl Library) {
    let mut up = Table::start(2, TOWER);
    step(&mut up, &Recover(1)).unwrap();
    let mut last = Table::start(2, TOWER);
    last.nodes[0].counter = MAX_COUNTER;
    let wrong = Table { n: 17, ..Table::start(1, TOWER) };
    let cases = [
        (Table::start(2, TOWER), 1, 0),
        (wrong, 1, 1),
        (Table::start(2, TOWER), 0, 7),
        (Table::start(2, TOWER), 3, 7),
        (up, 1, 9),
        (last, 1, 12),
    ];
    for (table, i, number) in cases {
        for room in (0..232).chain([232, 233, 400]) {
            let mut out = vec![0x5a; room];
            let answer = library.recovery(&bytes_of(&table), i, &mut out);
            assert_eq!(answer, if room < 232 { TOO_SHORT } else { number }, "{room}");
            if answer != 0 {
                assert_eq!(out, vec![0x5a; room]);
            }
        }
    }
}

/// A table that is cut short has zeros behind its end, what stands behind a whole one is not looked at, and
/// status and activity are read by their remainders; the records have the plain form of both.
fn tables_in_other_forms(library: &impl Library) {
    let mut numbers = Numbers::new(2);
    let mut accepted = 0;
    for k in 0..20_000 {
        let (table, i) = to_recover(&mut numbers);
        let mut bytes = bytes_of(&table);
        let given = in_another_form(k, &mut bytes, &mut numbers);
        let (mut out, mut expected) = ([7; 240], [7; 240]);
        let answer = library.recovery(&given, i, &mut out);
        let records = recovery(&table_from_bytes(&bytes), i);
        assert_eq!(answer, records.err().unwrap_or(0));
        if let Ok(records) = records {
            accepted += 1;
            for (k, record) in records.iter().enumerate() {
                let mut one = Table::start(1, TOWER);
                one.nodes[0] = *record;
                expected[29 * k..29 * (k + 1)].copy_from_slice(&bytes_of(&one)[1..30]);
            }
        }
        assert_eq!(out, expected);
    }
    assert!(accepted > 1000, "{accepted}");
    // What an idle node does not have may be anything, and is 0 in the records.
    let mut bytes = bytes_of(&Table::start(2, TOWER));
    bytes[20..30].fill(0xff);
    let (mut out, mut plain) = ([0; 232], [0; 232]);
    assert_eq!(library.recovery(&bytes, 1, &mut out), 0);
    assert_eq!(library.recovery(&bytes_of(&Table::start(2, TOWER)), 1, &mut plain), 0);
    assert_eq!(out, plain);
    assert_eq!(library.recovery(&[], 1, &mut out), 1);
    assert_eq!(out, plain);
}

/// The last record has the bytes that the node has in the table after recover, and the answers are the same.
fn last_record_in_bytes(library: &impl Library) {
    let mut numbers = Numbers::new(5);
    for _ in 0..20_000 {
        let (table, i) = to_recover(&mut numbers);
        let bytes = bytes_of(&table);
        let mut field = Vec::new();
        write_event(&mut field, &Recover(i));
        let (mut out, mut after) = ([0; 232], [0; TABLE_BYTES]);
        let answer = library.recovery(&bytes, i, &mut out);
        assert_eq!(answer, library.step(&bytes, &field, &mut after));
        if answer == 0 {
            let place = 1 + 29 * (usize::from(i) - 1);
            assert_eq!(out[203..], after[place..place + 29]);
            assert_eq!(record(&after, i), &out[203..]);
        }
    }
}

/// Random bytes stand in all places that are no part of the table.
fn random_tables(library: &impl Library) {
    let mut numbers = Numbers::new(3);
    for k in 0..20_000 {
        let (table, i) = to_recover(&mut numbers);
        let room = numbers.of(&[0, 231, 232, 233, 300]);
        if let Some(words) = recovery_difference(library, &table, i, room, k, None) {
            panic!("{words}");
        }
    }
}

fn boundary(library: &impl Library) {
    bytes_by_hand(library);
    buffers_left_as_they_were(library);
    tables_in_other_forms(library);
    last_record_in_bytes(library);
    random_tables(library);
}

#[test]
fn own_machine() {
    boundary(&Own);
}

#[test]
fn proved_library() {
    Proved::linked().iter().for_each(boundary);
}

/// A library whose records are made by something else.
fn records<'a>(recovery: impl Fn(&[u8], u8, &mut [u8]) -> u8 + 'a) -> Functions<'a> {
    Functions { recovery: Box::new(recovery), ..Functions::default() }
}

/// Libraries that are nearly right at the boundary are found.
#[test]
fn wrong_boundaries_are_found() {
    /// What it does beside the right answer: the answer, the buffer, and what it held before.
    type Beside = fn(u8, &mut [u8], &[u8]) -> u8;
    let wrong: [(&str, Beside); 9] = [
        ("writes when it refuses", |answer, out, _| {
            if (1..TOO_SHORT).contains(&answer) {
                out[0] ^= 1;
            }
            answer
        }),
        ("writes behind the records", |answer, out, _| {
            if let (0, Some(byte)) = (answer, out.get_mut(232)) {
                *byte ^= 1;
            }
            answer
        }),
        ("writes into a buffer that is too short", |answer, out, _| {
            if let (TOO_SHORT, Some(byte)) = (answer, out.last_mut()) {
                *byte ^= 1;
            }
            answer
        }),
        ("does not write the last byte", |answer, out, before| {
            if answer == 0 {
                out[231] = before[231];
            }
            answer
        }),
        ("accepts and writes nothing", |answer, out, before| {
            out.copy_from_slice(before);
            answer
        }),
        ("needs a byte more", |answer, out, _| if out.len() == 232 { TOO_SHORT } else { answer }),
        ("255 for every refusal", |answer, _, _| if answer > 0 { TOO_SHORT } else { 0 }),
        ("no 255", |answer, _, _| if answer == TOO_SHORT { 1 } else { answer }),
        ("0 for every refusal", |_, _, _| 0),
    ];
    for (name, beside) in wrong {
        let recovery = |table: &[u8], i: u8, out: &mut [u8]| {
            let before = out.to_vec();
            let answer = Own.recovery(table, i, out);
            beside(answer, out, &before)
        };
        assert!(found(records(recovery)) > 0, "{name}");
    }
}

fn node_of(table: &Table, i: u8) -> Option<&Node> {
    (1..=table.n.min(MAX_NODES)).contains(&i).then(|| table.node(i))
}

/// Libraries with another order of the grounds, or one that is met too early, are found.
#[test]
fn wrong_grounds_are_found() {
    /// The refusal that comes before the right answer, if it does.
    type Earlier = fn(&Table, u8) -> Option<u8>;
    let wrong: [(&str, Earlier); 5] = [
        ("7 before 1", |table, i| (!(1..=table.n).contains(&i)).then_some(7)),
        ("9 before 1", |table, i| (node_of(table, i)?.status != Down).then_some(9)),
        ("12 before 1", |table, i| (node_of(table, i)?.counter >= MAX_COUNTER).then_some(12)),
        ("12 before 9", |table, i| {
            (table.in_range() && node_of(table, i)?.counter == MAX_COUNTER).then_some(12)
        }),
        ("12 too early", |table, i| {
            (recovery(table, i).ok()?[7].counter == MAX_COUNTER).then_some(12)
        }),
    ];
    for (name, earlier) in wrong {
        let recovery = |table: &Table, i: u8| match earlier(table, i) {
            Some(number) => Err(number),
            None => recovery(table, i),
        };
        let library =
            records(|table: &[u8], i: u8, out: &mut [u8]| recovery_by(recovery, table, i, out));
        assert!(found(library) > 0, "{name}");
    }
}

/// Libraries with other records are found, whichever record and field is another.
#[test]
fn wrong_records_are_found() {
    type Change = fn(&mut Node);
    let changes: [(&str, Change); 8] = [
        ("status", |node| node.status = Down),
        ("counter", |node| node.counter -= 1),
        ("group", |node| node.group ^= 16),
        ("coordinator", |node| node.coordinator ^= 1),
        ("members", |node| node.members ^= 1),
        ("task", |node| node.task ^= 1),
        ("last call number", |node| node.last_call ^= 1),
        ("activity", |node| node.activity = Activity::Collecting),
    ];
    for (name, change) in changes {
        // The first record's counter may be 0.
        for k in 1..8 {
            let wrong = |table: &Table, i: u8| {
                let mut records = recovery(table, i)?;
                change(&mut records[k]);
                Ok(records)
            };
            let library =
                records(|table: &[u8], i: u8, out: &mut [u8]| recovery_by(wrong, table, i, out));
            assert!(found(library) > 0, "{name} of record {}", k + 1);
        }
    }
}

/// The difference is told with a small table.
#[test]
fn differences_are_told() {
    let wrong = |table: &Table, i: u8| {
        let mut records = recovery(table, i)?;
        records[6].task = 100;
        Ok(records)
    };
    let library = records(|table: &[u8], i: u8, out: &mut [u8]| recovery_by(wrong, table, i, out));
    let mut numbers = Numbers::new(4);
    let mut table = in_range(&mut numbers);
    while table.n != 3 || table.messages.is_empty() {
        table = in_range(&mut numbers);
    }
    table.nodes[1] = Node { counter: 6, ..Node::START };
    let words = tell_recovery(&library, &table, 2, 232, 5);
    let lines: Vec<&str> = words.lines().collect();
    assert_eq!(lines[0], "the records of the recovery of 2, into 232 bytes, on a table, n 3:");
    let Limits { nodes, messages } = table.limits;
    assert_eq!(lines[1], format!("limits {nodes} {messages}"));
    for (k, i) in [(2, 1), (3, 2), (4, 3)] {
        assert_eq!(lines[k], format!("cabinet {i} 0 0 0 0 0 0 0 idle"));
    }
    assert_eq!(lines[5], "byte 185 of the buffer is 64, expected: 02");
    assert_eq!(lines[13], "cabinet 2 2 1 17 2 100 0 0 idle");
    assert_eq!(lines[22], "cabinet 2 2 1 17 2 2 0 0 idle");
}
