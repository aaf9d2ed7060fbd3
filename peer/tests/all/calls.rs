//! The vectors' calls: how a line is read, what is compared, and the calls of T-04, T-07, T-09 and T-11 on
//! this program's own machines and controllers.

use crate::functions;

use functions::Functions;
use peer::calls::{
    completed, none_free, read_calls, Arguments, CallCase, Function, Takes, FUNCTIONS,
};
use peer::compare::call_difference;
use peer::machine::{Body, Message, Table, TOWER};
use peer::proved::{table_to_bytes, Library, Own, COUNTS_AT, TABLE_BYTES};
use peer::traffic_tables::count_waiting;
use std::path::Path;

/// Functions that take other things: nothing, two numbers around a slice, three slices.
static OTHERS: [Function; 3] = [
    Function { name: "nothing", takes: &[], call: |_, _, _| 7, free: none_free },
    Function {
        name: "around",
        takes: &[Takes::Number, Takes::Slice, Takes::Number],
        call: |_, given, out| {
            out[..2].copy_from_slice(&given.numbers);
            given.slices[0].len() as u8
        },
        free: none_free,
    },
    Function {
        name: "slices",
        takes: &[Takes::Slice, Takes::Slice, Takes::Slice],
        call: |_, given, out| {
            let all = given.slices.concat();
            out[..all.len()].copy_from_slice(&all);
            0
        },
        free: none_free,
    },
];

#[test]
fn lines_are_read() {
    let text = "nothing out 0 answer 7 same\n\naround 12 0c_2_ff 255 out 3 answer 4 0cff\n\
                slices - 01 _3_ out 9 answer 0 01_3_\n";
    let cases = read_calls(text, &OTHERS).unwrap();
    let [nothing, around, slices] = cases.as_slice() else {
        panic!("{cases:?}");
    };
    assert_eq!((nothing.line, nothing.function.name), (1, "nothing"));
    assert_eq!(nothing.arguments, Arguments::default());
    assert_eq!((nothing.room, nothing.answer, nothing.written.len()), (0, 7, 0));
    assert_eq!((around.line, around.function.name), (3, "around"));
    // 12 is a number here, and 0c would be one byte.
    assert_eq!(around.arguments.numbers, [12, 255]);
    assert_eq!(around.arguments.slices, [[12, 0, 0, 255]]);
    assert_eq!((around.room, around.answer), (3, 4));
    assert_eq!(around.written, [12, 255]);
    assert_eq!(slices.arguments.slices, [vec![], vec![1], vec![0, 0, 0]]);
    assert_eq!(slices.written, [1, 0, 0, 0]);
    for case in &cases {
        assert_eq!(call_difference(&Own, case), None);
    }
}

#[test]
fn lines_that_are_not_in_form() {
    let wrong = [
        "unknown out 0 answer 7 same",
        "nothing 1 out 0 answer 7 same",
        "nothing out 0 answer 7",
        "nothing out 0 answer 7 same same",
        "nothing out 0 answer 256 same",
        "nothing out x answer 7 same",
        "nothing answer 7 out 0 same",
        "nothing room 0 answer 7 same",
        "nothing out 1 answer 7 0102",
        "nothing out 1 answer 7 0g",
        "around 1 00 out 2 answer 1 0101",
        "around 256 00 1 out 2 answer 1 same",
        "around 1 0 1 out 2 answer 1 same",
        "slices 00 00 out 2 answer 0 same",
    ];
    for line in wrong {
        let words = read_calls(&format!("nothing out 0 answer 7 same\n{line}\n"), &OTHERS);
        assert!(words.unwrap_err().starts_with("line 2: "), "{line}");
    }
}

/// What a function answers, and what it writes before and behind what the vector says.
#[test]
fn calls_that_differ_are_told() {
    static WRITERS: [Function; 4] = [
        Function {
            name: "right",
            takes: &[],
            call: |_, _, out| {
                out[..2].copy_from_slice(&[1, 2]);
                0
            },
            free: none_free,
        },
        Function { name: "idle", takes: &[], call: |_, _, _| 0, free: none_free },
        Function {
            name: "behind",
            takes: &[],
            call: |_, _, out| {
                out[..2].copy_from_slice(&[1, 2]);
                out[4] ^= 1;
                0
            },
            free: none_free,
        },
        Function {
            name: "refuses",
            takes: &[],
            call: |_, _, out| {
                out[0] ^= 1;
                9
            },
            free: none_free,
        },
    ];
    let told = |line: &str| call_difference(&Own, &read_calls(line, &WRITERS).unwrap()[0]);
    assert_eq!(told("right out 5 answer 0 0102"), None);
    assert_eq!(told("idle out 5 answer 0 same"), None);
    for (line, words) in [
        ("right out 5 answer 9 0102", "accepted, expected: refused 9"),
        ("right out 5 answer 255 same", "accepted, expected: answered 255"),
        ("right out 5 answer 0 0103", "byte 1 of the buffer is 02, expected: 03"),
        ("right out 5 answer 0 same", "accepted: byte 0 of the buffer has changed"),
        (
            "behind out 5 answer 0 0102",
            "accepted: byte 4 of the buffer, behind what is expected, has changed",
        ),
        ("refuses out 5 answer 9 same", "refused 9: byte 0 of the buffer has changed"),
        ("refuses out 5 answer 12 same", "refused 9, expected: refused 12"),
    ] {
        let name = line.split(' ').next().unwrap();
        assert_eq!(told(line), Some(format!("line 1, {name}: {words}")), "{line}");
    }
    assert!(told("idle out 5 answer 0 _5_").is_some());
}

fn recoveries() -> String {
    let file = Path::new(env!("CARGO_MANIFEST_DIR")).join("../tests/recovery.txt");
    std::fs::read_to_string(file).unwrap()
}

/// The vectors of T-04, with every answer that recover has, and buffers that are too short.
#[test]
fn recoveries_of_the_vectors() {
    let cases = read_calls(&recoveries(), &FUNCTIONS).unwrap();
    assert_eq!(cases.len(), 600);
    for case in &cases {
        assert_eq!(call_difference(&Own, case), None);
        assert_eq!(case.written.len(), if case.answer == 0 { 232 } else { 0 });
    }
    for answer in [0, 1, 7, 9, 12, 255] {
        assert!(cases.iter().filter(|case| case.answer == answer).count() > 10, "{answer}");
    }
}

/// The vectors of T-07, with every answer of a Bully step.
#[test]
fn bully_steps_of_the_vectors() {
    let file = Path::new(env!("CARGO_MANIFEST_DIR")).join("../tests/bully.txt");
    let cases = read_calls(&std::fs::read_to_string(file).unwrap(), &FUNCTIONS).unwrap();
    assert_eq!(cases.len(), 600);
    for case in &cases {
        assert_eq!(call_difference(&Own, case), None);
        assert_eq!(case.written.len(), if case.answer == 0 { 193 } else { 0 });
    }
    for answer in [0, 1, 3, 4, 5, 7, 8, 9, 10, 255] {
        assert!(cases.iter().filter(|case| case.answer == answer).count() >= 10, "{answer}");
    }
}

fn turns() -> Vec<CallCase> {
    let file = Path::new(env!("CARGO_MANIFEST_DIR")).join("../tests/turns.txt");
    read_calls(&std::fs::read_to_string(file).unwrap(), &FUNCTIONS).unwrap()
}

/// The vectors of T-09, with every answer of a turn, and everything that a turn does.
#[test]
fn turns_of_the_vectors() {
    let cases = turns();
    assert_eq!(cases.len(), 600);
    for case in &cases {
        assert_eq!(call_difference(&Own, case), None);
        assert_eq!(case.written.len(), if case.answer == 0 { 4439 } else { 0 });
    }
    for answer in [0, 1, 7, 255] {
        assert!(cases.iter().filter(|case| case.answer == answer).count() >= 20, "{answer}");
    }
    for done in [0, 1, 2] {
        let does = |case: &&CallCase| case.written.last() == Some(&done);
        assert!(cases.iter().filter(does).count() > 80, "{done}");
    }
}

/// Of a turn, everything is compared that is part of the table, the next place and what was done; what stands
/// behind the n records and behind the waiting messages is free, and what a message's kind does not carry.
#[test]
fn every_byte_of_a_turn_that_is_not_free_is_compared() {
    let wrong = |place: usize| {
        let turn = move |table: &[u8], a: u8, b: u8, out: &mut [u8]| {
            let answer = Own.turn(table, a, b, out);
            if answer == 0 {
                out[place] ^= 1;
            }
            answer
        };
        Functions { turn: Box::new(turn), ..Functions::default() }
    };
    let cases = turns();
    let many = |case: &&CallCase| case.written.len() == 4439 && case.written[1361] > 3;
    let case = cases.iter().find(many).unwrap();
    let (n, waiting) = (usize::from(case.written[0]), usize::from(case.written[1361]));
    let mut free = [false; 4439];
    free[1 + 29 * n..465].fill(true);
    free[465 + 14 * waiting..1361].fill(true);
    for at in (465..465 + 14 * waiting).step_by(14) {
        // Group 7 to 10, task 11 to 12, yes 13.
        let not_carried = match case.written[at + 2] {
            1 => 7..14,
            5 => 13..14,
            6 => 7..13,
            _ => 11..14,
        };
        free[at..][not_carried].fill(true);
    }
    for (place, free) in free.into_iter().enumerate() {
        assert_eq!(call_difference(&wrong(place), case).is_none(), free, "{place}");
    }
}

/// Of the bytes that out begins with, those that are free are not compared.
#[test]
fn free_bytes_are_not_compared() {
    static WRITER: [Function; 1] = [Function {
        name: "writes",
        takes: &[],
        call: |_, _, out| {
            out[..5].copy_from_slice(&[1, 2, 3, 4, 5]);
            0
        },
        free: |written| vec![1..2, 3..written.len() - 1],
    }];
    let told = |line: &str| call_difference(&Own, &read_calls(line, &WRITER).unwrap()[0]);
    assert_eq!(told("writes out 9 answer 0 0109030905"), None);
    assert!(told("writes out 9 answer 0 0909030905").is_some());
    assert!(told("writes out 9 answer 0 0109090905").is_some());
    assert!(told("writes out 9 answer 0 0109030909").is_some());
    assert!(told("writes out 9 answer 0 01090304").is_some());
}

/// T-04's tables get counts, what waits of each pair was sent, and the tower's limits. One that was cut short is
/// filled up, and what stood behind a longer one stands behind the limits.
#[test]
fn older_tables_get_counts_and_limits() {
    let mut table = Table::start(3, TOWER);
    let mut ask = |sender: u8, receiver: u8| {
        let body = Body::AreYouCoordinator;
        table.messages.push(Message { sender, receiver, call: 1, body });
    };
    ask(1, 2);
    ask(3, 2);
    ask(1, 2);
    let whole = |table: &Table| {
        let mut bytes = [0; TABLE_BYTES];
        table_to_bytes(table, &mut bytes);
        bytes
    };
    let old = &whole(&table)[..COUNTS_AT];
    count_waiting(&mut table);
    assert!(table.in_range());
    let expected = whole(&table);
    assert_eq!(expected[4434..], [16, 64]);
    assert_eq!(completed(old), expected);
    let longer = [old, &[7, 0, 8, 0]].concat();
    assert_eq!(completed(&longer), [&expected[..], &[7, 0, 8, 0]].concat());
    // Bytes in another form stay in it.
    let mut other = old.to_vec();
    (other[1], other[100], other[1300]) = (4, 9, 10);
    assert_eq!(completed(&other)[..COUNTS_AT], other);
    assert_eq!(completed(&other)[COUNTS_AT..], expected[COUNTS_AT..]);
    // Cut behind its nodes; then nothing waits.
    let filled = |cut: &[u8]| {
        let mut bytes = [0; TABLE_BYTES];
        bytes[..cut.len()].copy_from_slice(cut);
        (bytes[4434], bytes[4435]) = (16, 64);
        bytes
    };
    for cut in [&[&[3][..], &[0; 80], &[5; 30]].concat()[..], &[2, 0, 0], &[2], &[]] {
        assert_eq!(completed(cut), filled(cut));
    }
    // Messages of no pair are not counted.
    for (sender, receiver) in [(0, 1), (1, 0), (4, 1), (1, 4), (17, 1), (2, 2)] {
        let mut old = whole(&Table::start(3, TOWER))[..COUNTS_AT].to_vec();
        (old[465], old[466], old[1361]) = (sender, receiver, 1);
        assert_eq!(completed(&old), filled(&old));
    }
}

/// As they stand, the tables of T-04's vectors are now out of range: their limits are read as 0.
#[test]
fn recoveries_without_limits() {
    let mut refused = 0;
    for line in recoveries().lines() {
        let words: Vec<&str> = line.split(' ').collect();
        let table = peer::vectors::read_hex(words[1]).unwrap();
        let (node, room) = (words[2].parse().unwrap(), words[4].parse().unwrap());
        let answer: u8 = words[6].parse().unwrap();
        let now = Own.recovery(&table, node, &mut vec![0; room]);
        assert_eq!(now, if answer == 255 { 255 } else { 1 }, "{words:?}");
        refused += u32::from(now != answer);
    }
    assert!(refused > 100, "{refused}");
}

/// A library with one wrong byte in the records is found by the vectors, whichever byte it is.
#[test]
fn every_byte_of_the_records_is_compared() {
    let wrong = |place: usize| {
        let recovery = move |table: &[u8], node: u8, out: &mut [u8]| {
            let answer = Own.recovery(table, node, out);
            if answer == 0 {
                out[place] ^= 1;
            }
            answer
        };
        Functions { recovery: Box::new(recovery), ..Functions::default() }
    };
    let cases = read_calls(&recoveries(), &FUNCTIONS).unwrap();
    let accepted = cases.iter().find(|case| case.answer == 0).unwrap();
    for place in 0..232 {
        assert!(call_difference(&wrong(place), accepted).is_some(), "{place}");
    }
}

fn controllers() -> Vec<CallCase> {
    let file = Path::new(env!("CARGO_MANIFEST_DIR")).join("../tests/controllers.txt");
    read_calls(&std::fs::read_to_string(file).unwrap(), &FUNCTIONS).unwrap()
}

/// The vectors of T-11, with every answer of a controller, to events and to messages.
#[test]
fn controllers_of_the_vectors() {
    let cases = controllers();
    assert_eq!(cases.len(), 700);
    for case in &cases {
        assert_eq!(call_difference(&Own, case), None);
        let length = case.written.get(29).map_or(0, |&length| 30 + usize::from(length));
        assert_eq!(case.written.len(), length);
        assert_eq!(case.answer == 0, length > 0);
    }
    let of = |name: &str, answer: u8| {
        cases.iter().filter(|case| case.function.name == name && case.answer == answer).count()
    };
    for answer in [0, 1, 3, 4, 5, 7, 8, 9, 10, 12, 13, 18, 19, 21, 255] {
        assert!(of("nevraspu_controller_event", answer) >= 7, "{answer}");
    }
    // No vector has a message that meets 12.
    for answer in [0, 1, 9, 13, 20, 21, 255] {
        assert!(of("nevraspu_controller_message", answer) >= 4, "{answer}");
    }
}

/// Of what a controller writes, everything is compared but what stands between the message and 55.
#[test]
fn every_byte_of_a_share_that_is_not_free_is_compared() {
    let wrong = |place: usize| {
        let controller = move |n: u8, own: u8, record: &[u8], message: &[u8], out: &mut [u8]| {
            let answer = Own.controller_message(n, own, record, message, out);
            if answer == 0 {
                out[place] ^= 1;
            }
            answer
        };
        Functions { controller_message: Box::new(controller), ..Functions::default() }
    };
    let cases = controllers();
    let mut compared = [0; 2];
    for case in cases.iter().filter(|case| case.function.name == "nevraspu_controller_message") {
        let sends = case.answer == 0 && case.written[29] > 0;
        if sends && case.room > 55 {
            for place in 0..case.room {
                let free = (case.written.len()..55).contains(&place);
                let found = call_difference(&wrong(place), case).is_some();
                assert_eq!(found, !free, "{place}");
                compared[usize::from(found)] += 1;
            }
        }
    }
    assert!(compared[0] > 40 && compared[1] > 400, "{compared:?}");
}
