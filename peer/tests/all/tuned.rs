//! The program written for speed prints what the machine prints: on random runs, damaged lists, short ones
//! of every n, and into every room. The fuzzer compares it on each of its lists too.

use crate::common;

use common::{invited_twice, LATE, NODES};
use peer::compare::printed_difference;
use peer::damage::damage;
use peer::drive::{full_run, run, FULL, QUIET, REFUSED};
use peer::limit_tables::any_limits;
use peer::list::{write_list, MAX_LIST};
use peer::machine::{Event, STAND, TOWER};
use peer::numbers::Numbers;
use peer::print::run_list;
use peer::proved::Own;
use peer::tuned;

fn printed(list: &[u8]) -> Vec<u8> {
    let mut out = vec![0; 1 << 19];
    let length = tuned::print(list, &mut out).expect("the text fits");
    out.truncate(length);
    out
}

fn assert_same(list: &[u8]) {
    let text = run_list(list);
    // Own prints by run_list, so a difference is tuned's.
    if let Some(words) = printed_difference(&Own, list, &text, text.len() + 9) {
        panic!("{words}\n{}", peer::compare::list_words(list));
    }
}

#[test]
fn random_runs_and_damaged_lists() {
    let mut numbers = Numbers::new(11);
    for k in 0..3000 {
        let limits = any_limits(&mut numbers);
        let n = numbers.between(1, u32::from(limits.nodes)) as u8;
        let list = write_list(n, limits, &run(n, limits, 20 + k % 400, &mut numbers));
        assert_same(&list);
        for _ in 0..4 {
            let mut damaged = list.clone();
            damage(&mut damaged, &mut numbers);
            assert_same(&damaged);
        }
    }
}

#[test]
fn full_lists() {
    let mut numbers = Numbers::new(12);
    for limits in [TOWER, STAND] {
        for n in 1..=limits.nodes {
            for manner in [&QUIET, &FULL, &REFUSED] {
                let events = full_run(n, limits, manner, &mut numbers);
                assert_same(&write_list(n, limits, &events));
            }
        }
    }
}

/// The most events that a list can have, all of them refused: the longest text.
#[test]
fn most_events() {
    let list = write_list(16, TOWER, &vec![Event::Crash(16); (MAX_LIST - 4) / 4]);
    assert_eq!(list.len(), MAX_LIST);
    assert_same(&list);
    assert!(String::from_utf8(printed(&list)).unwrap().contains("\nrefused 16383 9\n"));
}

/// Every event on every node and number, after a run.
#[test]
fn every_event_after_a_run() {
    let mut numbers = Numbers::new(13);
    for n in 1..=16 {
        let list = write_list(n, TOWER, &run(n, TOWER, 200, &mut numbers));
        for tag in 0x10..=0x18 {
            for i in [0, 1, 2, n - 1, n, n + 1, 16, 17, 18, 32, 33, 255] {
                for j in [0, 1, 2, n - 1, n, n + 1, 16, 17, 18, 32, 33, 255] {
                    let mut list = list.clone();
                    match tag {
                        0x16 => {
                            list.extend([tag, 0, 3, i, 0, j]);
                            list.extend([tag, 0, 3, i, j, 99]);
                        }
                        0x17 | 0x18 => list.extend([tag, 0, 2, i, j]),
                        _ => list.extend([tag, 0, 1, i]),
                    }
                    assert_same(&list);
                }
            }
        }
    }
}

/// A list cut after each of its bytes, and every tag and length as its second field.
#[test]
fn every_cut_and_every_field() {
    let list =
        write_list(2, TOWER, &[Event::Recover(1), Event::Finish(1, 100), Event::Deliver(1, 2)]);
    for length in 0..=list.len() {
        assert_same(&list[..length]);
    }
    for tag in 0..=255 {
        for length in 0..=9u8 {
            for left in 0..=length {
                let field = [&[tag, 0, length][..], &vec![1; usize::from(left)]].concat();
                assert_same(&field);
                assert_same(&[&list[..4], &field].concat());
                assert_same(&[&list[..4], &field, &[0x11, 0, 1, 2]].concat());
            }
        }
        assert_same(&[&list[..4], &[tag, 1, 1, 1]].concat());
        for first in 0..=3 {
            assert_same(&[first, 0, 1, tag]);
            assert_same(&[first, 0, 2, 1, tag]);
            assert_same(&[first, 0, 1, 2, tag, 0, 1, 2]);
        }
    }
    for length in [MAX_LIST - 1, MAX_LIST, MAX_LIST + 1, 200_000] {
        let mut long = list.clone();
        long.resize(length, 0);
        assert_same(&long);
    }
}

#[test]
fn every_room() {
    let mut numbers = Numbers::new(14);
    let lists = [
        write_list(2, TOWER, &[Event::Recover(2); 120]),
        write_list(16, TOWER, &run(16, TOWER, 150, &mut numbers)),
        vec![],
        vec![1, 0, 1, 17],
    ];
    for list in lists {
        let text = run_list(&list);
        for room in 0..text.len() + 70 {
            assert_eq!(printed_difference(&Own, &list, &text, room), None);
        }
    }
}

/// `messages` and T-05's lines, where so many deliveries are refused, no loss is, and so many messages wait.
fn totals(events: &[Event], refused: usize, waiting: usize) -> String {
    let count = |fits: fn(&&Event) -> bool| events.iter().filter(fits).count();
    let delivered = count(|event| matches!(event, Event::Deliver(..))) - refused;
    let lost = count(|event| matches!(event, Event::Lose(..)));
    let sent = delivered + lost + waiting;
    format!("messages {waiting}\nsent {sent}\ndelivered {delivered}\nlost {lost}\n")
}

/// T-02 of document 02, where the text shows it: nobody but the highest of a set has a message.
#[test]
fn higher_numbers_first() {
    use Event::*;
    let mut events: Vec<Event> = (1..=4).map(Recover).collect();
    let mut refused = String::new();
    let mut none_for_1 = |events: &mut Vec<Event>| {
        events.push(Deliver(4, 1));
        refused += &format!("refused {} 11\n", events.len());
    };
    let there_and_back = |a: u8, b: u8| [Deliver(a, b), Deliver(b, a)];
    // Asking, from 1 up; 5 is Down.
    events.push(Check(4));
    for i in 1..=3 {
        events.extend(there_and_back(4, i));
    }
    events.push(Expire(4));
    // Inviting.
    for i in [3, 2, 1] {
        if i != 1 {
            none_for_1(&mut events);
        }
        events.extend(there_and_back(4, i));
        events.extend(there_and_back(4, i));
    }
    events.push(Finish(4, 100));
    // Handing.
    for i in [3, 2, 1] {
        if i != 1 {
            none_for_1(&mut events);
        }
        events.extend(there_and_back(4, i));
    }
    events.extend([Lose(4, 5), Recover(5), Check(5)]);
    for i in 1..=4 {
        events.extend(there_and_back(5, i));
    }
    // Forwarding.
    events.push(Deliver(5, 4));
    none_for_1(&mut events);
    events.extend([Deliver(4, 3), Deliver(3, 5), Deliver(5, 3), Deliver(3, 4)]);
    none_for_1(&mut events);
    let totals = totals(&events, refused.lines().count(), 1);
    let text = format!(
        "cabinets 5\n{refused}1 3 4 35 100 1 0\n2 3 4 35 100 1 0\n3 2 5 36 100 1 0\n\
         4 1 5 36 100 2 3\n5 1 5 36 5 2 1\n{totals}"
    );
    let list = write_list(5, TOWER, &events);
    assert_eq!(String::from_utf8(printed(&list)).unwrap(), text);
    assert_eq!(String::from_utf8(run_list(&list)).unwrap(), text);
}

/// T-03 of document 02: the text is the same before and after the late delivery. What follows shows the
/// reply and its call's number, and that the node is still doing what it did.
#[test]
fn invited_twice_as_text() {
    use Event::*;
    let text = |events: &[Event]| {
        let list = write_list(NODES, TOWER, events);
        assert_same(&list);
        String::from_utf8(printed(&list)).unwrap()
    };
    let told = |events: &[Event], words: &str, refused: usize, waiting: usize| {
        format!("cabinets 3\n{words}{}", totals(events, refused, waiting))
    };
    for (given_up, nodes) in [
        (false, "1 3 3 34 300 1 0\n2 1 3 34 250 2 1\n3 3 3 34 300 2 1\n"),
        (true, "1 3 3 34 300 1 0\n2 3 3 34 300 2 1\n3 3 3 34 300 2 2\n"),
    ] {
        let mut events = invited_twice(given_up);
        assert_eq!(text(&events), told(&events, nodes, 0, 1));
        events.push(LATE);
        assert_eq!(text(&events), told(&events, nodes, 0, 1));
        // Node 2 goes on and calls Accept, if its call is open. There is no second reply.
        events.push(Deliver(1, 2));
        let waiting = usize::from(!given_up);
        assert_eq!(text(&events), told(&events, nodes, 0, waiting));
        events.push(Deliver(1, 2));
        let refused = format!("refused {} 11\n", events.len());
        assert_eq!(text(&events), told(&events, &(refused + nodes), 1, waiting));
        // A contacting node still is one, with its call open and its answer to come.
        let mut events = invited_twice(given_up);
        events.extend([Timeout(1), LATE, Timeout(1)]);
        let refused = format!("refused {} 10\n", events.len());
        let words = refused + nodes;
        assert_eq!(text(&events), told(&events, &words, 0, 2));
        events.extend([Deliver(1, 3), Deliver(3, 1), Timeout(1)]);
        assert_eq!(text(&events), told(&events, &words, 0, 2));
    }
}
