//! T-06 of document 02, "Checks only by a coordinator": ground 18 by hand and its order, what is printed, the
//! random tables of the fuzzer, and libraries that are wrong on purpose.

use crate::printing;
use crate::wrong_libraries;

use peer::check_corners::lowest_other;
use peer::compare::list_difference;
use peer::drive::run;
use peer::list::{write_list, List};
use peer::machine::*;
use peer::numbers::Numbers;
use peer::print::print_table;
use peer::tables::to_check;
use peer::traffic_tables::{count_waiting, pairs};
use printing::{by_all, Prints};
use wrong_libraries::{found, steps, texts};
use Event::*;
use Status::*;

/// A table of n nodes that have each recovered once.
fn recovered(n: u8) -> Table {
    let mut table = Table::start(n, TOWER);
    for i in 1..=n {
        step(&mut table, &Recover(i)).unwrap();
    }
    table
}

/// The same, where node 1 has this status and is in a group of this owner's.
fn node_1(n: u8, status: Status, owner: u8) -> Table {
    let mut table = recovered(n);
    let node = &mut table.nodes[0];
    (node.status, node.group, node.coordinator) = (status, group_number(7, owner), owner);
    table
}

fn refused(table: &Table, event: Event, number: u8) {
    let mut same = table.clone();
    assert_eq!(step(&mut same, &event), Err(number), "{event:?}");
    assert_eq!(&same, table);
}

/// A check that is accepted and changes nothing.
fn without_effect(table: &Table) {
    let mut same = table.clone();
    assert_eq!(step(&mut same, &Check(1)), Ok(()));
    assert_eq!(&same, table);
}

/// "With n = 1 such a check still passes without effect": one of a node that is Normal, where a call is not
/// needed. A node alone that is not Normal is turned away as any other.
#[test]
fn one_node() {
    let mut table = recovered(1);
    without_effect(&table);
    table.nodes[0].last_call = MAX_CALL;
    without_effect(&table);
    refused(&table, Check(2), 7);
    refused(&node_1(1, Election, 1), Check(1), 18);
    refused(&node_1(1, Reorganization, 1), Check(1), 18);
    step(&mut table, &Crash(1)).unwrap();
    refused(&table, Check(1), 9);
}

/// "A check shall be turned away unless the cabinet is Normal and its own coordinator."
#[test]
fn each_status_and_coordinator() {
    for n in 2..=16 {
        for owner in 1..=n {
            for status in [Election, Reorganization, Normal] {
                let mut table = node_1(n, status, owner);
                if (status, owner) != (Normal, 1) {
                    refused(&table, Check(1), 18);
                    continue;
                }
                step(&mut table, &Check(1)).unwrap();
                assert_eq!(table.node(1).activity, Activity::Asking { asked: 2, found: 0 });
            }
        }
    }
}

/// Whoever checks asks the lowest other node.
#[test]
fn the_first_question() {
    for n in 2..=16 {
        for i in 1..=n {
            let mut table = recovered(n);
            let mut expected = table.clone();
            let asked = if i == 1 { 2 } else { 1 };
            let node = &mut expected.nodes[usize::from(i) - 1];
            (node.last_call, node.activity) = (1, Activity::Asking { asked, found: 0 });
            let body = Body::AreYouCoordinator;
            expected.messages.push(Message { sender: i, receiver: asked, call: 1, body });
            count_waiting(&mut expected);
            step(&mut table, &Check(i)).unwrap();
            assert_eq!(table, expected);
        }
    }
}

/// K10's events: node 1 is in Reorganization after the first eight, and Normal, a member, after eleven.
fn k10() -> Vec<Event> {
    let mut events = vec![Recover(1), Recover(2), Check(2)];
    for _ in 0..3 {
        events.extend([Deliver(2, 1), Deliver(1, 2)]);
    }
    events.extend([Finish(2, 100), Deliver(2, 1), Deliver(1, 2)]);
    events
}

/// A check of each node before each of K10's events, and after the last.
#[test]
fn checks_in_k10() {
    let mut table = Table::start(2, TOWER);
    // The answers at node 1 and at node 2; 0 is accepted.
    let expected = [
        [9, 9],
        [0, 9],
        [0, 0],
        [0, 10],
        [0, 10],
        [0, 10],
        [10, 10],
        [10, 10],
        [18, 10],
        [18, 10],
        [18, 10],
        [18, 10],
        [18, 0],
    ];
    let mut events = k10().into_iter();
    for answers in expected {
        for (i, answer) in (1..).zip(answers) {
            match answer {
                0 => step(&mut table.clone(), &Check(i)).unwrap(),
                number => refused(&table, Check(i), number),
            }
        }
        if let Some(event) = events.next() {
            step(&mut table, &event).unwrap();
        }
    }
    let node = table.node(1);
    assert_eq!((node.status, node.coordinator), (Normal, 2));
}

/// 9 comes before it: a Down node, whose coordinator is none, itself or another.
#[test]
fn down_nodes() {
    refused(&Table::start(2, TOWER), Check(1), 9);
    for owner in [1, 2] {
        refused(&node_1(2, Down, owner), Check(1), 9);
    }
}

/// 10 comes before it: each activity but idle, whatever status and coordinator are.
#[test]
fn busy_nodes() {
    let (rest, now, caller, call) = (only(3), 2, 3, 9);
    let activities = [
        Activity::Asking { asked: 2, found: rest },
        Activity::Waiting { ticks: 1, found: rest },
        Activity::Inviting { found: rest, former: 0, now },
        Activity::Collecting,
        Activity::Handing { rest, now },
        Activity::Contacting,
        Activity::Forwarding { rest, now, caller, call },
        Activity::Accepting { caller, call },
    ];
    for status in [Election, Reorganization, Normal] {
        for owner in [1, 2] {
            for activity in activities {
                let mut table = node_1(3, status, owner);
                (table.nodes[0].activity, table.nodes[0].task) = (activity, 100);
                let not_owner =
                    matches!(activity, Activity::Forwarding { .. } | Activity::Accepting { .. });
                refused(&table, Check(1), if not_owner && owner == 1 { 1 } else { 10 });
                table.nodes[0].status = Down;
                refused(&table, Check(1), 1);
            }
        }
    }
}

/// 13, 14 and 17 come after it, alone and all together.
#[test]
fn ends_of_ranges() {
    let ends: [fn(&mut Table); 3] = [
        |table| table.nodes[0].last_call = MAX_CALL,
        |table| {
            let body = Body::AreYouCoordinator;
            table.messages = vec![Message { sender: 2, receiver: 1, call: 1, body }; 64];
            table.traffic.sent[1][0] = 64;
        },
        |table| {
            table.traffic.sent[0][1] = MAX_COUNT;
            table.traffic.lost[0][1] = MAX_COUNT;
        },
    ];
    let numbers = [13, 14, 17];
    for status in [Election, Reorganization, Normal] {
        for owner in [1, 2] {
            let right = (status, owner) == (Normal, 1);
            let mut all = node_1(3, status, owner);
            for (end, number) in ends.into_iter().zip(numbers).rev() {
                let mut table = node_1(3, status, owner);
                end(&mut table);
                refused(&table, Check(1), if right { number } else { 18 });
                end(&mut all);
                refused(&all, Check(1), if right { number } else { 18 });
            }
        }
    }
    // A count of another pair is no ground.
    let mut table = recovered(3);
    for (a, b) in pairs(3).filter(|&pair| pair != (1, 2)) {
        *count_mut(&mut table.traffic.sent, a, b) = MAX_COUNT;
        *count_mut(&mut table.traffic.lost, a, b) = MAX_COUNT;
    }
    step(&mut table, &Check(1)).unwrap();
}

/// 1 and 7 come before it, and no other event meets it.
#[test]
fn other_grounds_and_events() {
    let mut table = node_1(3, Normal, 2);
    refused(&table, Check(0), 7);
    refused(&table, Check(4), 7);
    for event in [Timeout(1), Crash(1)] {
        assert_eq!(step(&mut table.clone(), &event), Ok(()));
    }
    refused(&table, Recover(1), 9);
    refused(&table, Tick(1), 10);
    refused(&table, Deliver(2, 1), 11);
    table.nodes[0].members = only(1);
    refused(&table, Check(1), 1);
}

/// "Like 17 and any later ground of an event, it skips the event": its line is printed, and the list goes on.
fn printed(print: Prints) {
    // Node 1 is a member; it checks in vain, also as the 106th event, and then alone.
    let mut events = k10();
    events.extend([Check(1), Check(2), Check(1)]);
    events.extend([Crash(2); 90]);
    events.extend([Check(1), Timeout(1), Expire(1), Check(1)]);
    let mut text = String::from("cabinets 2\nrefused 13 18\nrefused 15 18\n");
    for e in 17..=105 {
        text += &format!("refused {e} 9\n");
    }
    text += "refused 106 18\n1 3 1 32 1 2 0\n2 0 2 33 100 2 1\n";
    // AreYouCoordinator to 1, AreYouThere to 2, AreYouCoordinator to 2.
    text += "messages 3\nsent 11\ndelivered 8\nlost 0\n";
    assert_eq!(print(&write_list(2, TOWER, &events)), text);
    // One that is refused last, and one behind which the list stops.
    let ended = "1 2 2 33 1 1 0\n2 1 2 33 2 2 1\nmessages 1\nsent 6\ndelivered 5\nlost 0\n";
    let mut events = k10();
    events.truncate(8);
    events.push(Check(1));
    let mut list = write_list(2, TOWER, &events);
    let text = format!("cabinets 2\nrefused 9 18\n{ended}");
    assert_eq!(print(&list), text);
    let at = list.len();
    list.push(0x12);
    let text = format!("cabinets 2\nrefused 9 18\nstopped {at} 3\n{ended}");
    assert_eq!(print(&list), text);
    // A node alone.
    let events = [Check(1), Recover(1), Check(1), Crash(1), Check(1)];
    let text = "cabinets 1\nrefused 1 9\nrefused 5 9\n1 0 1 16 1 1 0\n\
                messages 0\nsent 0\ndelivered 0\nlost 0\n";
    assert_eq!(print(&write_list(1, TOWER, &events)), text);
}

#[test]
fn printed_by_all() {
    by_all(printed);
}

/// In a run no idle node is in Election, and none in Reorganization is its own coordinator; what ground 18
/// then meets is a member, in Reorganization or Normal.
#[test]
fn idle_nodes_in_runs() {
    let mut numbers = Numbers::new(1);
    let mut met = [0; 2];
    for _ in 0..800 {
        let n = numbers.between(1, 6) as u8;
        let mut table = Table::start(n, TOWER);
        for event in run(n, TOWER, 400, &mut numbers) {
            let answer = advance(&mut table, &event);
            for i in 1..=n {
                let node = table.node(i);
                let refused = u32::from(event == Check(i) && answer == Err(18));
                match (node.status, node.coordinator == i) {
                    _ if node.activity != Activity::Idle => {}
                    (Down, _) | (Normal, true) => {}
                    (Reorganization, false) => met[0] += refused,
                    (Normal, false) => met[1] += refused,
                    what => panic!("{what:?}"),
                }
            }
        }
    }
    assert!(met.iter().all(|&count| count > 500), "{met:?}");
}

/// The tables that the fuzzer makes for checks: each kind of node idle and with each activity, with each
/// answer, and the question where one is accepted.
#[test]
fn tables_to_check() {
    let mut numbers = Numbers::new(2);
    let mut met = std::collections::BTreeMap::new();
    for _ in 0..60_000 {
        let (table, event) = to_check(&mut numbers);
        let mut after = table.clone();
        let answer = step(&mut after, &event);
        let Check(i) = event else {
            panic!("{event:?}");
        };
        if answer.is_err() {
            assert_eq!(after, table);
        }
        if matches!(answer, Err(1 | 7)) {
            *met.entry((answer, None)).or_insert(0) += 1;
            continue;
        }
        let node = table.node(i);
        if answer.is_ok() && table.n > 1 {
            let sent = after.messages.last().unwrap();
            assert_eq!((sent.sender, sent.receiver), (i, lowest_other(i)));
        } else {
            assert_eq!(after, table);
        }
        let activity = peer::proved::tag(&node.activity);
        let is = (node.status as u8, node.coordinator == i, activity);
        *met.entry((answer, Some(is))).or_insert(0) += 1;
    }
    let mut expected = vec![(Ok(()), Some((3, true, 0))), (Err(1), None), (Err(7), None)];
    expected.extend([false, true].map(|own| (Err(9), Some((0, own, 0)))));
    for status in 1..=3 {
        for activity in 1..=8 {
            expected.push((Err(10), Some((status, false, activity))));
            if activity <= 6 {
                expected.push((Err(10), Some((status, true, activity))));
            }
        }
    }
    expected.extend([13, 14, 17].map(|number| (Err(number), Some((3, true, 0)))));
    for (status, own) in [(1, false), (1, true), (2, false), (2, true), (3, false)] {
        expected.push((Err(18), Some((status, own, 0))));
    }
    expected.sort();
    assert_eq!(met.keys().copied().collect::<Vec<_>>(), expected);
    assert!(met.values().all(|&count| count > 100), "{met:?}");
}

/// What is answered instead of the right answer to a check, if something is.
type Slip = fn(&mut Table, u8, Result<(), u8>) -> Option<Result<(), u8>>;

fn turned_away(table: &Table, i: u8) -> bool {
    let node = table.node(i);
    node.status != Normal || node.coordinator != i
}

/// As if the node were Normal and its own coordinator; what stands for that is put back.
fn asks_all_the_same(table: &mut Table, i: u8) -> Result<(), u8> {
    let k = usize::from(i) - 1;
    let before = table.nodes[k];
    table.nodes[k].status = Normal;
    table.nodes[k].coordinator = i;
    let answer = advance(table, &Check(i));
    table.nodes[k].status = before.status;
    table.nodes[k].coordinator = before.coordinator;
    answer
}

/// Machines with another ground 18 are found.
#[test]
fn wrong_grounds_are_found() {
    let slips: [(&str, Slip); 15] = [
        ("18 before 1", |_, _, right| (right == Err(1)).then_some(Err(18))),
        ("18 before 7", |_, _, right| (right == Err(7)).then_some(Err(18))),
        ("18 before 9", |_, _, right| (right == Err(9)).then_some(Err(18))),
        ("18 before 10", |table, i, right| {
            (right == Err(10) && turned_away(table, i)).then_some(Err(18))
        }),
        ("10 in its place", |_, _, right| (right == Err(18)).then_some(Err(10))),
        ("another number", |_, _, right| (right == Err(18)).then_some(Err(16))),
        ("no 18 at all", |_, _, right| (right == Err(18)).then_some(Ok(()))),
        ("no look at the status", |table, i, right| {
            let own = right == Err(18) && table.node(i).coordinator == i;
            own.then(|| asks_all_the_same(table, i))
        }),
        ("no look at the coordinator", |table, i, right| {
            let normal = right == Err(18) && table.node(i).status == Normal;
            normal.then(|| asks_all_the_same(table, i))
        }),
        ("neither", |table, i, right| (right == Err(18)).then(|| asks_all_the_same(table, i))),
        ("with n = 1 always", |table, _, right| {
            (right == Ok(()) && table.n == 1).then_some(Err(18))
        }),
        ("with n = 1 never", |table, _, right| {
            (right == Err(18) && table.n == 1).then_some(Ok(()))
        }),
        ("after 13", |table, i, right| {
            let end = right == Err(18) && table.n > 1 && table.node(i).last_call == MAX_CALL;
            end.then_some(Err(13))
        }),
        ("after 14", |table, _, right| {
            (right == Err(18) && table.messages.len() == 64).then_some(Err(14))
        }),
        ("after 17", |table, i, right| {
            let end = right == Err(18)
                && table.n > 1
                && count_of(&table.traffic.sent, i, lowest_other(i)) == MAX_COUNT;
            end.then_some(Err(17))
        }),
    ];
    for (name, slip) in slips {
        let machine = |table: &mut Table, event: &Event| {
            let mut after = table.clone();
            let right = step(&mut after, event);
            if let Check(i) = *event {
                let mut other = table.clone();
                if let Some(answer) = slip(&mut other, i, right) {
                    *table = other;
                    return answer;
                }
            }
            *table = after;
            right
        };
        assert!(found(steps(machine)) > 0, "{name}");
    }
    let timeouts = |table: &mut Table, event: &Event| {
        let mut after = table.clone();
        step(&mut after, event)?;
        match *event {
            Timeout(i) if turned_away(table, i) => return Err(18),
            _ => *table = after,
        }
        Ok(())
    };
    assert!(found(steps(timeouts)) > 0);
}

/// List programs that do not skip the event as others are skipped are found by a short list.
#[test]
fn wrong_texts_are_found() {
    /// What is done with an event: the text so far, the table, the event's number, the event, and
    /// whether one before it was refused 18.
    type Each = fn(&mut String, &mut Table, usize, &Event, bool);
    fn text_by(each: Each, list: &[u8]) -> String {
        let List { n, events, .. } = peer::list::read_list(list).unwrap();
        let mut table = Table::start(n, TOWER);
        let mut text = format!("cabinets {n}\n");
        let mut met = false;
        for (k, event) in events.iter().enumerate() {
            let answer = step(&mut table.clone(), event);
            each(&mut text, &mut table, k + 1, event, met);
            met |= answer == Err(18);
        }
        print_table(&mut text, &table);
        text
    }
    fn right(text: &mut String, table: &mut Table, e: usize, event: &Event, _: bool) {
        if let Err(r) = step(table, event) {
            *text += &format!("refused {e} {r}\n");
        }
    }
    let mut events = k10();
    events.extend([Check(1), Check(2)]);
    let list = write_list(2, TOWER, &events);
    let difference = |each: Each| list_difference(&texts(|list| text_by(each, list)), &list);
    assert_eq!(difference(right), None);
    let stops: Each = |text, table, e, event, met| {
        if !met {
            right(text, table, e, event, met);
        }
    };
    assert!(difference(stops).is_some());
    let says_nothing: Each = |_, table, _, event, _| {
        let _ = step(table, event);
    };
    assert!(difference(says_nothing).is_some());
}
