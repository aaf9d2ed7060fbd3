//! T-10 of document 02, "Full peal only by a majority": ground 19 by hand and its order, what is printed, the random
//! tables and runs of the fuzzer, what is counted and told of finishes, and machines that are wrong on purpose.

use crate::met_corners;
use crate::printing;
use crate::wrong_libraries;

use met_corners::met_corners;
use peer::bully;
use peer::compare::{list_difference, run_difference, walk_difference};
use peer::corners::{Before, Corners, Source};
use peer::drive::{run_with_full_peals, Run};
use peer::left_members::{left_members, too_few_members};
use peer::list::{read_list, write_list};
use peer::machine::*;
use peer::numbers::Numbers;
use peer::print::{run_list, run_list_by};
use peer::proved::Own;
use peer::tables::to_finish;
use peer::tally::Book;
use peer::traffic_tables::pairs;
use peer::vectors::{read_lists, read_steps};
use printing::{by_all, Prints};
use std::path::Path;
use wrong_libraries::{found, steps, texts};
use Event::*;
use Status::*;

/// What is done to a table.
type Change = fn(&mut Table);

const FULL: [u16; 5] = [100, 101, 150, 198, 199];
const OTHERS: [u16; 4] = [200, 201, 1000, 65_535];

/// A table of n nodes that have each recovered once, in which node i collects, with these members.
fn collecting_at(n: u8, limits: Limits, i: u8, members: Set) -> Table {
    let mut table = Table::start(n, limits);
    for i in 1..=n {
        step(&mut table, &Recover(i)).unwrap();
    }
    let node = &mut table.nodes[usize::from(i) - 1];
    (node.status, node.activity, node.members) = (Election, Activity::Collecting, members);
    table
}

/// The same of node 1 with so many members: the highest.
fn collecting(n: u8, limits: Limits, members: u8) -> Table {
    collecting_at(n, limits, 1, (n - members + 1..=n).map(only).sum())
}

fn refused(table: &Table, event: Event, number: u8) {
    let mut same = table.clone();
    assert_eq!(step(&mut same, &event), Err(number), "{event:?}");
    assert_eq!(&same, table);
}

fn accepted(table: &Table, event: Event) -> Table {
    let mut after = table.clone();
    assert_eq!(step(&mut after, &event), Ok(()), "{event:?}");
    after
}

/// "A finish with such a task passes only if the coordinator and its members together are more than half of n. Other
/// tasks pass as before."
#[test]
fn every_n_and_count() {
    for limits in [TOWER, STAND] {
        for n in 1..=limits.nodes {
            for members in 0..n {
                let table = collecting(n, limits, members);
                for task in FULL {
                    match 2 * (members + 1) > n {
                        true => assert_eq!(accepted(&table, Finish(1, task)).node(1).task, task),
                        false => refused(&table, Finish(1, task), 19),
                    }
                }
                for task in OTHERS {
                    let after = accepted(&table, Finish(1, task));
                    let status = if members == 0 { Normal } else { Reorganization };
                    assert_eq!((after.node(1).task, after.node(1).status), (task, status));
                }
                for task in [0, 1, 98, 99] {
                    refused(&table, Finish(1, task), 8);
                }
            }
        }
    }
}

/// The counts by hand: so many together, of n.
#[test]
fn together_of_n() {
    let cases = [
        (1, 1, true),
        (1, 2, false),
        (2, 2, true),
        (1, 3, false),
        (2, 3, true),
        (1, 4, false),
        (2, 4, false),
        (3, 4, true),
        (2, 5, false),
        (3, 5, true),
        (7, 15, false),
        (8, 15, true),
        (8, 16, false),
        (9, 16, true),
        (16, 16, true),
    ];
    for (together, n, passes) in cases {
        let table = collecting(n, TOWER, together - 1);
        for task in [100, 199] {
            match passes {
                true => drop(accepted(&table, Finish(1, task))),
                false => refused(&table, Finish(1, task), 19),
            }
        }
        accepted(&table, Finish(1, 200));
    }
}

/// The members are counted, whoever they are.
#[test]
fn whoever_the_members_are() {
    for n in [4, 5, 9, 16] {
        for i in [1, n / 2, n] {
            let others: Vec<u8> = (1..=n).filter(|&j| j != i).collect();
            for from in 0..others.len() {
                let in_turn = others.iter().cycle().skip(from).map(|&j| only(j));
                let some = |count: u8| in_turn.clone().take(usize::from(count)).sum();
                refused(&collecting_at(n, TOWER, i, some(n / 2 - 1)), Finish(i, 100), 19);
                accepted(&collecting_at(n, TOWER, i, some(n / 2)), Finish(i, 100));
            }
        }
    }
}

/// K6: "task 99 gives 8, 100 passes", and "K6 now uses task 200 for the one that passes."
#[test]
fn k6_with_200() {
    let table = collecting(2, TOWER, 0);
    refused(&table, Finish(1, 99), 8);
    refused(&table, Finish(1, 100), 19);
    accepted(&table, Finish(1, 200));
}

/// 1, 7, 8, 9 and 10 come before it.
#[test]
fn earlier_grounds() {
    let table = collecting(4, TOWER, 1);
    for task in FULL {
        refused(&table, Finish(1, task), 19);
        refused(&table, Finish(0, task), 7);
        refused(&table, Finish(5, task), 7);
        refused(&table, Finish(2, task), 10);
        let mut broken = table.clone();
        broken.nodes[3].members = only(4);
        refused(&broken, Finish(1, task), 1);
        let mut down = table.clone();
        (down.nodes[0].status, down.nodes[0].activity) = (Down, Activity::Idle);
        refused(&down, Finish(1, task), 9);
        let (rest, now, caller, call) = (only(3), 2, 3, 9);
        for activity in [
            Activity::Idle,
            Activity::Asking { asked: 2, found: rest },
            Activity::Waiting { ticks: 1, found: rest },
            Activity::Inviting { found: rest, former: 0, now },
            Activity::Handing { rest, now },
            Activity::Contacting,
            Activity::Forwarding { rest, now, caller, call },
            Activity::Accepting { caller, call },
        ] {
            let mut busy = table.clone();
            let node = &mut busy.nodes[0];
            (node.activity, node.task) = (activity, 100);
            if matches!(activity, Activity::Forwarding { .. } | Activity::Accepting { .. }) {
                (node.group, node.coordinator) = (group_number(1, 2), 2);
            }
            refused(&busy, Finish(1, task), 10);
        }
    }
}

/// What 13, 14 and 17 look at is brought to its end.
const ENDS: [(u8, Change); 3] = [
    (13, |table| table.nodes[0].last_call = MAX_CALL),
    (14, |table| {
        let body = Body::AreYouCoordinator;
        let most = usize::from(table.limits.messages);
        table.messages = vec![Message { sender: 2, receiver: 1, call: 1, body }; most];
        table.traffic.sent[1][0] = most as u32;
    }),
    (17, |table| {
        let to = usize::from(table.n) - 1;
        (table.traffic.sent[0][to], table.traffic.lost[0][to]) = (MAX_COUNT, MAX_COUNT);
    }),
];

/// 13, 14 and 17 come after it, alone and all together, and are met by a majority and by other tasks.
#[test]
fn later_grounds() {
    for limits in [TOWER, STAND] {
        for members in [1, 2] {
            let mut all = collecting(4, limits, members);
            for (number, end) in ENDS.into_iter().rev() {
                let mut one = collecting(4, limits, members);
                end(&mut one);
                end(&mut all);
                for table in [&one, &all] {
                    for task in FULL {
                        refused(table, Finish(1, task), if members == 1 { 19 } else { number });
                    }
                    for task in OTHERS {
                        refused(table, Finish(1, task), number);
                    }
                }
            }
        }
        // Without members nothing is sent.
        for (_, end) in ENDS {
            let mut table = collecting(4, limits, 0);
            end(&mut table);
            refused(&table, Finish(1, 100), 19);
            assert_eq!(accepted(&table, Finish(1, 200)).node(1).status, Normal);
        }
    }
    // A count of another pair is no ground.
    let mut table = collecting(4, TOWER, 2);
    for (a, b) in pairs(4).filter(|&pair| pair != (1, 4)) {
        *count_mut(&mut table.traffic.sent, a, b) = MAX_COUNT;
        *count_mut(&mut table.traffic.lost, a, b) = MAX_COUNT;
    }
    accepted(&table, Finish(1, 199));
}

/// Of n = 1 the one is more than half.
#[test]
fn one_node() {
    for limits in [TOWER, STAND] {
        let mut table = collecting(1, limits, 0);
        table.nodes[0].last_call = MAX_CALL;
        for task in FULL.into_iter().chain(OTHERS) {
            let after = accepted(&table, Finish(1, task));
            assert_eq!((after.node(1).status, after.node(1).task), (Normal, task));
            assert_eq!(after.messages, []);
        }
        refused(&table, Finish(1, 99), 8);
    }
}

/// The task that the node has is not looked at, nor its status or coordinator, nor any other node.
#[test]
fn nothing_else_is_looked_at() {
    let changes: [Change; 6] = [
        |table| table.nodes[0].task = 100,
        |table| table.nodes[0].task = 200,
        |table| table.nodes[0].status = Normal,
        |table| (table.nodes[0].group, table.nodes[0].coordinator) = (group_number(3, 2), 2),
        |table| table.nodes[1..].iter_mut().for_each(|node| node.status = Down),
        |table| {
            let group = table.nodes[0].group;
            for node in &mut table.nodes[1..4] {
                (node.group, node.coordinator, node.status) = (group, 1, Reorganization);
            }
        },
    ];
    for change in changes {
        for members in [1, 2] {
            let mut table = collecting(4, TOWER, members);
            change(&mut table);
            match members {
                1 => refused(&table, Finish(1, 100), 19),
                _ => drop(accepted(&table, Finish(1, 100))),
            }
            accepted(&table, Finish(1, 200));
        }
    }
}

fn there_and_back(a: u8, b: u8) -> [Event; 2] {
    [Deliver(a, b), Deliver(b, a)]
}

/// Node i of three finds node 1 alone, and 1 joins it: i collects.
fn collects_node_1(i: u8) -> Vec<Event> {
    let other = 5 - i;
    let mut events = vec![Check(i)];
    events.extend(there_and_back(i, 1));
    events.extend([Lose(i, other), Expire(i)]);
    events.extend(there_and_back(i, 1));
    events.extend(there_and_back(i, 1));
    events
}

/// The table after a run of n nodes whose events are all accepted.
fn after(n: u8, events: &[Event]) -> Table {
    let mut table = Table::start(n, TOWER);
    for event in events {
        table = accepted(&table, *event);
    }
    table
}

/// "a member that has left since still counts": it is Down, alone, or a member of another.
#[test]
fn members_that_have_left() {
    let mut events = vec![Recover(1), Recover(2)];
    events.extend(collects_node_1(2));
    let mut table = after(3, &events);
    assert_eq!((table.node(2).activity, table.node(2).members), (Activity::Collecting, only(1)));
    accepted(&table, Finish(2, 100));
    table = accepted(&table, Crash(1));
    assert_eq!(accepted(&table, Finish(2, 100)).node(2).task, 100);
    table = accepted(&table, Recover(1));
    assert_eq!(accepted(&table, Finish(2, 100)).node(2).task, 100);
    // "so nothing is said about two coordinators that both counted it"
    table = accepted(&table, Recover(3));
    for event in collects_node_1(3) {
        table = accepted(&table, event);
    }
    for i in [2, 3] {
        assert_eq!(
            (table.node(i).activity, table.node(i).members),
            (Activity::Collecting, only(1))
        );
    }
    for (first, second) in [(2, 3), (3, 2)] {
        let both = accepted(&accepted(&table, Finish(first, 100)), Finish(second, 199));
        assert_eq!((both.node(first).task, both.node(second).task), (100, 199));
    }
}

/// After a 19 the node still collects: another task passes, or, when one more has joined, the same one.
#[test]
fn after_a_refusal() {
    // Node 1's acceptance is late.
    let mut events = vec![Recover(1), Recover(2), Check(2)];
    events.extend(there_and_back(2, 1));
    events.extend([Deliver(2, 1), Expire(2)]);
    let table = after(2, &events);
    refused(&table, Finish(2, 100), 19);
    refused(&table, Finish(2, 199), 19);
    let after = accepted(&table, Finish(2, 200));
    assert_eq!((after.node(2).status, after.node(2).task), (Normal, 200));
    let joined = accepted(&table, Deliver(1, 2));
    let after = accepted(&joined, Finish(2, 100));
    assert_eq!((after.node(2).status, after.node(2).task), (Reorganization, 100));
    // It is not too late after a refusal.
    let mut again = table.clone();
    for event in [Finish(2, 100), Deliver(1, 2), Finish(2, 100)] {
        let _ = step(&mut again, &event);
    }
    assert_eq!(again, after);
}

fn k10(task: u16) -> Vec<Event> {
    let mut events = vec![Recover(1), Recover(2), Check(2)];
    for _ in 0..3 {
        events.extend(there_and_back(2, 1));
    }
    events.push(Finish(2, task));
    events.extend(there_and_back(2, 1));
    events
}

/// What is printed: K10, which prints the same; a full peal that is refused, also as the 106th event; and one at the
/// end of a list, and one behind which it stops.
fn printed(print: Prints) {
    let text = |n: u8, limits: Limits, events: &[Event], behind: &[u8]| {
        let list = [&write_list(n, limits, events)[..], behind].concat();
        print(&list)
    };
    for task in [100, 199, 200] {
        let expected = format!(
            "cabinets 2\n1 3 2 33 {task} 1 0\n2 3 2 33 {task} 2 1\nmessages 0\n\
             sent 8\ndelivered 8\nlost 0\n"
        );
        for limits in [TOWER, STAND] {
            assert_eq!(text(2, limits, &k10(task), &[]), expected);
        }
    }
    // Node 2 collects alone: node 1's acceptance waits.
    let mut events = k10(100);
    events.truncate(6);
    events.extend([Expire(2), Finish(2, 100), Finish(2, 99), Finish(2, 199)]);
    let nodes = |rest: &str| format!("1 1 2 33 1 1 0\n2 {rest}\nsent 4\ndelivered 3\nlost 0\n");
    let early = "cabinets 2\nrefused 8 19\nrefused 9 8\nrefused 10 19\n";
    let ended = nodes("1 2 33 2 2 0\nmessages 1");
    for limits in [TOWER, STAND] {
        assert_eq!(text(2, limits, &events, &[]), format!("{early}{ended}"));
        let at = write_list(2, limits, &events).len();
        let stopped = format!("{early}stopped {at} 3\n{ended}");
        assert_eq!(text(2, limits, &events, &[0x16]), stopped);
    }
    events.extend([Recover(1); 95]);
    events.extend([Finish(2, 150), Finish(2, 200), Finish(2, 200)]);
    let mut expected = early.to_string();
    for e in 11..=105 {
        expected += &format!("refused {e} 9\n");
    }
    expected += "refused 106 19\nrefused 108 10\n";
    expected += &nodes("3 2 33 200 2 0\nmessages 1");
    assert_eq!(text(2, TOWER, &events, &[]), expected);
}

#[test]
fn printed_by_all() {
    by_all(printed);
}

/// The Bully machine has no such ground: node 1 of four is alone, and finishes with a full peal.
#[test]
fn no_such_ground_for_the_bully_machine() {
    use bully::machine::{step, Event, Table};
    let mut table = Table::start(4);
    let events =
        [Event::Recover(1), Event::GoOn(1), Event::GoOn(1), Event::GoOn(1), Event::Finish(1, 100)];
    for event in events {
        assert_eq!(step(&mut table, &event), Ok(()), "{event:?}");
    }
    assert_eq!(table.node(1).task, 100);
}

/// The tables that the fuzzer makes for finishes, with each answer, on both sides of the edge for each n.
#[test]
fn tables_to_finish() {
    let mut numbers = Numbers::new(1);
    let mut met = std::collections::BTreeMap::new();
    let mut answers = std::collections::BTreeMap::new();
    for _ in 0..60_000 {
        let (mut table, events) = to_finish(&mut numbers);
        for event in events {
            let Finish(i, task) = event else {
                panic!("{event:?}");
            };
            let before = table.clone();
            let answer = step(&mut table, &event);
            *answers.entry(answer).or_insert(0) += 1;
            if answer.is_err() {
                assert_eq!(table, before);
            }
            if matches!(answer, Ok(()) | Err(19)) {
                let (n, members) = (before.n, before.node(i).members.count_ones() as u8);
                // One too few, or just enough.
                let side = [n / 2, n / 2 + 1].iter().position(|&count| count == members + 1);
                if let Some(side) = side {
                    let key = (before.limits.nodes, n, side, task < 200);
                    *met.entry(key).or_insert(0) += 1;
                }
            }
        }
    }
    let mut expected = Vec::new();
    for limits in [TOWER, STAND] {
        for n in 1..=limits.nodes {
            for full in [false, true] {
                expected.extend((n > 1).then_some((limits.nodes, n, 0, full)));
                expected.push((limits.nodes, n, 1, full));
            }
        }
    }
    expected.sort();
    assert_eq!(met.keys().copied().collect::<Vec<_>>(), expected);
    assert!(met.values().all(|&count| count > 25), "{met:?}");
    let numbers = [1, 7, 8, 9, 10, 13, 14, 17, 19];
    let mut expected: Vec<_> = numbers.map(Err).into_iter().chain([Ok(())]).collect();
    expected.sort();
    assert_eq!(answers.keys().copied().collect::<Vec<_>>(), expected);
    assert!(answers.values().all(|&count| count > 500), "{answers:?}");
}

/// The corners of T-10 that were met, with their counts in runs and in tables, and nothing is told.
fn met(corners: &Corners) -> Vec<(String, u64, u64)> {
    assert_eq!(corners.impossible(), [""; 0]);
    let fits = |name: &str| {
        let of_runs = name.starts_with("run") && (name.contains("19") || name.contains("peal"));
        let by_number = name.strip_prefix("finish refused ").is_some_and(|rest| rest.len() < 3);
        let named = name.starts_with("finish ") && !name.contains(": ") && !by_number;
        let named = named || name.starts_with("finish, ") && !name.contains("hands");
        named || of_runs || name.starts_with("list, finish")
    };
    met_corners(corners).into_iter().filter(|(name, ..)| fits(name)).collect()
}

/// The names of what the events meet on a table, each once.
fn in_a_table(table: &Table, events: &[Event]) -> Vec<String> {
    let mut corners = Corners::default();
    assert!(walk_difference(&Own, table, events, None, Some(&mut corners)).is_none());
    let met = met(&corners);
    assert!(met.iter().all(|&(_, runs, tables)| (runs, tables) == (0, 1)), "{met:?}");
    met.into_iter().map(|(name, ..)| name).collect()
}

/// What is counted of a finish, by hand.
#[test]
fn corners_in_tables() {
    let (few, enough) = (collecting(6, TOWER, 2), collecting(6, TOWER, 3));
    let before = "finish refused 19, not a full peal before";
    let edge = |words: &str| format!("finish, tower, n = 6, {words}");
    let too_few =
        [edge("one too few, a full peal refused 19"), edge("one too few, another task accepted")];
    for (task, words) in [(100, "task 100"), (101, "task 101 to 198"), (199, "task 199")] {
        let side = format!("finish refused 19, {words}, 2m + 2 is n");
        assert_eq!(in_a_table(&few, &[Finish(1, task)]), [side.as_str(), &too_few[0], before]);
    }
    for (task, words) in [(200, "200"), (9000, "201 to 65,534"), (65_535, "65,535")] {
        let side = format!("finish accepted, task {words}, 2m + 2 is n");
        assert_eq!(in_a_table(&few, &[Finish(1, task)]), [side.as_str(), &too_few[1]]);
        let side = format!("finish accepted, task {words}, 2m + 2 is n + 2");
        assert_eq!(in_a_table(&enough, &[Finish(1, task)]), [side]);
    }
    let left = "finish accepted, a full peal, by the count of members in other groups";
    assert_eq!(
        in_a_table(&enough, &[Finish(1, 100)]),
        [
            "finish accepted, task 100, 2m + 2 is n + 2",
            &edge("just enough, a full peal accepted"),
            left
        ]
    );
    let mut down = enough.clone();
    (down.nodes[5].status, down.nodes[4].group, down.nodes[3].group) = (Down, 16, 16);
    (down.nodes[4].coordinator, down.nodes[3].coordinator) = (1, 1);
    assert_eq!(
        in_a_table(&down, &[Finish(1, 100)])[2..],
        ["finish accepted, a full peal, by the count of members that are Down"]
    );
    (down.nodes[5].status, down.nodes[5].group, down.nodes[5].coordinator) = (Normal, 16, 1);
    assert_eq!(
        in_a_table(&down, &[Finish(1, 100)])[2..],
        ["finish accepted, a full peal, all members up and in its group"]
    );
    down.nodes[0].members = only(6);
    assert_eq!(
        in_a_table(&down, &[Finish(1, 100)])[..2],
        ["finish refused 19, task 100, 2m + 2 is less than n - 1", before]
    );
    assert_eq!(
        in_a_table(&down, &[Finish(1, 100)])[2..],
        ["finish refused 19, more than half are in its group"]
    );
    // Of odd n.
    let (few, enough) = (collecting(5, TOWER, 1), collecting(5, TOWER, 2));
    assert_eq!(
        in_a_table(&few, &[Finish(1, 100)])[0],
        "finish refused 19, task 100, 2m + 2 is n - 1"
    );
    assert_eq!(
        in_a_table(&enough, &[Finish(1, 199)])[0],
        "finish accepted, task 199, 2m + 2 is n + 1"
    );
    assert_eq!(
        in_a_table(&collecting(5, TOWER, 4), &[Finish(1, 199)])[0],
        "finish accepted, task 199, 2m + 2 is more than n + 2"
    );
    // The other grounds.
    let one = |table: &Table, task: u16| {
        let [name] = &in_a_table(table, &[Finish(1, task)])[..] else {
            panic!("one");
        };
        name.clone()
    };
    assert_eq!(one(&few, 99), "finish refused 8, task 99, a minority collects");
    assert_eq!(one(&few, 98), "finish refused 8, a lower task, a minority collects");
    assert_eq!(one(&enough, 99), "finish refused 8, task 99, a majority collects");
    let with = |table: &Table, change: fn(&mut Node)| {
        let mut table = table.clone();
        change(&mut table.nodes[0]);
        table
    };
    let down = |node: &mut Node| (node.status, node.activity) = (Down, Activity::Idle);
    assert_eq!(one(&with(&few, down), 100), "finish refused 9, a full peal, a minority");
    assert_eq!(one(&with(&enough, down), 100), "finish refused 9, a full peal, a majority");
    assert_eq!(one(&with(&few, down), 200), "finish refused 9, another task, a minority");
    let idle = |node: &mut Node| node.activity = Activity::Idle;
    assert_eq!(one(&with(&few, idle), 199), "finish refused 10, idle, 19 too");
    assert_eq!(one(&with(&enough, idle), 199), "finish refused 10, a full peal, a majority");
    let broken = |node: &mut Node| node.counter = MAX_COUNTER + 1;
    assert_eq!(one(&with(&few, broken), 150), "finish refused 1, a full peal, a minority collects");
    let alone = collecting(3, STAND, 0);
    assert_eq!(
        in_a_table(&with(&alone, |node| node.last_call = MAX_CALL), &[Finish(1, 100)])[2..],
        [
            "finish refused 19, no members",
            "finish refused 19, no members, no call number left",
            before
        ]
    );
    for (table, who) in [
        (&collecting(4, STAND, 1), "another task by a minority"),
        (&enough, "a full peal by a majority"),
    ] {
        let task = if who.starts_with('a') && table.n == 5 { 100 } else { 200 };
        for (number, end) in ENDS {
            let mut table = table.clone();
            end(&mut table);
            assert_eq!(one(&table, task), format!("finish refused {number}, {who}"));
        }
    }
    for (limits, rig) in [(TOWER, "tower"), (STAND, "stand")] {
        let mut table = collecting(4, limits, 1);
        ENDS.iter().for_each(|(_, end)| end(&mut table));
        assert_eq!(
            in_a_table(&table, &[Finish(1, 100)])[2..6],
            [
                "finish refused 19, 13 too".to_string(),
                format!("finish refused 19, {rig}, 14 too"),
                "finish refused 19, 17 too".to_string(),
                "finish refused 19, 13, 14 and 17 too".to_string()
            ]
        );
    }
}

/// What is counted of finishes in runs: one by a member that is Down, one of two coordinators that both counted node
/// 1, and what comes after a refusal.
#[test]
fn corners_in_runs() {
    let of_runs = |n: u8, limits: Limits, events: &[Event]| -> Vec<(String, u64)> {
        let mut corners = Corners::default();
        assert!(run_difference(&Own, n, limits, events, Some(&mut corners)).is_none());
        let met = met(&corners).into_iter().filter(|(name, ..)| name.starts_with("run"));
        met.map(|(name, runs, _)| (name, runs)).collect()
    };
    let expected = |names: &[(&str, u64)]| -> Vec<(String, u64)> {
        names.iter().map(|&(name, count)| (name.to_string(), count)).collect()
    };
    let mut events = vec![Recover(1), Recover(2)];
    events.extend(collects_node_1(2));
    events.extend([Crash(1), Finish(2, 100)]);
    let names = [
        ("run on the stand, a full peal accepted", 1),
        ("run, a full peal accepted, by the count of members that are Down", 1),
    ];
    assert_eq!(of_runs(3, STAND, &events), expected(&names));
    events.pop();
    events.extend([Recover(1), Recover(3)]);
    events.extend(collects_node_1(3));
    events.extend([Finish(3, 199), Finish(2, 100)]);
    let names = [
        ("run in the tower, a full peal accepted", 2),
        ("run, a full peal accepted, by the count of members in other groups", 1),
        ("run, a full peal accepted, and another's that has counted the same member", 1),
    ];
    assert_eq!(of_runs(3, TOWER, &events), expected(&names));
    let mut late = vec![Recover(1), Recover(2), Check(2)];
    late.extend(there_and_back(2, 1));
    late.extend([Deliver(2, 1), Expire(2), Finish(2, 100)]);
    let refused = ("run in the tower, finish refused 19", 1);
    let then = |events: &[Event], names: &[(&str, u64)]| {
        let events = [&late[..], events].concat();
        assert_eq!(of_runs(2, TOWER, &events), expected(&[&[refused][..], names].concat()));
    };
    let next = "run, refused 19, the next event the same node's finish with task 200, accepted";
    let another = "run, refused 19, then another task in the same group, accepted";
    then(&[], &[]);
    then(&[Finish(2, 200)], &[(next, 1), (another, 1)]);
    then(&[Finish(2, 201)], &[(another, 1)]);
    then(&[Finish(2, 99), Finish(2, 201)], &[(another, 1)]);
    then(&[Finish(1, 201), Finish(2, 200)], &[(another, 1)]);
    let accepted = ("run in the tower, a full peal accepted", 1);
    let joins = ("run, refused 19, then one more joins, a full peal accepted", 1);
    then(&[Deliver(1, 2), Finish(2, 100)], &[accepted, joins]);
}

/// The rows of events for random runs do what they say, and the runs with them meet each corner of runs.
#[test]
fn random_runs_with_full_peals() {
    let mut numbers = Numbers::new(3);
    for n in 2..=16 {
        for limits in [TOWER, STAND].into_iter().filter(|limits| n <= limits.nodes) {
            let mut run = Run { table: Table::start(n, limits), events: Vec::new() };
            for _ in 0..20 {
                too_few_members(&mut run, &mut numbers);
                let Some(Finish(i, task)) = run.events.pop() else {
                    panic!("a finish");
                };
                assert!((100..200).contains(&task));
                assert_eq!(run.table.node(i).members.count_ones(), u32::from(n) / 2 - 1);
                refused(&run.table, Finish(i, task), 19);
                left_members(&mut run, &mut numbers);
            }
        }
    }
    let mut corners = Corners::default();
    for _ in 0..600 {
        let (n, limits, events) = run_with_full_peals(&mut numbers);
        assert!(run_difference(&Own, n, limits, &events, Some(&mut corners)).is_none());
        let list = write_list(n, limits, &events);
        corners.printed(&read_list(&list).unwrap(), &run_list(&list));
    }
    let met = met(&corners);
    let often = |words: &str| met.iter().filter(|(name, ..)| name.starts_with(words)).count();
    // But those that stop.
    assert_eq!((often("run"), often("list, ")), (10, 5), "{met:?}");
    let seldom = |&&(ref name, runs, _): &&(String, u64, u64)| {
        (name.starts_with("run") || name.starts_with("list")) && runs < 5
    };
    assert_eq!(met.iter().filter(seldom).count(), 0, "{met:?}");
}

const OTHER_ANSWER: &str = "finish, another answer than by the grounds";
const MUST_NOT: &str = "finish, a full peal accepted by no more than half";
const CHANGES: &str = "finish, refused, and the table changes";
const NOT_HANDED: &str = "finish, accepted, and not the task and Ready to the highest member alone";

/// Of the machine's own finishes nothing is told; of others it is.
#[test]
fn wrong_finishes_are_told() {
    for (n, members, task) in
        [(4, 1, 100), (4, 2, 100), (4, 1, 200), (4, 0, 199), (1, 0, 100), (5, 2, 199), (5, 1, 99)]
    {
        let table = collecting(n, TOWER, members);
        let event = Finish(1, task);
        let told = |answer: Option<Result<(), u8>>, change: Change| {
            let mut after = table.clone();
            let right = step(&mut after, &event);
            change(&mut after);
            let mut corners = Corners::default();
            let before = Before::of(&table, &event);
            corners.event(Source::Table, &before, &event, answer.unwrap_or(right), &after);
            corners.impossible()
        };
        let has = |told: Vec<String>, words: &str| {
            assert!(told.iter().any(|told| told == words), "{words}: {told:?}");
        };
        let none: Change = |_| {};
        assert_eq!(told(None, none), [""; 0]);
        let right = step(&mut table.clone(), &event);
        for number in [1, 7, 8, 9, 10, 11, 12, 13, 14, 17, 18, 19, 20] {
            if right != Err(number) {
                has(told(Some(Err(number)), none), OTHER_ANSWER);
            }
        }
        if right == Err(19) {
            has(told(Some(Ok(())), none), MUST_NOT);
        }
        if right.is_err() {
            has(told(Some(Ok(())), none), OTHER_ANSWER);
            let changes: [Change; 5] = [
                |after| after.nodes[0].task = 7,
                |after| after.nodes[0].activity = Activity::Idle,
                |after| after.nodes[0].members ^= only(2),
                |after| after.nodes[0].last_call += 1,
                |after| after.nodes[1].task = 7,
            ];
            for change in changes {
                has(told(None, change), CHANGES);
            }
        } else {
            let changes: [Change; 5] = [
                |after| after.nodes[0].task += 1,
                |after| after.nodes[0].status = Election,
                |after| after.nodes[0].last_call += 1,
                |after| after.nodes[0].group += 16,
                |after| {
                    after.messages.push(Message {
                        sender: 1,
                        receiver: 2,
                        call: 1,
                        body: Body::AreYouCoordinator,
                    })
                },
            ];
            for change in changes {
                has(told(None, change), NOT_HANDED);
            }
        }
    }
    let mut corners = Corners::default();
    let (table, event) = (collecting(4, TOWER, 1), Timeout(2));
    corners.event(Source::Run, &Before::of(&table, &event), &event, Err(19), &table);
    assert!(corners.impossible().contains(&"timeout refused 19".to_string()));
}

/// Of the right text nothing is told; of others it is. And what is counted of lists.
#[test]
fn wrong_texts_of_finishes_are_told() {
    let mut events = k10(100);
    events.truncate(6);
    events.extend([Expire(2), Finish(2, 100), Finish(2, 200)]);
    let list = write_list(2, TOWER, &events);
    let right = String::from_utf8(run_list(&list)).unwrap();
    let told = |from: &str, to: &str| {
        let mut corners = Corners::default();
        corners.printed(&read_list(&list).unwrap(), right.replace(from, to).as_bytes());
        corners.impossible()
    };
    let otherwise = "list, finish printed otherwise than by the grounds";
    let another = "list, 19 printed for another event";
    assert_eq!(told("", ""), [""; 0]);
    assert_eq!(told("refused 8 19\n", ""), [otherwise]);
    assert_eq!(told("refused 8 19\n", "refused 8 10\n"), [otherwise]);
    assert_eq!(told("refused 8 19\n", "refused 8 19\nrefused 9 19\n"), [otherwise]);
    assert_eq!(told("refused 8 19\n", "refused 7 19\n"), [otherwise, another]);
    let counted = |events: &[Event], behind: &[u8]| -> Vec<String> {
        let list = [&write_list(2, TOWER, events)[..], behind].concat();
        let mut corners = Corners::default();
        corners.printed(&read_list(&list).unwrap(), &run_list(&list));
        let names = met(&corners).into_iter().map(|(name, ..)| name);
        names.map(|name| name.replacen("list, finish refused 19 ", "", 1)).collect()
    };
    let (early, next) = ("among the first 99 events", "and the next event accepted");
    assert_eq!(counted(&events[..7], &[]), [""; 0]);
    assert_eq!(counted(&events[..8], &[]), [early, "as the last event"]);
    assert_eq!(counted(&events[..8], &[9]), [early, "and stopped later"]);
    assert_eq!(counted(&events, &[]), [early, next]);
    let late = [&vec![Tick(1); 92][..], &events[..8]].concat();
    assert_eq!(counted(&late, &[]), ["behind them", "as the last event"]);
    let later = [&events[..8], &[Tick(1), Crash(2)]].concat();
    assert_eq!(counted(&later, &[]), [early, "and a later event accepted, not the next"]);
}

/// A finish without ground 19: as with a task that is none of a full peal's.
fn without_19(table: &mut Table, i: u8, task: u16) -> Result<(), u8> {
    if !(100..200).contains(&task) {
        return step(table, &Finish(i, task));
    }
    let waiting = table.messages.len();
    step(table, &Finish(i, task + 200))?;
    table.nodes[usize::from(i) - 1].task = task;
    for m in &mut table.messages[waiting..] {
        if let Body::Ready { task: handed, .. } = &mut m.body {
            *handed = task;
        }
    }
    Ok(())
}

/// A machine with another ground 19, which comes after others.
struct Wrong {
    name: &'static str,
    /// By the node's number, the node and the task. It is asked where the node is there.
    ground: fn(&Table, u8, &Node, u16) -> bool,
    after: &'static [u8],
    number: u8,
}

/// The grounds that come before it.
const BEFORE: &[u8] = &[1, 7, 8, 9, 10];

impl Wrong {
    fn step(&self, table: &mut Table, event: &Event) -> Result<(), u8> {
        let Finish(i, task) = *event else {
            return step(table, event);
        };
        let mut after = table.clone();
        let answer = without_19(&mut after, i, task);
        let earlier = answer.err().is_some_and(|number| self.after.contains(&number));
        let there = (1..=table.n.min(MAX_NODES)).contains(&i);
        if !earlier && there && (self.ground)(table, i, table.node(i), task) {
            return Err(self.number);
        }
        answer?;
        *table = after;
        Ok(())
    }
}

fn full(task: u16) -> bool {
    (100..200).contains(&task)
}

/// Whether a node with so many others is no more than half of n.
fn few(others: u32, n: u8) -> bool {
    2 * others + 2 <= u32::from(n)
}

/// How many of the members fit.
fn members(table: &Table, node: &Node, fits: impl Fn(&Node) -> bool) -> u32 {
    let member = |j: &u8| node.members & only(*j) != 0 && fits(table.node(*j));
    (1..=table.n.min(MAX_NODES)).filter(member).count() as u32
}

/// The machine as it is, in the same form.
const RIGHT: Wrong = Wrong {
    name: "as it is",
    ground: |table, _, node, task| full(task) && few(node.members.count_ones(), table.n),
    after: BEFORE,
    number: 19,
};

const WRONG: [Wrong; 38] = [
    Wrong { name: "no 19 at all", ground: |_, _, _, _| false, ..RIGHT },
    Wrong { name: "10 for 19", number: 10, ..RIGHT },
    Wrong { name: "18 for 19", number: 18, ..RIGHT },
    Wrong {
        name: "less than for at most",
        ground: |table, _, node, task| {
            full(task) && 2 * node.members.count_ones() + 2 < u32::from(table.n)
        },
        ..RIGHT
    },
    Wrong {
        name: "half rounded up",
        ground: |table, _, node, task| full(task) && few(node.members.count_ones(), table.n + 1),
        ..RIGHT
    },
    Wrong {
        name: "the coordinator not counted",
        ground: |table, _, node, task| {
            full(task) && 2 * node.members.count_ones() <= u32::from(table.n)
        },
        ..RIGHT
    },
    Wrong {
        name: "the coordinator counted twice",
        ground: |table, _, node, task| full(task) && few(node.members.count_ones() + 1, table.n),
        ..RIGHT
    },
    Wrong {
        name: "members that are up",
        ground: |table, _, node, task| {
            full(task) && few(members(table, node, |x| x.status != Down), table.n)
        },
        ..RIGHT
    },
    Wrong {
        name: "members still in the group",
        ground: |table, _, node, task| {
            full(task) && few(members(table, node, |x| x.group == node.group), table.n)
        },
        ..RIGHT
    },
    Wrong {
        name: "members up and in the group",
        ground: |table, _, node, task| {
            let there = |x: &Node| x.group == node.group && x.status != Down;
            full(task) && few(members(table, node, there), table.n)
        },
        ..RIGHT
    },
    Wrong {
        name: "all in the group for the members",
        ground: |table, i, node, task| {
            let all = Node { members: !only(i), ..*node };
            full(task) && few(members(table, &all, |x| x.group == node.group), table.n)
        },
        ..RIGHT
    },
    Wrong {
        name: "half of those up",
        ground: |table, _, node, task| {
            let all = Node { members: u16::MAX, ..*node };
            let up = members(table, &all, |x| x.status != Down) as u8;
            full(task) && few(node.members.count_ones(), up)
        },
        ..RIGHT
    },
    Wrong {
        name: "members 1 to 8 alone",
        ground: |table, _, node, task| {
            full(task) && few((node.members as u8).count_ones(), table.n)
        },
        ..RIGHT
    },
    Wrong {
        name: "half of the limit of nodes",
        ground: |table, _, node, task| {
            full(task) && few(node.members.count_ones(), table.limits.nodes)
        },
        ..RIGHT
    },
    Wrong {
        name: "half of 16",
        ground: |_, _, node, task| full(task) && few(node.members.count_ones(), 16),
        ..RIGHT
    },
    Wrong {
        name: "half of 4 on the stand",
        ground: |table, _, node, task| {
            let n = if table.limits == STAND { 4 } else { table.n };
            full(task) && few(node.members.count_ones(), n)
        },
        ..RIGHT
    },
    Wrong {
        name: "all tasks",
        ground: |table, _, node, _| few(node.members.count_ones(), table.n),
        ..RIGHT
    },
    Wrong {
        name: "100 left out",
        ground: |table, _, node, task| {
            (101..200).contains(&task) && few(node.members.count_ones(), table.n)
        },
        ..RIGHT
    },
    Wrong {
        name: "199 left out",
        ground: |table, _, node, task| {
            (100..199).contains(&task) && few(node.members.count_ones(), table.n)
        },
        ..RIGHT
    },
    Wrong {
        name: "200 taken in",
        ground: |table, _, node, task| {
            (100..=200).contains(&task) && few(node.members.count_ones(), table.n)
        },
        ..RIGHT
    },
    Wrong {
        name: "100 alone",
        ground: |table, _, node, task| task == 100 && few(node.members.count_ones(), table.n),
        ..RIGHT
    },
    Wrong {
        name: "by the last byte of the task",
        ground: |table, _, node, task| full(task & 255) && few(node.members.count_ones(), table.n),
        ..RIGHT
    },
    Wrong {
        name: "by the task before",
        ground: |table, _, node, _| full(node.task) && few(node.members.count_ones(), table.n),
        ..RIGHT
    },
    Wrong { name: "before 10", after: &[1, 7, 8, 9], ..RIGHT },
    Wrong { name: "before 9", after: &[1, 7, 8, 10], ..RIGHT },
    Wrong { name: "before 9 and 10", after: &[1, 7, 8], ..RIGHT },
    Wrong {
        name: "before 8, with lower tasks",
        ground: |table, _, node, task| task < 200 && few(node.members.count_ones(), table.n),
        after: &[1, 7, 9, 10],
        ..RIGHT
    },
    Wrong { name: "before 1", after: &[7, 8, 9, 10], ..RIGHT },
    Wrong { name: "behind 13", after: &[1, 7, 8, 9, 10, 13], ..RIGHT },
    Wrong { name: "behind 14", after: &[1, 7, 8, 9, 10, 14], ..RIGHT },
    Wrong { name: "behind 17", after: &[1, 7, 8, 9, 10, 17], ..RIGHT },
    Wrong { name: "behind 13, 14 and 17", after: &[1, 7, 8, 9, 10, 13, 14, 17], ..RIGHT },
    Wrong {
        name: "in the tower alone",
        ground: |table, _, node, task| {
            table.limits == TOWER && full(task) && few(node.members.count_ones(), table.n)
        },
        ..RIGHT
    },
    Wrong {
        name: "on the stand alone",
        ground: |table, _, node, task| {
            table.limits == STAND && full(task) && few(node.members.count_ones(), table.n)
        },
        ..RIGHT
    },
    Wrong {
        name: "with members alone",
        ground: |table, _, node, task| {
            node.members != 0 && full(task) && few(node.members.count_ones(), table.n)
        },
        ..RIGHT
    },
    Wrong {
        name: "its own coordinator alone",
        ground: |table, i, node, task| {
            node.coordinator == i && full(task) && few(node.members.count_ones(), table.n)
        },
        ..RIGHT
    },
    Wrong {
        name: "in Election alone",
        ground: |table, _, node, task| {
            node.status == Election && full(task) && few(node.members.count_ones(), table.n)
        },
        ..RIGHT
    },
    Wrong {
        name: "n = 1 too",
        ground: |table, _, node, task| {
            full(task) && (table.n == 1 || few(node.members.count_ones(), table.n))
        },
        ..RIGHT
    },
];

/// What of the vectors a machine does not pass: how many lists, and how many steps.
fn failing(wrong: &Wrong) -> (usize, usize) {
    let tests = Path::new(env!("CARGO_MANIFEST_DIR")).join("../tests");
    let lists = read_lists(&tests.join("lists")).unwrap();
    let machine = |table: &mut Table, event: &Event| wrong.step(table, event);
    let fails = lists.iter().filter(|case| Some(run_list_by(machine, &case.list)) != case.text);
    let cases = read_steps(&std::fs::read_to_string(tests.join("steps.txt")).unwrap()).unwrap();
    let steps = cases.iter().filter(|case| {
        let mut table = case.table.clone();
        (wrong.step(&mut table, &case.event), table) != (case.answer, case.after.clone())
    });
    (fails.count(), steps.count())
}

/// How often something is told of a machine by the corners alone, on the fuzzer's tables for finishes and in its
/// runs with full peals, where both sides are that machine.
fn told(wrong: &Wrong) -> usize {
    let mut numbers = Numbers::new(1);
    let mut count = 0;
    let mut events_on = |source: Source, mut table: Table, events: &[Event]| {
        for event in events {
            let before = Before::of(&table, event);
            let answer = wrong.step(&mut table, event);
            let mut corners = Corners::default();
            corners.event(source, &before, event, answer, &table);
            count +=
                usize::from(corners.impossible().iter().any(|told| told.starts_with("finish")));
        }
    };
    for _ in 0..4000 {
        let (table, events) = to_finish(&mut numbers);
        events_on(Source::Table, table, &events);
    }
    for _ in 0..100 {
        let (n, limits, events) = run_with_full_peals(&mut numbers);
        events_on(Source::Run, Table::start(n, limits), &events);
    }
    count
}

/// Machines with another ground 19 are found by the fuzzer, and, where both sides have it, told by the corners. With
/// each how many of the vectors find it (`cargo test -- --nocapture` prints them).
#[test]
fn wrong_machines_are_found() {
    assert_eq!((failing(&RIGHT), told(&RIGHT)), ((0, 0), 0));
    for wrong in &WRONG {
        let ((lists, steps_failing), told) = (failing(wrong), told(wrong));
        println!(
            "wrong machine: {}: lists {lists}, steps {steps_failing}, told {told}",
            wrong.name
        );
        assert!(told > 0, "{}", wrong.name);
        let machine = |table: &mut Table, event: &Event| wrong.step(table, event);
        assert!(found(steps(machine)) > 0, "{}", wrong.name);
    }
}

/// List programs that do not skip the event as others are skipped are found by a short list.
#[test]
fn wrong_texts_are_found() {
    let mut events = k10(100);
    events.truncate(6);
    events.extend([Expire(2), Finish(2, 100), Finish(2, 200)]);
    let list = write_list(2, TOWER, &events);
    let text = |list: &[u8]| String::from_utf8(run_list(list)).unwrap();
    assert_eq!(list_difference(&texts(text), &list), None);
    let wrong: [fn(String) -> String; 4] = [
        |text| text.replace("refused 8 19\n", ""),
        |text| text.replace("refused 8 19\n", "stopped 32 19\n"),
        |text| text.replace(" 19\n", " 1\n"),
        |text| text.replace("2 3 2 33 200 2 0\n", "2 3 2 33 100 2 0\n"),
    ];
    for change in wrong {
        assert!(list_difference(&texts(|list| change(text(list))), &list).is_some());
    }
}
