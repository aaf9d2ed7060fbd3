//! The corners of T-02 are counted where the pick shows, and nowhere else, those of T-03 where an invitation
//! comes to its receiver, those of T-04 where the records of a recovery are asked for, those of T-05 where
//! messages are counted, and those of T-06 where a node checks or a list with checks is printed.

use crate::common;
use crate::met_corners;

use common::{invited_twice, LATE, NODES};
use met_corners::met_corners;
use peer::compare::{recovery_difference, run_difference, walk_difference};
use peer::corners::{Before, Corners, Source};
use peer::drive::run;
use peer::list::{read_list, write_list};
use peer::machine::*;
use peer::numbers::Numbers;
use peer::print::run_list;
use peer::proved::{recovery_by, table_to_bytes, Library, Own, TABLE_BYTES, TOO_SHORT};
use peer::recovery_corners::Call;
use peer::tally::Book;
use peer::traffic_tables::count_waiting;
use Event::*;

/// The corners that begin with these words and were met, with their counts in runs and in tables.
fn met(corners: &Corners, words: &[&str]) -> Vec<(String, u64, u64)> {
    let fits = |name: &str| words.iter().any(|words| name.starts_with(words));
    met_corners(corners).into_iter().filter(|(name, ..)| fits(name)).collect()
}

/// The same for the corners of picks.
fn picks(corners: &Corners) -> Vec<(String, u64, u64)> {
    met(corners, &["asking, ", "inviting, ", "forwarding, ", "handing, "])
}

fn in_runs(expected: &[(&str, u64)]) -> Vec<(String, u64, u64)> {
    expected.iter().map(|&(name, count)| (name.to_string(), count, 0)).collect()
}

fn in_tables(expected: &[(&str, u64)]) -> Vec<(String, u64, u64)> {
    expected.iter().map(|&(name, count)| (name.to_string(), 0, count)).collect()
}

/// The events with all deliveries behind each, the oldest message first.
fn with_deliveries(n: u8, events: &[Event]) -> Vec<Event> {
    let mut table = Table::start(n, TOWER);
    let mut all = Vec::new();
    for &event in events {
        let mut next = Some(event);
        while let Some(event) = next {
            step(&mut table, &event).unwrap();
            all.push(event);
            next = table.messages.first().map(|m| Deliver(m.sender, m.receiver));
        }
    }
    all
}

fn counted(n: u8, events: &[Event]) -> Corners {
    let mut corners = Corners::default();
    let found = run_difference(&Own, n, TOWER, &with_deliveries(n, events), Some(&mut corners));
    assert!(found.is_none());
    corners
}

/// With two nodes there is no choice and no way on, with four there is.
#[test]
fn picks_in_runs() {
    let corners = counted(2, &[Recover(1), Recover(2), Check(2), Finish(2, 100)]);
    assert_eq!(met(&corners, &["finish: "]), in_runs(&[("finish: collecting -> handing", 1)]));
    assert_eq!(picks(&corners), []);
    let mut events = vec![Recover(1), Recover(2), Recover(3), Recover(4), Check(4), Finish(4, 100)];
    let expected = [
        ("asking, first of two or more", 1),
        ("asking, next of two or more", 1),
        ("asking, next higher", 2),
        ("inviting, first of two or more found", 1),
        ("inviting, next of two or more found", 1),
        ("inviting, next lower found", 2),
        ("handing, first of two or more", 1),
        ("handing, next of two or more", 1),
        ("handing, next lower", 2),
    ];
    assert_eq!(picks(&counted(4, &events)), in_runs(&expected));
    // Node 4 finds 2, and has set 1, 2 and 3 aside: it invites 2, then 3, 2 and 1.
    events.extend([Crash(2), Recover(2), Check(4)]);
    let expected = [
        ("asking, first of two or more", 2),
        ("asking, next of two or more", 2),
        ("asking, next higher", 4),
        ("inviting, first of two or more found", 1),
        ("inviting, next of two or more found", 1),
        ("inviting, next lower found", 2),
        ("inviting, next of two or more set aside", 2),
        ("inviting, next lower set aside", 2),
        ("handing, first of two or more", 1),
        ("handing, next of two or more", 1),
        ("handing, next lower", 2),
        ("inviting, next higher set aside", 1),
        ("inviting, the second time", 1),
    ];
    assert_eq!(picks(&counted(4, &events)), in_runs(&expected));
}

/// A table of n nodes that have each recovered once.
fn recovered(n: u8) -> Table {
    let mut table = Table::start(n, TOWER);
    for i in 1..=n {
        step(&mut table, &Recover(i)).unwrap();
    }
    table
}

#[test]
fn picks_in_a_table() {
    let mut table = recovered(5);
    table.nodes[0].members = only(2) | only(3) | only(4);
    let body = Body::Invitation { group: group_number(2, 5) };
    table.messages.push(Message { sender: 5, receiver: 1, call: 1, body });
    count_waiting(&mut table);
    let events = [Deliver(5, 1), Expire(1), Expire(1), Expire(1)];
    let mut corners = Corners::default();
    assert!(walk_difference(&Own, &table, &events, None, Some(&mut corners)).is_none());
    let expected = [
        ("forwarding, first of two or more", 1),
        ("forwarding, next of two or more", 1),
        ("forwarding, next lower", 2),
    ];
    assert_eq!(picks(&corners), in_tables(&expected));
}

/// Whom an inviting node called on another table is forgotten; whom it calls now is not.
#[test]
fn second_time_is_of_one_table() {
    let mut corners = Corners::default();
    let mut walk = |now: u8, former: Set| {
        let mut table = recovered(3);
        table.nodes[2].activity = Activity::Inviting { found: 0, former, now };
        assert!(walk_difference(&Own, &table, &[Expire(3)], None, Some(&mut corners)).is_none());
        met(&corners, &["inviting, the second time"]).first().map_or(0, |corner| corner.2)
    };
    assert_eq!(walk(1, only(2)), 0);
    assert_eq!(walk(2, only(1)), 0);
    assert_eq!(walk(2, only(1) | only(2)), 1);
}

/// Of the machine's own picks nothing is told; of others it is.
#[test]
fn wrong_picks_are_told() {
    let set = only(2) | only(3);
    let (rest, now, caller, call) = (only(3), 2, 4, 1);
    let cases = [
        (
            Activity::Asking { asked: 2, found: 0 },
            Activity::Asking { asked: 4, found: 0 },
            "asking, not the next up",
        ),
        (
            Activity::Inviting { found: set, former: 0, now: 4 },
            Activity::Inviting { found: rest, former: 0, now },
            "inviting, not the highest found",
        ),
        (
            Activity::Inviting { found: 0, former: set, now: 4 },
            Activity::Inviting { found: 0, former: rest, now },
            "inviting, not the highest set aside",
        ),
        (
            Activity::Forwarding { rest: set, now: 4, caller, call },
            Activity::Forwarding { rest, now, caller, call },
            "forwarding, not the highest",
        ),
        (
            Activity::Handing { rest: set, now: 4 },
            Activity::Handing { rest, now },
            "handing, not the highest",
        ),
    ];
    for (before, wrong, words) in cases {
        let mut table = recovered(4);
        let node = &mut table.nodes[0];
        (node.activity, node.last_call, node.task) = (before, 7, 100);
        if let Activity::Forwarding { .. } = before {
            (node.group, node.coordinator) = (group_number(2, 4), 4);
        }
        table.messages.push(Message {
            sender: 4,
            receiver: 1,
            call: 7,
            body: Body::Reply { yes: false },
        });
        count_waiting(&mut table);
        let event = Deliver(4, 1);
        let remembered = Before::of(&table, &event);
        let answer = step(&mut table, &event);
        let mut corners = Corners::default();
        corners.event(Source::Table, &remembered, &event, answer, &table);
        assert_eq!((answer, corners.impossible()), (Ok(()), vec![]));
        table.nodes[0].activity = wrong;
        corners.event(Source::Table, &remembered, &event, answer, &table);
        assert_eq!(corners.impossible(), [words]);
    }
}

/// The corners of invitations that were met.
fn invited(corners: &Corners) -> Vec<(String, u64, u64)> {
    met(corners, &["deliver 3, group held", "invited"])
}

/// T-03's story: the last delivery is the one that is told apart.
#[test]
fn invitations_in_runs() {
    let count = |events: &[Event], expected: &[(&str, u64)]| {
        let mut corners = Corners::default();
        assert!(run_difference(&Own, NODES, TOWER, events, Some(&mut corners)).is_none());
        assert_eq!(invited(&corners), in_runs(expected));
    };
    let another = ("invited, Normal, another group", 3);
    // Nodes 1 and 2 are in the second group of 2 when they are invited to the second of 3.
    let elsewhere = [
        ("invited elsewhere, its own coordinator", 2),
        ("invited elsewhere, a member", 1),
        ("invited elsewhere, equal counter", 2),
    ];
    for (given_up, call) in
        [(false, "invited twice, call open"), (true, "invited twice, call given up")]
    {
        let mut events = invited_twice(given_up);
        count(&events, &[&[another], &elsewhere[..]].concat());
        let twice = [another, ("invited twice, forwarded", 1), (call, 1)];
        events.push(LATE);
        let held = [("deliver 3, group held: idle -> idle", 1), ("invited, Normal, group held", 1)];
        count(&events, &[&held[..], &twice, &elsewhere].concat());
        events.pop();
        events.extend([Timeout(1), LATE]);
        let held = [
            ("deliver 3, group held: contacting -> contacting", 1),
            ("invited, Normal, group held", 1),
        ];
        let behind = [("invited twice, others wait behind it", 1)];
        count(&events, &[&held[..], &twice, &behind, &elsewhere].concat());
    }
}

/// Random runs meet each corner of invitations that a run can have, and not too seldom, and no other.
#[test]
fn invitations_in_random_runs() {
    let mut numbers = Numbers::new(1);
    let mut corners = Corners::default();
    for _ in 0..600 {
        let n = numbers.between(2, 8) as u8;
        let events = run(n, TOWER, 500, &mut numbers);
        assert!(run_difference(&Own, n, TOWER, &events, Some(&mut corners)).is_none());
    }
    let met = invited(&corners);
    let names: Vec<&str> = met.iter().map(|(name, ..)| name.as_str()).collect();
    let expected = [
        "deliver 3, group held: idle -> idle",
        "deliver 3, group held: contacting -> contacting",
        "invited, Down, group held",
        "invited, Down, another group",
        "invited, Election, group held",
        "invited, Election, another group",
        "invited, Reorganization, group held",
        "invited, Reorganization, another group",
        "invited, Normal, group held",
        "invited, Normal, group held and owned",
        "invited, Normal, group owned",
        "invited, Normal, another group",
        "invited twice, forwarded",
        "invited twice, call open",
        "invited twice, call given up",
        "invited twice, with members",
        "invited twice, 64 wait",
        "invited twice, others wait behind it",
        "invited elsewhere, its own coordinator",
        "invited elsewhere, a member",
        "invited elsewhere, newer group of its coordinator",
        "invited elsewhere, older group of its coordinator",
        "invited elsewhere, equal counter",
    ];
    assert_eq!(names, expected);
    assert!(met.iter().all(|&(_, runs, _)| runs >= 40), "{met:?}");
}

/// What an invitation from node 2 is to node 1 of four, which holds a group of node 3.
fn invited_in_a_table(group: u32, change: impl Fn(&mut Table)) -> Vec<(String, u64, u64)> {
    let mut table = recovered(4);
    (table.nodes[0].group, table.nodes[0].coordinator) = (group_number(7, 3), 3);
    let body = Body::Invitation { group };
    table.messages.push(Message { sender: 2, receiver: 1, call: 1, body });
    change(&mut table);
    count_waiting(&mut table);
    let mut corners = Corners::default();
    assert!(walk_difference(&Own, &table, &[Deliver(2, 1)], None, Some(&mut corners)).is_none());
    assert_eq!(corners.impossible(), [""; 0]);
    invited(&corners)
}

#[test]
fn invitations_in_tables() {
    let (held, owned) = (group_number(7, 3), group_number(7, 1));
    for (status, name) in [
        (Status::Down, "Down"),
        (Status::Election, "Election"),
        (Status::Reorganization, "Reorganization"),
        (Status::Normal, "Normal"),
    ] {
        let one = |group: u32, own: bool, words: &str| {
            let counts = invited_in_a_table(group, |table| {
                table.nodes[0].status = status;
                if own {
                    (table.nodes[0].group, table.nodes[0].coordinator) = (owned, 1);
                }
            });
            let name = format!("invited, {name}, {words}");
            assert_eq!(counts, in_tables(&[(name.as_str(), 1)]));
        };
        if status == Status::Normal {
            one(owned, true, "group held and owned");
            one(owned, false, "group owned");
        } else {
            one(held, false, "group held");
            one(owned, true, "group held");
            one(owned, false, "another group");
            one(group_number(8, 3), false, "another group");
        }
    }
    let twice = |more: &[(&'static str, u64)], change: fn(&mut Table)| {
        let mut all =
            vec![("deliver 3, group held: idle -> idle", 1), ("invited, Normal, group held", 1)];
        all.extend(more);
        assert_eq!(invited_in_a_table(held, change), in_tables(&all));
    };
    let (forwarded, given_up) =
        (("invited twice, forwarded", 1), ("invited twice, call given up", 1));
    twice(&[forwarded, given_up], |_| {});
    twice(&[forwarded, ("invited twice, call open", 1)], |table| {
        (table.nodes[1].activity, table.nodes[1].last_call) = (Activity::Contacting, 1);
    });
    twice(&[("invited twice, by the owner", 1), given_up], |table| {
        // The same group, of node 2.
        (table.nodes[0].group, table.nodes[0].coordinator) = (group_number(7, 2), 2);
        table.messages[0].body = Body::Invitation { group: group_number(7, 2) };
    });
    twice(&[forwarded, given_up, ("invited twice, with members", 1)], |table| {
        table.nodes[0].members = only(4);
    });
    twice(&[forwarded, given_up, ("invited twice, no call number left", 1)], |table| {
        table.nodes[0].last_call = MAX_CALL;
    });
    let behind = ("invited twice, others wait behind it", 1);
    twice(&[forwarded, given_up, ("invited twice, 64 wait", 1), behind], |table| {
        table.messages = vec![table.messages[0]; 64];
    });
    let elsewhere = |group: u32, more: &[(&'static str, u64)], change: fn(&mut Table)| {
        let mut all = vec![("invited, Normal, another group", 1)];
        all.extend(more);
        assert_eq!(invited_in_a_table(group, change), in_tables(&all));
    };
    let member = ("invited elsewhere, a member", 1);
    elsewhere(group_number(9, 2), &[member], |_| {});
    elsewhere(group_number(9, 2), &[("invited elsewhere, its own coordinator", 1)], |table| {
        (table.nodes[0].group, table.nodes[0].coordinator) = (group_number(3, 1), 1);
    });
    let newer = ("invited elsewhere, newer group of its coordinator", 1);
    elsewhere(group_number(8, 3), &[member, newer], |_| {});
    let older = ("invited elsewhere, older group of its coordinator", 1);
    elsewhere(group_number(6, 3), &[member, older], |_| {});
    elsewhere(group_number(7, 4), &[member, ("invited elsewhere, equal counter", 1)], |_| {});
    elsewhere(group_number(8, 3), &[("invited elsewhere, no call number left", 1)], |table| {
        table.nodes[0].last_call = MAX_CALL;
    });
}

/// A change of what follows on an invitation.
type Change = fn(&mut Result<(), u8>, &mut Table);

/// Of the machine's own answers to invitations nothing is told; of others it is.
#[test]
fn wrong_answers_to_invitations_are_told() {
    let held = group_number(7, 3);
    let refused = "invited, group held, refused";
    let changes = "invited, group held, a node changes";
    let reply = "invited, group held, not one plain reply behind the rest";
    let joins = "invited elsewhere, does not join";
    let twice: [(Change, &str); 12] = [
        (|answer, _| *answer = Err(13), refused),
        (|answer, _| *answer = Err(9), refused),
        (
            |_, after| {
                let status = &mut after.nodes[0].status;
                let back = *status != Status::Reorganization;
                *status = if back { Status::Reorganization } else { Status::Normal };
            },
            changes,
        ),
        (|_, after| after.nodes[0].activity = Activity::Idle, changes),
        (|_, after| after.nodes[0].last_call += 1, changes),
        (|_, after| after.nodes[2].members = only(1), changes),
        (|_, after| after.messages.truncate(2), reply),
        (|_, after| after.messages.push(after.messages[2]), reply),
        (|_, after| after.messages.swap(1, 2), reply),
        (|_, after| after.messages[2].body = Body::Reply { yes: false }, reply),
        (|_, after| after.messages[2].call += 1, reply),
        (|_, after| after.messages[2].receiver = 3, reply),
    ];
    let elsewhere: [(Change, &str); 2] = [
        (|_, after| after.nodes[0].group = group_number(7, 3), joins),
        (|answer, _| *answer = Err(13), joins),
    ];
    let told = |status: Status, group: u32, change: Option<Change>| {
        let mut table = recovered(4);
        let node = &mut table.nodes[0];
        (node.group, node.coordinator, node.status) = (held, 3, status);
        node.activity = Activity::Contacting;
        let call =
            |sender: u8, receiver: u8, body: Body| Message { sender, receiver, call: 8, body };
        table.messages = vec![
            call(4, 1, Body::AreYouCoordinator),
            call(2, 1, Body::Invitation { group }),
            call(3, 2, Body::AreYouCoordinator),
        ];
        count_waiting(&mut table);
        let event = Deliver(2, 1);
        let remembered = Before::of(&table, &event);
        let mut after = table.clone();
        let mut answer = step(&mut after, &event);
        if let Some(change) = change {
            change(&mut answer, &mut after);
        }
        if answer.is_err() {
            after = table;
        }
        let mut corners = Corners::default();
        corners.event(Source::Table, &remembered, &event, answer, &after);
        corners.impossible()
    };
    for status in [Status::Election, Status::Reorganization, Status::Normal] {
        assert_eq!(told(status, held, None), [""; 0]);
        for (change, words) in twice {
            let told = told(status, held, Some(change));
            assert!(told.iter().any(|told| told == words), "{words}: {told:?}");
        }
    }
    let another = group_number(8, 3);
    assert_eq!(told(Status::Normal, another, None), [""; 0]);
    for (change, words) in elsewhere {
        let told = told(Status::Normal, another, Some(change));
        assert!(told.iter().any(|told| told == words), "{words}: {told:?}");
    }
}

/// What a call for the records of node i meets.
fn recovered_in_a_table(table: &Table, i: u8, room: usize) -> Vec<String> {
    let mut corners = Corners::default();
    let counted = Some((&mut corners, Source::Table));
    assert_eq!(recovery_difference(&Own, table, i, room, 1, counted), None);
    assert_eq!(corners.impossible(), [""; 0]);
    let met = met(&corners, &["recovery "]);
    assert!(met.iter().all(|&(_, runs, tables)| (runs, tables) == (0, 1)), "{met:?}");
    met.into_iter().map(|(name, ..)| name.replacen("recovery ", "", 1)).collect()
}

/// A node that is Down, of which the recovery changes every field.
const OTHER: Node = Node {
    counter: 7,
    group: 33,
    coordinator: 2,
    task: 300,
    members: 2,
    last_call: 8,
    ..Node::START
};

#[test]
fn recoveries_in_tables() {
    let met = |change: fn(&mut Node), i: u8, room: usize| {
        let mut table = Table::start(3, TOWER);
        table.nodes[0] = OTHER;
        change(&mut table.nodes[0]);
        recovered_in_a_table(&table, i, room)
    };
    let accepted = |more: &[&str], change: fn(&mut Node)| {
        let mut all = vec!["accepted", "accepted, node 1", "accepted, 232 bytes"];
        all.extend(more);
        assert_eq!(met(change, 1, 232), all);
    };
    let last = "accepted, last counter";
    accepted(&["accepted, every field changes"], |_| {});
    accepted(&["accepted, group as before"], |node| node.group = 128);
    accepted(&["accepted, coordinator as before"], |node| node.coordinator = 1);
    accepted(&["accepted, members as before"], |node| node.members = 0);
    accepted(&["accepted, task as before"], |node| node.task = 1);
    accepted(
        &["accepted, every field changes", last, "accepted, last counter, every field changes"],
        |node| node.counter = MAX_COUNTER - 1,
    );
    accepted(
        &[
            "accepted, group as before",
            "accepted, coordinator as before",
            "accepted, members as before",
            "accepted, task as before",
            last,
            "accepted, last counter, group as before",
            "accepted, last counter, coordinator as before",
            "accepted, last counter, members as before",
            "accepted, last counter, task as before",
        ],
        |node| {
            (node.counter, node.group) = (MAX_COUNTER - 1, 16 * MAX_COUNTER);
            (node.coordinator, node.members, node.task) = (1, 0, 1);
        },
    );
    accepted(&["accepted, every field changes", "accepted, first counter"], |node| {
        node.counter = 0;
    });
    let many = ["accepted", "accepted, node 1", "accepted, more bytes"];
    let every = "accepted, every field changes";
    assert_eq!(met(|_| {}, 1, 233), [&many[..], &[every]].concat());
    assert_eq!(met(|node| node.members = 1, 1, 232), ["refused 1"]);
    assert_eq!(met(|node| node.members = 1, 3, 232), ["refused 1"]);
    assert_eq!(met(|node| node.members = 1, 4, 232), ["refused 1, 7 too"]);
    assert_eq!(met(|node| node.counter = MAX_COUNTER + 1, 1, 232), ["refused 1, 12 too"]);
    assert_eq!(met(|_| {}, 0, 232), ["refused 7, number 0"]);
    for i in [4, 16] {
        assert_eq!(met(|_| {}, i, 232), ["refused 7, number over n, up to 16"]);
    }
    for i in [17, 255] {
        assert_eq!(met(|_| {}, i, 300), ["refused 7, number over 16"]);
    }
    assert_eq!(met(|node| node.status = Status::Election, 1, 232), ["refused 9, Election"]);
    let second = |node: &mut Node| node.status = Status::Reorganization;
    assert_eq!(met(second, 1, 232), ["refused 9, Reorganization"]);
    assert_eq!(met(|node| node.status = Status::Normal, 1, 232), ["refused 9, Normal"]);
    let both = |node: &mut Node| (node.status, node.counter) = (Status::Normal, MAX_COUNTER);
    assert_eq!(met(both, 1, 232), ["refused 9, Normal", "refused 9, 12 too"]);
    assert_eq!(met(|node| node.counter = MAX_COUNTER, 1, 232), ["refused 12"]);
    let (none, one_less) = ("answered 255, no bytes", "answered 255, 231 bytes");
    assert_eq!(met(|_| {}, 1, 100), ["answered 255"]);
    assert_eq!(met(|_| {}, 1, 0), ["answered 255", none]);
    assert_eq!(met(|_| {}, 1, 231), ["answered 255", one_less]);
    assert_eq!(met(|node| node.members = 1, 1, 9), ["answered 255, 1 too"]);
    assert_eq!(met(|_| {}, 4, 9), ["answered 255, 7 too"]);
    let (nine, twelve) = ("answered 255, 9 too", "answered 255, 12 too");
    assert_eq!(met(|node| node.status = Status::Election, 1, 231), [nine, one_less]);
    assert_eq!(met(|node| node.counter = MAX_COUNTER, 1, 0), [twelve, none]);
    assert_eq!(met(both, 1, 9), [nine, twelve]);
}

/// One node, sixteen, and a table that is not in range while the node is Normal.
#[test]
fn recoveries_in_other_tables() {
    let fields = ["members as before", "first counter"].map(|words| format!("accepted, {words}"));
    let expected = |more: &[&str]| {
        let more = more.iter().map(|words| words.to_string());
        [more.collect::<Vec<_>>(), fields.to_vec()].concat()
    };
    let one = ["accepted", "accepted, n = 1", "accepted, node 1", "accepted, 232 bytes"];
    assert_eq!(recovered_in_a_table(&Table::start(1, TOWER), 1, 232), expected(&one));
    let sixteen = ["accepted", "accepted, node 16", "accepted, more bytes"];
    assert_eq!(recovered_in_a_table(&Table::start(16, TOWER), 16, 240), expected(&sixteen));
    let two = ["accepted", "accepted, 232 bytes"];
    assert_eq!(recovered_in_a_table(&Table::start(16, TOWER), 15, 232), expected(&two));
    let mut table = recovered(2);
    table.nodes[1].coordinator = 1;
    assert_eq!(recovered_in_a_table(&table, 1, 232), ["refused 1, 9 too"]);
    table.nodes[0].counter = MAX_COUNTER;
    let both = ["refused 1, 9 too", "refused 1, 12 too"];
    assert_eq!(recovered_in_a_table(&table, 1, 232), both);
    // No node has a record behind the sixteenth.
    let many = Table { n: 17, ..Table::start(16, TOWER) };
    assert_eq!(recovered_in_a_table(&many, 17, 232), ["refused 1"]);
    assert_eq!(recovered_in_a_table(&many, 18, 232), ["refused 1, 7 too"]);
}

const SETS: [&str; 8] = [
    "recovery, record 1 does not set Election alone",
    "recovery, record 2 does not set the counter alone",
    "recovery, record 3 does not set the group alone",
    "recovery, record 4 does not set the coordinator alone",
    "recovery, record 5 does not set the members alone",
    "recovery, record 6 does not set Reorganization alone",
    "recovery, record 7 does not set the task alone",
    "recovery, record 8 does not set Normal alone",
];
const LEAVES: &str = "recovery, record 8 is not the one that recover leaves";
const AS_RECOVER: &str = "recovery, another answer than that of recover";
const AS_GROUNDS: &str = "recovery, another answer than by the grounds";

/// The assignments by themselves.
const SET: [fn(&mut Node); 8] = [
    |node| node.status = Status::Election,
    |node| node.counter = 8,
    |node| node.group = 128,
    |node| node.coordinator = 1,
    |node| node.members = 0,
    |node| node.status = Status::Reorganization,
    |node| node.task = 1,
    |node| node.status = Status::Normal,
];

/// What is told of these records of node 1, where it was `OTHER`; the step may leave something else too.
fn told(records: [Node; 8], change: fn(&mut Table)) -> Vec<String> {
    let mut table = Table::start(3, TOWER);
    table.nodes[0] = OTHER;
    let mut after = table.clone();
    step(&mut after, &Recover(1)).unwrap();
    change(&mut after);
    let (mut bytes, mut step_out) = ([0; TABLE_BYTES], [0; TABLE_BYTES]);
    table_to_bytes(&table, &mut bytes);
    table_to_bytes(&after, &mut step_out);
    let mut out = [0; 240];
    let answer = recovery_by(|_, _| Ok(records), &bytes, 1, &mut out);
    let mut corners = Corners::default();
    let (out, step_out) = (&out, &step_out);
    let call = Call { table: &bytes, node: 1, answer, out, step_answer: 0, step_out };
    corners.recovery(Source::Table, &call);
    corners.impossible()
}

/// Records of which each is the one before after some of the assignments.
fn made(rows: &[Vec<usize>]) -> [Node; 8] {
    let mut node = OTHER;
    std::array::from_fn(|k| {
        rows[k].iter().for_each(|&assignment| SET[assignment](&mut node));
        node
    })
}

/// "each sets that field alone in the one before, and the last is the one recover i leaves": of the right
/// records nothing is told, of others it is.
#[test]
fn wrong_records_are_told() {
    let right: Vec<Vec<usize>> = (0..8).map(|k| vec![k]).collect();
    assert_eq!(told(made(&right), |_| {}), [""; 0]);
    for k in 0..7 {
        let mut swapped = right.clone();
        swapped.swap(k, k + 1);
        let mut expected = SETS[k..k + 2].to_vec();
        assert_eq!(told(made(&swapped), |_| {}), expected);
        // Two at once; the record behind is the same, and so has its field set.
        let mut both = right.clone();
        both[k] = vec![k, k + 1];
        both[k + 1] = vec![];
        expected.truncate(1);
        assert_eq!(told(made(&both), |_| {}), expected);
    }
    for k in 0..8 {
        let mut left_out = right.clone();
        left_out[k] = vec![];
        let mut expected = vec![SETS[k]];
        // The status that is left out is followed by another.
        if !matches!(k, 0 | 5) {
            expected.push(LEAVES);
        }
        assert_eq!(told(made(&left_out), |_| {}), expected);
    }
}

/// All else stays: a field that is changed in one record alone, or from there on.
#[test]
fn other_fields_that_change_are_told() {
    let right: Vec<Vec<usize>> = (0..8).map(|k| vec![k]).collect();
    let changes: [fn(&mut Node); 8] = [
        |node| node.status = Status::Down,
        |node| node.counter += 5,
        |node| node.group += 16,
        |node| node.coordinator = 3,
        |node| node.members |= 4,
        |node| node.task = 100,
        |node| node.last_call += 1,
        |node| node.activity = Activity::Collecting,
    ];
    for (c, change) in changes.into_iter().enumerate() {
        for k in 0..8 {
            let mut records = made(&right);
            change(&mut records[k]);
            let told_once = told(records, |_| {});
            assert!(told_once.contains(&SETS[k].to_string()), "{c} {k} {told_once:?}");
            let mut records = made(&right);
            records[k..].iter_mut().for_each(change);
            let told_on = told(records, |_| {});
            assert!(told_on.contains(&SETS[k].to_string()), "{c} {k} {told_on:?}");
            assert!(told_on.contains(&LEAVES.to_string()), "{c} {k} {told_on:?}");
        }
    }
}

/// The step leaves another record, or answers another number, or the grounds have another.
#[test]
fn wrong_answers_to_recoveries_are_told() {
    let right: Vec<Vec<usize>> = (0..8).map(|k| vec![k]).collect();
    let others: [fn(&mut Table); 4] = [
        |after| after.nodes[0].status = Status::Reorganization,
        |after| after.nodes[0].last_call += 1,
        |after| after.nodes[0].members = 2,
        |after| after.nodes.swap(0, 1),
    ];
    for change in others {
        assert_eq!(told(made(&right), change), [LEAVES]);
    }
    assert_eq!(told(made(&right), |after| after.nodes[1].counter = 1), [""; 0]);
    let told = |status: Status, room: usize, answer: u8, step_answer: u8| {
        let mut table = Table::start(3, TOWER);
        (table.nodes[0].status, table.nodes[0].group) = (status, 16);
        table.nodes[0].coordinator = 1;
        let (mut bytes, mut step_out) = ([0; TABLE_BYTES], [0; TABLE_BYTES]);
        table_to_bytes(&table, &mut bytes);
        Own.step(&bytes, &[0x11, 0, 1, 1], &mut step_out);
        let mut out = vec![0; room];
        Own.recovery(&bytes, 1, &mut out);
        let call =
            Call { table: &bytes, node: 1, answer, out: &out, step_answer, step_out: &step_out };
        let mut corners = Corners::default();
        corners.recovery(Source::Run, &call);
        corners.impossible()
    };
    for (status, number) in [(Status::Down, 0), (Status::Normal, 9)] {
        assert_eq!(told(status, 232, number, number), [""; 0]);
        assert_eq!(told(status, 231, TOO_SHORT, number), [""; 0]);
        assert_eq!(told(status, 232, 12, number), [AS_RECOVER, AS_GROUNDS]);
        assert_eq!(told(status, 232, 12, 12), [AS_GROUNDS]);
        assert_eq!(told(status, 232, TOO_SHORT, number), [AS_RECOVER, AS_GROUNDS]);
        assert_eq!(told(status, 231, number, number), [AS_RECOVER, AS_GROUNDS]);
        assert_eq!(told(status, 0, 1, number), [AS_RECOVER, AS_GROUNDS]);
    }
    assert_eq!(told(Status::Normal, 232, 9, 0), [AS_RECOVER]);
    assert_eq!(told(Status::Down, 232, 0, 9), [LEAVES, AS_RECOVER]);
}

/// The corners of T-05 that were met.
fn counted_messages(corners: &Corners) -> Vec<(String, u64, u64)> {
    met(corners, &["counts", "check, asks: "])
}

/// K10's first events: a question and its answer, and a message that is lost.
#[test]
fn messages_in_runs() {
    let events =
        [Recover(1), Recover(2), Check(2), Deliver(2, 1), Deliver(1, 2), Lose(2, 1), Crash(1)];
    let mut corners = Corners::default();
    assert!(run_difference(&Own, 2, TOWER, &events, Some(&mut corners)).is_none());
    assert_eq!(corners.impossible(), [""; 0]);
    let expected = [
        ("counts, none raised", 3),
        ("counts, sent raised", 1),
        ("counts, lost raised", 1),
        ("counts, delivered raised, and sent to its sender", 2),
    ];
    assert_eq!(counted_messages(&corners), in_runs(&expected));
}

/// Node 2 asks node 1, with other counts.
#[test]
fn messages_in_tables() {
    let met = |there: u32, back: u32, change: fn(&mut Table)| {
        let mut table = recovered(2);
        let Traffic { sent, lost, .. } = &mut table.traffic;
        (sent[1][0], lost[1][0]) = (there, there);
        (sent[0][1], lost[0][1]) = (back, back);
        change(&mut table);
        assert!(table.in_range());
        let mut corners = Corners::default();
        let found = walk_difference(&Own, &table, &[Check(2)], None, Some(&mut corners));
        assert!(found.is_none() && corners.impossible().is_empty());
        counted_messages(&corners).into_iter().map(|(name, ..)| name).collect::<Vec<_>>()
    };
    let end = MAX_COUNT;
    assert_eq!(met(3, 0, |_| {}), ["counts, sent raised"]);
    assert_eq!(met(end, 0, |_| {}), ["check, asks: refused 17"]);
    let nearly = ["counts, sent raised", "counts, sent raised to its end"];
    let one_below = "check, asks: accepted, one below the end";
    assert_eq!(met(end - 1, 0, |_| {}), [&[one_below], &nearly[..]].concat());
    let other = "check, asks: accepted, another pair at the end";
    let elsewhere = ["counts, sent at its end elsewhere", "counts, lost at its end elsewhere"];
    assert_eq!(met(3, end, |_| {}), [&[other, "counts, sent raised"], &elsewhere[..]].concat());
    let calls = |table: &mut Table| table.nodes[1].last_call = MAX_CALL;
    assert_eq!(met(end, 0, calls), ["check, asks: refused 13, 17 too"]);
    assert_eq!(met(3, 0, calls), [""; 0]);
    let full = |table: &mut Table| {
        let body = Body::AreYouCoordinator;
        table.messages = vec![Message { sender: 1, receiver: 2, call: 1, body }; 64];
        table.traffic.sent[0][1] += 64;
    };
    assert_eq!(met(end, 0, full), ["check, asks: refused 14, 17 too"]);
    assert_eq!(met(3, 0, full), [""; 0]);
}

/// Of the machine's own counts and answers nothing is told; of others it is.
#[test]
fn wrong_counts_are_told() {
    let answer_by_grounds = "counts, another answer than by the grounds 12, 13, 14 and 17";
    let no_message = "counts, 13, 14 or 17 where no message must be sent";
    let not_raised = "counts, not raised by what the event sends, delivers and loses";
    let by_refused = "counts, changed by a refused event";
    let in_run = "counts, 17 in a run";
    let within = "counts, 17 within the calls";
    let no_longer = "counts, no longer within the calls";
    let told = |source: Source, event: Event, change: &dyn Fn(&mut Table), answer: Option<u8>| {
        let mut table = recovered(2);
        table.nodes[1].last_call = 1;
        table.messages =
            vec![Message { sender: 1, receiver: 2, call: 1, body: Body::Reply { yes: true } }];
        count_waiting(&mut table);
        let before = Before::of(&table, &event);
        let mut after = table.clone();
        let right = step(&mut after, &event);
        if answer.is_some() {
            after = table;
        }
        change(&mut after);
        let mut corners = Corners::default();
        corners.event(source, &before, &event, answer.map_or(right, Err), &after);
        corners.impossible()
    };
    let none: &dyn Fn(&mut Table) = &|_| {};
    for event in [Check(2), Deliver(1, 2), Lose(1, 2), Timeout(2), Crash(1)] {
        assert_eq!(told(Source::Run, event, none, None), [""; 0]);
        let more: &dyn Fn(&mut Table) = &|table| table.traffic.delivered[0][1] += 1;
        assert_eq!(told(Source::Run, event, more, None), [not_raised]);
        let refused = told(Source::Table, event, more, Some(9));
        assert!(refused.contains(&by_refused.to_string()), "{refused:?}");
        let far: &dyn Fn(&mut Table) = &|table| table.traffic.sent[0][1] += 9;
        assert_eq!(told(Source::Run, event, far, None), [not_raised, no_longer]);
    }
    for number in [12, 13, 14] {
        let told = told(Source::Table, Check(2), none, Some(number));
        assert!(told.contains(&answer_by_grounds.to_string()), "{told:?}");
    }
    let told_17 = told(Source::Table, Check(2), none, Some(17));
    assert_eq!(told_17, [answer_by_grounds, within, OTHER_ANSWER]);
    let told_17 = told(Source::Run, Check(2), none, Some(17));
    assert_eq!(told_17, [answer_by_grounds, in_run, within, OTHER_ANSWER]);
    let told_17 = told(Source::Table, Timeout(2), none, Some(17));
    assert_eq!(told_17, [no_message, within]);
    let told_17 = told(Source::Table, Lose(1, 2), none, Some(17));
    assert_eq!(told_17, ["lose refused 17", no_message, within]);
    // A rule of the range that is broken and not answered 1.
    let mut corners = Corners::default();
    corners.broken_counts(0, Err(1));
    assert_eq!(corners.impossible(), [""; 0]);
    corners.broken_counts(0, Ok(()));
    assert_eq!(corners.impossible(), ["counts, a rule broken and not answered 1"]);
}

const OTHER_ANSWER: &str = "check, another answer than by the grounds";
const MUST_NOT: &str = "check, accepted where the node is not Normal or not its own coordinator";
const CHANGES: &str = "check, refused, and the table changes";
const CHANGES_ALONE: &str = "check, accepted with n = 1, and the table changes";
const NO_QUESTION: &str =
    "check, accepted with n > 1, and not one question to the lowest other node";

/// The corners of T-06 that were met.
fn checked(corners: &Corners) -> Vec<(String, u64, u64)> {
    met(corners, &["check accepted", "check refused", "list, check"])
}

/// K10's events, and checks before, between and behind them.
fn k10_with_checks() -> Vec<Event> {
    let mut events = vec![Check(2), Check(3), Recover(1), Recover(2), Check(2), Check(2)];
    for _ in 0..3 {
        events.extend([Deliver(2, 1), Deliver(1, 2)]);
    }
    events.extend([Check(1), Finish(2, 100), Check(2), Deliver(2, 1), Deliver(1, 2)]);
    events.extend([Check(1), Check(2), Check(1), Timeout(1), Check(1), Crash(1), Check(1)]);
    events
}

#[test]
fn checks_in_runs() {
    let events = k10_with_checks();
    let mut corners = Corners::default();
    assert!(run_difference(&Own, 2, TOWER, &events, Some(&mut corners)).is_none());
    assert_eq!(corners.impossible(), [""; 0]);
    let expected = [
        ("check refused 7", 1),
        ("check refused 9", 2),
        ("check refused 10", 3),
        ("check refused 18", 3),
        ("check refused 18, Reorganization, a member", 1),
        ("check refused 18, Normal, a member", 2),
        ("check refused 10, asking, Normal and its own coordinator", 1),
        ("check refused 10, handing, 18 too, not Normal", 1),
        ("check refused 10, contacting, 18 too, a member", 1),
        ("check accepted, n = 2", 2),
        ("check accepted, another node asks 1", 2),
        ("check accepted, with members", 1),
        ("check refused 9, a member", 1),
        ("check refused 9, no coordinator", 1),
        ("check refused 7, number over n, up to 16", 1),
    ];
    assert_eq!(checked(&corners), in_runs(&expected));
    let mut corners = Corners::default();
    let events = [Recover(1), Check(1), Crash(1), Check(1), Check(0), Check(17)];
    assert!(run_difference(&Own, 1, TOWER, &events, Some(&mut corners)).is_none());
    assert_eq!(corners.impossible(), [""; 0]);
    let expected = [
        ("check refused 7", 2),
        ("check refused 9", 1),
        ("check accepted, n = 1", 1),
        ("check refused 9, its own coordinator", 1),
        ("check refused 7, number 0", 1),
        ("check refused 7, number over 16", 1),
    ];
    assert_eq!(checked(&corners), in_runs(&expected));
}

/// Random runs meet each corner of checks that a run can have, and not too seldom, and no other.
#[test]
fn checks_in_random_runs() {
    let mut numbers = Numbers::new(2);
    let mut corners = Corners::default();
    for _ in 0..1200 {
        let n = numbers.of(&[1, 2, 3, 4, 8, 16]);
        let events = run(n, TOWER, 500, &mut numbers);
        assert!(run_difference(&Own, n, TOWER, &events, Some(&mut corners)).is_none());
    }
    assert_eq!(corners.impossible(), [""; 0]);
    let met = checked(&corners);
    let names: Vec<&str> = met.iter().map(|(name, ..)| name.as_str()).collect();
    let expected = [
        "check refused 7",
        "check refused 9",
        "check refused 10",
        "check refused 14",
        "check refused 18",
        "check refused 18, Reorganization, a member",
        "check refused 18, Reorganization, a member, 14 too",
        "check refused 18, Normal, a member",
        "check refused 18, Normal, a member, 14 too",
        "check refused 10, asking, Normal and its own coordinator",
        "check refused 10, waiting, Normal and its own coordinator",
        "check refused 10, inviting, 18 too, not Normal",
        "check refused 10, collecting, 18 too, not Normal",
        "check refused 10, handing, 18 too, not Normal",
        "check refused 10, contacting, 18 too, a member",
        "check refused 10, contacting, 18 too, not Normal and a member",
        "check refused 10, forwarding, 18 too, not Normal and a member",
        "check refused 10, accepting, 18 too, not Normal and a member",
        "check accepted, n = 1",
        "check accepted, n = 2",
        "check accepted, n = 16",
        "check accepted, node 1 asks 2",
        "check accepted, another node asks 1",
        "check accepted, with members",
        "check accepted, the 64th message",
        "check refused 9, its own coordinator",
        "check refused 9, a member",
        "check refused 9, no coordinator",
        "check refused 7, number 0",
        "check refused 7, number over n, up to 16",
        "check refused 7, number over 16",
    ];
    assert_eq!(names, expected);
    assert!(met.iter().all(|&(_, runs, _)| runs >= 20), "{met:?}");
}

/// What a check of node i meets on a table of two nodes that have recovered, or of one.
fn checked_in_a_table(n: u8, i: u8, change: impl Fn(&mut Table)) -> Vec<String> {
    let mut table = recovered(n);
    change(&mut table);
    let mut corners = Corners::default();
    assert!(walk_difference(&Own, &table, &[Check(i)], None, Some(&mut corners)).is_none());
    assert_eq!(corners.impossible(), [""; 0]);
    let met = checked(&corners);
    assert!(met.iter().all(|&(_, runs, tables)| (runs, tables) == (0, 1)), "{met:?}");
    // The first is the count of the refusals of checks by number.
    let names = met.into_iter().map(|(name, ..)| name.replacen("check ", "", 1));
    names.filter(|name| name.contains(',')).collect()
}

#[test]
fn checks_in_tables() {
    let member = |node: &mut Node| (node.group, node.coordinator) = (group_number(7, 2), 2);
    let full = |table: &mut Table| {
        let body = Body::AreYouCoordinator;
        table.messages = vec![Message { sender: 2, receiver: 1, call: 1, body }; 64];
        table.traffic.sent[1][0] = 64;
    };
    let no_more = |table: &mut Table| {
        (table.traffic.sent[0][1], table.traffic.lost[0][1]) = (MAX_COUNT, MAX_COUNT);
    };
    let nodes = [
        (Status::Election, false, "Election, its own coordinator"),
        (Status::Reorganization, false, "Reorganization, its own coordinator"),
        (Status::Election, true, "Election, a member"),
        (Status::Reorganization, true, "Reorganization, a member"),
        (Status::Normal, true, "Normal, a member"),
    ];
    for (status, joined, words) in nodes {
        let met = |change: &dyn Fn(&mut Table)| {
            checked_in_a_table(2, 1, |table| {
                table.nodes[0].status = status;
                if joined {
                    member(&mut table.nodes[0]);
                }
                change(table);
            })
        };
        let refused = format!("refused 18, {words}");
        let too = |number: u8| format!("{refused}, {number} too");
        assert_eq!(met(&|_| {}), [refused.as_str()]);
        let no_call = |table: &mut Table| table.nodes[0].last_call = MAX_CALL;
        assert_eq!(met(&no_call), [refused.clone(), too(13)]);
        assert_eq!(met(&full), [refused.clone(), too(14)]);
        assert_eq!(met(&no_more), [refused.clone(), too(17)]);
        let all = |table: &mut Table| {
            no_call(table);
            full(table);
            no_more(table);
        };
        assert_eq!(met(&all), [refused.clone(), too(13), too(14), too(17)]);
        let why = match (status, joined) {
            (Status::Normal, _) => "a member",
            (_, false) => "not Normal",
            (_, true) => "not Normal and a member",
        };
        let busy = |table: &mut Table| table.nodes[0].activity = Activity::Collecting;
        assert_eq!(met(&busy), [format!("refused 10, collecting, 18 too, {why}")]);
        let broken = |table: &mut Table| table.nodes[1].members = only(2);
        assert_eq!(met(&broken), ["refused 1, 18 too"]);
    }
    assert_eq!(
        checked_in_a_table(2, 1, |table| table.nodes[0].activity = Activity::Contacting),
        ["refused 10, contacting, Normal and its own coordinator"]
    );
    assert_eq!(
        checked_in_a_table(2, 1, |table| table.nodes[1].members = only(2)),
        ["refused 1, Normal and its own coordinator"]
    );
    let down_and_busy =
        |node: &mut Node| (node.status, node.activity) = (Status::Down, Activity::Collecting);
    assert_eq!(
        checked_in_a_table(2, 1, |table| down_and_busy(&mut table.nodes[0])),
        ["refused 1, Down and not idle"]
    );
    let accepted = |more: &[&str], change: fn(&mut Table)| {
        let mut all = vec!["accepted, n = 2", "accepted, node 1 asks 2"];
        all.extend(more);
        assert_eq!(checked_in_a_table(2, 1, change), all);
    };
    accepted(&[], |_| {});
    accepted(&["accepted, with members"], |table| table.nodes[0].members = only(2));
    accepted(&["accepted, the last call number"], |table| {
        table.nodes[0].last_call = MAX_CALL - 1;
    });
    accepted(&["accepted, the 64th message"], |table| {
        let body = Body::AreYouCoordinator;
        table.messages = vec![Message { sender: 2, receiver: 1, call: 1, body }; 63];
        table.traffic.sent[1][0] = 63;
    });
    let both = |table: &mut Table| {
        table.nodes[0].last_call = MAX_CALL;
        full(table);
    };
    assert_eq!(checked_in_a_table(2, 1, both), ["refused 13, 14 too"]);
    assert_eq!(
        checked_in_a_table(16, 16, |_| {}),
        ["accepted, n = 16", "accepted, another node asks 1"]
    );
    assert_eq!(checked_in_a_table(1, 1, |_| {}), ["accepted, n = 1"]);
    assert_eq!(
        checked_in_a_table(1, 1, |table| table.nodes[0].last_call = MAX_CALL),
        ["accepted, n = 1", "accepted, n = 1, no call number left"]
    );
    for (status, words) in
        [(Status::Election, "Election"), (Status::Reorganization, "Reorganization")]
    {
        assert_eq!(
            checked_in_a_table(1, 1, |table| table.nodes[0].status = status),
            [
                format!("refused 18, {words}, its own coordinator"),
                format!("refused 18, n = 1, {words}")
            ]
        );
    }
}

/// Of the machine's own checks nothing is told; of others it is.
#[test]
fn wrong_checks_are_told() {
    let told = |table: &Table, answer: Option<Result<(), u8>>, change: fn(&mut Table)| {
        let before = Before::of(table, &Check(1));
        let mut after = table.clone();
        let right = step(&mut after, &Check(1));
        change(&mut after);
        let mut corners = Corners::default();
        corners.event(Source::Table, &before, &Check(1), answer.unwrap_or(right), &after);
        corners.impossible()
    };
    let (none, accepted): (fn(&mut Table), _) = (|_| {}, Some(Ok(())));
    for (n, status, owner) in [
        (3, Status::Normal, 1),
        (3, Status::Normal, 2),
        (3, Status::Election, 1),
        (3, Status::Reorganization, 2),
        (1, Status::Normal, 1),
        (1, Status::Election, 1),
    ] {
        let mut table = recovered(n);
        let node = &mut table.nodes[0];
        (node.status, node.group, node.coordinator) = (status, group_number(7, owner), owner);
        assert_eq!(told(&table, None, none), [""; 0]);
        let right = (status, owner) == (Status::Normal, 1);
        let by_answer =
            |number: u8, change: fn(&mut Table)| told(&table, Some(Err(number)), change);
        let has = |told: Vec<String>, words: &str| {
            assert!(told.iter().any(|told| told == words), "{words}: {told:?}");
        };
        for number in [1, 7, 9, 10, 11, 13, 14, 17, 18] {
            if right || number != 18 {
                has(by_answer(number, none), OTHER_ANSWER);
            }
        }
        if !right {
            has(told(&table, accepted, none), MUST_NOT);
            has(told(&table, accepted, none), OTHER_ANSWER);
            assert_eq!(told(&table, None, |after| after.nodes[0].last_call += 1), [CHANGES]);
            assert_eq!(told(&table, None, |after| after.nodes[0].task += 1), [CHANGES]);
        } else if n == 1 {
            assert_eq!(told(&table, None, |after| after.nodes[0].task += 1), [CHANGES_ALONE]);
        } else {
            let wrong: [fn(&mut Table); 7] = [
                |after| after.messages.clear(),
                |after| after.messages[0].receiver = 3,
                |after| after.messages[0].call += 1,
                |after| after.messages[0].body = Body::Reply { yes: true },
                |after| after.nodes[0].activity = Activity::Asking { asked: 2, found: only(3) },
                |after| after.nodes[0].last_call = 0,
                |after| after.nodes[1].task = 9,
            ];
            for change in wrong {
                has(told(&table, None, change), NO_QUESTION);
            }
        }
    }
    let mut corners = Corners::default();
    let (table, event) = (recovered(2), Timeout(1));
    corners.event(Source::Run, &Before::of(&table, &event), &event, Err(18), &table);
    assert!(corners.impossible().contains(&"timeout refused 18".to_string()));
}

/// What a list of so many nodes and its text meet, and what is told of them.
fn printed(
    n: u8,
    events: &[Event],
    behind: &[u8],
    text: Option<&str>,
) -> (Vec<String>, Vec<String>) {
    let list = [&write_list(n, TOWER, events)[..], behind].concat();
    let text = text.map_or(run_list(&list), |text| text.as_bytes().to_vec());
    let mut corners = Corners::default();
    corners.printed(&read_list(&list).unwrap(), &text);
    let met = met(&corners, &["list, "]).into_iter().map(|(name, ..)| name);
    (
        met.map(|name| name.replacen("list, check refused 18 ", "", 1)).collect(),
        corners.impossible(),
    )
}

#[test]
fn checks_in_lists() {
    let all = k10_with_checks();
    let met = |events: &[Event], behind: &[u8]| {
        let (met, told) = printed(2, events, behind, None);
        assert_eq!(told, [""; 0]);
        met
    };
    // Up to the first check that is refused 18, and its next event.
    let (early, next) = ("among the first 99 events", "and the next event accepted");
    assert_eq!(met(&all[..12], &[]), [""; 0]);
    assert_eq!(met(&all[..13], &[]), [early, "as the last event"]);
    assert_eq!(met(&all[..13], &[0x19, 0, 0]), [early, "and stopped later"]);
    assert_eq!(met(&all[..14], &[]), [early, next]);
    assert_eq!(met(&all[..14], &[9]), [early, next, "and stopped later"]);
    let later = [&all[..13], &[Tick(1), Crash(2)]].concat();
    assert_eq!(met(&later, &[]), [early, "and a later event accepted, not the next"]);
    // Refused events in front, so that it is the 99th or the 100th.
    let late = |refused: usize| [&vec![Tick(1); refused], &all[..13]].concat();
    assert_eq!(met(&late(86), &[]), [early, "as the last event"]);
    assert_eq!(met(&late(87), &[]), ["behind them", "as the last event"]);
}

/// Of the right text nothing is told; of others it is.
#[test]
fn wrong_texts_of_checks_are_told() {
    let otherwise = "list, check printed otherwise than by the grounds";
    let another = "list, 18 printed for another event";
    // Which is a finish.
    let finish = "list, finish printed otherwise than by the grounds";
    let events = &k10_with_checks()[..14];
    let list = write_list(2, TOWER, events);
    let right = String::from_utf8(run_list(&list)).unwrap();
    assert!(right.contains("refused 13 18\n"));
    let told = |from: &str, to: &str| printed(2, events, &[], Some(&right.replace(from, to))).1;
    assert_eq!(told("", ""), [""; 0]);
    assert_eq!(told("refused 13 18\n", ""), [otherwise]);
    assert_eq!(told("refused 13 18\n", "refused 13 10\n"), [otherwise]);
    assert_eq!(told("refused 13 18\n", "refused 13 18\nrefused 14 18\n"), [another, finish]);
    assert_eq!(told("refused 13 18\n", "refused 12 18\n"), [otherwise, another]);
    assert_eq!(told("refused 6 10\n", "refused 6 18\n"), [otherwise]);
}
