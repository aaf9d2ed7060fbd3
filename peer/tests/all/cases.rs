//! Document 01's named cases K1 to K13, on the machine and on the printed text, and cases of T-02 of
//! document 02, "Higher numbers first", and T-03, "An invitation that arrives twice".

use crate::common;

use common::{invited_twice, LATE, NODES};
use peer::list::write_list;
use peer::machine::*;
use peer::print::run_list;
use peer::traffic_tables::count_waiting;
use Event::*;

fn printed(n: u8, events: &[Event]) -> String {
    String::from_utf8(run_list(&write_list(n, TOWER, events))).unwrap()
}

fn after(n: u8, events: &[Event]) -> Table {
    let mut table = Table::start(n, TOWER);
    for event in events {
        assert_eq!(step(&mut table, event), Ok(()), "{event:?}");
    }
    table
}

/// A table of n nodes that have each recovered once.
fn recovered(n: u8) -> Table {
    after(n, &(1..=n).map(Recover).collect::<Vec<_>>())
}

fn refused(table: &Table, event: Event, number: u8) {
    let mut same = table.clone();
    assert_eq!(step(&mut same, &event), Err(number));
    assert_eq!(&same, table);
}

#[test]
fn k1_number_of_nodes() {
    assert_eq!(printed(0, &[]), "stopped 0 6\n");
    assert_eq!(printed(17, &[]), "stopped 0 6\n");
    assert!(printed(1, &[]).starts_with("cabinets 1\n"));
    assert!(printed(16, &[]).starts_with("cabinets 16\n"));
}

#[test]
fn k2_k3_k4_recover() {
    let mut table = after(2, &[Recover(1)]);
    let node = *table.node(1);
    assert_eq!((node.group, node.task, node.status), (16, 1, Status::Normal));
    refused(&table, Recover(1), 9);
    step(&mut table, &Crash(1)).unwrap();
    step(&mut table, &Recover(1)).unwrap();
    assert_eq!(table.node(1).group, 32);
}

#[test]
fn k5_last_counter() {
    let mut table = Table::start(16, TOWER);
    table.nodes[15].counter = 1_048_574;
    step(&mut table, &Recover(16)).unwrap();
    assert_eq!(table.node(16).group, 16_777_215);
    step(&mut table, &Crash(16)).unwrap();
    refused(&table, Recover(16), 12);
}

/// T-10: "K6 now uses task 200 for the one that passes."
#[test]
fn k6_finish_task() {
    let mut table = recovered(2);
    table.nodes[0].activity = Activity::Collecting;
    refused(&table, Finish(1, 99), 8);
    assert_eq!(step(&mut table, &Finish(1, 200)), Ok(()));
}

#[test]
fn k7_ticks() {
    let mut table = after(
        3,
        &[Recover(1), Recover(3), Check(1), Expire(1), Deliver(1, 3), Deliver(3, 1), Tick(1)],
    );
    assert_eq!(table.node(1).activity, Activity::Waiting { ticks: 1, found: only(3) });
    step(&mut table, &Tick(1)).unwrap();
    assert_eq!((table.node(1).status, table.node(1).group), (Status::Election, 32));
}

#[test]
fn k8_invitation_in_election() {
    let mut table = recovered(2);
    table.nodes[0].status = Status::Election;
    table.messages.push(Message {
        sender: 2,
        receiver: 1,
        call: 7,
        body: Body::Invitation { group: 17 },
    });
    count_waiting(&mut table);
    let nodes = table.nodes;
    step(&mut table, &Deliver(2, 1)).unwrap();
    assert_eq!(table.nodes, nodes);
    let reply = Message { sender: 1, receiver: 2, call: 7, body: Body::Reply { yes: true } };
    assert_eq!(table.messages, [reply]);
}

#[test]
fn k9_older_reply() {
    let mut table = recovered(2);
    table.nodes[0].activity = Activity::Asking { asked: 2, found: 0 };
    table.nodes[0].last_call = 5;
    table.messages.push(Message {
        sender: 2,
        receiver: 1,
        call: 4,
        body: Body::Reply { yes: true },
    });
    count_waiting(&mut table);
    let nodes = table.nodes;
    step(&mut table, &Deliver(2, 1)).unwrap();
    assert_eq!(table.nodes, nodes);
    assert_eq!(table.messages, []);
}

/// T-02: "K10 prints the same." T-05: "K10 gains the lines `sent 8`, `delivered 8`, `lost 0`."
#[test]
fn k10_two_nodes() {
    let mut events = vec![Recover(1), Recover(2), Check(2)];
    for _ in 0..3 {
        events.extend([Deliver(2, 1), Deliver(1, 2)]);
    }
    events.extend([Finish(2, 100), Deliver(2, 1), Deliver(1, 2)]);
    let text = "cabinets 2\n1 3 2 33 100 1 0\n2 3 2 33 100 2 1\nmessages 0\n\
                sent 8\ndelivered 8\nlost 0\n";
    assert_eq!(printed(2, &events), text);
}

#[test]
fn k11_full() {
    let mut table = recovered(2);
    let ask = Message { sender: 1, receiver: 2, call: 1, body: Body::AreYouCoordinator };
    table.messages = vec![ask; 64];
    count_waiting(&mut table);
    refused(&table, Check(1), 14);
    assert_eq!(step(&mut table, &Deliver(1, 2)), Ok(()));
    assert_eq!(table.messages.len(), 64);
}

#[test]
fn k12_late_accept() {
    let mut table = recovered(2);
    table.nodes[0].status = Status::Reorganization;
    table.messages.push(Message {
        sender: 2,
        receiver: 1,
        call: 1,
        body: Body::Accept { group: 16 },
    });
    count_waiting(&mut table);
    step(&mut table, &Deliver(2, 1)).unwrap();
    assert_eq!(table.node(1).members, 0);
}

#[test]
fn k13_order_of_grounds() {
    refused(&Table::start(2, TOWER), Finish(9, 5), 7);
    assert!(printed(2, &[Finish(9, 5)]).contains("refused 1 7\n"));
}

/// Delivers what waits, the oldest first, until nothing does. Gives the messages in that order, which is
/// the order sent.
fn deliver_all(table: &mut Table) -> Vec<Message> {
    let mut delivered = Vec::new();
    while let Some(&m) = table.messages.first() {
        assert_eq!(step(table, &Deliver(m.sender, m.receiver)), Ok(()), "{m:?}");
        delivered.push(m);
    }
    delivered
}

/// Whom node i sent messages of a kind, in order.
fn called(messages: &[Message], i: u8, kind: u8) -> Vec<u8> {
    let fits = |m: &&Message| m.sender == i && m.body.kind() == kind;
    messages.iter().filter(fits).map(|m| m.receiver).collect()
}

fn set(nodes: &[u8]) -> Set {
    nodes.iter().map(|&i| only(i)).sum()
}

/// Nodes 1 to n are Normal in one group, with task 100; node i formed it and has all others as members.
fn one_group(n: u8, i: u8) -> Table {
    let mut table = recovered(n);
    for node in &mut table.nodes[..usize::from(n)] {
        (node.group, node.coordinator, node.task) = (group_number(1, i), i, 100);
    }
    table.nodes[usize::from(i) - 1].members = (1..=n).filter(|&j| j != i).map(only).sum();
    table
}

/// "in inviting, forwarding and handing. Asking still goes from 1 up."
#[test]
fn t02_asks_up_invites_and_hands_down() {
    let mut table = recovered(5);
    step(&mut table, &Check(5)).unwrap();
    let messages = deliver_all(&mut table);
    assert_eq!(called(&messages, 5, 1), [1, 2, 3, 4]);
    assert_eq!(called(&messages, 5, 3), [4, 3, 2, 1]);
    assert_eq!(table.node(5).activity, Activity::Collecting);
    assert_eq!(table.node(5).members, set(&[1, 2, 3, 4]));
    step(&mut table, &Finish(5, 100)).unwrap();
    let messages = deliver_all(&mut table);
    assert_eq!(called(&messages, 5, 5), [4, 3, 2, 1]);
    for node in &table.nodes[..5] {
        assert_eq!((node.status, node.group, node.task), (Status::Normal, 36, 100));
    }
}

/// A node in the middle, which merges at the last tick.
#[test]
fn t02_invites_after_ticks() {
    let mut table = recovered(6);
    step(&mut table, &Check(3)).unwrap();
    let messages = deliver_all(&mut table);
    assert_eq!(called(&messages, 3, 1), [1, 2, 4, 5, 6]);
    for _ in 0..3 {
        step(&mut table, &Tick(3)).unwrap();
    }
    let messages = deliver_all(&mut table);
    assert_eq!(called(&messages, 3, 3), [6, 5, 4, 2, 1]);
}

/// Node 4 with its members is invited by node 5, and forwards the invitation.
#[test]
fn t02_forwards_down() {
    let mut table = one_group(4, 4);
    table.n = 5;
    step(&mut table, &Recover(5)).unwrap();
    step(&mut table, &Check(5)).unwrap();
    let messages = deliver_all(&mut table);
    assert_eq!(called(&messages, 5, 1), [1, 2, 3, 4]);
    assert_eq!(called(&messages, 5, 3), [4]);
    assert_eq!(called(&messages, 4, 3), [3, 2, 1]);
    let accepted = messages.iter().filter(|m| m.body.kind() == 4).map(|m| m.sender);
    assert_eq!(accepted.collect::<Vec<_>>(), [3, 2, 1, 4]);
    assert_eq!(table.node(5).members, set(&[1, 2, 3, 4]));
}

/// "It invites the cabinets found, then those set aside (one in both is invited twice)": each set from
/// its highest down. Members 2 and 4 have crashed and are found again.
#[test]
fn t02_invites_twice() {
    let mut table = one_group(5, 5);
    for event in [Crash(2), Recover(2), Crash(4), Recover(4), Check(5)] {
        step(&mut table, &event).unwrap();
    }
    let messages = deliver_all(&mut table);
    assert_eq!(called(&messages, 5, 1), [1, 2, 3, 4]);
    assert_eq!(called(&messages, 5, 3), [4, 2, 4, 3, 2, 1]);
    assert_eq!(table.node(5).members, set(&[1, 2, 3, 4]));
}

/// "Asking, inviting, forwarding: on to the next", where calls are given up.
#[test]
fn t02_goes_on_down_after_expire() {
    let mut table = recovered(5);
    table.nodes[4].activity =
        Activity::Inviting { found: set(&[1, 3]), former: set(&[1, 2, 4]), now: 4 };
    for (found, former, now) in [
        (set(&[1]), set(&[1, 2, 4]), 3),
        (0, set(&[1, 2, 4]), 1),
        (0, set(&[1, 2]), 4),
        (0, set(&[1]), 2),
        (0, 0, 1),
    ] {
        step(&mut table, &Expire(5)).unwrap();
        assert_eq!(table.node(5).activity, Activity::Inviting { found, former, now });
    }
    step(&mut table, &Expire(5)).unwrap();
    assert_eq!(table.node(5).activity, Activity::Collecting);
    assert_eq!(called(&table.messages, 5, 3), [3, 1, 4, 2, 1]);

    let mut table = recovered(5);
    (table.nodes[1].group, table.nodes[1].coordinator) = (group_number(2, 3), 3);
    let (caller, call) = (3, 7);
    table.nodes[1].activity = Activity::Forwarding { rest: set(&[1, 3, 5]), now: 4, caller, call };
    for (rest, now) in [(set(&[1, 3]), 5), (set(&[1]), 3), (0, 1)] {
        step(&mut table, &Expire(2)).unwrap();
        assert_eq!(table.node(2).activity, Activity::Forwarding { rest, now, caller, call });
    }
    step(&mut table, &Expire(2)).unwrap();
    assert_eq!(table.node(2).activity, Activity::Accepting { caller, call });
    assert_eq!(called(&table.messages, 2, 3), [5, 3, 1]);
    assert_eq!(called(&table.messages, 2, 4), [3]);
}

/// From 16 down to 1, past the node itself, in each of the three.
#[test]
fn t02_all_sixteen() {
    let down: Vec<u8> = (1..=16).rev().filter(|&i| i != 8).collect();
    let mut table = one_group(16, 8);
    (table.nodes[7].status, table.nodes[7].activity) = (Status::Election, Activity::Collecting);
    step(&mut table, &Finish(8, 65_535)).unwrap();
    let messages = deliver_all(&mut table);
    assert_eq!(called(&messages, 8, 5), down);

    let mut table = one_group(16, 8);
    table.nodes[7].activity = Activity::Waiting { ticks: 1, found: 0 };
    step(&mut table, &Tick(8)).unwrap();
    let messages = deliver_all(&mut table);
    assert_eq!(called(&messages, 8, 3), down);

    let mut table = one_group(16, 8);
    let body = Body::Invitation { group: group_number(5, 11) };
    table.messages.push(Message { sender: 9, receiver: 8, call: 1, body });
    count_waiting(&mut table);
    step(&mut table, &Deliver(9, 8)).unwrap();
    let messages = deliver_all(&mut table);
    assert_eq!(called(&messages, 8, 3), down);
    assert_eq!(called(&messages, 8, 4), [11]);
}

fn invitation(sender: u8, receiver: u8, call: u32, group: u32) -> Message {
    Message { sender, receiver, call, body: Body::Invitation { group } }
}

/// What must follow on a plain reply and nothing else: the oldest message from a to b is gone, a reply to it,
/// yes, stands behind the rest, and both are counted.
fn with_plain_reply(table: &Table, a: u8, b: u8) -> Table {
    let mut after = table.clone();
    let place = after.messages.iter().position(|m| (m.sender, m.receiver) == (a, b)).unwrap();
    let call = after.messages.remove(place).call;
    let body = Body::Reply { yes: true };
    after.messages.push(Message { sender: b, receiver: a, call, body });
    *count_mut(&mut after.traffic.delivered, a, b) += 1;
    *count_mut(&mut after.traffic.sent, b, a) += 1;
    after
}

/// Node 1 of four, with members and task 300, in a group of another's. It has no call number left.
fn member_of(group: u32, status: Status, activity: Activity) -> Table {
    let mut table = recovered(4);
    let node = &mut table.nodes[0];
    (node.status, node.activity, node.last_call) = (status, activity, MAX_CALL);
    (node.group, node.coordinator) = (group, owner(group));
    (node.members, node.task) = (set(&[2, 4]), 300);
    table
}

/// "From now on an invitation to the group a cabinet already holds gets a plain reply and changes nothing
/// else": whatever the status and the activity are, whoever sent it, alone or among 64.
#[test]
fn t03_group_held() {
    let (held, call) = (group_number(7, 3), 9);
    let activities = [
        Activity::Idle,
        Activity::Asking { asked: 2, found: only(3) },
        Activity::Waiting { ticks: 3, found: only(4) },
        Activity::Inviting { found: only(2), former: only(3), now: 4 },
        Activity::Collecting,
        Activity::Handing { rest: only(2), now: 3 },
        Activity::Contacting,
        Activity::Forwarding { rest: only(2), now: 4, caller: 3, call },
        Activity::Accepting { caller: 3, call },
    ];
    for status in [Status::Election, Status::Reorganization, Status::Normal] {
        for activity in activities {
            for sender in [2, 3, 4] {
                for (older, newer) in [(0, 0), (0, 63), (31, 32), (63, 0), (2, 3)] {
                    let mut table = member_of(held, status, activity);
                    table.messages = vec![invitation(1, sender, 5, held); older];
                    table.messages.push(invitation(sender, 1, call, held));
                    table.messages.extend(vec![invitation(sender, 1, 6, held); newer]);
                    count_waiting(&mut table);
                    let expected = with_plain_reply(&table, sender, 1);
                    assert_eq!(step(&mut table, &Deliver(sender, 1)), Ok(()));
                    assert_eq!(table, expected);
                }
            }
        }
    }
}

/// An invitation to any other group is as before: a Normal node joins, and others reply. "equal numbers":
/// neither the owner alone nor the counter alone.
#[test]
fn t03_other_groups() {
    let held = group_number(7, 3);
    for (counter, by) in [(8, 3), (6, 3), (1, 3), (MAX_COUNTER, 3), (7, 2), (7, 4)] {
        let group = group_number(counter, by);
        for sender in [2, 3, 4] {
            for status in [Status::Election, Status::Reorganization, Status::Normal] {
                let mut table = member_of(held, status, Activity::Contacting);
                table.messages = vec![invitation(sender, 1, 9, group)];
                count_waiting(&mut table);
                let expected = with_plain_reply(&table, sender, 1);
                if status != Status::Normal {
                    step(&mut table, &Deliver(sender, 1)).unwrap();
                    assert_eq!(table, expected);
                    continue;
                }
                refused(&table, Deliver(sender, 1), 13);
                table.nodes[0].last_call = 40;
                let mut expected = table.clone();
                let node = &mut expected.nodes[0];
                (node.status, node.group, node.coordinator) = (Status::Election, group, by);
                node.activity = Activity::Accepting { caller: sender, call: 9 };
                node.last_call = 41;
                let body = Body::Accept { group };
                expected.messages = vec![Message { sender: 1, receiver: by, call: 41, body }];
                *count_mut(&mut expected.traffic.delivered, sender, 1) += 1;
                *count_mut(&mut expected.traffic.sent, 1, by) += 1;
                step(&mut table, &Deliver(sender, 1)).unwrap();
                assert_eq!(table, expected);
            }
        }
    }
}

/// The grounds above it stay above it: a table not in range, whose node is its own coordinator in another's
/// group, and a Down receiver, which holds a group too.
#[test]
fn t03_grounds_before_it() {
    let held = group_number(7, 3);
    let mut table = member_of(held, Status::Down, Activity::Idle);
    table.messages = vec![invitation(2, 1, 9, held)];
    count_waiting(&mut table);
    refused(&table, Deliver(2, 1), 9);
    table.nodes[0].status = Status::Normal;
    table.nodes[0].coordinator = 1;
    refused(&table, Deliver(2, 1), 1);
    table.nodes[0].coordinator = 3;
    refused(&table, Deliver(3, 1), 11);
    step(&mut table, &Deliver(2, 1)).unwrap();
}

/// "it owns that group" is as before, held or not.
#[test]
fn t03_owned_groups() {
    for group in [group_number(1, 1), group_number(7, 1)] {
        for status in [Status::Election, Status::Reorganization, Status::Normal] {
            let mut table = recovered(4);
            (table.nodes[0].status, table.nodes[0].last_call) = (status, MAX_CALL);
            table.messages = vec![invitation(2, 1, 9, group)];
            count_waiting(&mut table);
            let expected = with_plain_reply(&table, 2, 1);
            step(&mut table, &Deliver(2, 1)).unwrap();
            assert_eq!(table, expected);
        }
    }
}

/// 02's story from the starting table: "It came when the cabinet was Normal in the new group", and now only
/// the messages differ. A message of node 3 waits behind it.
#[test]
fn t03_story() {
    for given_up in [false, true] {
        let mut table = after(NODES, &invited_twice(given_up));
        let (node, group) = (*table.node(1), group_number(2, 3));
        assert_eq!((node.status, node.group, node.task), (Status::Normal, group, 300));
        let late = table.messages[0];
        assert_eq!(table.messages, [invitation(2, 1, late.call, group)]);
        assert_eq!(table.node(2).open_call() == Some(late.call), !given_up);
        step(&mut table, &Check(3)).unwrap();
        for contacting in [false, true] {
            let mut table = table.clone();
            if contacting {
                step(&mut table, &Timeout(1)).unwrap();
            }
            let nodes = table.nodes;
            let mut messages = table.messages.clone();
            step(&mut table, &LATE).unwrap();
            assert_eq!(table.nodes, nodes);
            messages.remove(0);
            let body = Body::Reply { yes: true };
            messages.push(Message { sender: 1, receiver: 2, call: late.call, body });
            assert_eq!(table.messages, messages);
            // The reply is to the call that is open, or it is dropped.
            let waiting = table.messages.len();
            step(&mut table, &Deliver(1, 2)).unwrap();
            let went_on = matches!(table.node(2).activity, Activity::Accepting { caller: 3, .. });
            assert_eq!(went_on, !given_up);
            assert_eq!(table.messages.len(), waiting - usize::from(given_up));
        }
    }
}
