//! T-13 of document 02, "It comes to rest": the potential by hand, each kind of message and each activity with its
//! numbers, along the run of document 01's K10, what a table must be, and the bound.

use peer::machine::*;
use peer::rest::potential::*;
use Event::*;

/// A table of n nodes that have each recovered once, so that each is Normal and its own coordinator.
fn recovered(n: u8) -> Table {
    let mut table = Table::start(n, TOWER);
    for i in 1..=n {
        step(&mut table, &Recover(i)).unwrap();
    }
    table
}

/// The same with this activity and status of node 1, whose coordinator is another where that is said.
fn with(n: u8, activity: Activity, status: Status, coordinator: u8) -> Table {
    let mut table = recovered(n);
    let node = &mut table.nodes[0];
    (node.activity, node.status, node.coordinator) = (activity, status, coordinator);
    table
}

#[test]
fn quiet_events() {
    for event in [Deliver(1, 2), Lose(1, 2), Expire(1), Tick(1), Finish(1, 100)] {
        assert!(is_quiet(&event));
    }
    for event in [Crash(1), Recover(1), Check(1), Timeout(1)] {
        assert!(!is_quiet(&event));
    }
}

#[test]
fn messages_weigh() {
    let group = group_number(1, 1);
    let weights = [
        (Body::AreYouCoordinator, 2),
        (Body::AreYouThere { group }, 2),
        (Body::Invitation { group }, 4),
        (Body::Accept { group }, 2),
        (Body::Ready { group, task: 100 }, 2),
        (Body::Reply { yes: true }, 1),
        (Body::Reply { yes: false }, 1),
    ];
    let mut table = recovered(2);
    for (k, (body, weight)) in weights.into_iter().enumerate() {
        let m = Message { sender: 1, receiver: 2, call: 1, body };
        assert_eq!(message_weight(&m), weight, "{body:?}");
        table.messages.push(m);
        let sum: u64 = weights[..=k].iter().map(|&(_, weight)| weight).sum();
        assert_eq!(potential(&table), sum);
    }
}

#[test]
fn activities_weigh() {
    use Activity::*;
    let (two, three, all) = (0b1100, 0b1110, 0b1111_1111_1111_1110);
    let weights = [
        (4, Idle, 0),
        // 3 for each node behind the one asked, 13 × 3 and 3.
        (4, Asking { asked: 2, found: 0 }, 6 + 39 + 3),
        (4, Asking { asked: 2, found: two }, 6 + 39 + 3),
        (4, Asking { asked: 4, found: 0 }, 39 + 3),
        (4, Waiting { ticks: 1, found: two }, 36 + 2 + 1),
        (4, Waiting { ticks: 3, found: three }, 36 + 2 + 3),
        // 5 for each still to be invited, 7 × 3 and 3.
        (4, Inviting { found: two, former: three, now: 2 }, 25 + 21 + 3),
        (4, Inviting { found: 0, former: two, now: 2 }, 10 + 21 + 3),
        (4, Inviting { found: two, former: 0, now: 2 }, 10 + 21 + 3),
        (4, Inviting { found: 0, former: 0, now: 2 }, 21 + 3),
        (4, Collecting, 21 + 2),
        (4, Handing { rest: two, now: 2 }, 4 + 1),
        (4, Handing { rest: 0, now: 2 }, 1),
        (4, Contacting, 1),
        (4, Forwarding { rest: three, now: 2, caller: 2, call: 1 }, 15 + 4),
        (4, Forwarding { rest: 0, now: 2, caller: 2, call: 1 }, 4),
        (4, Accepting { caller: 2, call: 1 }, 1),
        (16, Asking { asked: 1, found: 0 }, 45 + 195 + 3),
        (16, Asking { asked: 16, found: 0 }, 195 + 3),
        (16, Waiting { ticks: 15, found: all }, 180 + 2 + 15),
        (16, Inviting { found: all, former: all, now: 2 }, 150 + 105 + 3),
        (16, Collecting, 105 + 2),
        (16, Handing { rest: all, now: 2 }, 30 + 1),
        (16, Forwarding { rest: all, now: 2, caller: 2, call: 1 }, 75 + 4),
        (2, Asking { asked: 2, found: 0 }, 13 + 3),
        (2, Collecting, 7 + 2),
        (1, Idle, 0),
    ];
    for (n, activity, weight) in weights {
        assert_eq!(activity_weight(n, &activity), weight, "{n} {activity:?}");
        assert_eq!(potential(&with(n, activity, Status::Normal, 1)), weight, "{n} {activity:?}");
    }
}

/// Members weigh where the node is in Reorganization or Normal and its own coordinator.
#[test]
fn members_weigh() {
    use Status::*;
    for (status, coordinator, weight) in [
        (Normal, 1, 15),
        (Reorganization, 1, 15),
        (Election, 1, 0),
        (Down, 1, 0),
        (Normal, 2, 0),
        (Reorganization, 2, 0),
        (Election, 2, 0),
    ] {
        let mut table = with(4, Activity::Idle, status, coordinator);
        assert_eq!(potential(&table), 0);
        table.nodes[0].members = 0b1110;
        assert_eq!(potential(&table), weight, "{status:?} {coordinator}");
        assert_eq!(members_weight(1, table.node(1)), weight);
    }
}

/// The potentials along K10, event by event.
#[test]
fn along_k10() {
    let events = [
        (Recover(1), 0),
        (Recover(2), 0),
        // Asking node 1, 3 + 13 + 3, and the call.
        (Check(2), 19 + 2),
        (Deliver(2, 1), 19 + 1),
        // Inviting, with none still to invite, and the invitation.
        (Deliver(1, 2), 10 + 4),
        // Accepting and the call.
        (Deliver(2, 1), 10 + 1 + 2),
        (Deliver(1, 2), 10 + 1 + 1),
        (Deliver(2, 1), 10 + 1),
        // Collecting. The member counts for nothing in Election.
        (Deliver(1, 2), 9),
        // A member, handing with none left, and the Ready.
        (Finish(2, 100), 5 + 1 + 2),
        (Deliver(2, 1), 5 + 1 + 1),
        (Deliver(1, 2), 5),
    ];
    for limits in [TOWER, STAND] {
        let mut table = Table::start(2, limits);
        assert_eq!(potential(&table), 0);
        for (event, sum) in events {
            step(&mut table, &event).unwrap();
            assert_eq!(potential(&table), sum, "{event:?}");
            assert_eq!(suited(&table), Ok(()));
        }
    }
}

/// Who may be where: the status and the coordinator of each activity, and the ticks.
#[test]
fn what_a_table_must_be() {
    use Activity::*;
    use Status::*;
    let fits =
        |activity, status, coordinator| suited(&with(4, activity, status, coordinator)).is_ok();
    for asks in [Asking { asked: 2, found: 0 }, Waiting { ticks: 3, found: 2 }] {
        assert!(fits(asks, Normal, 1) && !fits(asks, Reorganization, 1));
        assert!(!fits(asks, Election, 1) && !fits(asks, Down, 1));
        assert!(!fits(asks, Normal, 2) && !fits(asks, Reorganization, 2));
    }
    assert!(fits(Waiting { ticks: 1, found: 2 }, Normal, 1));
    assert!(!fits(Waiting { ticks: 4, found: 2 }, Normal, 1));
    for invites in [Inviting { found: 0, former: 0, now: 2 }, Collecting] {
        assert!(fits(invites, Election, 1) && fits(invites, Election, 2));
        for status in [Normal, Reorganization, Down] {
            assert!(!fits(invites, status, 1));
        }
    }
    let hands = Handing { rest: 0, now: 2 };
    assert!(fits(hands, Reorganization, 1) && fits(hands, Normal, 1));
    assert!(!fits(hands, Election, 1) && !fits(hands, Down, 1));
    let (caller, call) = (2, 1);
    let others = [Forwarding { rest: 0, now: 2, caller, call }, Accepting { caller, call }];
    for any in [Idle, Contacting].into_iter().chain(others) {
        for status in [Normal, Reorganization, Election, Down] {
            assert!(fits(any, status, 1) && fits(any, status, 2));
        }
    }
    // Of any node of the table, and of none behind it.
    let mut table = recovered(4);
    table.nodes[3].activity = Collecting;
    assert!(suited(&table).is_err());
    table.n = 3;
    assert_eq!(suited(&table), Ok(()));
}

/// "at most 20,000 further events", "for the tower and the stand"
#[test]
fn the_bound() {
    assert_eq!(rest_bound(16, 64), 5344);
    assert_eq!(rest_bound(4, 12), 312);
    assert_eq!(rest_bound(2, 64), 2 * 24 + 256);
    assert_eq!(rest_bound(1, 0), 3);
    for limits in [TOWER, STAND] {
        let bound = |n| rest_bound(n, usize::from(limits.messages));
        assert!((1..=limits.nodes).map(bound).all(|bound| bound <= 20_000));
    }
    assert_eq!(turns_bound(16, 5344), 5344 * 240);
    assert_eq!((turns_bound(2, 7), turns_bound(1, 7)), (14, 0));
    // Every node asks the lowest other and has all others as members, and as many invitations wait as may: node 1
    // asks node 2, which is 3 less.
    let mut table = recovered(16);
    for (k, node) in table.nodes.iter_mut().enumerate() {
        let asked = if k == 0 { 2 } else { 1 };
        (node.activity, node.members) = (Activity::Asking { asked, found: 0 }, !(1 << k));
    }
    let body = Body::Invitation { group: 16 };
    table.messages = vec![Message { sender: 1, receiver: 2, call: 1, body }; 64];
    assert_eq!((suited(&table), potential(&table)), (Ok(()), 5344 - 3));
}
