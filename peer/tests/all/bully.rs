//! T-07 of document 02, "The Bully Algorithm for short cables": its sentences and the lines of Appendix I by
//! hand, and every table that three nodes can come to.

use peer::bully::bytes::{table_to_bytes, TableBytes};
use peer::bully::claims::broken_claim;
use peer::bully::corners::Corners;
use peer::bully::machine::*;
use peer::corners::Source;
use peer::machine::Status::{self, *};
use std::collections::HashSet;
use Event::*;
use Place::*;

/// The table after events from all Down, each of which must be accepted.
fn after(n: u8, events: &[Event]) -> Table {
    let mut table = Table::start(n);
    go(&mut table, events);
    table
}

fn go(table: &mut Table, events: &[Event]) {
    for event in events {
        assert_eq!(step(table, event), Ok(()), "{event}");
    }
}

fn refused(table: &Table, event: Event, number: u8) {
    let mut same = *table;
    assert_eq!(step(&mut same, &event), Err(number), "{event}");
    assert_eq!(same, *table);
}

/// An event that is accepted and changes nothing.
fn without_effect(table: &Table, event: Event) {
    let mut same = *table;
    assert_eq!(step(&mut same, &event), Ok(()), "{event}");
    assert_eq!(same, *table);
}

/// A node that runs, and is idle.
fn running(status: Status, coordinator: u8, halter: u8) -> Node {
    Node { runs: true, status, coordinator, halter, ..Node::START }
}

/// A table of n nodes that run and are Normal, with this coordinator and task 100.
fn normal(n: u8, coordinator: u8) -> Table {
    let mut table = Table::start(n);
    for i in 1..=n {
        *table.node_mut(i) = Node { task: 100, ..running(Normal, coordinator, coordinator) };
    }
    table.node_mut(coordinator).up = (1 << (coordinator - 1)) - 1;
    table
}

/// "Recovery clears the last halter, starts the election and leaves the status Down until the halting step,
/// though the cabinet runs."
#[test]
fn recovery() {
    let mut table = Table::start(3);
    table.node_mut(1).halter = 3;
    table.node_mut(1).coordinator = 3;
    go(&mut table, &[Recover(1)]);
    assert_eq!(*table.node(1), Node { place: Asking(2), ..running(Down, 3, 0) });
    refused(&table, Recover(1), 9);
    // The highest has nobody to ask, and is at the halting step at once.
    let table = after(3, &[Recover(3)]);
    assert_eq!(*table.node(3), Node { place: Halting(2), ..running(Election, 0, 3) });
    // One alone has nobody to halt either.
    let table = after(1, &[Recover(1)]);
    assert_eq!(*table.node(1), Node { place: Point, ..running(Reorganization, 1, 1) });
}

/// "If any such node is up, quit."
#[test]
fn asking() {
    let mut table = after(4, &[Recover(4), Recover(2)]);
    let four = *table.node(4);
    go(&mut table, &[GoOn(2)]);
    assert_eq!(table.node(2).place, Asking(4));
    go(&mut table, &[GoOn(2)]);
    assert_eq!(*table.node(2), running(Down, 0, 0));
    assert_eq!(*table.node(4), four);
    // With none up it halts itself and then the next lower.
    let mut table = after(4, &[Recover(3)]);
    table.node_mut(3).up = 1;
    go(&mut table, &[GoOn(3)]);
    assert_eq!(*table.node(3), Node { place: Halting(2), ..running(Election, 0, 3) });
    // Node 1 has nobody to halt.
    let table = after(2, &[Recover(1), GoOn(1)]);
    assert_eq!(*table.node(1), Node { place: Point, ..running(Reorganization, 1, 1) });
}

/// The whole of an election, with its sets "from the highest down".
#[test]
fn election() {
    let mut table = after(4, &[Recover(1), Recover(2), Recover(3), Recover(4)]);
    go(&mut table, &[GoOn(4), GoOn(4)]);
    assert_eq!(*table.node(3), running(Election, 0, 4));
    assert_eq!(*table.node(2), running(Election, 0, 4));
    assert_eq!((table.node(4).up, table.node(4).place), (0b110, Halting(1)));
    go(&mut table, &[GoOn(4)]);
    let four = Node {
        up: 0b111,
        place: Announcing { now: 3, still: 0b11 },
        ..running(Reorganization, 4, 4)
    };
    assert_eq!(*table.node(4), four);
    go(&mut table, &[GoOn(4)]);
    assert_eq!(*table.node(3), running(Reorganization, 4, 4));
    assert_eq!(table.node(4).place, Announcing { now: 2, still: 0b1 });
    go(&mut table, &[GoOn(4)]);
    assert_eq!(table.node(4).place, Announcing { now: 1, still: 0 });
    go(&mut table, &[GoOn(4)]);
    assert_eq!(table.node(4).place, Point);
    go(&mut table, &[Finish(4, 100)]);
    assert_eq!(table.node(4).place, Handing { now: 3, still: 0b11 });
    assert_eq!((table.node(4).status, table.node(4).task), (Reorganization, 100));
    go(&mut table, &[GoOn(4)]);
    assert_eq!(*table.node(3), Node { task: 100, ..running(Normal, 4, 4) });
    assert_eq!(table.node(2).status, Reorganization);
    go(&mut table, &[GoOn(4), GoOn(4)]);
    assert_eq!(table, normal(4, 4));
}

/// Who does not run is not in Up, and with nobody there the reorganization follows at once.
#[test]
fn halting_times_out() {
    let mut table = after(3, &[Recover(1), Recover(3), GoOn(3), GoOn(3)]);
    assert_eq!((table.node(3).up, table.node(3).place), (1, Announcing { now: 1, still: 0 }));
    assert_eq!(*table.node(2), Node::START);
    go(&mut table, &[Crash(3), Crash(1), Recover(3), GoOn(3), GoOn(3)]);
    assert_eq!(*table.node(3), Node { place: Point, ..running(Reorganization, 3, 3) });
    go(&mut table, &[Finish(3, 65_535)]);
    assert_eq!(*table.node(3), Node { task: 65_535, ..running(Normal, 3, 3) });
}

/// "A halt stops whatever the halted cabinet was doing."
#[test]
fn a_halt_stops_every_place() {
    let places = [
        Idle,
        Asking(3),
        Halting(1),
        Announcing { now: 1, still: 0 },
        Point,
        Handing { now: 3, still: 1 },
        Checking(1),
        Contacting,
    ];
    for place in places {
        for status in [Down, Election, Reorganization, Normal] {
            let mut table = after(3, &[Recover(3)]);
            let two = Node { up: 1, task: 7, place, ..running(status, 3, 1) };
            *table.node_mut(2) = two;
            go(&mut table, &[GoOn(3)]);
            assert_eq!(
                *table.node(2),
                Node { status: Election, halter: 3, place: Idle, ..two },
                "{place}"
            );
        }
    }
}

/// "IF S(i).h = j AND S(i).s = "Election""
#[test]
fn new_coordinator_by_halter_and_status() {
    for halter in 0..=3 {
        for status in [Down, Election, Reorganization, Normal] {
            let mut table = after(3, &[Recover(3)]);
            table.node_mut(3).place = Announcing { now: 2, still: 0 };
            let two = running(status, 1, halter);
            *table.node_mut(2) = two;
            go(&mut table, &[GoOn(3)]);
            let taken = Node { coordinator: 3, status: Reorganization, ..two };
            let takes = (halter, status) == (3, Election);
            assert_eq!(*table.node(2), if takes { taken } else { two });
            assert_eq!(table.node(3).place, Point);
        }
    }
}

/// "IF S(i).c = j AND S(i).s = "Reorganization""
#[test]
fn ready_by_coordinator_and_status() {
    for coordinator in 0..=3 {
        for status in [Down, Election, Reorganization, Normal] {
            let mut table = after(3, &[Recover(3)]);
            let three = Node { task: 100, place: Handing { now: 2, still: 0 }, ..*table.node(3) };
            *table.node_mut(3) = three;
            let two = Node { task: 200, ..running(status, coordinator, 3) };
            *table.node_mut(2) = two;
            go(&mut table, &[GoOn(3)]);
            let taken = Node { task: 100, status: Normal, ..two };
            let takes = (coordinator, status) == (3, Reorganization);
            assert_eq!(*table.node(2), if takes { taken } else { two });
            assert_eq!(*table.node(3), Node { status: Normal, place: Idle, ..three });
        }
    }
}

/// "Where the appendix restarts an election, the earlier one runs no further."
#[test]
fn an_election_starts_again() {
    let mut announcing = after(3, &[Recover(1), Recover(2), GoOn(2), GoOn(2)]);
    assert_eq!(announcing.node(2).place, Announcing { now: 1, still: 0 });
    let mut handing = announcing;
    go(&mut announcing, &[Crash(1), GoOn(2)]);
    go(&mut handing, &[GoOn(2), Finish(2, 100), Crash(1), GoOn(2)]);
    for mut table in [announcing, handing] {
        // It asks again, and keeps its status, coordinator and Up until the halting step.
        let two = Node { task: table.node(2).task, ..running(Reorganization, 2, 2) };
        assert_eq!(*table.node(2), Node { up: 1, place: Asking(3), ..two });
        let mut gives_up = table;
        go(&mut gives_up, &[Recover(3), GoOn(2)]);
        assert_eq!(*gives_up.node(2), Node { up: 1, ..two });
        without_effect(&gives_up, Timeout(2));
        without_effect(&gives_up, Check(2));
        go(&mut table, &[GoOn(2)]);
        assert_eq!(*table.node(2), Node { status: Election, place: Halting(1), ..two });
    }
    // The highest begins with the halting step.
    let mut table = after(2, &[Recover(1), Recover(2), GoOn(2), Crash(1), GoOn(2)]);
    assert_eq!(*table.node(2), Node { place: Halting(1), ..running(Election, 2, 2) });
    go(&mut table, &[GoOn(2)]);
    assert_eq!(table.node(2).place, Point);
}

/// "FOR j := 1, 2, ..., i - 1, i + 1, ..., n"
#[test]
fn checks() {
    let mut table = normal(4, 2);
    go(&mut table, &[Check(2)]);
    for j in [1, 3, 4] {
        assert_eq!(table.node(2).place, Checking(j));
        go(&mut table, &[GoOn(2)]);
    }
    assert_eq!(table, normal(4, 2));
    let mut table = normal(2, 1);
    go(&mut table, &[Check(1)]);
    assert_eq!(table.node(1).place, Checking(2));
    // "ONTIMEOUT(T): NEXT ITERATION"
    let mut table = normal(3, 3);
    go(&mut table, &[Crash(1), Check(3), GoOn(3)]);
    assert_eq!(table.node(3).place, Checking(2));
    // "IF ans = "No" THEN BEGIN CALL Election(i)"
    for status in [Down, Election, Reorganization] {
        let mut table = normal(3, 2);
        table.node_mut(1).status = status;
        let one = *table.node(1);
        go(&mut table, &[Check(2), GoOn(2)]);
        assert_eq!(*table.node(2), Node { place: Asking(3), ..*normal(3, 2).node(2) });
        assert_eq!(*table.node(1), one);
    }
    // Of others a check has no effect, and 18 is no ground here.
    without_effect(&normal(3, 3), Check(2));
    without_effect(&normal(1, 1), Check(1));
    for status in [Down, Election, Reorganization] {
        let mut table = normal(3, 3);
        table.node_mut(3).status = status;
        without_effect(&table, Check(3));
    }
}

/// "In Reorganization or Normal, a timeout at its own coordinator changes nothing."
#[test]
fn timeouts() {
    for status in [Reorganization, Normal] {
        let mut table = normal(3, 3);
        table.node_mut(3).status = status;
        without_effect(&table, Timeout(3));
        table.node_mut(1).status = status;
        let before = table;
        go(&mut table, &[Timeout(1)]);
        assert_eq!(*table.node(1), Node { place: Contacting, ..*before.node(1) });
        go(&mut table, &[GoOn(1)]);
        assert_eq!(table, before);
        go(&mut table, &[Timeout(1), Crash(3), GoOn(1)]);
        assert_eq!(*table.node(1), Node { place: Asking(2), ..*before.node(1) });
        // "or to coordinator 0, times out"
        table.node_mut(1).coordinator = 0;
        table.node_mut(1).place = Idle;
        go(&mut table, &[Timeout(1), GoOn(1)]);
        assert_eq!(table.node(1).place, Asking(2));
    }
    for status in [Down, Election] {
        let mut table = normal(3, 3);
        *table.node_mut(2) = running(status, 2, 3);
        *table.node_mut(3) = running(status, 3, 3);
        go(&mut table, &[Timeout(2), Timeout(3)]);
        assert_eq!(*table.node(2), Node { place: Asking(3), ..running(status, 2, 3) });
        assert_eq!(*table.node(3), Node { place: Halting(2), ..running(Election, 3, 3) });
    }
}

/// "A crash leaves a cabinet not running, Down and idle, all else kept."
#[test]
fn crashes() {
    let mut table = after(3, &[Recover(1), Recover(2), GoOn(2), GoOn(2), GoOn(2), Finish(2, 100)]);
    let two = *table.node(2);
    assert_eq!(two.place, Handing { now: 1, still: 0 });
    go(&mut table, &[Crash(2)]);
    assert_eq!(*table.node(2), Node { runs: false, status: Down, place: Idle, ..two });
    refused(&table, Crash(2), 9);
}

/// Grounds 7, 8, 9 and 10 "in their old places".
#[test]
fn grounds_in_their_order() {
    let table = after(2, &[Recover(1), GoOn(1)]);
    assert_eq!((table.node(1).place, table.node(2).runs), (Point, false));
    for i in [0, 3, 16, 17, 255] {
        for event in [Crash(i), Recover(i), Check(i), Timeout(i), GoOn(i), Finish(i, 5)] {
            refused(&table, event, 7);
        }
    }
    refused(&table, Finish(2, 99), 8);
    refused(&table, Finish(1, 0), 8);
    for event in [Crash(2), Check(2), Timeout(2), GoOn(2), Finish(2, 100), Recover(1)] {
        refused(&table, event, 9);
    }
    for event in [Check(1), Timeout(1), GoOn(1)] {
        refused(&table, event, 10);
    }
    let places =
        [Asking(2), Announcing { now: 2, still: 0 }, Handing { now: 2, still: 0 }, Checking(2)];
    for place in places.into_iter().chain([Contacting]) {
        let mut table = table;
        table.node_mut(1).place = place;
        table.node_mut(1).coordinator = 2;
        for event in [Check(1), Timeout(1), Finish(1, 100)] {
            refused(&table, event, 10);
        }
    }
    let idle = normal(2, 2);
    refused(&idle, GoOn(1), 10);
    refused(&idle, Finish(2, 100), 10);
}

/// "1 is for n outside 1 to 16, a number or set beyond its range, a holder in its own Up or call, or one that
/// does not run but is not Down and idle"
#[test]
fn range() {
    let holds = |n: u8, node: Node| {
        let mut table = Table::start(n);
        *table.node_mut(2) = node;
        table.in_range()
    };
    for n in 0..=255 {
        assert_eq!(Table::start(n).in_range(), (1..=16).contains(&n));
    }
    let node = running(Normal, 3, 3);
    assert!(holds(3, node));
    assert!(
        !holds(3, Node { coordinator: 4, ..node }) && holds(4, Node { coordinator: 4, ..node })
    );
    assert!(!holds(3, Node { halter: 4, ..node }) && holds(4, Node { halter: 4, ..node }));
    for up in 0..16 {
        assert_eq!(holds(3, Node { up, ..node }), up & 0b1010 == 0);
        for j in 0..=5 {
            let other = matches!(j, 1 | 3);
            let at = |place: Place| holds(3, Node { place, ..node });
            assert_eq!(at(Announcing { now: j, still: up }), other && up & 0b1010 == 0);
            assert_eq!(at(Handing { now: j, still: up }), other && up & 0b1010 == 0);
            assert_eq!(at(Checking(j)), other);
            assert_eq!(at(Asking(j)), j == 3);
            assert_eq!(at(Halting(j)), j == 1);
        }
    }
    assert!(holds(3, Node { place: Point, ..node }));
    for coordinator in 0..=3 {
        assert_eq!(holds(3, Node { coordinator, place: Contacting, ..node }), coordinator != 2);
    }
    let crashed = Node { runs: false, status: Down, task: 1, up: 1, ..node };
    assert!(holds(3, crashed));
    for status in [Election, Reorganization, Normal] {
        assert!(!holds(3, Node { status, ..crashed }));
    }
    for place in [Point, Contacting, Asking(3), Checking(1)] {
        assert!(!holds(3, Node { place, ..crashed }));
        assert!(holds(3, Node { place, runs: true, ..crashed }));
    }
    // What no record has a rule for: any task, and any set Up at any node.
    assert!(holds(3, Node { task: 1, up: 4, place: Handing { now: 1, still: 0 }, ..node }));
    refused(&Table::start(17), Crash(1), 1);
}

/// Every table that up to three nodes can come to, with two tasks, and every event on each: the claims hold,
/// and no corner is met that the papers have no place for in a run.
#[test]
fn every_table_of_three_nodes() {
    let mut corners = Corners::default();
    for (n, tables) in [(1, 9), (2, 1253), (3, 489_017)] {
        let mut seen: HashSet<TableBytes> = HashSet::new();
        let mut open = vec![Table::start(n)];
        while let Some(table) = open.pop() {
            if !seen.insert(table_to_bytes(&table)) {
                continue;
            }
            assert_eq!(broken_claim(&table), None);
            for i in 1..=n {
                let finishes = [Finish(i, 100), Finish(i, 101)];
                let others = [Crash(i), Recover(i), Check(i), Timeout(i), GoOn(i)];
                for event in others.into_iter().chain(finishes) {
                    let mut after = table;
                    let answer = step(&mut after, &event).err().unwrap_or(0);
                    corners.event(Source::Run, &table, &event, answer, &after);
                    open.push(after);
                }
            }
        }
        assert_eq!(seen.len(), tables);
    }
    assert_eq!(corners.book().impossible(), [""; 0]);
}
