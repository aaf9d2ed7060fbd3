//! Picks the events of random runs of the Bully machine, with an eye on the table, so that its deep places
//! are reached.

use crate::bully::machine::{Event, Node, Place, Table};
use crate::drive::member;
use crate::machine::{highest, only, Set, Status, MAX_NODES, MIN_TASK};
use crate::numbers::Numbers;

/// What can be tried. The last is any event at all, with any numbers.
#[derive(Clone, Copy)]
enum Thing {
    GoOn,
    Finish,
    Check,
    Timeout,
    Crash,
    /// Of a node that a coordinator in Reorganization calls next, or that halts others.
    CrashCalled,
    Recover,
    /// Of a node that a coordinator in Reorganization calls next.
    RecoverCalled,
    /// An event that is refused where its node stands.
    Elsewhere,
    Any,
}

/// How often each thing is tried, when it can be done; in the order of `Thing`.
type Manner = [u32; 10];

/// Calls are made, few nodes crash.
const QUIET: Manner = [100, 40, 6, 3, 1, 0, 10, 0, 3, 1];
/// Many checks, so that coordinators find nodes that are not Normal.
const CHECKS: Manner = [100, 60, 50, 2, 1, 10, 20, 4, 4, 1];
/// Nodes crash and recover while elections go on.
const ROUGH: Manner = [100, 60, 10, 12, 5, 5, 15, 5, 3, 2];
/// Coordinators crash and are missed; one that recovers is soon gone again.
const TIMEOUTS: Manner = [100, 60, 8, 40, 10, 2, 20, 2, 3, 2];
/// Nodes crash and recover just before a coordinator calls them, so that it starts again and gives up.
const RESTARTS: Manner = [60, 60, 15, 10, 2, 20, 10, 40, 3, 1];
/// Nearly every event is refused.
const REFUSED: Manner = [10, 5, 1, 1, 1, 0, 5, 0, 40, 60];

const MANNERS: [Manner; 6] = [QUIET, CHECKS, ROUGH, TIMEOUTS, RESTARTS, REFUSED];

fn any_manner(numbers: &mut Numbers) -> Manner {
    MANNERS[numbers.weighted(&[2, 5, 5, 4, 8, 2]).unwrap_or(0)]
}

/// A number of nodes: often few, among which an election is soon over.
pub fn any_n(numbers: &mut Numbers) -> u8 {
    match numbers.below(16) {
        0 => 1,
        1..=8 => numbers.between(2, 4) as u8,
        9..=12 => numbers.between(4, 7) as u8,
        13 => MAX_NODES,
        _ => numbers.between(1, u32::from(MAX_NODES)) as u8,
    }
}

/// A task that a finish can have. T-10 tells none of them apart here.
pub fn task(numbers: &mut Numbers) -> u16 {
    match numbers.below(8) {
        0 => MIN_TASK,
        1 => u16::MAX,
        2 => numbers.between(u32::from(MIN_TASK), u32::from(u16::MAX)) as u16,
        _ => MIN_TASK + numbers.below(5) as u16,
    }
}

/// Any event, with numbers that are mostly in range.
pub fn any_event(n: u8, numbers: &mut Numbers) -> Event {
    let i = match numbers.below(8) {
        0 => 0,
        1 => n.saturating_add(1),
        2 => numbers.between(u32::from(MAX_NODES) + 1, 255) as u8,
        _ => numbers.between(1, u32::from(n.max(1))) as u8,
    };
    match numbers.below(7) {
        0 => Event::Crash(i),
        1 => Event::Recover(i),
        2 => Event::Check(i),
        3 => Event::Timeout(i),
        4 => Event::GoOn(i),
        5 => Event::Finish(i, task(numbers)),
        _ => {
            let low = numbers.below(u32::from(MIN_TASK)) as u16;
            Event::Finish(i, numbers.of(&[0, MIN_TASK - 1, low]))
        }
    }
}

/// The nodes of which something is true.
fn nodes(table: &Table, is: impl Fn(&Node, u8) -> bool) -> Set {
    (1..=table.n).filter(|&i| is(table.node(i), i)).fold(0, |set, i| set | only(i))
}

/// An event for a table. The nodes that rest recover seldom.
fn pick(table: &Table, manner: &Manner, rest: Set, numbers: &mut Numbers) -> Event {
    let all = nodes(table, |_, _| true);
    let runs = nodes(table, |node, _| node.runs);
    let calls = nodes(table, |node, _| node.called().is_some());
    let point = nodes(table, |node, _| node.place == Place::Point);
    let idle = runs & !calls & !point;
    let own = nodes(table, |node, i| node.coordinator == i);
    let coordinators = own & nodes(table, |node, _| node.status == Status::Reorganization);
    let checking = own & idle & nodes(table, |node, _| node.status == Status::Normal);
    // A coordinator that has given up its election is soon halted.
    let given_up = idle & coordinators;
    if given_up != 0 && numbers.one_in(2) {
        let i = member(given_up, numbers);
        return numbers.of(&[Event::Check(i), Event::Timeout(i)]);
    }
    let called = (1..=table.n)
        .filter(|&i| coordinators & only(i) != 0)
        .filter_map(|i| table.node(i).called())
        .fold(0, |set, j| set | only(j));
    let down = all & !runs;
    let wakes = if coordinators & calls != 0 { 4 } else { 32 };
    let recover = if numbers.one_in(wakes) { down } else { down & !rest };
    let halting = nodes(table, |node, _| matches!(node.place, Place::Halting(_)) && node.up != 0);
    let elsewhere = nodes(table, |node, _| !matches!(node.place, Place::Idle | Place::Asking(_)));
    let things = [
        (Thing::GoOn, calls),
        (Thing::Finish, point),
        (Thing::Check, if checking == 0 || numbers.one_in(4) { idle } else { checking }),
        (Thing::Timeout, idle),
        (Thing::Crash, runs),
        (Thing::CrashCalled, called & runs | halting),
        (Thing::Recover, recover),
        (Thing::RecoverCalled, called & down),
        (Thing::Elsewhere, elsewhere),
        (Thing::Any, all),
    ];
    let weights: Manner = std::array::from_fn(|k| if things[k].1 == 0 { 0 } else { manner[k] });
    let (thing, set) = things[numbers.weighted(&weights).expect("any event can be tried")];
    let i = member(set, numbers);
    match thing {
        // The highest more often than others, so that it halts them in the middle of their elections.
        Thing::GoOn if numbers.one_in(3) => Event::GoOn(highest(calls)),
        Thing::GoOn => Event::GoOn(i),
        Thing::Finish => Event::Finish(i, task(numbers)),
        Thing::Check => Event::Check(i),
        Thing::Timeout => Event::Timeout(i),
        Thing::Crash | Thing::CrashCalled => Event::Crash(i),
        Thing::Recover | Thing::RecoverCalled => Event::Recover(i),
        Thing::Elsewhere => {
            let others = match table.node(i).place {
                Place::Point => [Event::GoOn(i), Event::Finish(i, MIN_TASK - 1)],
                _ => [Event::Finish(i, MIN_TASK), Event::Finish(i, MIN_TASK - 1)],
            };
            numbers.of(&[Event::Check(i), Event::Timeout(i), others[0], others[1]])
        }
        Thing::Any => any_event(table.n, numbers),
    }
}

/// A run from all Down, with the events picked on the tables of any machine; its manner changes now and then.
/// In half of them the highest node rests, so that others are elected.
pub fn run(
    machine: impl Fn(&mut Table, &Event) -> Result<(), u8>,
    numbers: &mut Numbers,
) -> (u8, Vec<Event>) {
    let n = any_n(numbers);
    let length = numbers.between(1, 400);
    let rest = if numbers.one_in(2) { only(n) } else { 0 };
    let mut manner = any_manner(numbers);
    let mut table = Table::start(n);
    let mut events = Vec::with_capacity(length as usize);
    for _ in 0..length {
        if numbers.one_in(100) {
            manner = any_manner(numbers);
        }
        let event = pick(&table, &manner, rest, numbers);
        let _ = machine(&mut table, &event);
        events.push(event);
    }
    (n, events)
}
