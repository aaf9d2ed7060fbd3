//! Random runs for T-13: runs of all nine events that lead to tables of a high potential, and between them stretches
//! of quiet events and turns.

use crate::corners::Source;
use crate::drive::{
    any_event, any_manner, full_queue, member, pick, run, run_with_full_peals, task, Ready, Run,
    GROUPS,
};
use crate::limit_tables::any_limits;
use crate::machine::{only, Activity, Event, Limits, Status, Table};
use crate::numbers::Numbers;
use crate::rest::potential::is_quiet;
use crate::round::schedules::{Making, Schedule};
use crate::round::tables::any_place;
use crate::rows::{oldest, Row};

/// No row of one node's events is longer.
const MOST: usize = 100;

/// How often each quiet thing is tried, when it can be done: deliver, lose, expire, tick, finish, a turn, any quiet event
/// with any numbers.
type Quiet = [u32; 7];

const QUIETS: [Quiet; 10] = [
    // Messages arrive.
    [100, 1, 1, 20, 10, 5, 2],
    // Calls are given up, and then what they sent arrives late.
    [15, 1, 60, 20, 3, 2, 2],
    // All calls are given up before anything arrives.
    [1, 0, 100, 100, 1, 0, 1],
    // Much is lost: as much as arrives; more, while nodes wait and collect; a little.
    [30, 40, 15, 20, 10, 3, 2],
    [40, 60, 10, 2, 2, 3, 2],
    [60, 20, 5, 3, 3, 3, 2],
    // Nodes gather as many members as they can before they finish.
    [100, 0, 6, 100, 1, 0, 1],
    // The round does nearly all.
    [1, 1, 2, 5, 5, 60, 1],
    // Nearly every event is refused.
    [5, 2, 5, 5, 5, 5, 50],
    // Anything.
    [10, 10, 10, 10, 10, 10, 10],
];

/// Any quiet event, with numbers that are mostly in range; often refused.
fn any_quiet_event(n: u8, numbers: &mut Numbers) -> Event {
    loop {
        let event = any_event(n, numbers);
        if is_quiet(&event) {
            return event;
        }
    }
}

/// Whether no quiet event is accepted: no message waits, and no node waits, collects or has an open call.
pub fn at_rest(table: &Table) -> bool {
    let Ready { tick, expire, finish, .. } = Ready::of(table);
    table.messages.is_empty() && tick | expire | finish == 0
}

/// Adds one quiet move.
fn quiet_move(making: &mut Making, quiet: &Quiet, numbers: &mut Numbers) {
    let table = &making.table;
    let ready = Ready::of(table);
    let mut weights = *quiet;
    if table.messages.is_empty() {
        (weights[0], weights[1]) = (0, 0);
    }
    for (weight, set) in weights[2..5].iter_mut().zip([ready.expire, ready.tick, ready.finish]) {
        if set == 0 {
            *weight = 0;
        }
    }
    let pair = |numbers: &mut Numbers| {
        let m = &table.messages[numbers.place(table.messages.len())];
        (m.sender, m.receiver)
    };
    let event = match numbers.weighted(&weights) {
        Some(0) => {
            let (a, b) = pair(numbers);
            Event::Deliver(a, b)
        }
        Some(1) => {
            let (a, b) = pair(numbers);
            Event::Lose(a, b)
        }
        Some(2) => Event::Expire(member(ready.expire, numbers)),
        Some(3) => Event::Tick(member(ready.tick, numbers)),
        Some(4) => Event::Finish(member(ready.finish, numbers), task(numbers)),
        Some(5) => return making.turn(),
        _ => any_quiet_event(table.n, numbers),
    };
    making.event(event);
}

/// A stretch of quiet moves: to the end, where nothing is accepted any more, or for so long.
fn quiet_stretch(making: &mut Making, numbers: &mut Numbers) {
    let quiet = numbers.of(&QUIETS);
    let length = making.moves.len() + numbers.of(&[10, 40, 200, 2000]);
    while making.moves.len() < length && !at_rest(&making.table) {
        quiet_move(making, &quiet, numbers);
    }
    for _ in 0..numbers.below(4) {
        quiet_move(making, &quiet, numbers);
    }
}

/// Turns alone, until no message waits, and a few more.
fn turns_alone(making: &mut Making, numbers: &mut Numbers) {
    let length = making.moves.len() + numbers.of(&[100, 1000, 4000]);
    while making.moves.len() < length && !making.table.messages.is_empty() {
        making.turn();
    }
    for _ in 0..numbers.below(8) {
        making.turn();
    }
}

/// A run from the starting table with quiet stretches in it.
pub fn with_stretches(numbers: &mut Numbers) -> Schedule {
    let (n, limits, events) = beginning(numbers);
    let start = Table::start(n, limits);
    let place = any_place(n, numbers);
    let mut making = Making { table: start.clone(), place, moves: Vec::new() };
    for event in events {
        making.event(event);
    }
    for _ in 0..numbers.between(1, 4) {
        // A round of many pairs is mostly turns that do nothing.
        match numbers.one_in(if n > 6 { 16 } else { 6 }) {
            true => turns_alone(&mut making, numbers),
            false => quiet_stretch(&mut making, numbers),
        }
        let manner = any_manner(numbers);
        for _ in 0..numbers.of(&[0, 5, 20]) {
            let event = making.any_event(&manner, numbers);
            making.event(event);
        }
        let mut run = Run { table: making.table.clone(), events: Vec::new() };
        if numbers.one_in(2) {
            all_check(&mut run, numbers);
        }
        if numbers.one_in(4) {
            all_time_out(&mut run);
        }
        for event in run.events {
            making.event(event);
        }
    }
    let (source, moves, followed) = (Source::Run, making.moves, Vec::new());
    Schedule { source, start, place, moves, followed, noise: None }
}

/// Some events from the starting table of any n, tower or stand.
pub fn beginning(numbers: &mut Numbers) -> (u8, Limits, Vec<Event>) {
    match numbers.below(8) {
        0 | 1 => {
            let limits = any_limits(numbers);
            let n = numbers.between(1, u32::from(limits.nodes)) as u8;
            let length = numbers.between(10, 120) as usize;
            (n, limits, run(n, limits, length, numbers))
        }
        2 => full_queue(numbers),
        3 => run_with_full_peals(numbers),
        4 | 5 => {
            let limits = any_limits(numbers);
            let n = numbers.of(&[3, 4, 4, limits.nodes.min(6), limits.nodes.min(9)]);
            (n, limits, forwarding(n, limits, numbers))
        }
        _ => {
            let limits = any_limits(numbers);
            let n = match numbers.one_in(2) {
                true => numbers.between(2, 4) as u8,
                false => numbers.between(2, u32::from(limits.nodes)) as u8,
            };
            (n, limits, crowded(n, limits, numbers))
        }
    }
}

/// A run that leads to a high potential: groups form and coordinators keep members that have left, invitations are left
/// waiting, and at last many nodes ask at once.
pub fn crowded(n: u8, limits: Limits, numbers: &mut Numbers) -> Vec<Event> {
    let mut run = Run { table: Table::start(n, limits), events: Vec::new() };
    all_recover(&mut run);
    for _ in 0..numbers.below(3) {
        for _ in 0..numbers.below(60) {
            let event = pick(&run.table, &GROUPS, numbers);
            run.go(event);
        }
        for i in 1..=n {
            // A member that has left is still one of its coordinator's.
            if numbers.one_in(3) && run.table.node(i).coordinator != i {
                run.go(Event::Crash(i));
            }
        }
        all_recover(&mut run);
    }
    let part = u32::from(limits.messages) - u32::from(limits.messages) / 4;
    let waiting = numbers.below(part) as usize;
    for _ in 0..12 {
        let ready = Ready::of(&run.table).check;
        if run.table.messages.len() >= waiting || ready == 0 {
            break;
        }
        leave_invitations(&mut run, member(ready, numbers), numbers);
    }
    if !numbers.one_in(4) {
        all_check(&mut run, numbers);
    }
    run.events
}

/// A run in which a coordinator is invited that has members, and often forwards the invitation already while its members
/// ask for it, which is often lost.
fn forwarding(n: u8, limits: Limits, numbers: &mut Numbers) -> Vec<Event> {
    let mut run = Run { table: Table::start(n, limits), events: Vec::new() };
    all_recover(&mut run);
    let other = numbers.between(1, u32::from(n)) as u8;
    let among = (u16::MAX >> (16 - n)) & !only(other);
    let coordinator = member(among, numbers);
    Row { run: &mut run, numbers }.check(coordinator, among);
    run.go(Event::Check(other));
    for _ in 0..MOST {
        match run.table.node(other).activity {
            Activity::Asking { asked, .. } if asked == coordinator => {
                run.go(Event::Deliver(other, asked));
                run.go(Event::Deliver(asked, other));
            }
            Activity::Asking { asked, .. } => {
                run.go(Event::Lose(other, asked));
                run.go(Event::Expire(other));
            }
            Activity::Waiting { .. } => run.go(Event::Tick(other)),
            _ => break,
        }
    }
    if !numbers.one_in(4) {
        run.go(Event::Deliver(other, coordinator));
    }
    for i in 1..=n {
        if !numbers.one_in(4) && Ready::of(&run.table).timeout & only(i) != 0 {
            run.go(Event::Timeout(i));
        }
    }
    for i in 1..=n {
        if numbers.one_in(2) && oldest(&run.table, i, coordinator).is_some() {
            run.go(Event::Lose(i, coordinator));
        }
    }
    run.events
}

/// Each node that is Down recovers.
fn all_recover(run: &mut Run) {
    for i in 1..=run.table.n {
        if run.table.node(i).status == Status::Down {
            run.go(Event::Recover(i));
        }
    }
}

/// Each node that is Down recovers, and each that may check does, in any order.
fn all_check(run: &mut Run, numbers: &mut Numbers) {
    all_recover(run);
    loop {
        let ready = Ready::of(&run.table).check;
        let waiting = run.table.messages.len();
        if ready == 0 || run.table.n == 1 || waiting >= usize::from(run.table.limits.messages) {
            return;
        }
        run.go(Event::Check(member(ready, numbers)));
    }
}

/// Each node that may asks for its coordinator.
fn all_time_out(run: &mut Run) {
    let ready = Ready::of(&run.table).timeout;
    for i in (1..=run.table.n).filter(|&i| ready & only(i) != 0) {
        run.go(Event::Timeout(i));
    }
}

/// Node i asks, finds some others, merges, gives up its invitations, which wait, and finishes alone.
fn leave_invitations(run: &mut Run, i: u8, numbers: &mut Numbers) {
    run.go(Event::Check(i));
    for _ in 0..MOST {
        let table = &run.table;
        if table.messages.len() >= usize::from(table.limits.messages) {
            return;
        }
        let event = match table.node(i).activity {
            Activity::Asking { asked, .. } => {
                let line = |a: u8, b: u8| {
                    table.messages.iter().filter(|m| (m.sender, m.receiver) == (a, b)).count()
                };
                let alone = line(i, asked) == 1 && line(asked, i) == 0;
                if alone && !numbers.one_in(4) {
                    run.go(Event::Deliver(i, asked));
                    Event::Deliver(asked, i)
                } else if numbers.one_in(2) {
                    run.go(Event::Lose(i, asked));
                    Event::Expire(i)
                } else {
                    Event::Expire(i)
                }
            }
            Activity::Waiting { .. } => Event::Tick(i),
            Activity::Inviting { .. } => Event::Expire(i),
            Activity::Collecting => Event::Finish(i, 200),
            _ => return,
        };
        run.go(event);
    }
}
