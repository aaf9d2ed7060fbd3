//! Random lists for the trace: of every n, with groups that form and meet, full queues, lost messages and refused events.

use crate::drive::{
    any_event, fill, full_run, member, other_task, run, Ready, Run, CROSSING, GROUPS, LATE, QUIET,
    ROUGH,
};
use crate::list::write_list;
use crate::machine::{
    highest, nodes_of, only, Activity, Body, Event, Message, Set, Table, FULL_PEALS, STAND, TOWER,
};
use crate::numbers::Numbers;
use crate::rest::lists::whole_or_damaged;
use crate::rows::Row;

/// How often a list is whole, damaged, stopped, has another first field, and is too long, nearly or empty; the places are
/// those of `whole_or_damaged`.
const SHARES: [u32; 11] = [11, 0, 0, 0, 0, 0, 1, 2, 4, 0, 2];

/// Any list of any n.
pub fn any_list(numbers: &mut Numbers) -> Vec<u8> {
    // In the tower often so many nodes that two groups can meet, and not more.
    let any = numbers.between(1, 16) as u8;
    let (limits, n) = match numbers.below(20) {
        0..=4 => (STAND, numbers.of(&[1, 2, 3, 4, 4])),
        5..=8 => (TOWER, any % 4 + 5),
        _ => (TOWER, any),
    };
    let mut run = Run { table: Table::start(n, limits), events: Vec::new() };
    match (numbers.below(16), limits, n) {
        (0, ..) => many_groups(&mut run, numbers),
        (1..=11, TOWER, 2..=8) | (1..=5, STAND, 2..) => {
            groups(&mut run, numbers);
            let often = if n < 5 { 2 } else { 1 };
            if numbers.below(3) < often {
                lose_one(&mut run, numbers);
            }
        }
        (1, TOWER, 9..) | (6..=14, STAND, 2..) => full_queue(&mut run, numbers),
        (2..=6, TOWER, 11..) => long_wait(&mut run, numbers),
        _ => any_run(&mut run, numbers),
    }
    if numbers.one_in(3) {
        members_ask(&mut run, numbers);
    }
    let mut events = run.events;
    if numbers.one_in(3) {
        for _ in 0..numbers.between(2, 8) {
            let place = numbers.place(events.len() + 1);
            events.insert(place, any_event(n, numbers));
        }
    }
    if numbers.one_in(4) {
        other_tasks(&mut events, numbers);
    }
    let place = numbers.weighted(&SHARES).unwrap_or(0);
    whole_or_damaged(place, write_list(n, limits, &events), numbers)
}

/// A whole list that is nearly as long as a list may be: of few nodes, which call often, or of many, in large groups.
pub fn long_list(k: usize, numbers: &mut Numbers) -> Vec<u8> {
    let (n, manner) = match k % 2 {
        0 => (numbers.of(&[2, 3]), [CROSSING, LATE, ROUGH][k % 3]),
        _ => (numbers.of(&[15, 16]), [GROUPS, QUIET, QUIET][k % 3]),
    };
    write_list(n, TOWER, &full_run(n, TOWER, &manner, numbers))
}

/// A run of events in any manner.
fn any_run(made: &mut Run, numbers: &mut Numbers) {
    let length = numbers.of(&[0, 2, 5, 15, 15, 40, 40, 100]);
    let Table { n, limits, .. } = made.table;
    run(n, limits, length, numbers).into_iter().for_each(|event| made.go(event));
}

/// All nodes of a run.
fn all(run: &Run) -> Set {
    u16::MAX >> (16 - run.table.n)
}

/// Up to so many nodes of a set.
fn some(mut set: Set, most: u32, numbers: &mut Numbers) -> Set {
    while set.count_ones() > most {
        set &= !only(member(set, numbers));
    }
    set
}

/// Some nodes form a group, and others form one or stay alone. Then one with members asks, or one without, or any that
/// may, and they meet.
fn groups(run: &mut Run, numbers: &mut Numbers) {
    let first = some(all(run), numbers.of(&[2, 3, 4, 4]), numbers);
    let second = some(all(run) & !first, numbers.of(&[1, 2, 3, 3]), numbers);
    nodes_of(first | second).for_each(|i| run.go(Event::Recover(i)));
    let grouped = if numbers.one_in(3) { second } else { 0 };
    for (among, who) in [(first, 0), (grouped, 0), (first | second, numbers.below(3))] {
        let may = Ready::of(&run.table).check & among;
        let asks = |i: &u8| who == 0 || (who == 1) == (run.table.node(*i).members != 0);
        let asking: Vec<u8> = nodes_of(may).filter(asks).collect();
        if !asking.is_empty() {
            let i = numbers.of(&asking);
            Row { run, numbers }.check(i, among);
        }
    }
}

/// A node asks all others, finds one far above it, and waits.
fn long_wait(run: &mut Run, numbers: &mut Numbers) {
    let i = numbers.between(1, u32::from(run.table.n) - 10) as u8;
    let found = numbers.between(u32::from(i) + 10, u32::from(run.table.n)) as u8;
    run.go(Event::Recover(i));
    run.go(Event::Recover(found));
    run.go(Event::Check(i));
    while let Activity::Asking { asked, .. } = run.table.node(i).activity {
        if asked == found {
            run.go(Event::Deliver(i, found));
            run.go(Event::Deliver(found, i));
        } else {
            run.go(Event::Expire(i));
        }
    }
    run.go(Event::Tick(i));
}

/// A node forms many groups.
fn many_groups(run: &mut Run, numbers: &mut Numbers) {
    let i = numbers.between(1, u32::from(run.table.n)) as u8;
    for _ in 0..numbers.between(6, 9) {
        run.go(Event::Recover(i));
        run.go(Event::Crash(i));
    }
}

/// Some nodes come to where one waits for the last tick, invites or collects; others ask until as many messages wait as
/// may; and then each thing that must send one is tried.
fn full_queue(run: &mut Run, numbers: &mut Numbers) {
    let stage = numbers.below(3);
    let most = if stage == 0 { 2 } else { run.table.n - 1 };
    let among = some(all(run), u32::from(most.min(3)), numbers);
    nodes_of(all(run)).for_each(|i| run.go(Event::Recover(i)));
    let i = if stage == 0 { among.trailing_zeros() as u8 + 1 } else { highest(among) };
    run.go(Event::Check(i));
    let enough = |table: &Table| match table.node(i).activity {
        Activity::Waiting { ticks: 1, .. } => stage == 0,
        Activity::Inviting { found, .. } => stage == 1 && found != 0,
        Activity::Collecting => table.node(i).members != 0,
        _ => false,
    };
    Row { run, numbers }.settle(among, enough);
    fill(run, usize::from(run.table.limits.messages), numbers);
    let Ready { check, timeout, tick, expire, finish, .. } = Ready::of(&run.table);
    nodes_of(tick).for_each(|i| run.go(Event::Tick(i)));
    nodes_of(finish).for_each(|i| run.go(Event::Finish(i, other_task(numbers))));
    nodes_of(timeout).for_each(|i| run.go(Event::Timeout(i)));
    nodes_of(check).for_each(|i| run.go(Event::Check(i)));
    nodes_of(expire).for_each(|i| run.go(Event::Expire(i)));
}

/// Goes only up to where a message of some kind was sent, and loses one of its pair.
fn lose_one(run: &mut Run, numbers: &mut Numbers) {
    // Invitation, Accept, Ready and no, which few other runs lose.
    let kind = 3 + numbers.weighted(&[2, 3, 4, 5]).unwrap_or(0) as u8;
    let is_one = |m: &&Message| m.body.kind() == kind && m.body != Body::Reply { yes: true };
    run.table = Table::start(run.table.n, run.table.limits);
    for event in std::mem::take(&mut run.events) {
        run.go(event);
        if let Some(m) = run.table.messages.last().filter(is_one) {
            if numbers.one_in(2) {
                return run.go(Event::Lose(m.sender, m.receiver));
            }
        }
    }
}

/// Members ask for their coordinators or try to check, and busy nodes try that too; some messages are lost or delivered.
fn members_ask(run: &mut Run, numbers: &mut Numbers) {
    let Ready { timeout, expire, .. } = Ready::of(&run.table);
    for i in nodes_of(timeout | some(expire, 2, numbers)) {
        let event = if numbers.one_in(3) { Event::Check } else { Event::Timeout };
        run.go(event(i));
    }
    for _ in 0..numbers.below(4) {
        if let Some(m) = run.table.messages.last() {
            let event = numbers.of(&[Event::Deliver, Event::Lose]);
            run.go(event(m.sender, m.receiver));
        }
    }
}

/// Tasks of four digits in place of those that are no full peals.
fn other_tasks(events: &mut [Event], numbers: &mut Numbers) {
    for event in events {
        if let Event::Finish(_, task) = event {
            if *task > *FULL_PEALS.end() {
                *task = numbers.between(1000, 9999) as u16;
            }
        }
    }
}
