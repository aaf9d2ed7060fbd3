//! Picks the events of random runs, with an eye on the table, so that the protocol gets on and its
//! corners are met.

use crate::left_members::{left_members, too_few_members};
use crate::limit_tables::any_limits;
use crate::list::MAX_LIST;
use crate::machine::{advance, Activity, Event, Limits, Set, Status, Table, MIN_TASK, STAND};
use crate::numbers::Numbers;
use crate::slow_invitation::slow_invitation;

/// How often each thing is tried, when it can be done.
#[derive(Clone, Copy, Debug)]
pub struct Manner {
    /// In the order of `Thing`.
    weights: [u32; 10],
    /// Messages are delivered and lost only when nearly as many wait as may.
    full: bool,
}

/// What can be tried. The last is any event at all, with any numbers.
#[derive(Clone, Copy)]
enum Thing {
    Deliver,
    Lose,
    Crash,
    Recover,
    Check,
    Timeout,
    Tick,
    Expire,
    Finish,
    Any,
}

const THINGS: [Thing; 10] = [
    Thing::Deliver,
    Thing::Lose,
    Thing::Crash,
    Thing::Recover,
    Thing::Check,
    Thing::Timeout,
    Thing::Tick,
    Thing::Expire,
    Thing::Finish,
    Thing::Any,
];

/// Messages arrive, few nodes crash.
pub const QUIET: Manner = Manner { weights: [100, 1, 1, 20, 4, 2, 20, 1, 10, 1], full: false };
/// Many crashes, many messages lost.
pub const ROUGH: Manner = Manner { weights: [60, 20, 8, 25, 12, 6, 20, 15, 12, 2], full: false };
/// Many nodes check at once, so that mergers cross and invitations are forwarded.
pub const CROSSING: Manner = Manner { weights: [80, 1, 1, 20, 25, 4, 30, 5, 12, 1], full: false };
/// Groups form in parts, grow and meet again: no crashes, some calls of asking nodes given up.
pub const GROUPS: Manner = Manner { weights: [100, 0, 0, 20, 9, 2, 30, 6, 20, 0], full: false };
/// Calls are given up early, so that acceptances and replies come late.
pub const LATE: Manner = Manner { weights: [30, 2, 3, 20, 15, 10, 25, 25, 20, 1], full: false };
/// Nearly as many messages wait as may.
pub const FULL: Manner = Manner { weights: [40, 4, 3, 12, 20, 10, 15, 20, 12, 2], full: true };
/// Nearly every event is refused.
pub const REFUSED: Manner = Manner { weights: [2, 0, 1, 1, 1, 1, 1, 1, 1, 150], full: false };

const MANNERS: [Manner; 7] = [QUIET, ROUGH, CROSSING, GROUPS, LATE, FULL, REFUSED];

/// Any of the manners; the last seldom.
pub fn any_manner(numbers: &mut Numbers) -> Manner {
    MANNERS[numbers.weighted(&[4, 5, 5, 6, 5, 5, 1]).unwrap_or(0)]
}

/// Which nodes each thing can be tried on.
#[derive(Clone, Copy, Default)]
pub struct Ready {
    pub down: Set,
    pub up: Set,
    pub check: Set,
    pub timeout: Set,
    pub tick: Set,
    pub expire: Set,
    pub finish: Set,
}

impl Ready {
    pub fn of(table: &Table) -> Ready {
        let mut ready = Ready::default();
        for i in 1..=table.n.min(16) {
            let (node, bit) = (table.node(i), 1 << (i - 1));
            if node.status == Status::Down {
                ready.down |= bit;
                continue;
            }
            ready.up |= bit;
            match node.activity {
                Activity::Idle if node.coordinator != i => ready.timeout |= bit,
                Activity::Idle if node.status == Status::Normal => ready.check |= bit,
                Activity::Waiting { .. } => ready.tick |= bit,
                Activity::Collecting => ready.finish |= bit,
                _ if node.open_call().is_some() => ready.expire |= bit,
                _ => {}
            }
        }
        ready
    }
}

/// One node of a set, which must not be empty.
pub fn member(set: Set, numbers: &mut Numbers) -> u8 {
    let mut rest = set;
    for _ in 0..numbers.below(set.count_ones()) {
        rest &= rest - 1;
    }
    rest.trailing_zeros() as u8 + 1
}

/// An event for a table.
pub fn pick(table: &Table, manner: &Manner, numbers: &mut Numbers) -> Event {
    let ready = Ready::of(table);
    let mut weights = manner.weights;
    let waiting = table.messages.len();
    if manner.full && waiting + 3 < usize::from(table.limits.messages) {
        (weights[0], weights[1]) = (8, 0);
    }
    let sets = [ready.up, ready.down, ready.check, ready.timeout, ready.tick, ready.expire];
    if waiting == 0 {
        (weights[0], weights[1]) = (0, 0);
    }
    for (weight, set) in weights[2..].iter_mut().zip(sets.into_iter().chain([ready.finish])) {
        if set == 0 {
            *weight = 0;
        }
    }
    let thing = numbers.weighted(&weights).map_or(Thing::Any, |place| THINGS[place]);
    match thing {
        Thing::Deliver => {
            let (mut a, mut b) = waiting_pair(table, numbers);
            // Once more if the receiver is Down.
            if b.wrapping_sub(1) < 16 && ready.down & 1 << (b - 1) != 0 {
                (a, b) = waiting_pair(table, numbers);
            }
            Event::Deliver(a, b)
        }
        Thing::Lose => {
            let (a, b) = waiting_pair(table, numbers);
            Event::Lose(a, b)
        }
        Thing::Crash => Event::Crash(member(ready.up, numbers)),
        Thing::Recover => Event::Recover(member(ready.down, numbers)),
        Thing::Check => Event::Check(member(ready.check, numbers)),
        Thing::Timeout => Event::Timeout(member(ready.timeout, numbers)),
        Thing::Tick => Event::Tick(member(ready.tick, numbers)),
        Thing::Expire => Event::Expire(member(ready.expire, numbers)),
        Thing::Finish => Event::Finish(member(ready.finish, numbers), task(numbers)),
        Thing::Any => any_event(table.n, numbers),
    }
}

fn waiting_pair(table: &Table, numbers: &mut Numbers) -> (u8, u8) {
    let m = &table.messages[numbers.place(table.messages.len())];
    (m.sender, m.receiver)
}

/// A task that a finish can have: of a full peal (T-10) or another, each as often.
pub fn task(numbers: &mut Numbers) -> u16 {
    match numbers.one_in(2) {
        true => full_peal(numbers),
        false => other_task(numbers),
    }
}

/// A task of a full peal, often the first or the last.
pub fn full_peal(numbers: &mut Numbers) -> u16 {
    let any = numbers.between(101, 198) as u16;
    numbers.of(&[100, 199, any])
}

/// Another task, often the first behind them or the last of all.
pub fn other_task(numbers: &mut Numbers) -> u16 {
    let any = numbers.between(201, 65_534) as u16;
    numbers.of(&[200, 65_535, any])
}

/// Any node number, mostly 1 to n.
pub fn any_node(n: u8, numbers: &mut Numbers) -> u8 {
    match numbers.below(24) {
        0 => 0,
        1 => n.wrapping_add(1),
        2 => numbers.byte(),
        _ => numbers.below(u32::from(n.max(1))) as u8 + 1,
    }
}

/// Any event, with numbers that are mostly in range.
pub fn any_event(n: u8, numbers: &mut Numbers) -> Event {
    let (i, j) = (any_node(n, numbers), any_node(n, numbers));
    match numbers.below(10) {
        0 => Event::Crash(i),
        1 => Event::Recover(i),
        2 => Event::Check(i),
        3 => Event::Timeout(i),
        4 => Event::Tick(i),
        5 => Event::Expire(i),
        6 => Event::Finish(i, task(numbers)),
        7 => {
            let low = numbers.below(u32::from(MIN_TASK)) as u16;
            Event::Finish(i, numbers.of(&[0, 99, 100, 199, 200, 65_535, low]))
        }
        8 => Event::Deliver(i, j),
        _ => Event::Lose(i, j),
    }
}

/// A run from the starting table: its events so far, and the table that they lead to.
pub struct Run {
    pub table: Table,
    pub events: Vec<Event>,
}

impl Run {
    pub fn go(&mut self, event: Event) {
        let _ = advance(&mut self.table, &event);
        self.events.push(event);
    }
}

/// T-06: "A wrongly wired timer sent check events to members": a check at a node that is idle and not its own
/// coordinator, or in half of them, or where there is none, at any that must not check, a Down or busy one
/// too. Where all may check it is any node.
fn wrong_check(table: &Table, numbers: &mut Numbers) -> Event {
    let ready = Ready::of(table);
    let all: Set = u16::MAX >> (16 - table.n);
    let others = all & !ready.check;
    let sets = [if numbers.one_in(2) { others } else { ready.timeout }, others];
    let set = sets.into_iter().find(|&set| set != 0).unwrap_or(all);
    Event::Check(member(set, numbers))
}

/// A run of so many events from the starting table of n; its manner changes now and then. In half of them
/// an invitation is slow now and then, and in half a timer is wrongly wired.
pub fn run(n: u8, limits: Limits, length: usize, numbers: &mut Numbers) -> Vec<Event> {
    let slow = numbers.one_in(2);
    let wrongly_wired = numbers.one_in(2);
    let mut manner = any_manner(numbers);
    let mut run = Run { table: Table::start(n, limits), events: Vec::with_capacity(length) };
    while run.events.len() < length {
        if numbers.one_in(300) {
            manner = any_manner(numbers);
        }
        if slow && numbers.one_in(25) {
            slow_invitation(&mut run, numbers);
        }
        if wrongly_wired && numbers.one_in(6) {
            let event = wrong_check(&run.table, numbers);
            run.go(event);
        }
        let event = pick(&run.table, &manner, numbers);
        run.go(event);
    }
    run.events.truncate(length);
    run.events
}

/// A short run of two or three nodes, among which groups form soon, with a wrongly wired timer: checks at
/// members stand early in it, and often at its end.
pub fn run_with_wrong_checks(numbers: &mut Numbers) -> (u8, Limits, Vec<Event>) {
    let (n, limits) = (numbers.of(&[2, 2, 3]), any_limits(numbers));
    let length = numbers.between(10, 160) as usize;
    let mut run = Run { table: Table::start(n, limits), events: Vec::with_capacity(length + 1) };
    while run.events.len() < length {
        let event = match numbers.one_in(4) {
            true => wrong_check(&run.table, numbers),
            false => pick(&run.table, &GROUPS, numbers),
        };
        run.go(event);
    }
    if numbers.one_in(2) {
        let event = wrong_check(&run.table, numbers);
        run.go(event);
    }
    (n, limits, run.events)
}

/// A finish with the task of a full peal, by a collecting node if there is one, else by any.
fn finish_with_full_peal(table: &Table, numbers: &mut Numbers) -> Event {
    let i = match Ready::of(table).finish {
        0 => numbers.between(1, u32::from(table.n)) as u8,
        set => member(set, numbers),
    };
    Event::Finish(i, full_peal(numbers))
}

/// A short run of few nodes, among which groups form soon, with many full peals (T-10), and members that leave after
/// they were counted. Full peals that are refused stand early in it and late, and often at its end.
pub fn run_with_full_peals(numbers: &mut Numbers) -> (u8, Limits, Vec<Event>) {
    let limits = any_limits(numbers);
    let n = numbers.between(2, u32::from(limits.nodes).min(6)) as u8;
    let length = match numbers.below(4) {
        0 => numbers.between(100, 140),
        _ => numbers.between(1, 40),
    } as usize;
    let mut run = Run { table: Table::start(n, limits), events: Vec::with_capacity(length + 50) };
    while run.events.len() < length {
        let event = match numbers.below(16) {
            0 => {
                left_members(&mut run, numbers);
                continue;
            }
            1..=3 => finish_with_full_peal(&run.table, numbers),
            _ => pick(&run.table, &GROUPS, numbers),
        };
        run.go(event);
    }
    match numbers.one_in(2) {
        true => too_few_members(&mut run, numbers),
        false => left_members(&mut run, numbers),
    }
    (n, limits, run.events)
}

/// Nodes ask until so many messages wait, and nobody answers.
pub fn fill(run: &mut Run, waiting: usize, numbers: &mut Numbers) {
    for _ in 0..150 {
        let table = &run.table;
        if table.messages.len() >= waiting {
            return;
        }
        let asks = |j: &u8| matches!(table.node(*j).activity, Activity::Asking { .. });
        let event = match ((1..=table.n).find(asks), Ready::of(table).check) {
            (Some(j), _) => Event::Expire(j),
            (None, 0) => return,
            (None, set) => Event::Check(member(set, numbers)),
        };
        run.go(event);
    }
}

/// A short run of up to four nodes in which nearly as many messages wait as may. Mostly it ends with as many
/// as may on the stand, or, in the tower, with more.
pub fn full_queue(numbers: &mut Numbers) -> (u8, Limits, Vec<Event>) {
    let (n, limits) = (numbers.of(&[2, 3, 4, 4]), any_limits(numbers));
    let length = numbers.between(20, 100) as usize;
    let mut run = Run { table: Table::start(n, limits), events: Vec::with_capacity(length + 20) };
    while run.events.len() < length {
        let event = pick(&run.table, &FULL, numbers);
        run.go(event);
    }
    let more = if limits == STAND { 0 } else { numbers.between(1, 4) as usize };
    fill(&mut run, usize::from(STAND.messages) + more, numbers);
    (n, limits, run.events)
}

/// A run in one manner whose list is as long as a list may be.
pub fn full_run(n: u8, limits: Limits, manner: &Manner, numbers: &mut Numbers) -> Vec<Event> {
    let mut table = Table::start(n, limits);
    let mut events = Vec::new();
    let mut bytes = 4;
    loop {
        let event = pick(&table, manner, numbers);
        bytes += field_bytes(&event);
        if bytes > MAX_LIST {
            return events;
        }
        let _ = advance(&mut table, &event);
        events.push(event);
    }
}

/// The length of an event's field.
pub fn field_bytes(event: &Event) -> usize {
    match event {
        Event::Finish(..) => 6,
        Event::Deliver(..) | Event::Lose(..) => 5,
        _ => 4,
    }
}
