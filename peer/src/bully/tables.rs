//! Random tables of the Bully machine: in range, with one rule of the range broken, and in other forms of
//! the same bytes.

use crate::bully::bytes::{free, TableBytes, NODE_BYTES, TABLE_BYTES};
use crate::bully::machine::{Event, Node, Place, Table};
use crate::bully::runs::task;
use crate::bully::runs::{any_event, any_n};
use crate::machine::{only, Set, Status, MAX_NODES};
use crate::numbers::Numbers;
use crate::tables::{near_ends, other, part};

const STATUSES: [Status; 4] =
    [Status::Down, Status::Election, Status::Reorganization, Status::Normal];

/// A table in range.
pub fn in_range(numbers: &mut Numbers) -> Table {
    let n = any_n(numbers);
    let mut table = Table::start(n);
    for i in 1..=n {
        *table.node_mut(i) = node(i, n, numbers);
    }
    table
}

fn node(i: u8, n: u8, numbers: &mut Numbers) -> Node {
    let none_or_node = |numbers: &mut Numbers| numbers.between(0, u32::from(n)) as u8;
    let mut node = Node {
        runs: !numbers.one_in(4),
        status: numbers.of(&STATUSES),
        coordinator: if numbers.one_in(3) { i } else { none_or_node(numbers) },
        task: near_ends(0, 65_535, numbers) as u16,
        halter: none_or_node(numbers),
        up: part(others(i, n), numbers),
        place: Place::Idle,
    };
    if !node.runs {
        node.status = Status::Down;
    } else if let Some(place) = place(numbers.below(8), i, n, numbers) {
        node.place = place;
        if place == Place::Contacting && node.coordinator == i {
            node.coordinator = if n == 1 { 0 } else { other(i, n, numbers) };
        }
    }
    node
}

fn others(i: u8, n: u8) -> Set {
    (u16::MAX >> (MAX_NODES - n)) & !only(i)
}

/// The place of this number at node i, if it can be there.
fn place(number: u32, i: u8, n: u8, numbers: &mut Numbers) -> Option<Place> {
    let ends_or_between = |low: u8, high: u8, numbers: &mut Numbers| {
        let between = numbers.between(u32::from(low), u32::from(high)) as u8;
        numbers.of(&[low, high, between])
    };
    let still = part(others(i, n), numbers);
    Some(match number {
        0 => Place::Idle,
        1 if i < n => Place::Asking(ends_or_between(i + 1, n, numbers)),
        2 if i > 1 => Place::Halting(ends_or_between(1, i - 1, numbers)),
        3 if n > 1 => Place::Announcing { now: other(i, n, numbers), still },
        4 => Place::Point,
        5 if n > 1 => Place::Handing { now: other(i, n, numbers), still },
        6 if n > 1 => Place::Checking(other(i, n, numbers)),
        7 => Place::Contacting,
        _ => return None,
    })
}

/// A table in range and an event on it, mostly one that is accepted. The node that is called often has the
/// caller as its halter or coordinator.
pub fn to_step(numbers: &mut Numbers) -> (Table, Event) {
    let mut table = in_range(numbers);
    let i = numbers.between(1, u32::from(table.n)) as u8;
    if let Some(j @ 1..) = table.node(i).called() {
        let called = table.node_mut(j);
        if numbers.one_in(2) {
            called.halter = i;
        }
        if numbers.one_in(2) {
            called.coordinator = i;
        }
    }
    let node = table.node(i);
    let event = match node.place {
        _ if numbers.one_in(4) => any_event(table.n, numbers),
        _ if !node.runs => Event::Recover(i),
        _ if numbers.one_in(6) => Event::Crash(i),
        Place::Idle if numbers.one_in(2) => Event::Check(i),
        Place::Idle => Event::Timeout(i),
        Place::Point => Event::Finish(i, task(numbers)),
        _ => Event::GoOn(i),
    };
    (table, event)
}

/// Where a rule of the range is to be broken: in the record of node i, or in n.
struct Breaking<'a> {
    table: &'a mut Table,
    i: u8,
    /// A number over n.
    over: u8,
    /// A set with a node beyond n; empty when n is 16.
    beyond: Set,
    numbers: &'a mut Numbers,
}

/// Breaks one rule and no other, and says whether that could be done.
type Rule = fn(&mut Breaking) -> bool;

/// What breaks a rule of ground 1.
const RULES: [(&str, Rule); 37] = [
    ("n 0", |b| b.set_n(0)),
    ("n over 16", |b| b.set_n(b.over.max(MAX_NODES + 1))),
    ("coordinator over n", |b| b.change(|node, b| node.coordinator = b.over)),
    ("last halter over n", |b| b.change(|node, b| node.halter = b.over)),
    ("Up beyond n", |b| b.beyond != 0 && b.change(|node, b| node.up |= b.beyond)),
    ("its holder in Up", |b| b.change(|node, b| node.up |= only(b.i))),
    ("asking 0", |b| b.stand(Place::Asking(0))),
    ("asking over n", |b| b.stand(Place::Asking(b.over))),
    ("asking itself", |b| b.stand(Place::Asking(b.i))),
    ("asking a lower one", |b| b.lower().is_some_and(|j| b.stand(Place::Asking(j)))),
    ("halting 0", |b| b.stand(Place::Halting(0))),
    ("halting over n", |b| b.stand(Place::Halting(b.over))),
    ("halting itself", |b| b.stand(Place::Halting(b.i))),
    ("halting a higher one", |b| b.higher().is_some_and(|j| b.stand(Place::Halting(j)))),
    ("announcing 0", |b| b.stand(announcing(0, 0))),
    ("announcing over n", |b| b.stand(announcing(b.over, 0))),
    ("announcing itself", |b| b.stand(announcing(b.i, 0))),
    ("announcing, still beyond n", |b| b.beyond != 0 && b.still(announcing, b.beyond)),
    ("announcing, still with its holder", |b| b.still(announcing, only(b.i))),
    ("handing 0", |b| b.stand(handing(0, 0))),
    ("handing over n", |b| b.stand(handing(b.over, 0))),
    ("handing itself", |b| b.stand(handing(b.i, 0))),
    ("handing, still beyond n", |b| b.beyond != 0 && b.still(handing, b.beyond)),
    ("handing, still with its holder", |b| b.still(handing, only(b.i))),
    ("checking 0", |b| b.stand(Place::Checking(0))),
    ("checking over n", |b| b.stand(Place::Checking(b.over))),
    ("checking itself", |b| b.stand(Place::Checking(b.i))),
    ("contacting itself", |b| {
        b.table.node_mut(b.i).coordinator = b.i;
        b.stand(Place::Contacting)
    }),
    ("not running, Election", |b| b.not_running(Status::Election, 0)),
    ("not running, Reorganization", |b| b.not_running(Status::Reorganization, 0)),
    ("not running, Normal", |b| b.not_running(Status::Normal, 0)),
    ("not running, asking", |b| b.not_running(Status::Down, 1)),
    ("not running, halting", |b| b.not_running(Status::Down, 2)),
    ("not running, announcing or handing", |b| {
        let place = b.numbers.of(&[3, 5]);
        b.not_running(Status::Down, place)
    }),
    ("not running, at the reorganization point", |b| b.not_running(Status::Down, 4)),
    ("not running, checking", |b| b.not_running(Status::Down, 6)),
    ("not running, contacting", |b| b.not_running(Status::Down, 7)),
];

/// The names of what breaks a rule.
pub fn rule_names() -> impl Iterator<Item = &'static str> {
    RULES.iter().map(|(name, _)| *name)
}

/// Breaks one rule of a table in range, at a node, and gives its name; None when it can't be broken there.
pub fn break_rule(table: &mut Table, i: u8, numbers: &mut Numbers) -> Option<&'static str> {
    let n = table.n;
    let any_over = numbers.between(u32::from(n) + 1, 255) as u8;
    let over = numbers.of(&[n + 1, any_over]);
    let beyond = match n {
        MAX_NODES => 0,
        _ => only(numbers.between(u32::from(n) + 1, u32::from(MAX_NODES)) as u8),
    };
    let (name, rule) = RULES[numbers.place(RULES.len())];
    rule(&mut Breaking { table, i, over, beyond, numbers }).then_some(name)
}

fn announcing(now: u8, still: Set) -> Place {
    Place::Announcing { now, still }
}

fn handing(now: u8, still: Set) -> Place {
    Place::Handing { now, still }
}

impl Breaking<'_> {
    fn set_n(&mut self, n: u8) -> bool {
        self.table.n = n;
        true
    }

    fn change(&mut self, change: impl FnOnce(&mut Node, &Self)) -> bool {
        let mut node = *self.table.node(self.i);
        change(&mut node, self);
        *self.table.node_mut(self.i) = node;
        true
    }

    fn lower(&mut self) -> Option<u8> {
        (self.i > 1).then(|| self.numbers.between(1, u32::from(self.i) - 1) as u8)
    }

    fn higher(&mut self) -> Option<u8> {
        let (i, n) = (u32::from(self.i), u32::from(self.table.n));
        (i < n).then(|| self.numbers.between(i + 1, n) as u8)
    }

    /// It runs and stands at this place.
    fn stand(&mut self, place: Place) -> bool {
        self.change(|node, _| (node.runs, node.place) = (true, place))
    }

    /// It runs and calls another node, with this set still to come.
    fn still(&mut self, place: fn(u8, Set) -> Place, still: Set) -> bool {
        let n = self.table.n;
        n > 1 && {
            let now = other(self.i, n, self.numbers);
            self.stand(place(now, still))
        }
    }

    /// It does not run, and has this status and the place of this number.
    fn not_running(&mut self, status: Status, number: u32) -> bool {
        let Some(place) = place(number, self.i, self.table.n, self.numbers) else {
            return false;
        };
        self.change(|node, _| {
            (node.runs, node.status, node.place) = (false, status, place);
            if place == Place::Contacting {
                node.coordinator = 0;
            }
        })
    }
}

/// A table in bytes in another form that is read as the same: other bytes with the same lowest bit or
/// remainder, any bytes in what a place does not have and behind the n nodes, cut where zeros are read, or
/// longer.
pub fn in_another_form(bytes: &TableBytes, numbers: &mut Numbers) -> Vec<u8> {
    let mut form = *bytes;
    let unused = free(bytes);
    for record in form[1..unused.start].chunks_exact_mut(NODE_BYTES) {
        record[0] ^= numbers.byte() & !1;
        record[1] ^= numbers.byte() & !3;
        record[8] ^= numbers.byte() & !7;
        match record[8] % 8 {
            0 | 4 | 7 => numbers.fill(&mut record[9..]),
            3 | 5 => {}
            _ => numbers.fill(&mut record[10..]),
        }
    }
    if numbers.one_in(4) {
        // Nothing is cut off but zeros and what is no part of the table.
        let end = form[..unused.start].iter().rposition(|&byte| byte != 0).map_or(0, |at| at + 1);
        return form[..numbers.between(end as u32, TABLE_BYTES as u32) as usize].to_vec();
    }
    numbers.fill(&mut form[unused]);
    let mut longer = vec![0; numbers.of(&[0, 1, 40])];
    numbers.fill(&mut longer);
    [&form[..], &longer].concat()
}
