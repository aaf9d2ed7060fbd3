//! Parts of which rows of events for random runs are made: random events alone come there too seldom.

use crate::corners::called;
use crate::drive::{member, task, Ready, Run};
use crate::machine::{only, owner, Body, Event, Message, Set, Status, Table};
use crate::numbers::Numbers;

/// No part has more events.
const MOST: usize = 150;

/// A run that goes on with such a row.
pub struct Row<'a> {
    pub run: &'a mut Run,
    pub numbers: &'a mut Numbers,
}

impl Row<'_> {
    /// Some nodes begin anew: nothing is on its way to them, and there is room for what they send.
    pub fn begin(&mut self, nodes: &[u8]) {
        let messages = &self.run.table.messages;
        let many = messages.len().saturating_sub(self.most_waiting() / 2);
        let lost =
            messages.iter().enumerate().filter(|(k, m)| *k < many || nodes.contains(&m.receiver));
        let lost: Vec<Event> = lost.map(|(_, m)| Event::Lose(m.sender, m.receiver)).collect();
        for event in lost {
            self.run.go(event);
        }
        for &j in nodes {
            self.anew(j);
        }
    }

    /// It crashes, if it is not Down, and recovers.
    pub fn anew(&mut self, j: u8) {
        if self.run.table.node(j).status != Status::Down {
            self.run.go(Event::Crash(j));
        }
        self.run.go(Event::Recover(j));
    }

    /// Node j asks, and all that comes of it among some nodes happens.
    pub fn check(&mut self, j: u8, among: Set) {
        self.run.go(Event::Check(j));
        self.settle(among, |_| false);
    }

    /// Lets some nodes go on until they rest, or until it is enough.
    pub fn settle(&mut self, among: Set, enough: impl Fn(&Table) -> bool) {
        for _ in 0..MOST {
            if enough(&self.run.table) {
                return;
            }
            match self.next(among) {
                Some(event) => self.run.go(event),
                None => return,
            }
        }
    }

    /// What some nodes send each other is delivered, but for forwarded invitations; their calls to others are
    /// lost and given up. Those among them are given up when nothing else is left to do.
    fn next(&mut self, among: Set) -> Option<Event> {
        let table = &self.run.table;
        let inside = |j: u8| among & only(j) != 0;
        for j in (1..=table.n).filter(|&j| inside(j)) {
            match called(&table.node(j).activity) {
                Some(to) if inside(to) => {}
                Some(to) if oldest(table, j, to).is_some() => return Some(Event::Lose(j, to)),
                Some(_) => return Some(Event::Expire(j)),
                None => {}
            }
        }
        let delivered = table.messages.iter().find(|m| {
            let first = oldest(table, m.sender, m.receiver);
            inside(m.sender) && inside(m.receiver) && first.and_then(forwarded).is_none()
        });
        if let Some(m) = delivered {
            return Some(Event::Deliver(m.sender, m.receiver));
        }
        let ready = Ready::of(table);
        let mut one = |set: Set| (set & among != 0).then(|| member(set & among, self.numbers));
        if let Some(j) = one(ready.tick) {
            return Some(Event::Tick(j));
        }
        if let Some(j) = one(ready.finish) {
            return Some(Event::Finish(j, task(self.numbers)));
        }
        one(ready.expire).map(Event::Expire)
    }

    pub fn most_waiting(&self) -> usize {
        usize::from(self.run.table.limits.messages)
    }
}

/// The oldest message from a to b.
pub fn oldest(table: &Table, a: u8, b: u8) -> Option<&Message> {
    table.messages.iter().find(|m| m.sender == a && m.receiver == b)
}

/// The group of a forwarded invitation.
pub fn forwarded(m: &Message) -> Option<u32> {
    match m.body {
        Body::Invitation { group } if owner(group) != m.sender => Some(group),
        _ => None,
    }
}
