//! The history kept beside a run (document 01 calls it the book), and a direct check of demand 3, and of
//! what T-05 of document 02 says of runs, on the table that each event leaves. The table may come from any
//! implementation.

use crate::machine::{
    advance_noting, count_mut, count_of, Activity, Event, Formed, Limits, PairCounts, Status,
    Table, Traffic, MAX_NODES,
};
use std::collections::{HashMap, HashSet};

/// "fed n and the events alone", and T-08: "its book is fed the limits too". It runs the definitions for
/// itself and never sees the table that is checked.
#[derive(Clone, Debug)]
pub struct History {
    run: Table,
    /// "a count for each cabinet, first 0"
    counts: [u32; MAX_NODES as usize],
    /// The group that each node formed last, 0 for none.
    last: [u32; MAX_NODES as usize],
    /// "the groups formed, first none, each with its task or none"
    groups: HashMap<u32, Option<u16>>,
    /// T-05: "the counts taken from the accepted events of the run". They are counted by the events and by
    /// the queue of the messages, and not read from `run`.
    traffic: Traffic,
}

/// What the history says of one event.
#[derive(Clone, Copy, Debug, PartialEq, Eq)]
pub struct Entry {
    /// Accepted, or refused with this number.
    pub answer: Result<(), u8>,
    /// The node that formed a group in this event, and the group's number.
    pub formed: Option<(u8, u32)>,
    /// The group had a task before this event gave it another.
    pub second_task: Option<u32>,
}

impl History {
    pub fn new(n: u8, limits: Limits) -> History {
        History {
            run: Table::start(n, limits),
            counts: [0; MAX_NODES as usize],
            last: [0; MAX_NODES as usize],
            groups: HashMap::new(),
            traffic: Traffic::START,
        }
    }

    /// The table that the definitions give after the events so far.
    pub fn table(&self) -> &Table {
        &self.run
    }

    /// The task that the list fixed for a group, if it has one.
    pub fn task(&self, group: u32) -> Option<u16> {
        self.groups.get(&group).copied().flatten()
    }

    /// Takes in one event.
    pub fn feed(&mut self, event: &Event) -> Entry {
        let mut entry = Entry { answer: Ok(()), formed: None, second_task: None };
        let waiting = self.run.messages.len();
        match advance_noting(&mut self.run, event) {
            Err(r) => {
                // "All else, a refusal too, changes nothing."
                entry.answer = Err(r);
                return entry;
            }
            // "Where i recovers: its count plus one, and group count × 16 + (i − 1) is formed with
            // task i."
            Ok(Some(Formed::Recovered(i))) => {
                entry.formed = Some((i, self.form(i, Some(u16::from(i)))));
            }
            // "Where i merges: the same, without a task."
            Ok(Some(Formed::Merged(i))) => entry.formed = Some((i, self.form(i, None))),
            Ok(None) => {}
        }
        // "An accepted finish i with task t: the group that i formed last gets t."
        if let Event::Finish(i, task) = *event {
            let group = self.last[usize::from(i) - 1];
            if let Some(Some(_)) = self.groups.insert(group, Some(task)) {
                entry.second_task = Some(group);
            }
        }
        self.count(event, waiting);
        entry
    }

    /// Counts the messages of an accepted event, before which so many waited.
    fn count(&mut self, event: &Event, waiting: usize) {
        let taken_out = match *event {
            Event::Deliver(a, b) => Some((&mut self.traffic.delivered, a, b)),
            Event::Lose(a, b) => Some((&mut self.traffic.lost, a, b)),
            _ => None,
        };
        let left = waiting - usize::from(taken_out.is_some());
        if let Some((counts, a, b)) = taken_out {
            *count_mut(counts, a, b) += 1;
        }
        for m in &self.run.messages[left..] {
            *count_mut(&mut self.traffic.sent, m.sender, m.receiver) += 1;
        }
    }

    fn form(&mut self, i: u8, task: Option<u16>) -> u32 {
        let k = usize::from(i) - 1;
        self.counts[k] += 1;
        let group = self.counts[k] * 16 + (u32::from(i) - 1);
        self.last[k] = group;
        self.groups.insert(group, task);
        group
    }
}

/// The check of demand 3 and of T-05 over one whole run.
#[derive(Clone, Debug)]
pub struct Checker {
    history: History,
    /// Every group number that a table of the run held so far, "in a cabinet (Down ones too) or a
    /// waiting message". The starting table holds none.
    held: HashSet<u32>,
}

impl Checker {
    pub fn new(n: u8, limits: Limits) -> Checker {
        Checker { history: History::new(n, limits), held: HashSet::new() }
    }

    pub fn history(&self) -> &History {
        &self.history
    }

    /// Takes in one event and checks the table that stands after it, refused events included. Gives
    /// what the history says of the event, or in words what does not hold.
    pub fn check(&mut self, event: &Event, table: &Table) -> Result<Entry, String> {
        let entry = self.history.feed(event);
        if table.n != self.history.run.n {
            return Err(format!("the table has {} nodes", table.n));
        }
        if table.limits != self.history.run.limits {
            return Err(format!("the table has other limits: {:?}", table.limits));
        }
        if let Some(group) = entry.second_task {
            return Err(format!("group {group} gets a second task"));
        }
        if let Some((i, group)) = entry.formed {
            let has = table.node(i).group;
            if has != group {
                return Err(format!(
                    "node {i} has group {has}, the history's new group is {group}"
                ));
            }
            if self.held.contains(&group) {
                return Err(format!("an earlier table held the new group {group}"));
            }
        }
        self.check_nodes(table)?;
        // T-08: "with the rule of the two pairs left out"; the limits are the ones that the run began with.
        if !table.in_range_of_any_pair() {
            return Err("the table is not in range".to_string());
        }
        // Remembers the groups that the table holds. One that was not held before is a new group.
        for group in groups_held(table) {
            let formed_now = entry.formed.is_some_and(|(_, new)| new == group);
            if self.held.insert(group) && !formed_now {
                return Err(format!("group {group} is new, but the history formed no such group"));
            }
        }
        self.check_traffic(entry.answer, table)?;
        Ok(entry)
    }

    /// T-05: "The records equal the counts taken from the accepted events of the run. Sent is delivered
    /// plus lost plus those waiting, for each pair." "From the starting table no event ever meets the new
    /// ground", and why it does not.
    fn check_traffic(&self, answer: Result<(), u8>, table: &Table) -> Result<(), String> {
        if answer == Err(17) {
            return Err("ground 17 is met".to_string());
        }
        let Traffic { sent, delivered, lost } = &table.traffic;
        let counted = &self.history.traffic;
        for (name, records, counted) in [
            ("sent", sent, &counted.sent),
            ("delivered", delivered, &counted.delivered),
            ("lost", lost, &counted.lost),
        ] {
            if records != counted {
                return Err(format!("the counts of messages {name} are not those of the events"));
            }
        }
        let waiting = table.waiting();
        for (a, b) in (1..=table.n).flat_map(|a| (1..=table.n).map(move |b| (a, b))) {
            let count = |counts: &PairCounts| u64::from(count_of(counts, a, b));
            if count(sent) != count(delivered) + count(lost) + count(&waiting) {
                return Err(format!("what {a} has sent to {b} is not delivered, lost or waiting"));
            }
        }
        if let Some((a, b)) = beyond_calls(table) {
            return Err(format!("node {a} has sent more to {b} than the calls allow"));
        }
        Ok(())
    }

    /// The same group in Reorganization or Normal has the same coordinator; the task of a Normal
    /// node is the history's task of its group.
    fn check_nodes(&self, table: &Table) -> Result<(), String> {
        for i in 1..=table.n {
            let a = table.node(i);
            if !matches!(a.status, Status::Reorganization | Status::Normal) {
                continue;
            }
            for j in i + 1..=table.n {
                let b = table.node(j);
                if matches!(b.status, Status::Reorganization | Status::Normal)
                    && a.group == b.group
                    && a.coordinator != b.coordinator
                {
                    return Err(format!(
                        "nodes {i} and {j} are in group {} with coordinators {} and {}",
                        a.group, a.coordinator, b.coordinator
                    ));
                }
            }
            if a.status == Status::Normal {
                let task = self.history.task(a.group);
                if task != Some(a.task) {
                    return Err(format!(
                        "node {i} is Normal in group {} with task {}, the history's task is {task:?}",
                        a.group, a.task
                    ));
                }
            }
        }
        Ok(())
    }
}

/// What is due by calls, for each pair a, b: one message while a forwards or accepts for the caller b, and
/// one for each call from b to a that waits.
pub fn due_by_calls(table: &Table) -> PairCounts {
    let mut due = Traffic::START.sent;
    let node = 1..=MAX_NODES;
    for i in 1..=table.n.min(MAX_NODES) {
        match table.node(i).activity {
            Activity::Forwarding { caller, .. } | Activity::Accepting { caller, .. }
                if node.contains(&caller) =>
            {
                *count_mut(&mut due, i, caller) += 1;
            }
            _ => {}
        }
    }
    for m in &table.messages {
        let call = (1..=5).contains(&m.body.kind());
        if call && node.contains(&m.sender) && node.contains(&m.receiver) {
            *count_mut(&mut due, m.receiver, m.sender) += 1;
        }
    }
    due
}

/// A pair a, b of which a has sent more than the calls allow: what a has sent to b and what is due is at
/// most the sum of both nodes' last call numbers. A call raises the sum with what its caller has sent, and
/// with what is due from the one called; a reply is due before it is sent. So in a run no pair is beyond
/// it, and that is why ground 17 is never met there: the sum is at most 33,554,430, and less where a call
/// can be made; a reply was due.
pub fn beyond_calls(table: &Table) -> Option<(u8, u8)> {
    let due = due_by_calls(table);
    let n = table.n.min(MAX_NODES);
    let mut pairs = (1..=n).flat_map(|a| (1..=n).map(move |b| (a, b)));
    pairs.find(|&(a, b)| {
        let calls = [table.node(a), table.node(b)].map(|node| u64::from(node.last_call));
        let sent = u64::from(count_of(&table.traffic.sent, a, b));
        a != b && sent + u64::from(count_of(&due, a, b)) > calls[0] + calls[1]
    })
}

/// The group numbers in the nodes, Down ones too, and in the waiting messages.
fn groups_held(table: &Table) -> impl Iterator<Item = u32> + '_ {
    let nodes = (1..=table.n).map(|i| table.node(i).group).filter(|&group| group != 0);
    nodes.chain(table.messages.iter().filter_map(|m| m.body.group()))
}

/// Runs the events from the starting table of n on this program's own machine, with the check after
/// each. Gives the last table, or the event's number from 1 and what does not hold.
pub fn check_run(n: u8, limits: Limits, events: &[Event]) -> Result<Table, String> {
    let mut table = Table::start(n, limits);
    let mut checker = Checker::new(n, limits);
    for (k, event) in events.iter().enumerate() {
        let before = table.clone();
        let answer = crate::machine::advance(&mut table, event);
        let fault = |words: String| format!("event {}: {words}", k + 1);
        let entry = checker.check(event, &table).map_err(fault)?;
        if entry.answer != answer {
            return Err(fault("the history has another answer".to_string()));
        }
        if answer.is_err() && table != before {
            return Err(fault("a refused event changed the table".to_string()));
        }
    }
    Ok(table)
}
