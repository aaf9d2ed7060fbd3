//! Every table that runs of few nodes can reach while few messages may wait, and the longest row of quiet events from any of
//! them. Tables that go on alike are one: of group and call numbers it matters alone which are equal, of the messages
//! their order in each pair, of a node that is Down nothing, and tasks and counts do not matter.

use crate::machine::{
    advance, group_number, owner, Activity, Body, Event, Limits, Message, Node, Status, Table,
};
use crate::rest::potential::{is_quiet, potential};
use crate::traffic_tables::pairs;
use std::collections::HashMap;

/// The task of every finish: no full peal, which T-10 may refuse.
const TASK: u16 = 200;
/// The call number of an open call, and of one that was given up or answered.
const OPEN: u32 = 2;
const OLD: u32 = 1;

/// A table in few bytes: ten for each node, and three for each message.
pub type Form = Box<[u8]>;

/// What there is with n nodes and so many messages.
#[derive(Clone, Debug, PartialEq, Eq)]
pub struct Every {
    pub tables: usize,
    /// The most quiet events in a row, and the largest potential of the tables from which there are so many.
    pub longest: u16,
    pub potential: u64,
}

/// Looks at every table of n nodes, at most 8, where so many messages may wait. None where there are too many of them.
pub fn every(n: u8, messages: u8, too_many: usize) -> Option<Every> {
    let limits = Limits { nodes: 8, messages };
    let events = all_events(n);
    let start = form(&Table::start(n, limits));
    let mut places: HashMap<Form, u32> = HashMap::from([(start.clone(), 0)]);
    let mut forms = vec![start];
    // The tables behind each table by a quiet event.
    let mut behind: Vec<Box<[u32]>> = Vec::new();
    let mut at = 0;
    while at < forms.len() {
        let table = table_of(&forms[at], n, limits);
        let mut quiet = Vec::new();
        for (event, quietly) in &events {
            let mut after = table.clone();
            if advance(&mut after, event).is_err() {
                continue;
            }
            let form = form(&after);
            let place = match places.get(&form) {
                Some(&place) => place,
                None => {
                    places.insert(form.clone(), forms.len() as u32);
                    forms.push(form);
                    forms.len() as u32 - 1
                }
            };
            if *quietly {
                quiet.push(place);
            }
        }
        behind.push(quiet.into());
        if forms.len() > too_many {
            return None;
        }
        at += 1;
    }
    drop(places);
    // A quiet event lowers the potential, so that those of a lower one come first.
    let high: Vec<u64> = forms.iter().map(|form| potential(&table_of(form, n, limits))).collect();
    let mut order: Vec<u32> = (0..forms.len() as u32).collect();
    order.sort_by_key(|&place| high[place as usize]);
    let mut rows = vec![0_u16; forms.len()];
    for place in order {
        let longest = behind[place as usize].iter().map(|&next| rows[next as usize] + 1).max();
        rows[place as usize] = longest.unwrap_or(0);
    }
    let longest = rows.iter().copied().max().unwrap_or(0);
    let those = (0..rows.len()).filter(|&place| rows[place] == longest);
    let potential = those.map(|place| high[place]).max().unwrap_or(0);
    Some(Every { tables: forms.len(), longest, potential })
}

/// Every event of n nodes that differs from the others in more than its task, and whether it is quiet.
fn all_events(n: u8) -> Vec<(Event, bool)> {
    let mut events = Vec::new();
    for i in 1..=n {
        events.extend([Event::Crash(i), Event::Recover(i), Event::Check(i), Event::Timeout(i)]);
        events.extend([Event::Tick(i), Event::Expire(i), Event::Finish(i, TASK)]);
    }
    for (a, b) in pairs(n) {
        events.extend([Event::Deliver(a, b), Event::Lose(a, b)]);
    }
    events.into_iter().map(|event| (event, is_quiet(&event))).collect()
}

/// A table in few bytes. The groups of each owner, at most 15, are numbered in their order.
pub fn form(table: &Table) -> Form {
    let up = |i: u8| table.node(i).status != Status::Down;
    let mut groups: Vec<u32> =
        (1..=table.n).filter(|&i| up(i)).map(|i| table.node(i).group).collect();
    groups.extend(table.messages.iter().filter_map(|m| m.body.group()));
    groups.sort();
    groups.dedup();
    let group = |number: u32| {
        let before =
            groups.iter().filter(|&&other| owner(other) == owner(number) && other <= number);
        (owner(number) - 1) << 4 | before.count() as u8
    };
    let open = |i: u8, call: u32| u8::from(up(i) && table.node(i).open_call() == Some(call));
    let mut bytes = Vec::with_capacity(10 * usize::from(table.n) + 3 * table.messages.len());
    for i in 1..=table.n {
        let node = table.node(i);
        if !up(i) {
            bytes.extend([0; 10]);
            continue;
        }
        // For 8 nodes a set is a byte.
        let (tag, a, b, c, d) = match node.activity {
            Activity::Idle => (0, 0, 0, 0, 0),
            Activity::Asking { asked, found } => (1, asked, found as u8, 0, 0),
            Activity::Waiting { ticks, found } => (2, ticks, found as u8, 0, 0),
            Activity::Inviting { found, former, now } => (3, now, found as u8, former as u8, 0),
            Activity::Collecting => (4, 0, 0, 0, 0),
            Activity::Handing { rest, now } => (5, now, rest as u8, 0, 0),
            Activity::Contacting => (6, 0, 0, 0, 0),
            Activity::Forwarding { rest, now, caller, call } => {
                (7, now, rest as u8, caller, open(caller, call))
            }
            Activity::Accepting { caller, call } => (8, 0, 0, caller, open(caller, call)),
        };
        let members = node.members as u8;
        let number = groups.iter().filter(|&&other| owner(other) == i).count() as u8;
        bytes.extend([node.status as u8, group(node.group), members, number, tag, a, b, c, d, 0]);
    }
    let mut messages: Vec<&Message> = table.messages.iter().collect();
    messages.sort_by_key(|m| (m.sender, m.receiver));
    for m in messages {
        let (waits, yes) = match m.body {
            Body::Reply { yes } => (open(m.receiver, m.call), u8::from(yes)),
            _ => (open(m.sender, m.call), 0),
        };
        // What a reply says to which nobody waits does not matter.
        let bits = waits << 4 | (yes & waits) << 5;
        bytes.extend([m.sender << 4 | m.receiver, m.body.kind() | bits]);
        bytes.push(m.body.group().map_or(0, group));
    }
    bytes.into()
}

/// A table of this form.
pub fn table_of(form: &[u8], n: u8, limits: Limits) -> Table {
    let mut table = Table::start(n, limits);
    let group = |byte: u8| group_number(u32::from(byte & 15), (byte >> 4) + 1);
    let call = |is_open: u8| if is_open == 1 { OPEN } else { OLD };
    let (nodes, messages) = form.split_at(10 * usize::from(n));
    for (k, bytes) in nodes.chunks_exact(10).enumerate() {
        let &[status, held, members, number, tag, a, b, c, d, _] = bytes else {
            continue;
        };
        if status == 0 {
            // What it formed before it is Down is a group of no message, or counts here.
            let of = |byte: u8| if byte >> 4 == k as u8 { byte & 15 } else { 0 };
            let held = nodes.chunks_exact(10).filter(|node| node[0] != 0).map(|node| of(node[1]));
            let sent = messages.chunks_exact(3).map(|m| of(m[2]));
            table.nodes[k].counter = u32::from(held.chain(sent).max().unwrap_or(0));
            table.nodes[k].last_call = OPEN;
            continue;
        }
        let activity = match tag {
            0 => Activity::Idle,
            1 => Activity::Asking { asked: a, found: b.into() },
            2 => Activity::Waiting { ticks: a, found: b.into() },
            3 => Activity::Inviting { found: b.into(), former: c.into(), now: a },
            4 => Activity::Collecting,
            5 => Activity::Handing { rest: b.into(), now: a },
            6 => Activity::Contacting,
            7 => Activity::Forwarding { rest: b.into(), now: a, caller: c, call: call(d) },
            _ => Activity::Accepting { caller: c, call: call(d) },
        };
        let status =
            [Status::Election, Status::Reorganization, Status::Normal][usize::from(status) - 1];
        table.nodes[k] = Node {
            status,
            counter: number.into(),
            group: group(held),
            coordinator: (held >> 4) + 1,
            task: TASK,
            members: members.into(),
            last_call: OPEN,
            activity,
        };
    }
    for bytes in messages.chunks_exact(3) {
        let body = match bytes[1] & 7 {
            1 => Body::AreYouCoordinator,
            2 => Body::AreYouThere { group: group(bytes[2]) },
            3 => Body::Invitation { group: group(bytes[2]) },
            4 => Body::Accept { group: group(bytes[2]) },
            5 => Body::Ready { group: group(bytes[2]), task: TASK },
            _ => Body::Reply { yes: bytes[1] >> 5 & 1 == 1 },
        };
        table.messages.push(Message {
            sender: bytes[0] >> 4,
            receiver: bytes[0] & 15,
            call: call(bytes[1] >> 4 & 1),
            body,
        });
    }
    table
}
