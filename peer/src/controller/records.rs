//! Random cabinets and what reaches them: records in range, with an event or a message that often fits; records with
//! one rule of the range broken; and other forms of the same bytes.

use crate::drive::{any_node, full_peal, other_task, task};
use crate::machine::{
    group_number, only, owner, Activity, Event, Message, Node, Set, Status, MAX_CALL, MAX_COUNTER,
    MAX_NODES, MAX_TICKS, MIN_TASK,
};
use crate::numbers::Numbers;
use crate::proved::{node_to_bytes, NODE_BYTES};
use crate::tables::{message_to, near_ends, node, other, record_in_another_form, set_activity};
use crate::traffic_corners::{Way, WAYS};
use crate::traffic_tables::{delivered, sending_node};

/// What reaches a cabinet.
#[derive(Clone, Copy, Debug, PartialEq, Eq)]
pub enum Reaches {
    Event(Event),
    Message(Message),
}

/// A cabinet and what reaches it, all in range.
#[derive(Clone, Copy, Debug)]
pub struct Scene {
    pub n: u8,
    pub own: u8,
    pub record: Node,
    pub reaches: Reaches,
}

fn any_n(least: u8, numbers: &mut Numbers) -> u8 {
    match numbers.below(8) {
        0 => least,
        1 | 2 => least.max(3),
        3 => MAX_NODES,
        _ => numbers.between(u32::from(least), u32::from(MAX_NODES)) as u8,
    }
}

/// The first, the last or any of n.
fn any_own(n: u8, numbers: &mut Numbers) -> u8 {
    let any = numbers.between(1, u32::from(n)) as u8;
    numbers.of(&[1, n, any, any])
}

/// Moves the counter and the last call number to their ends or away from them.
fn move_to_ends(record: &mut Node, numbers: &mut Numbers) {
    match numbers.below(4) {
        0 => record.counter = MAX_COUNTER,
        1 => record.counter = near_ends(0, MAX_COUNTER - 1, numbers),
        _ => {}
    }
    match numbers.below(4) {
        0 => record.last_call = MAX_CALL,
        1 => record.last_call = near_ends(0, MAX_CALL - 1, numbers),
        _ => {}
    }
}

/// A cabinet that an event reaches, each as often.
pub fn with_event(numbers: &mut Numbers) -> Scene {
    let n = any_n(1, numbers);
    let own = any_own(n, numbers);
    let mut record = node(own, n, numbers);
    let event = numbers.below(7);
    if numbers.below(4) > 0 {
        fit(&mut record, event, own, n, numbers);
    }
    move_to_ends(&mut record, numbers);
    if numbers.one_in(6) {
        (record.status, record.activity) = (Status::Down, Activity::Idle);
    }
    let event = match event {
        0 => Event::Crash(own),
        1 => Event::Recover(own),
        2 => Event::Check(own),
        3 => Event::Timeout(own),
        4 => Event::Tick(own),
        5 => Event::Expire(own),
        _ => Event::Finish(own, task(numbers)),
    };
    Scene { n, own, record, reaches: Reaches::Event(event) }
}

/// Gives the record what the event needs to be accepted, where an end of a range does not refuse it.
fn fit(record: &mut Node, event: u32, own: u8, n: u8, numbers: &mut Numbers) {
    if event == 1 {
        (record.status, record.activity) = (Status::Down, Activity::Idle);
        return;
    }
    if record.status == Status::Down {
        record.status = numbers.of(&[Status::Election, Status::Reorganization, Status::Normal]);
    }
    let counter = near_ends(1, MAX_COUNTER, numbers);
    let former = if n == 1 || numbers.one_in(2) { own } else { other(own, n, numbers) };
    record.group = group_number(counter, former);
    let activity = match event {
        2 if !numbers.one_in(3) => {
            record.status = Status::Normal;
            record.group = group_number(counter, own);
            0
        }
        2 | 3 => 0,
        4 => 2,
        5 if n == 1 => 6,
        5 => numbers.of(&[1, 1, 3, 5, 6, 7, 8]),
        6 => {
            // As many members as a full peal needs, or one fewer, or any.
            let enough = u32::from(n) / 2;
            let count = match numbers.below(4) {
                0 => enough.saturating_sub(1),
                1 => enough,
                _ => numbers.below(u32::from(n)),
            };
            let others = (1..=n).filter(|&j| j != own).map(only);
            record.members = others.rev().take(count as usize).fold(0, |set, one| set | one);
            4
        }
        _ if n == 1 => numbers.of(&[0, 2, 4, 6]),
        _ => numbers.below(9),
    };
    if activity > 6 {
        record.group = group_number(counter, other(own, n, numbers));
    }
    set_activity(record, activity, own, n, numbers);
    record.coordinator = owner(record.group);
}

/// A cabinet that a message reaches, of each kind as often; of this one, if it is said.
pub fn with_message(kind: Option<u8>, numbers: &mut Numbers) -> Scene {
    let n = any_n(2, numbers);
    let own = any_own(n, numbers);
    let mut record = node(own, n, numbers);
    move_to_ends(&mut record, numbers);
    let sender = other(own, n, numbers);
    let kind = kind.unwrap_or(numbers.between(1, 6) as u8);
    loop {
        let m = message_to(n, sender, own, &record, numbers);
        if m.body.kind() == kind {
            return Scene { n, own, record, reaches: Reaches::Message(m) };
        }
    }
}

/// A cabinet that must send a message, in each of the ways, if an end of a range does not refuse it.
pub fn sending(numbers: &mut Numbers) -> Scene {
    let (way, _) = numbers.of(&WAYS);
    let asks_on = matches!(way, Way::ExpireAsks | Way::ReplyAsks);
    let n = any_n(if asks_on { 3 } else { 2 }, numbers);
    let merges = matches!(way, Way::ExpireMerges | Way::ReplyMerges);
    let own = numbers.between(if merges { 2 } else { 1 }, u32::from(n)) as u8;
    let mut record = sending_node(way, own, n, numbers);
    record.last_call = near_ends(1, MAX_CALL, numbers);
    record.counter = near_ends(0, MAX_COUNTER, numbers);
    if way.forms() && numbers.one_in(2) {
        // What both 12 and 13 look at.
        (record.last_call, record.counter) = (MAX_CALL, MAX_COUNTER);
    }
    let reaches = match delivered(way, &record, own, n, numbers) {
        Some(body) => {
            let call = match body.kind() {
                6 => record.last_call,
                _ => near_ends(1, MAX_CALL, numbers),
            };
            let sender = other(own, n, numbers);
            Reaches::Message(Message { sender, receiver: own, call, body })
        }
        None => Reaches::Event(match way {
            Way::CheckAsks => Event::Check(own),
            Way::TimeoutContacts => Event::Timeout(own),
            Way::TickInvites => Event::Tick(own),
            Way::FinishHands => Event::Finish(own, task(numbers)),
            _ => Event::Expire(own),
        }),
    };
    Scene { n, own, record, reaches }
}

/// Gives an event another cabinet, in range or not.
pub fn for_another(event: &Event, n: u8, own: u8, numbers: &mut Numbers) -> Event {
    let i = match numbers.below(4) {
        0 | 1 if n > 1 => other(own, n, numbers),
        0 => any_node(n, numbers),
        _ => {
            let over = numbers.between(u32::from(n) + 1, 255) as u8;
            numbers.of(&[0, n + 1, MAX_NODES + 1, 255, over])
        }
    };
    match *event {
        Event::Crash(_) => Event::Crash(i),
        Event::Recover(_) => Event::Recover(i),
        Event::Check(_) => Event::Check(i),
        Event::Timeout(_) => Event::Timeout(i),
        Event::Tick(_) => Event::Tick(i),
        Event::Expire(_) => Event::Expire(i),
        Event::Finish(_, task) => Event::Finish(i, task),
        Event::Deliver(..) | Event::Lose(..) => *event,
    }
}

/// A task, mostly too low.
pub fn low_task(numbers: &mut Numbers) -> u16 {
    let low = numbers.below(u32::from(MIN_TASK)) as u16;
    let [peal, another] = [full_peal(numbers), other_task(numbers)];
    numbers.of(&[0, 99, low, low, peal, another])
}

/// Where a rule of the range is to be broken.
struct Breaking<'a> {
    n: u8,
    own: u8,
    record: Node,
    /// A number over n.
    over: u8,
    /// A set with a node beyond n; empty when n is 16.
    beyond: Set,
    numbers: &'a mut Numbers,
}

/// Breaks one rule and no other, and says whether that could be done.
type Rule = fn(&mut Breaking) -> bool;

/// What breaks a rule of ground 1.
const RULES: [(&str, Rule); 71] = [
    ("n 0", |b| b.set_n(0)),
    ("n 17", |b| b.set_n(MAX_NODES + 1)),
    ("n over 17", |b| b.set_n(b.over.max(MAX_NODES + 2))),
    ("own number 0", |b| b.set_own(0)),
    ("own number over n, up to 16", |b| b.n < MAX_NODES && b.set_own(b.n + 1)),
    ("own number over 16", |b| b.set_own(b.over.max(MAX_NODES + 1))),
    ("counter", |b| b.is(|r, b| r.counter = b.high(MAX_COUNTER))),
    ("last call", |b| b.is(|r, b| r.last_call = b.high(MAX_CALL))),
    ("members with its holder", |b| b.is(|r, b| r.members |= only(b.own))),
    ("members beyond n", |b| b.beyond != 0 && b.is(|r, b| r.members |= b.beyond)),
    ("group 0", |b| b.group(0, None)),
    ("group of counter 0", |b| b.own > 1 && b.group(u32::from(b.own) - 1, Some(b.own))),
    ("group of counter 1,048,576", |b| {
        let group = (MAX_COUNTER + 1) * 16 + u32::from(b.own) - 1;
        b.group(group, Some(b.own))
    }),
    ("group of any high counter", |b| {
        let group = b.numbers.between(MAX_COUNTER + 1, u32::MAX / 16) * 16;
        b.group(group, Some(1))
    }),
    ("group with an owner over n", |b| {
        b.n < MAX_NODES && b.group(group_number(1, b.n + 1), Some(b.n + 1))
    }),
    ("coordinator 0", |b| b.coordinator(0)),
    ("coordinator over n", |b| b.coordinator(b.over)),
    ("coordinator another than the owner", |b| {
        b.n > 1 && {
            b.up();
            let another = other(owner(b.record.group), b.n, b.numbers);
            b.coordinator(another)
        }
    }),
    ("Down, coordinator over n", |b| b.down(|r, b| r.coordinator = b.over)),
    ("Down, group of counter 0", |b| b.own > 1 && b.down(|r, b| r.group = u32::from(b.own) - 1)),
    ("Down, group of counter 1,048,576", |b| b.down(|r, _| r.group = (MAX_COUNTER + 1) * 16)),
    ("Down, group with an owner over n", |b| {
        b.n < MAX_NODES && b.down(|r, b| r.group = group_number(1, b.n + 1))
    }),
    ("Down, asking", |b| b.down_at(1)),
    ("Down, waiting", |b| b.down_at(2)),
    ("Down, inviting", |b| b.down_at(3)),
    ("Down, collecting", |b| b.down_at(4)),
    ("Down, handing", |b| b.down_at(5)),
    ("Down, contacting", |b| b.down_at(6)),
    ("Down, forwarding", |b| b.down_at(7)),
    ("Down, accepting", |b| b.down_at(8)),
    ("asking 0", |b| b.at(1, |a, _| named(a, 0))),
    ("asking over n", |b| b.at(1, |a, b| named(a, b.over))),
    ("asking itself", |b| b.at(1, |a, b| named(a, b.own))),
    ("asking, found with its holder", |b| b.at(1, |a, b| joined(a, only(b.own)))),
    ("asking, found beyond n", |b| b.beyond != 0 && b.at(1, |a, b| joined(a, b.beyond))),
    ("waiting, 0 ticks", |b| b.at(2, |a, _| named(a, 0))),
    ("waiting, 16 ticks", |b| b.at(2, |a, _| named(a, MAX_TICKS + 1))),
    ("waiting, more ticks", |b| b.at(2, |a, b| named(a, b.over.max(MAX_TICKS + 2)))),
    ("waiting, found with its holder", |b| b.at(2, |a, b| joined(a, only(b.own)))),
    ("waiting, found beyond n", |b| b.beyond != 0 && b.at(2, |a, b| joined(a, b.beyond))),
    ("inviting 0", |b| b.at(3, |a, _| named(a, 0))),
    ("inviting over n", |b| b.at(3, |a, b| named(a, b.over))),
    ("inviting itself", |b| b.at(3, |a, b| named(a, b.own))),
    ("inviting, found with its holder", |b| b.at(3, |a, b| joined(a, only(b.own)))),
    ("inviting, found beyond n", |b| b.beyond != 0 && b.at(3, |a, b| joined(a, b.beyond))),
    ("inviting, former with its holder", |b| b.at(3, |a, b| set_aside(a, only(b.own)))),
    ("inviting, former beyond n", |b| b.beyond != 0 && b.at(3, |a, b| set_aside(a, b.beyond))),
    ("handing to 0", |b| b.at(5, |a, _| named(a, 0))),
    ("handing to one over n", |b| b.at(5, |a, b| named(a, b.over))),
    ("handing to itself", |b| b.at(5, |a, b| named(a, b.own))),
    ("handing, rest with its holder", |b| b.at(5, |a, b| joined(a, only(b.own)))),
    ("handing, rest beyond n", |b| b.beyond != 0 && b.at(5, |a, b| joined(a, b.beyond))),
    ("handing task 99", |b| b.handing(MIN_TASK - 1)),
    ("handing any low task", |b| {
        let low = b.numbers.below(u32::from(MIN_TASK)) as u16;
        b.handing(low)
    }),
    ("forwarding to 0", |b| b.at(7, |a, _| named(a, 0))),
    ("forwarding to one over n", |b| b.at(7, |a, b| named(a, b.over))),
    ("forwarding to itself", |b| b.at(7, |a, b| named(a, b.own))),
    ("forwarding, rest with its holder", |b| b.at(7, |a, b| joined(a, only(b.own)))),
    ("forwarding, rest beyond n", |b| b.beyond != 0 && b.at(7, |a, b| joined(a, b.beyond))),
    ("forwarding for caller 0", |b| b.at(7, |a, _| called_by(a, 0))),
    ("forwarding for a caller over n", |b| b.at(7, |a, b| called_by(a, b.over))),
    ("forwarding for itself", |b| b.at(7, |a, b| called_by(a, b.own))),
    ("forwarding for call 0", |b| b.at(7, |a, _| numbered(a, 0))),
    ("forwarding for a call over 16,777,215", |b| b.at(7, |a, b| numbered(a, b.high(MAX_CALL)))),
    ("forwarding, its own coordinator", |b| b.at(7, |_, _| ()) && b.own_coordinator()),
    ("accepting for caller 0", |b| b.at(8, |a, _| called_by(a, 0))),
    ("accepting for a caller over n", |b| b.at(8, |a, b| called_by(a, b.over))),
    ("accepting for itself", |b| b.at(8, |a, b| called_by(a, b.own))),
    ("accepting for call 0", |b| b.at(8, |a, _| numbered(a, 0))),
    ("accepting for a call over 16,777,215", |b| b.at(8, |a, b| numbered(a, b.high(MAX_CALL)))),
    ("accepting, its own coordinator", |b| b.at(8, |_, _| ()) && b.own_coordinator()),
];

/// The names of what breaks a rule.
pub fn rule_names() -> impl Iterator<Item = &'static str> {
    RULES.iter().map(|(name, _)| *name)
}

/// Breaks one rule of a scene's numbers or record, and gives its place; None when it can't be broken there.
pub fn break_rule(scene: &mut Scene, numbers: &mut Numbers) -> Option<usize> {
    let Scene { n, own, record, .. } = *scene;
    let any_over = numbers.between(u32::from(n) + 1, 255) as u8;
    let over = numbers.of(&[n + 1, any_over]);
    let beyond = match n {
        MAX_NODES => 0,
        _ => only(numbers.between(u32::from(n) + 1, u32::from(MAX_NODES)) as u8),
    };
    let which = numbers.place(RULES.len());
    let mut breaking = Breaking { n, own, record, over, beyond, numbers };
    let broken = (RULES[which].1)(&mut breaking);
    let Breaking { n, own, record, .. } = breaking;
    if broken {
        (scene.n, scene.own, scene.record) = (n, own, record);
    }
    broken.then_some(which)
}

/// The cabinet that an activity names first, or its ticks.
fn named(activity: &mut Activity, to: u8) {
    match activity {
        Activity::Asking { asked: now, .. }
        | Activity::Waiting { ticks: now, .. }
        | Activity::Inviting { now, .. }
        | Activity::Handing { now, .. }
        | Activity::Forwarding { now, .. } => *now = to,
        _ => {}
    }
}

/// Joins some to the set that an activity has first.
fn joined(activity: &mut Activity, some: Set) {
    match activity {
        Activity::Asking { found: set, .. }
        | Activity::Waiting { found: set, .. }
        | Activity::Inviting { found: set, .. }
        | Activity::Handing { rest: set, .. }
        | Activity::Forwarding { rest: set, .. } => *set |= some,
        _ => {}
    }
}

fn set_aside(activity: &mut Activity, some: Set) {
    if let Activity::Inviting { former, .. } = activity {
        *former |= some;
    }
}

fn called_by(activity: &mut Activity, by: u8) {
    if let Activity::Forwarding { caller, .. } | Activity::Accepting { caller, .. } = activity {
        *caller = by;
    }
}

fn numbered(activity: &mut Activity, number: u32) {
    if let Activity::Forwarding { call, .. } | Activity::Accepting { call, .. } = activity {
        *call = number;
    }
}

impl Breaking<'_> {
    fn set_n(&mut self, n: u8) -> bool {
        self.n = n;
        true
    }

    fn set_own(&mut self, own: u8) -> bool {
        self.own = own;
        true
    }

    /// A number over the end of its range.
    fn high(&mut self, end: u32) -> u32 {
        let any = self.numbers.between(end + 1, u32::MAX);
        self.numbers.of(&[end + 1, u32::MAX, any])
    }

    fn is(&mut self, change: impl FnOnce(&mut Node, &mut Self)) -> bool {
        let mut record = self.record;
        change(&mut record, self);
        self.record = record;
        true
    }

    /// It is not Down.
    fn up(&mut self) {
        let status = self.numbers.of(&[Status::Election, Status::Reorganization, Status::Normal]);
        if self.record.status == Status::Down {
            let group = group_number(1, self.own);
            (self.record.status, self.record.group) = (status, group);
            self.record.coordinator = self.own;
        }
    }

    /// It is not Down and has this group, and its owner as coordinator, or any where it has none. Then it is idle.
    fn group(&mut self, group: u32, coordinator: Option<u8>) -> bool {
        self.up();
        let any = self.numbers.between(1, u32::from(self.n)) as u8;
        self.is(|r, _| {
            (r.group, r.coordinator) = (group, coordinator.unwrap_or(any));
            r.activity = Activity::Idle;
        })
    }

    fn coordinator(&mut self, coordinator: u8) -> bool {
        self.up();
        self.is(|r, _| (r.coordinator, r.activity) = (coordinator, Activity::Idle))
    }

    fn down(&mut self, change: impl FnOnce(&mut Node, &mut Self)) -> bool {
        self.is(|r, b| {
            (r.status, r.activity) = (Status::Down, Activity::Idle);
            change(r, b);
        })
    }

    /// It is in the activity of this number, changed.
    fn at(&mut self, number: u32, change: impl FnOnce(&mut Activity, &mut Self)) -> bool {
        if self.n == 1 && ![2, 4, 6].contains(&number) {
            return false;
        }
        self.up();
        if number > 6 && self.record.coordinator == self.own {
            let another = other(self.own, self.n, self.numbers);
            self.record.coordinator = another;
            self.record.group = group_number(self.record.group / 16, another);
        }
        self.is(|r, b| {
            set_activity(r, number, b.own, b.n, b.numbers);
            change(&mut r.activity, b);
        })
    }

    fn down_at(&mut self, number: u32) -> bool {
        self.at(number, |_, _| ()) && self.is(|r, _| r.status = Status::Down)
    }

    fn handing(&mut self, task: u16) -> bool {
        self.at(5, |_, _| ()) && self.is(|r, _| r.task = task)
    }

    fn own_coordinator(&mut self) -> bool {
        self.is(|r, b| {
            (r.group, r.coordinator) = (group_number(r.group / 16, b.own), b.own);
        })
    }
}

/// A record as bytes.
pub fn record_bytes(record: &Node) -> [u8; NODE_BYTES] {
    let mut bytes = [0; NODE_BYTES];
    node_to_bytes(record, &mut bytes);
    bytes
}

/// The bytes in another form that is read as the same: as in a table, longer, or cut where zeros are read.
pub fn in_another_form(bytes: &[u8; NODE_BYTES], numbers: &mut Numbers) -> Vec<u8> {
    let mut form = bytes.to_vec();
    match numbers.below(4) {
        0 => {
            let end = form.iter().rposition(|&byte| byte != 0).map_or(0, |at| at + 1);
            form.truncate(numbers.between(end as u32, NODE_BYTES as u32) as usize);
        }
        1 => {
            form.resize(NODE_BYTES + numbers.between(1, 40) as usize, 0);
            numbers.fill(&mut form[NODE_BYTES..]);
        }
        _ => record_in_another_form(&mut form, numbers),
    }
    form
}
