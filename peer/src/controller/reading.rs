//! The papers read once more for one cabinet, apart from the machine, the controller and the messages' codec: which
//! grounds apply to a call, and what must come out where none does. Words in quotation marks in the comments are
//! T-11's or document 01's.

use crate::controller::bytes::SHARE_BYTES;
use crate::corners::{event_name, EVENTS};
use crate::list::{first_event, first_field};
use crate::machine::{
    only, Activity, Body, Event, Message, Node, Set, Status, MAX_CALL, MAX_COUNTER, MAX_NODES,
};
use crate::proved::{node_from_bytes, whole, TOO_SHORT};

/// What a controller is given besides n, its own number and its record: the field of an event, or a message.
#[derive(Clone, Debug, PartialEq, Eq)]
pub enum Input {
    Field(Vec<u8>),
    Message(Vec<u8>),
}

impl Input {
    pub fn bytes(&self) -> &[u8] {
        match self {
            Input::Field(bytes) | Input::Message(bytes) => bytes,
        }
    }
}

/// "The result depends on nothing but those four things."
#[derive(Clone, Debug, PartialEq, Eq)]
pub struct Given {
    pub n: u8,
    pub own: u8,
    pub record: Vec<u8>,
    pub input: Input,
}

/// What is given, by its place: the events of a controller, then the kinds of messages, then what is neither.
pub const CRASH: usize = 0;
pub const RECOVER: usize = 1;
pub const CHECK: usize = 2;
pub const TIMEOUT: usize = 3;
pub const TICK: usize = 4;
pub const EXPIRE: usize = 5;
pub const FINISH: usize = 6;
pub const ARE_YOU_COORDINATOR: usize = 7;
pub const ARE_YOU_THERE: usize = 8;
pub const INVITATION: usize = 9;
pub const ACCEPT: usize = 10;
pub const READY: usize = 11;
pub const REPLY: usize = 12;
pub const NO_FIELD: usize = 13;
pub const NO_KIND: usize = 14;

pub const WHATS: [&str; 15] = [
    "crash",
    "recover",
    "check",
    "timeout",
    "tick",
    "expire",
    "finish",
    "AreYouCoordinator",
    "AreYouThere",
    "Invitation",
    "Accept",
    "Ready",
    "reply",
    "no event",
    "no kind",
];

/// The place of a message's kind among `WHATS`.
pub fn of_kind(kind: u8) -> usize {
    ARE_YOU_COORDINATOR + usize::from(kind) - 1
}

/// The grounds of a controller in their order, behind what the boundary looks at first.
pub const ORDER: [u8; 15] = [TOO_SHORT, 3, 4, 5, 1, 7, 8, 20, 21, 9, 10, 18, 19, 12, 13];

/// What the papers say of a call.
#[derive(Clone, Debug)]
pub struct Reading {
    pub what: usize,
    /// What must be answered.
    pub answer: u8,
    /// The grounds that apply, by their places in `ORDER`. For 12 and 13 it says whether what they look at is at its
    /// end, where an earlier ground applies.
    pub applies: [bool; ORDER.len()],
    /// The record as it is read.
    pub before: Node,
    /// Where it is accepted: the record after, and the outgoing message.
    pub after: Option<(Node, Option<Message>)>,
}

/// A right message has so many bytes, by its kind.
pub const LENGTHS: [usize; 6] = [13, 20, 20, 20, 25, 17];

/// The bytes that are the same in all messages of a kind, with their places: the tags and lengths.
fn fixed(kind: u8) -> &'static [(usize, [u8; 3])] {
    const ENDS: (usize, [u8; 3]) = (0, [0x20, 0, 3]);
    const CALL: (usize, [u8; 3]) = (6, [0x21, 0, 4]);
    const GROUP: (usize, [u8; 3]) = (13, [0x22, 0, 4]);
    match kind {
        1 => &[ENDS, CALL],
        2..=4 => &[ENDS, CALL, GROUP],
        5 => &[ENDS, CALL, GROUP, (20, [0x23, 0, 2])],
        _ => &[ENDS, CALL, (13, [0x24, 0, 1])],
    }
}

fn number(bytes: &[u8]) -> u32 {
    bytes.iter().fold(0, |sum, &byte| sum << 8 | u32::from(byte))
}

/// The message of these bytes, if they are those of a message in range for n.
pub fn read_message(n: u8, bytes: &[u8]) -> Option<Message> {
    let kind = *bytes.get(5)?;
    let right = (1..=6).contains(&kind)
        && bytes.len() == LENGTHS[usize::from(kind) - 1]
        && fixed(kind).iter().all(|&(at, three)| bytes[at..at + 3] == three);
    if !right {
        return None;
    }
    let (sender, receiver, call) = (bytes[3], bytes[4], number(&bytes[9..13]));
    let inside = |j: u8| j >= 1 && j <= n;
    if !inside(sender) || !inside(receiver) || sender == receiver || !(1..=MAX_CALL).contains(&call)
    {
        return None;
    }
    let group = if (2..=5).contains(&kind) { number(&bytes[16..20]) } else { 16 };
    if !is_group(n, group) {
        return None;
    }
    let body = match kind {
        1 => Body::AreYouCoordinator,
        2 => Body::AreYouThere { group },
        3 => Body::Invitation { group },
        4 => Body::Accept { group },
        5 => {
            let task = number(&bytes[23..25]) as u16;
            (task >= 100).then_some(Body::Ready { group, task })?
        }
        _ => (bytes[16] < 2).then_some(Body::Reply { yes: bytes[16] == 1 })?,
    };
    Some(Message { sender, receiver, call, body })
}

/// "counter × 16 + (owner − 1)", with a counter from 1 and an owner of the n.
fn is_group(n: u8, group: u32) -> bool {
    (16..=16 * MAX_COUNTER + 15).contains(&group) && group & 15 < u32::from(n)
}

/// "A table is in range when", for the record of one of its cabinets.
fn in_range(n: u8, own: u8, r: &Node) -> bool {
    if n == 0 || n > MAX_NODES || own == 0 || own > n {
        return false;
    }
    let mut sets = vec![r.members];
    // The cabinets and the call number that its activity names.
    let (mut named, mut call) = (vec![], 1);
    match r.activity {
        Activity::Idle | Activity::Collecting | Activity::Contacting => {}
        Activity::Asking { asked, found } => {
            named.push(asked);
            sets.push(found);
        }
        Activity::Waiting { ticks, found } => {
            sets.push(found);
            if ticks == 0 || ticks > 15 {
                return false;
            }
        }
        Activity::Inviting { found, former, now } => {
            named.push(now);
            sets.extend([found, former]);
        }
        Activity::Handing { rest, now } => {
            named.push(now);
            sets.push(rest);
            if r.task < 100 {
                return false;
            }
        }
        Activity::Forwarding { rest, now, caller, call: number } => {
            named.extend([now, caller]);
            sets.push(rest);
            call = number;
        }
        Activity::Accepting { caller, call: number } => {
            named.push(caller);
            call = number;
        }
    }
    let joins = matches!(r.activity, Activity::Forwarding { .. } | Activity::Accepting { .. });
    let others = (1..=n).filter(|&j| j != own).fold(0, |set, j| set | only(j));
    let down = r.status == Status::Down;
    r.counter <= MAX_COUNTER
        && r.last_call <= MAX_CALL
        && sets.iter().all(|set| set | others == others)
        && named.iter().all(|&j| (1..=n).contains(&j) && j != own)
        && (1..=MAX_CALL).contains(&call)
        && !(joins && r.coordinator == own)
        && if down {
            (r.group == 0 || is_group(n, r.group))
                && r.coordinator <= n
                && r.activity == Activity::Idle
        } else {
            is_group(n, r.group) && u32::from(r.coordinator) == (r.group & 15) + 1
        }
}

/// The event's place among `WHATS`, its cabinet, and a finish's task.
fn event_parts(event: &Event) -> Option<(usize, u8, u16)> {
    let what = EVENTS.iter().position(|&name| name == event_name(event))?;
    match *event {
        Event::Crash(i)
        | Event::Recover(i)
        | Event::Check(i)
        | Event::Timeout(i)
        | Event::Tick(i)
        | Event::Expire(i) => Some((what, i, 100)),
        Event::Finish(i, task) => Some((what, i, task)),
        Event::Deliver(..) | Event::Lose(..) => None,
    }
}

/// Whether the number that ground 12 looks at stands at its end, where this can need a new group; and the same for
/// ground 13 and a call.
fn at_ends(what: usize, r: &Node) -> [bool; 2] {
    let forms = [RECOVER, TICK, EXPIRE, REPLY].contains(&what);
    let calls = [CHECK, TIMEOUT, TICK, EXPIRE, FINISH, INVITATION, REPLY].contains(&what);
    [forms && r.counter == MAX_COUNTER, calls && r.last_call == MAX_CALL]
}

/// Reads a call with so many bytes in its buffer.
pub fn read(given: &Given, room: usize) -> Reading {
    let (n, own) = (given.n, given.own);
    let before = node_from_bytes(&whole(&given.record));
    let mut numbers = vec![];
    let short = room < SHARE_BYTES;
    numbers.extend(short.then_some(TOO_SHORT));
    let not_in_range = !in_range(n, own, &before);
    let down = before.status == Status::Down;
    let mut done = None;
    let what = match &given.input {
        Input::Field(field) => {
            let event = match first_field(field) {
                // A tag that is no event here is 4, whatever its length.
                Ok(field) if [0x17, 0x18].contains(&field.tag) => Err(4),
                _ => first_event(field),
            };
            let parts = event.map(|event| event_parts(&event));
            match parts {
                Err(number) => {
                    numbers.push(number);
                    numbers.extend(not_in_range.then_some(1));
                    NO_FIELD
                }
                Ok(None) => unreachable!("deliver and lose are no events here"),
                Ok(Some((what, i, task))) => {
                    let fits = fits(what, &before.activity);
                    let checks = before.status == Status::Normal && before.coordinator == own;
                    // "twice the members plus two is at most n"
                    let few = 2 * before.members.count_ones() + 2 <= u32::from(n);
                    let peal = (100..=199).contains(&task) && what == FINISH;
                    for (number, applies) in [
                        (1, not_in_range),
                        (7, i == 0 || i > n),
                        (8, task < 100),
                        (21, i != own),
                        (9, down != (what == RECOVER)),
                        (10, !fits),
                        (18, what == CHECK && !checks),
                        (19, peal && few),
                    ] {
                        numbers.extend(applies.then_some(number));
                    }
                    done = numbers.is_empty().then(|| follow(n, own, &before, what, task, None));
                    what
                }
            }
        }
        Input::Message(bytes) => {
            let message = read_message(n, bytes);
            let other = bytes.get(4).is_some_and(|&receiver| receiver != own);
            for (number, applies) in
                [(1, not_in_range), (20, message.is_none()), (21, other), (9, down)]
            {
                numbers.extend(applies.then_some(number));
            }
            let kind = bytes.get(5).copied().filter(|kind| (1..=6).contains(kind));
            let what = kind.map_or(NO_KIND, of_kind);
            done = numbers.is_empty().then(|| follow(n, own, &before, what, 0, message));
            what
        }
    };
    let ends = at_ends(what, &before);
    let mut after = None;
    match done {
        Some(Follows { forms, calls, node, sent, .. }) => {
            let [counter, last_call] = ends;
            numbers.extend((forms && counter).then_some(12));
            numbers.extend((calls && last_call).then_some(13));
            after = numbers.is_empty().then_some((node, sent));
        }
        None => {
            numbers.extend(ends[0].then_some(12));
            numbers.extend(ends[1].then_some(13));
        }
    }
    let applies = ORDER.map(|number| numbers.contains(&number));
    let answer = ORDER.iter().copied().find(|number| numbers.contains(number)).unwrap_or(0);
    Reading { what, answer, applies, before, after }
}

/// "check, timeout: not idle; tick: not waiting; expire: no open call; finish: not collecting"
fn fits(what: usize, activity: &Activity) -> bool {
    let idle = *activity == Activity::Idle;
    let waiting = matches!(activity, Activity::Waiting { .. });
    let collecting = *activity == Activity::Collecting;
    match what {
        CHECK | TIMEOUT => idle,
        TICK => waiting,
        EXPIRE => !idle && !waiting && !collecting,
        FINISH => collecting,
        _ => true,
    }
}

/// What must follow where nothing refuses it: the record, which is first as before, the outgoing message, and whether
/// "a new group is needed" and "a call is needed". Where there is no number left for these, the record is not right.
struct Follows {
    n: u8,
    i: u8,
    node: Node,
    sent: Option<Message>,
    forms: bool,
    calls: bool,
}

fn highest(set: Set) -> Option<u8> {
    (1..=MAX_NODES).rev().find(|&j| set & only(j) != 0)
}

fn follow(n: u8, i: u8, r: &Node, what: usize, task: u16, message: Option<Message>) -> Follows {
    let mut f = Follows { n, i, node: *r, sent: None, forms: false, calls: false };
    match what {
        CRASH => (f.node.status, f.node.activity) = (Status::Down, Activity::Idle),
        RECOVER => f.recovers(),
        CHECK => f.asks_behind(0, 0),
        TIMEOUT if r.coordinator != i => {
            f.node.activity = Activity::Contacting;
            f.calls(r.coordinator, Body::AreYouThere { group: r.group });
        }
        TICK => {
            if let Activity::Waiting { ticks, found } = r.activity {
                match ticks {
                    1 => f.merges(found),
                    _ => f.node.activity = Activity::Waiting { ticks: ticks - 1, found },
                }
            }
        }
        EXPIRE => f.goes_on(None),
        FINISH => {
            (f.node.status, f.node.task) = (Status::Reorganization, task);
            f.hands(r.members);
        }
        _ => {}
    }
    if let Some(m) = message {
        f.takes(&m);
    }
    f
}

impl Follows {
    fn calls(&mut self, to: u8, body: Body) {
        self.calls = true;
        self.node.last_call = self.node.last_call.wrapping_add(1);
        let call = self.node.last_call;
        self.sent = Some(Message { sender: self.i, receiver: to, call, body });
    }

    fn replies(&mut self, to: u8, call: u32, yes: bool) {
        let body = Body::Reply { yes };
        self.sent = Some(Message { sender: self.i, receiver: to, call, body });
    }

    /// "counter plus one, new group, coordinator i", in any status.
    fn forms(&mut self) {
        self.forms = true;
        self.node.counter = self.node.counter.wrapping_add(1);
        self.node.group = self.node.counter.wrapping_mul(16) + u32::from(self.i) - 1;
        self.node.coordinator = self.i;
        self.node.members = 0;
    }

    fn recovers(&mut self) {
        self.forms();
        (self.node.task, self.node.status) = (u16::from(self.i), Status::Normal);
        self.node.activity = Activity::Idle;
    }

    fn merges(&mut self, found: Set) {
        let aside = self.node.members;
        self.forms();
        self.node.status = Status::Election;
        self.invites(found, aside);
    }

    /// Those found from the highest down, then those set aside.
    fn invites(&mut self, found: Set, former: Set) {
        let next = match (highest(found), highest(former)) {
            (Some(now), _) => Activity::Inviting { found: found & !only(now), former, now },
            (None, Some(now)) => Activity::Inviting { found, former: former & !only(now), now },
            (None, None) => Activity::Collecting,
        };
        self.node.activity = next;
        if let Activity::Inviting { now, .. } = next {
            self.calls(now, Body::Invitation { group: self.node.group });
        }
    }

    /// From 1 up, and then what comes "After the last".
    fn asks_behind(&mut self, j: u8, found: Set) {
        if let Some(asked) = (j + 1..=self.n).find(|&k| k != self.i) {
            self.node.activity = Activity::Asking { asked, found };
            return self.calls(asked, Body::AreYouCoordinator);
        }
        match highest(found) {
            None => self.node.activity = Activity::Idle,
            Some(p) if p > self.i => {
                self.node.activity = Activity::Waiting { ticks: p - self.i, found };
            }
            Some(_) => self.merges(found),
        }
    }

    fn hands(&mut self, to: Set) {
        match highest(to) {
            Some(now) => {
                self.node.activity = Activity::Handing { rest: to & !only(now), now };
                let (group, task) = (self.node.group, self.node.task);
                self.calls(now, Body::Ready { group, task });
            }
            None => {
                self.node.activity = Activity::Idle;
                self.node.status = Status::Normal;
            }
        }
    }

    /// The invitation goes to each of these, and then Accept to the new coordinator.
    fn forwards(&mut self, to: Set, caller: u8, call: u32) {
        let group = self.node.group;
        match highest(to) {
            Some(now) => {
                let rest = to & !only(now);
                self.node.activity = Activity::Forwarding { rest, now, caller, call };
                self.calls(now, Body::Invitation { group });
            }
            None => {
                self.node.activity = Activity::Accepting { caller, call };
                self.calls(self.node.coordinator, Body::Accept { group });
            }
        }
    }

    /// The open call is answered with yes or no, or given up.
    fn goes_on(&mut self, answer: Option<bool>) {
        match (self.node.activity, answer) {
            (Activity::Asking { asked, found }, Some(true)) => {
                self.asks_behind(asked, found | only(asked));
            }
            (Activity::Asking { asked, found }, _) => self.asks_behind(asked, found),
            (Activity::Inviting { found, former, .. }, _) => self.invites(found, former),
            (Activity::Forwarding { rest, caller, call, .. }, _) => {
                self.forwards(rest, caller, call);
            }
            (Activity::Handing { rest, .. }, Some(_)) => self.hands(rest),
            (Activity::Accepting { caller, call }, Some(_)) => {
                self.node.status = Status::Reorganization;
                self.node.activity = Activity::Idle;
                self.replies(caller, call, true);
            }
            (Activity::Contacting, Some(true)) => self.node.activity = Activity::Idle,
            (Activity::Contacting, _)
            | (Activity::Handing { .. } | Activity::Accepting { .. }, None) => self.recovers(),
            (Activity::Idle | Activity::Waiting { .. } | Activity::Collecting, _) => {}
        }
    }

    /// "On delivery".
    fn takes(&mut self, m: &Message) {
        let r = self.node;
        let own = r.coordinator == self.i;
        match m.body {
            Body::AreYouCoordinator => {
                self.replies(m.sender, m.call, r.status == Status::Normal && own);
            }
            Body::AreYouThere { group } => {
                let yes = group == r.group && own && r.members & only(m.sender) != 0;
                self.replies(m.sender, m.call, yes);
            }
            Body::Invitation { group } => {
                let owner = (group & 15) as u8 + 1;
                // T-03: "an invitation to the group a cabinet already holds gets a plain reply"
                if r.status != Status::Normal || owner == self.i || group == r.group {
                    return self.replies(m.sender, m.call, true);
                }
                (self.node.status, self.node.group) = (Status::Election, group);
                self.node.coordinator = owner;
                self.forwards(if own { r.members } else { 0 }, m.sender, m.call);
            }
            Body::Accept { group } => {
                if r.status == Status::Election && own && group == r.group {
                    self.node.members |= only(m.sender);
                }
                self.replies(m.sender, m.call, true);
            }
            Body::Ready { group, task } => {
                if r.status == Status::Reorganization && group == r.group {
                    (self.node.task, self.node.status) = (task, Status::Normal);
                }
                self.replies(m.sender, m.call, true);
            }
            Body::Reply { yes } => {
                let open = fits(EXPIRE, &r.activity);
                if open && m.call == r.last_call {
                    self.goes_on(Some(yes));
                }
            }
            Body::Unknown { .. } => {}
        }
    }
}
