//! Document 01's list program, with T-02, T-03, T-05, T-06, T-08 and T-10 of document 02, written for speed
//! alone, as the second baseline of the benchmark: the bytes of a list in, the printed text out, into a lent
//! buffer, and nothing allocated. Words in quotation marks in the comments are document 01's, or those of a
//! request where that is said; their cabinet is called node here.
//!
//! What it does otherwise than `machine`:
//! - Nothing of a run shows in which order messages of different pairs were sent. So the messages of
//!   each pair are a queue of their own, linked through 64 slots, and no message is searched or moved. On
//!   T-08's stand twelve of the slots are free at the start, so that ground 14 is the same look there.
//! - Status, activity and "its own coordinator" are one number. With the event, and for a delivery the
//!   kind of the message, it gives refusals 7 to 11 and 18, or what is to be done, by one look into a
//!   table. 19 is looked at where a finish is to be done.
//! - Asking, inviting, forwarding and handing are one walk over a set of whom still, in which the two
//!   sets of inviting are one of 32 bits. It takes the lowest bit. Bit 15 - k stands for node k, so that
//!   the highest node comes first; of those still to be asked bit k does, so that they come from 1 up.
//! - All deliveries that are replied to at once are one piece of code without branches.
//! - A coordinator is always its group's owner in a run, and is not kept.
//! - A delivered message leaves its slot to the one that is sent.
//! - Each pair has a count of its messages that were delivered or lost, and one of those lost. The others of
//!   the first were delivered, and with those that wait they were sent. No list has more than 16,383
//!   events, so a count has 16 bits and ground 17 is never met.
//!
//! Nodes are numbered from 0 here. All of it is safe Rust: what is masked needs no check.

use crate::list::MAX_LIST;
use crate::machine::{Limits, FULL_PEALS, MAX_CALL, MAX_COUNTER, MIN_TASK, STAND, TOWER};
use std::hint::select_unpredictable;

/// A state is a multiple of this, so that a row of `ACTIONS` is added to it.
const ROWS: u16 = 32;
/// The status is a state's lowest two bits above that.
const STATUS: u16 = 3 * ROWS;
const DOWN: u16 = 0;
const ELECTION: u16 = ROWS;
const REORGANIZATION: u16 = 2 * ROWS;
const NORMAL: u16 = 3 * ROWS;
/// "its own coordinator", of a node that isn't Down.
const OWN: u16 = 4 * ROWS;
const ACTIVITY: u16 = 15 * 8 * ROWS;
const IDLE: u16 = 0;
const ASKING: u16 = 8 * ROWS;
const WAITING: u16 = 2 * 8 * ROWS;
const INVITING: u16 = 3 * 8 * ROWS;
const COLLECTING: u16 = 4 * 8 * ROWS;
const HANDING: u16 = 5 * 8 * ROWS;
const CONTACTING: u16 = 6 * 8 * ROWS;
const FORWARDING: u16 = 7 * 8 * ROWS;
const ACCEPTING: u16 = 8 * 8 * ROWS;
/// The state of what is no node.
const OUTSIDE: u16 = 15 * 8 * ROWS;

/// Kinds of messages. A reply has two, so that yes or no is part of it.
const ARE_YOU_COORDINATOR: u8 = 1;
const ARE_YOU_THERE: u8 = 2;
const INVITATION: u8 = 3;
const ACCEPT: u8 = 4;
const READY: u8 = 5;
const YES: u8 = 6;
const NO: u8 = 7;

#[derive(Clone, Copy)]
#[repr(align(32))]
struct Node {
    counter: u32,
    group: u32,
    last_call: u32,
    /// The number of the caller's call.
    call: u32,
    /// Whom still; in inviting, those set aside are the upper half.
    rest: u32,
    members: u16,
    task: u16,
    /// The set found, while asking and waiting.
    found: u16,
    state: u16,
    /// The node asked or called now; in waiting the ticks left.
    now: u8,
    caller: u8,
}

/// What is kept of a message beside its kind. Sender and receiver are those of the queue that it is in.
#[derive(Clone, Copy)]
#[repr(align(16))]
struct Message {
    call: u32,
    group: u32,
    task: u16,
}

/// The oldest message of a pair: its queue and its slot.
#[derive(Clone, Copy)]
struct Oldest {
    queue: u16,
    slot: u8,
}

/// A link is a slot, and the kind of the message there × 256. No slot has kind 0.
const NONE: u16 = 64;
/// The link of what is no pair has kind 8.
const NO_PAIR: u16 = 8 << 8 | 64;
/// A queue is sender × 32 + receiver. Node 16 stands for all that are none.
const SENDER: u16 = 32;
/// Where the links of the slots begin, behind those of the queues.
const SLOTS: u16 = 17 * SENDER;
/// The queues between nodes are below this.
const QUEUES: u16 = 16 * SENDER;

#[derive(Clone)]
struct Table {
    nodes: [Node; 32],
    /// The link to the oldest of each queue, and behind them those from slot to slot.
    links: [u16; 1024],
    /// The place in `links` where the next message of each queue goes.
    ends: [u16; SLOTS as usize],
    messages: [Message; 128],
    /// How many messages of each queue were taken out, and how many of them were lost.
    taken: [u16; QUEUES as usize],
    lost: [u16; QUEUES as usize],
    /// The slots that are free.
    free: u64,
    /// All nodes, and how many they are.
    all: u32,
    n: u32,
}

/// "Starting table: all Down and idle, every number 0, every set empty, no messages." Here without
/// nodes and free slots.
static START: Table = {
    let mut ends = [0; SLOTS as usize];
    let mut queue = 0;
    while queue < SLOTS {
        ends[queue as usize] = queue;
        queue += 1;
    }
    Table {
        nodes: [Node {
            counter: 0,
            group: 0,
            last_call: 0,
            call: 0,
            rest: 0,
            members: 0,
            task: 0,
            found: 0,
            state: OUTSIDE,
            now: 0,
            caller: 0,
        }; 32],
        links: [NO_PAIR; 1024],
        ends,
        messages: [Message { call: 0, group: 0, task: 0 }; 128],
        taken: [0; QUEUES as usize],
        lost: [0; QUEUES as usize],
        free: 0,
        all: 0,
        n: 0,
    }
};

/// What an event does. 7 to 11 and 18 are refusals; ground 19 is met in FINISH alone. The numbers leave few
/// gaps, so that one jump is enough.
const NOTHING: u8 = 12;
const CRASH: u8 = 13;
const RECOVER: u8 = 14;
const CHECK: u8 = 15;
const TIMEOUT: u8 = 16;
const TICK: u8 = 17;
const NEXT: u8 = 19;
const FINISH: u8 = 20;
const LOSE: u8 = 21;
const INVITED: u8 = 22;
const ANSWERED: u8 = 23;
const ACCEPTED: u8 = 24;
const STAYS: u8 = 25;
const LEAVES: u8 = 26;
const DROP: u8 = 27;
/// From here on a message is replied to; what is done beside it is added.
const REPLY_NO: u8 = 32;
const REPLY_YES: u8 = REPLY_NO + IS_YES;
const IS_YES: u8 = 1;
/// It is yes for a member of the group.
const IF_MEMBER: u8 = 2;
/// The sender joins the members.
const JOINS: u8 = 4;
/// The task is taken.
const TAKES: u8 = 8;
const REPLY_IF_MEMBER: u8 = REPLY_NO + IF_MEMBER;
const REPLY_AND_JOIN: u8 = REPLY_YES + JOINS;
const REPLY_AND_TAKE: u8 = REPLY_YES + TAKES;

/// What to do, by row and state. Rows 0 to 6 are the events up to finish, 7 finish with a task that is
/// too low, 8 to 16 deliver with a message of kind row - 8, and 17 to 25 lose the same. Kind 0 is no
/// message, and kind 8 no pair.
const fn action(row: u16, state: u16) -> u8 {
    let (status, activity) = (state & STATUS, state & ACTIVITY);
    let own = state & OWN != 0;
    match (row, activity) {
        (_, OUTSIDE) | (16 | 25.., _) => return 7,
        (7, _) => return 8,
        (17, _) => return 11,
        (18..=24, _) => return LOSE,
        (1, _) if status == DOWN => return RECOVER,
        (1, _) => return 9,
        _ if status == DOWN => return 9,
        _ => {}
    }
    match (row, activity) {
        (0, _) => CRASH,
        (2, IDLE) if status == NORMAL && own => CHECK,
        // T-06: "directly after 10"
        (2, IDLE) => 18,
        (3, IDLE) if own => NOTHING,
        (3, IDLE) => TIMEOUT,
        (4, WAITING) => TICK,
        (5, ASKING | INVITING | FORWARDING) => NEXT,
        (5, HANDING | ACCEPTING | CONTACTING) => RECOVER,
        (6, COLLECTING) => FINISH,
        (2..=6, _) => 10,
        (8, _) => 11,
        (9, _) if status == NORMAL && own => REPLY_YES,
        (9, _) => REPLY_NO,
        (10, _) if own => REPLY_IF_MEMBER,
        (10, _) => REPLY_NO,
        (11, _) if status == NORMAL => INVITED,
        (12, _) if status == ELECTION && own => REPLY_AND_JOIN,
        (13, _) if status == REORGANIZATION => REPLY_AND_TAKE,
        (11..=13, _) => REPLY_YES,
        (_, ASKING | INVITING | HANDING | FORWARDING) => ANSWERED,
        (_, ACCEPTING) => ACCEPTED,
        (14, CONTACTING) => STAYS,
        (_, CONTACTING) => LEAVES,
        // "Otherwise the reply is dropped."
        _ => DROP,
    }
}

/// A walk: the kind of its calls, and 15 where bit 15 - k stands for node k, or 0 where bit k does.
#[derive(Clone, Copy)]
struct Walk {
    kind: u8,
    turn: u8,
}

/// By activity. T-02: "pick the highest, in inviting, forwarding and handing. Asking still goes from 1
/// up."
static WALKS: [Walk; 16] = {
    let mut walks = [Walk { kind: ARE_YOU_COORDINATOR, turn: 0 }; 16];
    walks[(INVITING / ASKING) as usize] = Walk { kind: INVITATION, turn: 15 };
    walks[(FORWARDING / ASKING) as usize] = Walk { kind: INVITATION, turn: 15 };
    walks[(HANDING / ASKING) as usize] = Walk { kind: READY, turn: 15 };
    walks
};

static ACTIONS: [u8; 4096] = {
    let mut actions = [0; 4096];
    let mut k = 0;
    while k < 4096 {
        actions[k as usize] = action(k % ROWS, k - k % ROWS);
        k += 1;
    }
    actions
};

/// The field of an event: what is known of it by its tag.
#[derive(Clone, Copy)]
struct Field {
    /// Tag and length, as the first three bytes, the first lowest.
    head: u32,
    /// The least task.
    least: u8,
    /// Where the receiver's number is in the field's bits. Where there is none, the node stands for it.
    shift: u8,
    /// The first row of the actions.
    row: u8,
    /// Whether the message's kind is added to the row: 15 or 0.
    kinds: u8,
}

static FIELDS: [Field; 16] = {
    let mut fields = [Field { head: u32::MAX, least: 0, shift: 24, row: 0, kinds: 0 }; 16];
    let mut k = 0;
    while k < 9 {
        let (length, tag) = ([1, 1, 1, 1, 1, 1, 3, 2, 2][k], 0x10 + k as u32);
        fields[k].head = tag | length << 16;
        fields[k].row = k as u8;
        k += 1;
    }
    fields[6].least = MIN_TASK as u8;
    fields[7] = Field { row: 8, shift: 32, kinds: 15, ..fields[7] };
    fields[8] = Field { row: 17, shift: 32, kinds: 15, ..fields[8] };
    fields
};

/// Runs a list and prints its text at the start of `out`; gives the text's length. None where a line
/// does not fit: the lines before it stand, and nothing of it. All else in `out` stays as it was.
pub fn print(list: &[u8], out: &mut [u8]) -> Option<usize> {
    let mut text = Text { out, at: 0 };
    match first_field(list) {
        Ok((n, limits)) => run(list, n, limits, &mut text)?,
        Err(r) => text.stopped(0, r)?,
    }
    Some(text.at)
}

/// "First field: 0x01, one byte n." T-08: "A list meant for the stand gives them by a first tag of 0x02".
fn first_field(list: &[u8]) -> Result<(u8, Limits), u8> {
    if list.len() > MAX_LIST {
        return Err(2);
    }
    let [tag, high, low, contents @ ..] = list else {
        return Err(3);
    };
    let length = u16::from_be_bytes([*high, *low]);
    if contents.len() < usize::from(length) {
        return Err(3);
    }
    let limits = match tag {
        0x01 => TOWER,
        0x02 => STAND,
        _ => return Err(4),
    };
    match contents {
        [n, ..] if length == 1 => {
            if (1..=limits.nodes).contains(n) {
                Ok((*n, limits))
            } else {
                Err(6)
            }
        }
        _ => Err(5),
    }
}

/// The events, from the fourth byte on.
fn run(list: &[u8], n: u8, limits: Limits, text: &mut Text) -> Option<()> {
    text.cabinets(n)?;
    let mut table = START.clone();
    table.set_nodes(n);
    table.free = u64::MAX >> (64 - limits.messages);
    let mut events = Events::new();
    let mut at = 4;
    loop {
        let rest = &list[at..];
        let field = match rest.first_chunk() {
            Some(bytes) => u64::from_le_bytes(*bytes),
            None if rest.is_empty() => break,
            None => rest.iter().rev().fold(0, |word, &byte| word << 8 | u64::from(byte)),
        };
        let known = &FIELDS[usize::from(field as u8 & 15)];
        // The length stands in the third byte; whether it is right is seen with the tag.
        let length = 3 + usize::from((field >> 16) as u8);
        if field as u32 & 0xff_ffff != known.head || length > rest.len() {
            text.stopped(at, stop(rest))?;
            break;
        }
        at += length;
        events.next();
        let sender = ((field >> 24) as u8).wrapping_sub(1).min(16);
        let receiver = ((field >> known.shift) as u8).wrapping_sub(1).min(16);
        let task = ((field >> 32) as u16).swap_bytes();
        let queue = u16::from(sender) * SENDER + u16::from(receiver);
        let link = table.links[usize::from(queue & 1023)];
        let kind = (link >> 8) as u8;
        let k = usize::from(receiver & 31);
        let low = u8::from(task < u16::from(known.least));
        let row = u16::from(known.row + (kind & known.kinds) + low);
        let action = ACTIONS[usize::from((table.nodes[k].state + row) & 4095)];
        let r = table.act(action, k, task, kind, Oldest { queue, slot: link as u8 });
        if r != 0 {
            text.refused(&events, r)?;
        }
    }
    for i in 0..n {
        text.node(i, &table.nodes[usize::from(i & 31)])?;
    }
    let sum = |counts: &[u16]| counts.iter().map(|&count| u32::from(count)).sum::<u32>();
    let waiting = u32::from(limits.messages) - table.free.count_ones();
    text.traffic(waiting, sum(&table.taken), sum(&table.lost))
}

/// The number of the refusal of a field that is no event.
#[cold]
fn stop(rest: &[u8]) -> u8 {
    match *rest {
        [tag, high, low, ref contents @ ..]
            if contents.len() >= usize::from(u16::from_be_bytes([high, low])) =>
        {
            if (0x10..=0x18).contains(&tag) {
                5
            } else {
                4
            }
        }
        _ => 3,
    }
}

impl Table {
    /// Nodes 0 to n - 1 and their pairs.
    fn set_nodes(&mut self, n: u8) {
        self.all = (1 << n) - 1;
        self.n = u32::from(n);
        for k in 0..usize::from(n) {
            self.nodes[k & 31].state = DOWN | IDLE;
            let first = k * usize::from(SENDER);
            self.links[first..first + usize::from(n)].fill(NONE);
            self.links[first + k] = NO_PAIR;
        }
    }

    /// Does what an action says at node k; `oldest` is of the event's pair, and `kind` its kind. Gives 0,
    /// or the number of a refusal, and then nothing has changed: what can be refused is seen first.
    #[inline(always)]
    #[allow(clippy::manual_range_patterns)]
    fn act(&mut self, action: u8, k: usize, task: u16, kind: u8, oldest: Oldest) -> u8 {
        let node = &mut self.nodes[k];
        let message = &self.messages[usize::from(oldest.slot & 127)];
        let sender = (oldest.queue / SENDER) as u8;
        match action {
            // Each by itself: a range would be a branch of its own before the jump.
            7 | 8 | 9 | 10 | 11 | 18 => return action,
            NOTHING => {}
            CRASH => node.state = DOWN | IDLE,
            RECOVER => return self.recover(k, None),
            // "it asks every other cabinet in turn". T-06: "With n = 1 such a check still passes without
            // effect."
            CHECK => {
                let others = self.all & !(1 << k);
                if others != 0 {
                    let r = self.no_call(k, None);
                    if r != 0 {
                        return r;
                    }
                    self.nodes[k].found = 0;
                    self.walk(k, ASKING, others, None);
                }
            }
            TIMEOUT => {
                let r = self.no_call(k, None);
                if r != 0 {
                    return r;
                }
                self.set_activity(k, CONTACTING);
                let to = (self.nodes[k].group & 15) as u8;
                self.call(k, to, ARE_YOU_THERE, None);
            }
            TICK => {
                if node.now > 1 {
                    node.now -= 1;
                } else {
                    let found = node.found;
                    return self.merge(k, found, None);
                }
            }
            NEXT => {
                let found = node.found;
                return self.next(k, found, None);
            }
            // "Reorganization, task t. It hands Ready to each member; after the last, or with none,
            // Normal and idle."
            FINISH => {
                let members = u32::from(node.members);
                // T-10: "finish with task 100 to 199 when twice the members plus two is at most n"; one with a
                // task below 100 is no FINISH.
                if task <= *FULL_PEALS.end() && 2 * members.count_ones() + 2 <= self.n {
                    return 19;
                }
                if members == 0 {
                    node.task = task;
                    node.state = NORMAL | OWN | IDLE;
                    return 0;
                }
                let r = self.no_call(k, None);
                if r != 0 {
                    return r;
                }
                self.nodes[k].task = task;
                self.nodes[k].state = REORGANIZATION | OWN;
                self.walk(k, HANDING, members, None);
            }
            LOSE => {
                self.lost[usize::from(oldest.queue & (QUEUES - 1))] += 1;
                self.release(Some(oldest));
            }
            DROP => self.release(Some(oldest)),
            // "if not Normal", which is no INVITED, "or it owns that group, plain reply and no change."
            // T-03: "an invitation to the group a cabinet already holds gets a plain reply and changes
            // nothing else"
            INVITED => {
                let owned = (message.group & 15) as usize == k;
                let held = message.group == node.group;
                if owned | held {
                    self.take_out(oldest);
                    self.put(k, sender, YES, oldest.slot);
                    return 0;
                }
                if node.last_call >= MAX_CALL {
                    return 13;
                }
                // "If it was its own coordinator, it forwards the invitation to each member"
                let rest = if node.state & OWN != 0 { u32::from(node.members) } else { 0 };
                node.group = message.group;
                node.call = message.call;
                node.caller = sender;
                node.state = ELECTION;
                if rest == 0 {
                    self.accept(k, Some(oldest));
                } else {
                    self.walk(k, FORWARDING, rest, Some(oldest));
                }
            }
            // "if a call is open with this number, it goes on"
            ANSWERED => {
                if message.call != node.last_call {
                    self.release(Some(oldest));
                    return 0;
                }
                // "asking adds the cabinet asked on yes"
                let found = node.found | u16::from(kind == YES) << (15 - (node.now & 15));
                return self.next(k, found, Some(oldest));
            }
            // "accepting turns to Reorganization, replies to its caller and is idle"
            ACCEPTED => {
                if message.call != node.last_call {
                    self.release(Some(oldest));
                    return 0;
                }
                let (caller, call) = (node.caller, node.call);
                node.state = REORGANIZATION | IDLE;
                self.take_out(oldest);
                self.messages[usize::from(oldest.slot & 127)].call = call;
                self.put(k, caller, YES, oldest.slot);
            }
            STAYS => {
                if message.call == node.last_call {
                    node.state &= !ACTIVITY;
                }
                self.release(Some(oldest));
            }
            LEAVES => {
                if message.call == node.last_call {
                    return self.recover(k, Some(oldest));
                }
                self.release(Some(oldest));
            }
            REPLY_NO | REPLY_YES | REPLY_IF_MEMBER | REPLY_AND_JOIN | REPLY_AND_TAKE => {
                let doing = |flag: u8| u16::from(action & flag != 0);
                let same = u16::from(node.group == message.group);
                // "the group is equal, it is its own coordinator and the sender is a member"
                let member = doing(IF_MEMBER) & same & node.members >> (15 - (sender & 15));
                let yes = doing(IS_YES) | member;
                // "in that group, the sender joins the members"
                node.members |= (doing(JOINS) & same) << (15 - (sender & 15));
                // "in that group, task taken, Normal"
                let takes = doing(TAKES) & same;
                node.task = select_unpredictable(takes != 0, message.task, node.task);
                node.state |= takes * NORMAL;
                self.take_out(oldest);
                self.put(k, sender, NO - yes as u8, oldest.slot);
            }
            _ => {}
        }
        0
    }

    #[inline(always)]
    fn set_activity(&mut self, k: usize, activity: u16) {
        let state = &mut self.nodes[k].state;
        *state = *state & !ACTIVITY | activity;
    }

    /// Takes the oldest message out of its queue, and counts it.
    #[inline(always)]
    fn take_out(&mut self, oldest: Oldest) {
        self.taken[usize::from(oldest.queue & (QUEUES - 1))] += 1;
        let queue = usize::from(oldest.queue).min(usize::from(SLOTS) - 1);
        let next = self.links[usize::from(SLOTS) + usize::from(oldest.slot & 127)];
        self.links[queue] = next;
        self.ends[queue] = select_unpredictable(next == NONE, queue as u16, self.ends[queue]);
    }

    /// Takes out a message that is delivered or lost, and nothing is sent.
    #[inline(always)]
    fn release(&mut self, oldest: Option<Oldest>) {
        if let Some(oldest) = oldest {
            self.take_out(oldest);
            self.free |= 1 << (oldest.slot & 63);
        }
    }

    /// Adds the message of a slot behind the others of its pair. A reply to the message that was there has
    /// its call number.
    #[inline(always)]
    fn put(&mut self, k: usize, to: u8, kind: u8, slot: u8) {
        let queue = (k & 15) * usize::from(SENDER) + usize::from(to & 15);
        let place = SLOTS + u16::from(slot & 63);
        self.links[usize::from(self.ends[queue] & 1023)] = u16::from(kind) << 8 | u16::from(slot);
        self.links[usize::from(place)] = NONE;
        self.ends[queue] = place;
    }

    /// Grounds 13 and 14 of a call, or 0. A delivered message is already out.
    #[inline(always)]
    fn no_call(&self, k: usize, delivered: Option<Oldest>) -> u8 {
        if self.nodes[k].last_call >= MAX_CALL {
            13
        } else if delivered.is_none() && self.free == 0 {
            14
        } else {
            0
        }
    }

    /// "last call number plus one, one message added", where no ground is met. The message's slot is that
    /// of the one delivered, if there is one.
    #[inline(always)]
    fn call(&mut self, k: usize, to: u8, kind: u8, delivered: Option<Oldest>) {
        let slot = match delivered {
            Some(oldest) => {
                self.take_out(oldest);
                oldest.slot
            }
            None => {
                let slot = self.free.trailing_zeros() as u8;
                self.free &= self.free.wrapping_sub(1);
                slot
            }
        };
        let node = &mut self.nodes[k];
        node.last_call += 1;
        let message = &mut self.messages[usize::from(slot & 127)];
        message.call = node.last_call;
        message.group = node.group;
        message.task = node.task;
        self.put(k, to, kind, slot);
    }

    /// The next call of an activity that walks the set of whom still, which must not be empty.
    #[inline(always)]
    fn walk(&mut self, k: usize, activity: u16, rest: u32, delivered: Option<Oldest>) {
        let Walk { kind, turn } = WALKS[usize::from((activity / ASKING) & 15)];
        let now = (rest.trailing_zeros() & 15) as u8 ^ turn;
        self.nodes[k].rest = rest & rest.wrapping_sub(1);
        self.nodes[k].now = now;
        self.set_activity(k, activity);
        self.call(k, now, kind, delivered);
    }

    /// A walk goes on, or ends after the last.
    #[inline(always)]
    fn next(&mut self, k: usize, found: u16, delivered: Option<Oldest>) -> u8 {
        let Node { rest, state, .. } = self.nodes[k];
        if rest != 0 {
            let r = self.no_call(k, delivered);
            if r == 0 {
                self.nodes[k].found = found;
                self.walk(k, state & ACTIVITY, rest, delivered);
            }
            return r;
        }
        match state & ACTIVITY {
            // "After the last: none found, idle. Else let p be the highest found: if i < p it waits
            // p − i ticks, else it merges."
            ASKING => {
                let ticks = 15u8.saturating_sub(found.trailing_zeros() as u8 + k as u8);
                if found != 0 && ticks == 0 {
                    return self.merge(k, found, delivered);
                }
                self.nodes[k].found = found;
                self.nodes[k].now = ticks;
                self.set_activity(k, if found == 0 { IDLE } else { WAITING });
            }
            FORWARDING => {
                let r = self.no_call(k, delivered);
                if r == 0 {
                    self.accept(k, delivered);
                }
                return r;
            }
            // "and then collects"
            INVITING => self.set_activity(k, COLLECTING),
            // "after the last ... Normal and idle"
            _ => self.nodes[k].state = NORMAL | state & OWN | IDLE,
        }
        self.release(delivered);
        0
    }

    /// "then it calls Accept on the new coordinator"
    #[inline(always)]
    fn accept(&mut self, k: usize, delivered: Option<Oldest>) {
        self.set_activity(k, ACCEPTING);
        let to = (self.nodes[k].group & 15) as u8;
        self.call(k, to, ACCEPT, delivered);
    }

    /// "counter plus one, group from it, coordinator i, members empty, task i, Normal, idle"
    #[inline(always)]
    fn recover(&mut self, k: usize, delivered: Option<Oldest>) -> u8 {
        let node = &mut self.nodes[k];
        if node.counter >= MAX_COUNTER {
            return 12;
        }
        node.counter += 1;
        node.group = node.counter << 4 | k as u32;
        node.members = 0;
        node.task = k as u16 + 1;
        node.state = NORMAL | OWN | IDLE;
        self.release(delivered);
        0
    }

    /// "Election; counter plus one, new group, coordinator i; members are set aside and emptied. It
    /// invites the cabinets found, then those set aside ... and then collects."
    #[inline(never)]
    fn merge(&mut self, k: usize, found: u16, delivered: Option<Oldest>) -> u8 {
        let node = &self.nodes[k & 31];
        if node.counter >= MAX_COUNTER {
            return 12;
        }
        let rest = u32::from(found) | u32::from(node.members) << 16;
        let r = if rest != 0 { self.no_call(k & 31, delivered) } else { 0 };
        if r != 0 {
            return r;
        }
        let node = &mut self.nodes[k & 31];
        node.counter += 1;
        node.group = node.counter << 4 | k as u32;
        node.members = 0;
        node.state = ELECTION | OWN | COLLECTING;
        if rest == 0 {
            self.release(delivered);
        } else {
            self.walk(k & 31, INVITING, rest, delivered);
        }
        0
    }
}

/// The text so far, in the lent buffer.
struct Text<'a> {
    out: &'a mut [u8],
    at: usize,
}

/// Two digits each, the first lowest.
static PAIRS: [u16; 128] = {
    let mut pairs = [0; 128];
    let mut k = 0;
    while k < 100 {
        pairs[k] = (b'0' + k as u8 / 10) as u16 | ((b'0' + k as u8 % 10) as u16) << 8;
        k += 1;
    }
    pairs
};

/// Numbers up to 255 without leading zeros, the first digit lowest, and the count of digits in the
/// highest byte.
static SHORT: [u32; 256] = {
    let mut short = [0; 256];
    let mut k = 0;
    while k < 256 {
        let digits = [k as u8 / 100, k as u8 / 10 % 10, k as u8 % 10];
        let mut place = if k >= 100 { 0 } else { 1 + (k < 10) as usize };
        let mut count = 0;
        while place < 3 {
            short[k] |= ((b'0' + digits[place]) as u32) << (8 * count);
            place += 1;
            count += 1;
        }
        short[k] |= count << 24;
        k += 1;
    }
    short
};

/// A space, the number of a refusal and the line's end, behind two bytes, the first lowest.
static REFUSALS: [u64; 32] = {
    let mut refusals = [0; 32];
    let mut r = 0;
    while r < 20 {
        let digits =
            if r < 10 { [b'0' + r as u8, b'\n', 0] } else { [b'1', b'0' + r as u8 - 10, b'\n'] };
        refusals[r] = u64::from_le_bytes([0, 0, b' ', digits[0], digits[1], digits[2], 0, 0]);
        r += 1;
    }
    refusals
};

/// Counts events, in a form that is soon written: the hundreds in digits, and the rest of them.
struct Events {
    hundreds: u32,
    rest: u32,
    /// `refused `, the hundreds and what no one reads.
    line: [u8; 16],
    /// How long the line is up to the rest; 0 while there are no hundreds.
    length: usize,
}

impl Events {
    fn new() -> Events {
        Events { hundreds: 0, rest: 0, line: *b"refused         ", length: 0 }
    }

    #[inline(always)]
    fn next(&mut self) {
        self.rest += 1;
        if self.rest == 100 {
            self.next_hundred();
        }
    }

    /// There are never more than 16,383 events, so 255 hundreds are enough.
    #[cold]
    #[inline(never)]
    fn next_hundred(&mut self) {
        self.rest = 0;
        self.hundreds += 1;
        let digits = SHORT[self.hundreds as usize & 255];
        self.line[8..12].copy_from_slice(&digits.to_le_bytes());
        self.length = 8 + (digits >> 24) as usize;
    }
}

/// No line is longer than this less 20.
const ROOM: usize = 64;

impl Text<'_> {
    /// "`refused e r` (e counts events from 1, r the number)". Where there is room, a few bytes behind
    /// the line are changed: the next line, which then fits for sure, is written over them.
    #[inline(always)]
    fn refused(&mut self, e: &Events, r: u8) -> Option<()> {
        let rest = self.out.get_mut(self.at..).unwrap_or_default();
        match rest.first_chunk_mut::<ROOM>() {
            Some(room) if e.length > 0 => {
                room[..16].copy_from_slice(&e.line);
                let at = e.length & 15;
                let end = u64::from(PAIRS[(e.rest & 127) as usize]) | REFUSALS[usize::from(r & 31)];
                room[at..at + 8].copy_from_slice(&end.to_le_bytes());
                self.at += at + 5 + usize::from(r >= 10);
                Some(())
            }
            _ => self.refused_slowly(e, r),
        }
    }

    #[cold]
    #[inline(never)]
    fn refused_slowly(&mut self, e: &Events, r: u8) -> Option<()> {
        self.words(b"refused ", &[100 * e.hundreds + e.rest, u32::from(r)])
    }

    #[cold]
    fn stopped(&mut self, b: usize, r: u8) -> Option<()> {
        self.words(b"stopped ", &[b as u32, u32::from(r)])
    }

    fn cabinets(&mut self, n: u8) -> Option<()> {
        self.words(b"cabinets ", &[u32::from(n)])
    }

    /// `messages`, and T-05's `sent`, `delivered` and `lost`. "Sent is delivered plus lost plus those
    /// waiting".
    fn traffic(&mut self, waiting: u32, taken: u32, lost: u32) -> Option<()> {
        self.words(b"messages ", &[waiting])?;
        self.words(b"sent ", &[taken + waiting])?;
        self.words(b"delivered ", &[taken - lost])?;
        self.words(b"lost ", &[lost])
    }

    /// "number, status, coordinator, group, task, counter, count of members"
    fn node(&mut self, k: u8, node: &Node) -> Option<()> {
        let numbers = [
            u32::from(k) + 1,
            u32::from(node.state & STATUS) / u32::from(ROWS),
            if node.group == 0 { 0 } else { (node.group & 15) + 1 },
            node.group,
            u32::from(node.task),
            node.counter,
            node.members.count_ones(),
        ];
        self.words(b"", &numbers)
    }

    /// A line of a word and numbers. "single spaces part the fields ... and 0x0A ends each line"
    #[inline(always)]
    fn words(&mut self, word: &[u8], numbers: &[u32]) -> Option<()> {
        let mut line = Line { bytes: [0; ROOM], length: word.len() };
        line.bytes[..word.len()].copy_from_slice(word);
        for &number in numbers {
            line.number(number);
            line.byte(b' ');
        }
        line.bytes[(line.length - 1) & (ROOM - 1)] = b'\n';
        let end = self.at + line.length;
        self.out.get_mut(self.at..end)?.copy_from_slice(&line.bytes[..line.length]);
        self.at = end;
        Some(())
    }
}

struct Line {
    bytes: [u8; ROOM],
    length: usize,
}

impl Line {
    #[inline(always)]
    fn byte(&mut self, byte: u8) {
        self.bytes[self.length & (ROOM - 1)] = byte;
        self.length += 1;
    }

    /// A number of at most eight digits, two at a time from the last on.
    #[inline(always)]
    fn number(&mut self, mut number: u32) {
        if number < 10 {
            return self.byte(b'0' + number as u8);
        }
        let digits = number.ilog10() as usize + 1;
        let mut at = self.length + digits;
        self.length = at;
        while number >= 10 {
            at -= 2;
            let pair = PAIRS[(number % 100) as usize].to_le_bytes();
            self.bytes[at & (ROOM - 1)] = pair[0];
            self.bytes[(at + 1) & (ROOM - 1)] = pair[1];
            number /= 100;
        }
        if number > 0 {
            self.bytes[(at - 1) & (ROOM - 1)] = b'0' + number as u8;
        }
    }
}
