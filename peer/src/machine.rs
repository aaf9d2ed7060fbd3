//! The reference machine: the table, when it is in range, what each of the nine events does to it, and
//! the records of a recovery. T-02 to T-06, T-08 and T-10 of document 02 are in it. Words in quotation marks
//! in the comments are document 01's, or those of a request where that is said; their cabinet is called node
//! here.

use std::ops::RangeInclusive;

/// The largest number of nodes and of waiting messages. T-08: "One machine serves both, and its two limits
/// are part of the table's starting data".
#[derive(Clone, Copy, Debug, PartialEq, Eq)]
pub struct Limits {
    pub nodes: u8,
    pub messages: u8,
}

/// T-08: "The tower keeps 16 and 64."
pub const TOWER: Limits = Limits { nodes: 16, messages: 64 };
/// T-08: "Our practice stand has four cabinets and memory for 12 waiting messages."
pub const STAND: Limits = Limits { nodes: 4, messages: 12 };

/// Every table has room for as many as the tower's.
pub const MAX_NODES: u8 = TOWER.nodes;
pub const MAX_MESSAGES: usize = TOWER.messages as usize;
pub const MAX_COUNTER: u32 = 1_048_575;
pub const MAX_CALL: u32 = 16_777_215;
pub const MAX_TICKS: u8 = 15;
pub const MIN_TASK: u16 = 100;
/// T-10: "Tasks 100 to 199 are full peals"
pub const FULL_PEALS: RangeInclusive<u16> = 100..=199;
/// T-05: "no count is above 33,554,430"
pub const MAX_COUNT: u32 = 33_554_430;

/// A set of nodes: bit i - 1 stands for node i.
pub type Set = u16;

/// "status: 0 Down, 1 Election, 2 Reorganization, 3 Normal"
#[derive(Clone, Copy, Debug, PartialEq, Eq)]
pub enum Status {
    Down = 0,
    Election = 1,
    Reorganization = 2,
    Normal = 3,
}

/// "activity, with what it needs to go on". Whom now has left the set of whom still that it was in.
#[derive(Clone, Copy, Debug, PartialEq, Eq)]
pub enum Activity {
    Idle,
    Asking {
        asked: u8,
        found: Set,
    },
    Waiting {
        ticks: u8,
        found: Set,
    },
    /// "whom still, in two sets, and whom now": those found, then the former members, each set from
    /// its highest number down.
    Inviting {
        found: Set,
        former: Set,
        now: u8,
    },
    Collecting,
    Handing {
        rest: Set,
        now: u8,
    },
    Contacting,
    Forwarding {
        rest: Set,
        now: u8,
        caller: u8,
        call: u32,
    },
    Accepting {
        caller: u8,
        call: u32,
    },
}

/// "Each cabinet has": 0 stands for none in group, coordinator and task.
#[derive(Clone, Copy, Debug, PartialEq, Eq)]
pub struct Node {
    pub status: Status,
    pub counter: u32,
    pub group: u32,
    pub coordinator: u8,
    pub task: u16,
    pub members: Set,
    pub last_call: u32,
    pub activity: Activity,
}

/// What a message of each kind carries. Unknown is a kind outside 1 to 6, which is never in range.
#[derive(Clone, Copy, Debug, PartialEq, Eq)]
pub enum Body {
    AreYouCoordinator,
    AreYouThere { group: u32 },
    Invitation { group: u32 },
    Accept { group: u32 },
    Ready { group: u32, task: u16 },
    Reply { yes: bool },
    Unknown { kind: u8 },
}

/// "Each has a sender, a receiver (another cabinet), a kind and a call number."
#[derive(Clone, Copy, Debug, PartialEq, Eq)]
pub struct Message {
    pub sender: u8,
    pub receiver: u8,
    pub call: u32,
    pub body: Body,
}

/// T-05: "16 rows of 16 counts". The count of node a's messages to node b stands at [a - 1][b - 1].
pub type PairCounts = [[u32; MAX_NODES as usize]; MAX_NODES as usize];

/// T-05: "for each ordered pair, how many messages were sent, delivered and lost"
#[derive(Clone, Debug, PartialEq, Eq)]
pub struct Traffic {
    pub sent: PairCounts,
    pub delivered: PairCounts,
    pub lost: PairCounts,
}

/// Node i stands at nodes[i - 1]; those above n are no part of the table and are never written.
/// The messages stand "in the order sent". No event writes n and the limits.
#[derive(Clone, Debug, PartialEq, Eq)]
pub struct Table {
    pub n: u8,
    pub limits: Limits,
    pub nodes: [Node; MAX_NODES as usize],
    pub messages: Vec<Message>,
    pub traffic: Traffic,
}

/// The nine events, with their numbers in the order of the list's fields.
#[derive(Clone, Copy, Debug, PartialEq, Eq)]
pub enum Event {
    Crash(u8),
    Recover(u8),
    Check(u8),
    Timeout(u8),
    Tick(u8),
    Expire(u8),
    /// node, task
    Finish(u8, u16),
    /// sender, receiver
    Deliver(u8, u8),
    /// sender, receiver
    Lose(u8, u8),
}

/// The node that formed a new group in an event, and how.
#[derive(Clone, Copy, Debug, PartialEq, Eq)]
pub enum Formed {
    Recovered(u8),
    Merged(u8),
}

/// "group number = counter × 16 + (owner − 1)"
pub fn group_number(counter: u32, owner: u8) -> u32 {
    counter * 16 + (u32::from(owner) - 1)
}

/// "the owner is the cabinet that formed it"
pub fn owner(group: u32) -> u8 {
    (group % 16) as u8 + 1
}

/// The set that holds node i alone.
pub fn only(i: u8) -> Set {
    1 << (i - 1)
}

/// The nodes of a set, from 1 up.
pub fn nodes_of(set: Set) -> impl Iterator<Item = u8> {
    (1..=MAX_NODES).filter(move |&i| set & only(i) != 0)
}

/// The highest node of a set, which must not be empty.
pub fn highest(set: Set) -> u8 {
    16 - set.leading_zeros() as u8
}

/// Whom next. T-02: "Whoever picks the next cabinet from a set shall now pick the highest, in
/// inviting, forwarding and handing." For these three it takes the place of document 01's "Sets are
/// walked from the lowest number up." T-07's sets are walked the same way.
pub fn take_highest(set: &mut Set) -> Option<u8> {
    if *set == 0 {
        return None;
    }
    let i = highest(*set);
    *set &= !only(i);
    Some(i)
}

impl Node {
    /// "all Down and idle, every number 0, every set empty"
    pub const START: Node = Node {
        status: Status::Down,
        counter: 0,
        group: 0,
        coordinator: 0,
        task: 0,
        members: 0,
        last_call: 0,
        activity: Activity::Idle,
    };

    /// "Asking, inviting, handing, contacting, forwarding and accepting have an open call, whose
    /// number is the last call number."
    pub fn open_call(&self) -> Option<u32> {
        use Activity::*;
        match self.activity {
            Asking { .. }
            | Inviting { .. }
            | Handing { .. }
            | Contacting
            | Forwarding { .. }
            | Accepting { .. } => Some(self.last_call),
            Idle | Waiting { .. } | Collecting => None,
        }
    }

    /// Whether node i is "Normal and its own coordinator": then it may check, and it says yes where it is
    /// asked.
    fn normal_coordinator(&self, i: u8) -> bool {
        self.status == Status::Normal && self.coordinator == i
    }

    /// Whether the node and its members are no more than half of n. T-10: "twice the members plus two is at
    /// most n". "The count is of acceptances: a member that has left since still counts".
    pub fn minority(&self, n: u8) -> bool {
        2 * self.members.count_ones() + 2 <= u32::from(n)
    }

    /// Whether the record is in range as that of node i of n, both of which must be.
    pub fn in_range(&self, n: u8, i: u8) -> bool {
        let all: Set = u16::MAX >> (MAX_NODES - n);
        // "all cabinet numbers are 1 to n, no set, caller or cabinet asked or called names its
        // holder"
        let other = |j: u8| (1..=n).contains(&j) && j != i;
        let others = |set: Set| set & !(all & !only(i)) == 0;
        let call = |c: u32| (1..=MAX_CALL).contains(&c);
        let activity = match self.activity {
            Activity::Idle | Activity::Collecting | Activity::Contacting => true,
            Activity::Asking { asked, found } => other(asked) && others(found),
            Activity::Waiting { ticks, found } => (1..=MAX_TICKS).contains(&ticks) && others(found),
            Activity::Inviting { found, former, now } => {
                others(found) && others(former) && other(now)
            }
            // "a handing cabinet's task is 100 to 65,535"
            Activity::Handing { rest, now } => others(rest) && other(now) && self.task >= MIN_TASK,
            // "a forwarding or accepting cabinet isn't that owner"
            Activity::Forwarding { rest, now, caller, call: c } => {
                others(rest) && other(now) && other(caller) && call(c) && self.coordinator != i
            }
            Activity::Accepting { caller, call: c } => {
                other(caller) && call(c) && self.coordinator != i
            }
        };
        // "a cabinet that isn't Down has a group of counter at least 1 whose owner is 1 to n and is
        // its coordinator ... a Down one is idle"
        let by_status = match self.status {
            Status::Down => {
                (self.group == 0 || group_in_range(n, self.group))
                    && self.coordinator <= n
                    && self.activity == Activity::Idle
            }
            _ => group_in_range(n, self.group) && self.coordinator == owner(self.group),
        };
        self.counter <= MAX_COUNTER
            && others(self.members)
            && self.last_call <= MAX_CALL
            && activity
            && by_status
    }
}

impl Body {
    /// The kind number.
    pub fn kind(&self) -> u8 {
        match *self {
            Body::AreYouCoordinator => 1,
            Body::AreYouThere { .. } => 2,
            Body::Invitation { .. } => 3,
            Body::Accept { .. } => 4,
            Body::Ready { .. } => 5,
            Body::Reply { .. } => 6,
            Body::Unknown { kind } => kind,
        }
    }

    /// The group, in the kinds that carry one.
    pub fn group(&self) -> Option<u32> {
        match *self {
            Body::AreYouThere { group }
            | Body::Invitation { group }
            | Body::Accept { group }
            | Body::Ready { group, .. } => Some(group),
            Body::AreYouCoordinator | Body::Reply { .. } | Body::Unknown { .. } => None,
        }
    }
}

impl Message {
    /// "message groups aren't 0, call numbers in messages ... are at least 1 and Ready tasks are
    /// 100 to 65,535"
    pub fn in_range(&self, n: u8) -> bool {
        let body = match self.body {
            Body::AreYouCoordinator | Body::Reply { .. } => true,
            Body::AreYouThere { group } | Body::Invitation { group } | Body::Accept { group } => {
                group_in_range(n, group)
            }
            Body::Ready { group, task } => group_in_range(n, group) && task >= MIN_TASK,
            Body::Unknown { .. } => false,
        };
        (1..=n).contains(&self.sender)
            && (1..=n).contains(&self.receiver)
            && self.sender != self.receiver
            && (1..=MAX_CALL).contains(&self.call)
            && body
    }
}

/// "has counter at least 1 and owner 1 to n"
fn group_in_range(n: u8, group: u32) -> bool {
    (1..=MAX_COUNTER).contains(&(group / 16)) && owner(group) <= n
}

/// The count of a pair, whose nodes must be 1 to 16.
pub fn count_of(counts: &PairCounts, a: u8, b: u8) -> u32 {
    counts[usize::from(a) - 1][usize::from(b) - 1]
}

/// The same, to be changed.
pub fn count_mut(counts: &mut PairCounts, a: u8, b: u8) -> &mut u32 {
    &mut counts[usize::from(a) - 1][usize::from(b) - 1]
}

/// The sum of all 256 counts, of any table.
pub fn total(counts: &PairCounts) -> u64 {
    counts.iter().flatten().copied().map(u64::from).sum()
}

impl Traffic {
    pub const START: Traffic = Traffic { sent: NO_COUNTS, delivered: NO_COUNTS, lost: NO_COUNTS };
}

const NO_COUNTS: PairCounts = [[0; MAX_NODES as usize]; MAX_NODES as usize];

impl Table {
    /// The "starting table" of n nodes, with its limits.
    pub fn start(n: u8, limits: Limits) -> Table {
        Table {
            n,
            limits,
            nodes: [Node::START; MAX_NODES as usize],
            messages: Vec::with_capacity(MAX_MESSAGES),
            traffic: Traffic::START,
        }
    }

    /// Node i, which must be 1 to 16.
    pub fn node(&self, i: u8) -> &Node {
        &self.nodes[usize::from(i) - 1]
    }

    /// "A table is in range when". T-08: "no other pair is allowed".
    pub fn in_range(&self) -> bool {
        [TOWER, STAND].contains(&self.limits) && self.in_range_of_any_pair()
    }

    /// The same "for any limits not above the tower's, with the rule of the two pairs left out" (T-08).
    pub fn in_range_of_any_pair(&self) -> bool {
        self.limits.nodes <= TOWER.nodes
            && self.limits.messages <= TOWER.messages
            && (1..=self.limits.nodes).contains(&self.n)
            && (1..=self.n).all(|i| self.node(i).in_range(self.n, i))
            && self.messages.len() <= usize::from(self.limits.messages)
            && self.messages.iter().all(|m| m.in_range(self.n))
            && self.traffic_in_range()
    }

    /// How many messages of each pair wait. One whose sender or receiver is no number of a node is of
    /// none.
    pub fn waiting(&self) -> PairCounts {
        let mut waiting = NO_COUNTS;
        let node = 1..=MAX_NODES;
        for m in &self.messages {
            if node.contains(&m.sender) && node.contains(&m.receiver) {
                *count_mut(&mut waiting, m.sender, m.receiver) += 1;
            }
        }
        waiting
    }

    /// T-05: "Sent is delivered plus lost plus those waiting, for each pair. A table is in range only if
    /// that holds, a count that stands for no pair of its n cabinets is 0, and no count is above
    /// 33,554,430."
    fn traffic_in_range(&self) -> bool {
        let Traffic { sent, delivered, lost } = &self.traffic;
        let waiting = self.waiting();
        let n = usize::from(self.n);
        (0..usize::from(MAX_NODES)).all(|a| {
            let mut in_range = true;
            for b in 0..usize::from(MAX_NODES) {
                let [sent, delivered, lost, waiting] =
                    [sent, delivered, lost, &waiting].map(|counts| counts[a][b]);
                let most = if a < n && b < n && a != b { MAX_COUNT } else { 0 };
                // The sum in 64 bits, where it does not wrap.
                let sum = u64::from(delivered) + u64::from(lost) + u64::from(waiting);
                in_range &= u64::from(sent) == sum && sent.max(delivered).max(lost) <= most;
            }
            in_range
        })
    }
}

/// Applies an event to a table; the error is the refusal's number, and then nothing has changed.
pub fn step(table: &mut Table, event: &Event) -> Result<(), u8> {
    if !table.in_range() {
        return Err(1);
    }
    advance(table, event)
}

/// The same for a table that is known to be in range, as every table of a run is.
pub fn advance(table: &mut Table, event: &Event) -> Result<(), u8> {
    advance_noting(table, event).map(|_| ())
}

/// The same, and says which node recovered or merged, if one did.
pub fn advance_noting(table: &mut Table, event: &Event) -> Result<Option<Formed>, u8> {
    let i = acting_node(table.n, event)?;
    let node = table.node(i);
    check_state(table.n, i, node, event)?;
    let place = match *event {
        Event::Deliver(a, b) | Event::Lose(a, b) => Some(oldest(table, a, b)?),
        _ => None,
    };
    let message = place.map(|place| &table.messages[place]);
    let Share { node, sent, formed } = act(table.n, i, node, event, message)?;
    if let Some(m) = sent {
        // "a delivered one is already out"
        check_queue(table, table.messages.len() - usize::from(place.is_some()), &m)?;
    }
    // No refusal can follow: only here is the table written.
    table.nodes[usize::from(i) - 1] = node;
    if let Some(place) = place {
        table.messages.remove(place);
    }
    table.messages.extend(sent);
    // T-05: "how many messages were sent, delivered and lost"
    match *event {
        Event::Deliver(a, b) => *count_mut(&mut table.traffic.delivered, a, b) += 1,
        Event::Lose(a, b) => *count_mut(&mut table.traffic.lost, a, b) += 1,
        _ => {}
    }
    if let Some(m) = sent {
        *count_mut(&mut table.traffic.sent, m.sender, m.receiver) += 1;
    }
    Ok(formed)
}

/// Grounds 7 and 8, "event's numbers". Gives the node whose turn it is; for deliver and lose this is
/// the receiver.
pub fn acting_node(n: u8, event: &Event) -> Result<u8, u8> {
    let inside = |i: u8| (1..=n).contains(&i);
    match *event {
        Event::Crash(i)
        | Event::Recover(i)
        | Event::Check(i)
        | Event::Timeout(i)
        | Event::Tick(i)
        | Event::Expire(i) => {
            if !inside(i) {
                return Err(7);
            }
            Ok(i)
        }
        Event::Finish(i, task) => {
            if !inside(i) {
                return Err(7);
            }
            if task < MIN_TASK {
                return Err(8);
            }
            Ok(i)
        }
        Event::Deliver(a, b) | Event::Lose(a, b) => {
            if !inside(a) || !inside(b) || a == b {
                return Err(7);
            }
            Ok(b)
        }
    }
}

/// Ground 11, "deliver, lose: no message from a to b". Gives the place of "the oldest message from a to b".
fn oldest(table: &Table, a: u8, b: u8) -> Result<usize, u8> {
    table.messages.iter().position(|m| m.sender == a && m.receiver == b).ok_or(11)
}

/// Grounds 14 and 17, where so many messages wait and this one must be sent.
#[inline]
fn check_queue(table: &Table, waiting: usize, m: &Message) -> Result<(), u8> {
    // T-08: "Grounds 1, 6 and 14 read the table's own limits."
    if waiting >= usize::from(table.limits.messages) {
        return Err(14);
    }
    // T-05: "its pair's sent count is 33,554,430, after 14"
    if count_of(&table.traffic.sent, m.sender, m.receiver) >= MAX_COUNT {
        return Err(17);
    }
    Ok(())
}

/// Grounds 9, 10, 18 and 19, "state", in this order: those that look at the record of node i of n alone.
#[inline]
pub fn check_state(n: u8, i: u8, node: &Node, event: &Event) -> Result<(), u8> {
    let down = node.status == Status::Down;
    // "recover: not Down; all others but lose: cabinet (for deliver, the receiver) Down"
    let refused = match event {
        Event::Recover(_) => !down,
        Event::Lose(..) => false,
        _ => down,
    };
    if refused {
        return Err(9);
    }
    // "check, timeout: not idle; tick: not waiting; expire: no open call; finish: not collecting"
    let fit = match event {
        Event::Check(_) | Event::Timeout(_) => node.activity == Activity::Idle,
        Event::Tick(_) => matches!(node.activity, Activity::Waiting { .. }),
        Event::Expire(_) => node.open_call().is_some(),
        Event::Finish(..) => node.activity == Activity::Collecting,
        Event::Crash(_) | Event::Recover(_) | Event::Deliver(..) | Event::Lose(..) => true,
    };
    if !fit {
        return Err(10);
    }
    // T-06: "check at a cabinet that is not Normal or not its own coordinator, in the state place directly
    // after 10"
    if matches!(event, Event::Check(_)) && !node.normal_coordinator(i) {
        return Err(18);
    }
    // T-10: "finish with task 100 to 199 when twice the members plus two is at most n, in the state place
    // after 18"
    if matches!(event, Event::Finish(_, task) if FULL_PEALS.contains(task)) && node.minority(n) {
        return Err(19);
    }
    Ok(())
}

/// Ground 12: "a new group is needed, counter 1,048,575".
fn check_counter(node: &Node) -> Result<(), u8> {
    if node.counter >= MAX_COUNTER {
        return Err(12);
    }
    Ok(())
}

/// How many assignments a recovery has.
pub const ASSIGNMENTS: usize = 8;

/// The recovery of node i. T-04: "its assignments come in the paper's order: Election, counter, group,
/// coordinator, members, Reorganization, task, Normal". Ground 12 is looked at before the first.
const RECOVERY: [fn(&mut Node, u8); ASSIGNMENTS] = [
    |node, _| node.status = Status::Election,
    |node, _| node.counter += 1,
    |node, i| node.group = group_number(node.counter, i),
    |node, i| node.coordinator = i,
    |node, _| node.members = 0,
    |node, _| node.status = Status::Reorganization,
    |node, i| node.task = u16::from(i),
    |node, _| node.status = Status::Normal,
];

/// T-04: "takes what recover i takes, is refused as it is, and answers the eight records of cabinet i, one
/// after each assignment". The error is the refusal's number.
pub fn recovery(table: &Table, i: u8) -> Result<[Node; ASSIGNMENTS], u8> {
    if !table.in_range() {
        return Err(1);
    }
    let event = Event::Recover(i);
    acting_node(table.n, &event)?;
    let mut node = *table.node(i);
    check_state(table.n, i, &node, &event)?;
    check_counter(&node)?;
    Ok(RECOVERY.map(|assign| {
        assign(&mut node, i);
        node
    }))
}

/// What an event comes to at the node that acts in it: its record after, the one message it may send ("an event
/// sends at most one message"), and the group that it formed, if it formed one.
#[derive(Clone, Copy, Debug, PartialEq, Eq)]
pub struct Share {
    pub node: Node,
    pub sent: Option<Message>,
    pub formed: Option<Formed>,
}

/// What an event does at node i of n, whose record this is; a delivery with the message that is delivered. It looks
/// at nothing else. Grounds 12 and 13 are met here, and in this order, since a new group comes before a call. Those
/// of the queue, 14 and 17, come behind them: a call has its number before its message.
#[inline]
pub fn act(
    n: u8,
    i: u8,
    node: &Node,
    event: &Event,
    message: Option<&Message>,
) -> Result<Share, u8> {
    let mut turn = Turn { i, n, node: *node, sent: None, formed: None };
    match (*event, message) {
        (Event::Crash(_), _) => turn.crash(),
        (Event::Recover(_), _) => turn.recover()?,
        (Event::Check(_), _) => turn.check()?,
        (Event::Timeout(_), _) => turn.timeout()?,
        (Event::Tick(_), _) => turn.tick()?,
        (Event::Expire(_), _) => turn.expire()?,
        (Event::Finish(_, task), _) => turn.finish(task)?,
        (Event::Deliver(..), Some(m)) => turn.deliver(m)?,
        (Event::Deliver(..), None) | (Event::Lose(..), _) => {}
    }
    let Turn { node, sent, formed, .. } = turn;
    Ok(Share { node, sent, formed })
}

/// The node i of n that acts in an event: a copy of its record to work on.
struct Turn {
    i: u8,
    n: u8,
    node: Node,
    sent: Option<Message>,
    formed: Option<Formed>,
}

impl Turn {
    fn own_coordinator(&self) -> bool {
        self.node.coordinator == self.i
    }

    fn send(&mut self, receiver: u8, call: u32, body: Body) {
        self.sent = Some(Message { sender: self.i, receiver, call, body });
    }

    /// "its call number is that of the call it answers"
    fn reply(&mut self, receiver: u8, call: u32, yes: bool) {
        self.send(receiver, call, Body::Reply { yes });
    }

    /// "last call number plus one, one message added"
    fn call(&mut self, receiver: u8, body: Body) -> Result<(), u8> {
        if self.node.last_call >= MAX_CALL {
            return Err(13);
        }
        self.node.last_call += 1;
        self.send(receiver, self.node.last_call, body);
        Ok(())
    }

    /// "status Down, idle. All else is kept"
    fn crash(&mut self) {
        self.node.status = Status::Down;
        self.node.activity = Activity::Idle;
    }

    /// "counter plus one, group from it, coordinator i, members empty, task i, Normal, idle". Where it
    /// recovers inside another event its activity stops; a Down node is idle already.
    fn recover(&mut self) -> Result<(), u8> {
        check_counter(&self.node)?;
        self.node.activity = Activity::Idle;
        for assign in RECOVERY {
            assign(&mut self.node, self.i);
        }
        self.formed = Some(Formed::Recovered(self.i));
        Ok(())
    }

    /// "it asks every other cabinet in turn with kind 1". T-06: "With n = 1 such a check still passes
    /// without effect." The "Otherwise" of document 01 is ground 18.
    fn check(&mut self) -> Result<(), u8> {
        self.ask_after(0, 0)
    }

    /// Asks the next node above j. T-02: "Asking still goes from 1 up." "After the last: none found,
    /// idle. Else let p be the highest found: if i < p it waits p − i ticks, else it merges."
    fn ask_after(&mut self, j: u8, found: Set) -> Result<(), u8> {
        let next = if j + 1 == self.i { j + 2 } else { j + 1 };
        if next <= self.n {
            self.node.activity = Activity::Asking { asked: next, found };
            return self.call(next, Body::AreYouCoordinator);
        }
        if found == 0 {
            self.node.activity = Activity::Idle;
            return Ok(());
        }
        let p = highest(found);
        if self.i < p {
            self.node.activity = Activity::Waiting { ticks: p - self.i, found };
            Ok(())
        } else {
            self.merge(found)
        }
    }

    /// "one tick less; at none it merges"
    fn tick(&mut self) -> Result<(), u8> {
        match self.node.activity {
            Activity::Waiting { ticks, found } if ticks > 1 => {
                self.node.activity = Activity::Waiting { ticks: ticks - 1, found };
                Ok(())
            }
            Activity::Waiting { found, .. } => self.merge(found),
            _ => Ok(()), // ground 10
        }
    }

    /// "Election; counter plus one, new group, coordinator i; members are set aside and emptied. It
    /// invites the cabinets found, then those set aside (one in both is invited twice)"
    fn merge(&mut self, found: Set) -> Result<(), u8> {
        check_counter(&self.node)?;
        self.node.status = Status::Election;
        self.node.counter += 1;
        self.node.group = group_number(self.node.counter, self.i);
        self.node.coordinator = self.i;
        self.formed = Some(Formed::Merged(self.i));
        let former = self.node.members;
        self.node.members = 0;
        self.invite_next(found, former)
    }

    /// "and then collects"
    fn invite_next(&mut self, mut found: Set, mut former: Set) -> Result<(), u8> {
        match take_highest(&mut found).or_else(|| take_highest(&mut former)) {
            Some(now) => {
                self.node.activity = Activity::Inviting { found, former, now };
                self.call(now, Body::Invitation { group: self.node.group })
            }
            None => {
                self.node.activity = Activity::Collecting;
                Ok(())
            }
        }
    }

    /// "Reorganization, task t. It hands Ready to each member"
    fn finish(&mut self, task: u16) -> Result<(), u8> {
        self.node.status = Status::Reorganization;
        self.node.task = task;
        self.hand_next(self.node.members)
    }

    /// "after the last, or with none, Normal and idle"
    fn hand_next(&mut self, mut rest: Set) -> Result<(), u8> {
        match take_highest(&mut rest) {
            Some(now) => {
                self.node.activity = Activity::Handing { rest, now };
                self.call(now, Body::Ready { group: self.node.group, task: self.node.task })
            }
            None => {
                self.node.status = Status::Normal;
                self.node.activity = Activity::Idle;
                Ok(())
            }
        }
    }

    /// "if its own coordinator, nothing changes. Else it calls AreYouThere on its coordinator, with
    /// its group."
    fn timeout(&mut self) -> Result<(), u8> {
        if self.own_coordinator() {
            return Ok(());
        }
        self.node.activity = Activity::Contacting;
        self.call(self.node.coordinator, Body::AreYouThere { group: self.node.group })
    }

    /// "the open call is given up. Asking, inviting, forwarding: on to the next. Handing, accepting,
    /// contacting: it recovers"
    fn expire(&mut self) -> Result<(), u8> {
        match self.node.activity {
            Activity::Asking { asked, found } => self.ask_after(asked, found),
            Activity::Inviting { found, former, .. } => self.invite_next(found, former),
            Activity::Forwarding { rest, caller, call, .. } => {
                self.forward_next(rest, caller, call)
            }
            Activity::Handing { .. } | Activity::Accepting { .. } | Activity::Contacting => {
                self.recover()
            }
            Activity::Idle | Activity::Waiting { .. } | Activity::Collecting => Ok(()), // ground 10
        }
    }

    /// "On delivery"
    fn deliver(&mut self, m: &Message) -> Result<(), u8> {
        let (from, call) = (m.sender, m.call);
        match m.body {
            // "reply yes exactly when Normal and its own coordinator"
            Body::AreYouCoordinator => {
                let yes = self.node.normal_coordinator(self.i);
                self.reply(from, call, yes);
            }
            // "yes exactly when the group is equal, it is its own coordinator and the sender is a
            // member"
            Body::AreYouThere { group } => {
                let yes = self.node.group == group
                    && self.own_coordinator()
                    && self.node.members & only(from) != 0;
                self.reply(from, call, yes);
            }
            // "if not Normal, or it owns that group, plain reply and no change." T-03: "an invitation
            // to the group a cabinet already holds gets a plain reply and changes nothing else"
            Body::Invitation { group } => {
                if self.node.status != Status::Normal
                    || owner(group) == self.i
                    || self.node.group == group
                {
                    self.reply(from, call, true);
                } else {
                    self.join(group, from, call)?;
                }
            }
            // "if in Election, its own coordinator and in that group, the sender joins the members.
            // Plain reply always."
            Body::Accept { group } => {
                if self.node.status == Status::Election
                    && self.own_coordinator()
                    && self.node.group == group
                {
                    self.node.members |= only(from);
                }
                self.reply(from, call, true);
            }
            // "if in Reorganization and in that group, task taken, Normal. Plain reply always."
            Body::Ready { group, task } => {
                if self.node.status == Status::Reorganization && self.node.group == group {
                    self.node.task = task;
                    self.node.status = Status::Normal;
                }
                self.reply(from, call, true);
            }
            // "if a call is open with this number, it goes on ... Otherwise the reply is dropped."
            Body::Reply { yes } => {
                if self.node.open_call() == Some(call) {
                    self.go_on(yes)?;
                }
            }
            Body::Unknown { .. } => {} // ground 1, and T-11's ground 20
        }
        Ok(())
    }

    /// "its activity stops; Election, the new group and its owner as coordinator. If it was its own
    /// coordinator, it forwards the invitation to each member ... The member set is kept."
    fn join(&mut self, group: u32, caller: u8, call: u32) -> Result<(), u8> {
        let forward = if self.own_coordinator() { self.node.members } else { 0 };
        self.node.status = Status::Election;
        self.node.group = group;
        self.node.coordinator = owner(group);
        self.forward_next(forward, caller, call)
    }

    /// "then it calls Accept on the new coordinator"
    fn forward_next(&mut self, mut rest: Set, caller: u8, call: u32) -> Result<(), u8> {
        let group = self.node.group;
        match take_highest(&mut rest) {
            Some(now) => {
                self.node.activity = Activity::Forwarding { rest, now, caller, call };
                self.call(now, Body::Invitation { group })
            }
            None => {
                self.node.activity = Activity::Accepting { caller, call };
                self.call(self.node.coordinator, Body::Accept { group })
            }
        }
    }

    /// "asking adds the cabinet asked on yes; accepting turns to Reorganization, replies to its
    /// caller and is idle; contacting is idle on yes and recovers on no"
    fn go_on(&mut self, yes: bool) -> Result<(), u8> {
        match self.node.activity {
            Activity::Asking { asked, found } => {
                self.ask_after(asked, if yes { found | only(asked) } else { found })
            }
            Activity::Inviting { found, former, .. } => self.invite_next(found, former),
            Activity::Handing { rest, .. } => self.hand_next(rest),
            Activity::Forwarding { rest, caller, call, .. } => {
                self.forward_next(rest, caller, call)
            }
            Activity::Accepting { caller, call } => {
                self.node.status = Status::Reorganization;
                self.node.activity = Activity::Idle;
                self.reply(caller, call, true);
                Ok(())
            }
            Activity::Contacting if yes => {
                self.node.activity = Activity::Idle;
                Ok(())
            }
            Activity::Contacting => self.recover(),
            Activity::Idle | Activity::Waiting { .. } | Activity::Collecting => Ok(()), // no open call
        }
    }
}
