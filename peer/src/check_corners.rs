//! Counts what the compared checks met, and judges them. What document 01 with T-06 of document 02 says of a
//! check, and what it leaves, is written out here, apart from the machine.

use crate::corners::{add, Count, Source, ACTIVITIES};
use crate::machine::{
    count_of, Activity, Body, Event, Message, Node, Status, Table, MAX_CALL, MAX_COUNT,
    MAX_MESSAGES, MAX_NODES,
};
use crate::proved::tag;

/// What an idle node is that ground 18 applies to. In a run it is one of the last two: a node in Election
/// invites, collects, forwards or accepts, and leaves Election with that; a coordinator in Reorganization
/// hands.
const REFUSED: [&str; 5] = [
    "Election, its own coordinator",
    "Reorganization, its own coordinator",
    "Election, a member",
    "Reorganization, a member",
    "Normal, a member",
];

/// With each of them, what would have been met without ground 18: nothing special, or a later ground. In
/// the runs here the last call number is never at its end, and ground 17 is met in none.
const LATER: [&str; 4] = ["", ", 13 too", ", 14 too", ", 17 too"];

/// With each activity but idle, whether ground 18 applies to the node too, and why. In a run an asking or
/// waiting node is Normal and its own coordinator; an inviting, collecting or handing one is not Normal; a
/// contacting one is a member; a forwarding or accepting one is both.
const BUSY: [&str; 4] = [
    ", Normal and its own coordinator",
    ", 18 too, not Normal",
    ", 18 too, a member",
    ", 18 too, not Normal and a member",
];

/// The activities but idle.
const ACTIVE: usize = ACTIVITIES.len() - 1;

/// What else a check meets.
const MET: [&str; 21] = [
    "check accepted, n = 1",
    // No run here is so long.
    "check accepted, n = 1, no call number left",
    "check accepted, n = 2",
    "check accepted, n = 16",
    "check accepted, node 1 asks 2",
    "check accepted, another node asks 1",
    "check accepted, with members",
    // No run here is so long.
    "check accepted, the last call number",
    "check accepted, the 64th message",
    // No run here is so long.
    "check refused 13, 14 too",
    // Which no run has: a node alone is Normal or Down.
    "check refused 18, n = 1, Election",
    "check refused 18, n = 1, Reorganization",
    // Ground 18 applies too.
    "check refused 9, its own coordinator",
    "check refused 9, a member",
    "check refused 9, no coordinator",
    "check refused 7, number 0",
    "check refused 7, number over n, up to 16",
    "check refused 7, number over 16",
    // Which no run has: every table of a run is in range.
    "check refused 1, 18 too",
    "check refused 1, Normal and its own coordinator",
    // "a Down one is idle", so 9 is never met together with 10.
    "check refused 1, Down and not idle",
];

/// What a printed list meets in which an event is refused with some number.
pub const PRINTED: [&str; 6] = [
    "among the first 99 events",
    // The program written for speed prints its line in another way.
    "behind them",
    "and the next event accepted",
    "and a later event accepted, not the next",
    "and stopped later",
    "as the last event",
];

/// What no check shows.
const WRONG: [&str; 7] = [
    "check, another answer than by the grounds",
    "check, accepted where the node is not Normal or not its own coordinator",
    "check, refused, and the table changes",
    "check, accepted with n = 1, and the table changes",
    "check, accepted with n > 1, and not one question to the lowest other node",
    "list, check printed otherwise than by the grounds",
    "list, 18 printed for another event",
];

/// What is remembered of a table for the check that follows.
pub struct CheckBefore {
    table: Table,
    i: u8,
}

impl CheckBefore {
    pub fn of(table: &Table, event: &Event) -> Option<CheckBefore> {
        match *event {
            Event::Check(i) => Some(CheckBefore { table: table.clone(), i }),
            _ => None,
        }
    }
}

/// The grounds that apply to a check of node i, whether or not one of them comes first.
struct Grounds {
    /// 1
    not_in_range: bool,
    /// 7
    no_node: bool,
    /// 9
    down: bool,
    /// 10
    busy: bool,
    /// 18, by either of its two reasons.
    not_normal: bool,
    not_own: bool,
    /// 13, 14 and 17, if it asks; with n = 1 there is nobody to ask.
    no_call: bool,
    full: bool,
    no_more: bool,
}

impl Grounds {
    fn of(table: &Table, i: u8) -> Grounds {
        let node = node_of(table, i);
        let is = |holds: fn(&Node) -> bool| node.is_some_and(holds);
        let asked = (table.n > 1).then(|| lowest_other(i));
        let [no_call, full, no_more] = call_grounds(table, i, asked);
        Grounds {
            not_in_range: !table.in_range(),
            no_node: node.is_none(),
            down: is(|node| node.status == Status::Down),
            busy: is(|node| node.activity != Activity::Idle),
            not_normal: is(|node| node.status != Status::Normal),
            not_own: node.is_some_and(|node| node.coordinator != i),
            no_call,
            full,
            no_more,
        }
    }

    /// T-06: "turned away unless the cabinet is Normal and its own coordinator"
    fn turned_away(&self) -> bool {
        self.not_normal || self.not_own
    }

    /// The number of the first that applies.
    fn first(&self) -> Option<u8> {
        first_ground(&[
            (1, self.not_in_range),
            (7, self.no_node),
            (9, self.down),
            (10, self.busy),
            (18, self.turned_away()),
            (13, self.no_call),
            (14, self.full),
            (17, self.no_more),
        ])
    }
}

pub fn node_of(table: &Table, i: u8) -> Option<&Node> {
    (1..=table.n.min(MAX_NODES)).contains(&i).then(|| table.node(i))
}

/// Which of 13, 14 and 17 apply where node i must call another, if it must.
pub fn call_grounds(table: &Table, i: u8, to: Option<u8>) -> [bool; 3] {
    let (Some(node), Some(to)) = (node_of(table, i), to) else {
        return [false; 3];
    };
    [
        node.last_call == MAX_CALL,
        // T-08: "Grounds 1, 6 and 14 read the table's own limits."
        table.messages.len() == usize::from(table.limits.messages),
        count_of(&table.traffic.sent, i, to) == MAX_COUNT,
    ]
}

/// The number of the first ground that applies, of all in their order.
pub fn first_ground(in_order: &[(u8, bool)]) -> Option<u8> {
    in_order.iter().find(|&&(_, applies)| applies).map(|&(number, _)| number)
}

/// Whom node i asks first.
pub fn lowest_other(i: u8) -> u8 {
    if i == 1 {
        2
    } else {
        1
    }
}

/// Whether node i has asked the lowest other node, and nothing else has changed in nodes and messages.
fn asked_one(before: &Table, i: u8, after: &Table) -> bool {
    let Some(node) = node_of(before, i) else {
        return false;
    };
    let (asked, call) = (lowest_other(i), node.last_call.wrapping_add(1));
    let mut nodes = before.nodes;
    let activity = Activity::Asking { asked, found: 0 };
    nodes[usize::from(i) - 1] = Node { last_call: call, activity, ..*node };
    let question = Message { sender: i, receiver: asked, call, body: Body::AreYouCoordinator };
    after.nodes == nodes && after.messages == [&before.messages[..], &[question]].concat()
}

/// The counts, each for runs and for tables.
#[derive(Clone, Debug)]
pub struct CheckCorners {
    /// Refused 18, by `REFUSED` and `LATER`.
    refused: [[Count; LATER.len()]; REFUSED.len()],
    /// Refused 10, by activity and `BUSY`.
    busy: [[Count; BUSY.len()]; ACTIVE],
    met: [Count; MET.len()],
    printed: [Count; PRINTED.len()],
    wrong: [Count; WRONG.len()],
}

impl Default for CheckCorners {
    fn default() -> CheckCorners {
        CheckCorners {
            refused: [[[0; 2]; LATER.len()]; REFUSED.len()],
            busy: [[[0; 2]; BUSY.len()]; ACTIVE],
            met: [[0; 2]; MET.len()],
            printed: [[0; 2]; PRINTED.len()],
            wrong: [[0; 2]; WRONG.len()],
        }
    }
}

impl CheckCorners {
    /// Counts a check with what followed.
    pub fn count(
        &mut self,
        source: Source,
        before: &CheckBefore,
        answer: Result<(), u8>,
        after: &Table,
    ) {
        let CheckBefore { table, i } = before;
        let grounds = Grounds::of(table, *i);
        let source = source as usize;
        let mut wrong = [false; WRONG.len()];
        wrong[0] = answer.err() != grounds.first();
        wrong[1] = answer.is_ok() && grounds.turned_away();
        match answer {
            Err(_) => wrong[2] = after != table,
            Ok(()) if table.n == 1 => wrong[3] = after != table,
            Ok(()) => wrong[4] = !asked_one(table, *i, after),
        }
        add(&mut self.wrong, source, wrong);
        if wrong[0] {
            return;
        }
        add(&mut self.met, source, met(table, *i, answer, &grounds));
        let (Some(node), Err(number)) = (node_of(table, *i), answer) else {
            return;
        };
        match (number, refused_place(node.status, grounds.not_own)) {
            (18, Some(place)) => {
                let later = [true, grounds.no_call, grounds.full, grounds.no_more];
                add(&mut self.refused[place], source, later);
            }
            (10, _) => {
                let why = usize::from(grounds.not_normal) + 2 * usize::from(grounds.not_own);
                self.busy[usize::from(tag(&node.activity)) - 1][why][source] += 1;
            }
            _ => {}
        }
    }

    /// Judges an event of a list by the number that is printed for it, if one is.
    pub fn printed_event(&mut self, table: &Table, event: &Event, number: Option<u8>) {
        let mut wrong = [false; WRONG.len()];
        match *event {
            Event::Check(i) => wrong[5] = Grounds::of(table, i).first() != number,
            _ => wrong[6] = number == Some(18),
        }
        add(&mut self.wrong, Source::Run as usize, wrong);
    }

    /// Counts a list by the numbers that are printed for its events.
    pub fn printed(&mut self, refused: &[Option<u8>], stopped: bool) {
        add(&mut self.printed, Source::Run as usize, printed(refused, stopped, 18));
    }

    /// Every corner, with its counts.
    pub fn corners(&self) -> Vec<(String, Count)> {
        let mut corners = Vec::new();
        for (is, counts) in REFUSED.iter().zip(&self.refused) {
            for (later, &count) in LATER.iter().zip(counts) {
                corners.push((format!("check refused 18, {is}{later}"), count));
            }
        }
        for (activity, counts) in ACTIVITIES[1..].iter().zip(&self.busy) {
            for (why, &count) in BUSY.iter().zip(counts) {
                // "a forwarding or accepting cabinet isn't that owner"
                let member = why.ends_with("a member");
                if member || !matches!(*activity, "forwarding" | "accepting") {
                    corners.push((format!("check refused 10, {activity}{why}"), count));
                }
            }
        }
        let printed = PRINTED.map(|place| format!("list, check refused 18 {place}"));
        corners.extend(MET.map(String::from).into_iter().zip(self.met));
        corners.extend(printed.into_iter().zip(self.printed));
        corners
    }

    /// What was met though the papers have no place for it, with its counts.
    pub fn wrong(&self) -> impl Iterator<Item = (&'static str, Count)> {
        WRONG.into_iter().zip(self.wrong)
    }
}

/// The place in `REFUSED` of a node that is up.
fn refused_place(status: Status, member: bool) -> Option<usize> {
    match (status, member) {
        (Status::Election, false) => Some(0),
        (Status::Reorganization, false) => Some(1),
        (Status::Election, true) => Some(2),
        (Status::Reorganization, true) => Some(3),
        (Status::Normal, true) => Some(4),
        (Status::Normal, false) | (Status::Down, _) => None,
    }
}

/// Which of `MET` a check of node i meets, whose answer is that of the grounds.
fn met(table: &Table, i: u8, answer: Result<(), u8>, grounds: &Grounds) -> [bool; MET.len()] {
    let n = table.n;
    let node = node_of(table, i).copied().unwrap_or(Node::START);
    let accepted = answer.is_ok();
    let refused = |number: u8| answer == Err(number);
    // The grounds that would be met if the table were in range.
    let idle = !grounds.no_node && !grounds.down && !grounds.busy;
    [
        accepted && n == 1,
        accepted && n == 1 && node.last_call == MAX_CALL,
        accepted && n == 2,
        accepted && n == MAX_NODES,
        accepted && n > 1 && i == 1,
        accepted && i > 1,
        accepted && node.members != 0,
        accepted && n > 1 && node.last_call == MAX_CALL - 1,
        accepted && n > 1 && table.messages.len() == MAX_MESSAGES - 1,
        refused(13) && grounds.full,
        refused(18) && n == 1 && node.status == Status::Election,
        refused(18) && n == 1 && node.status == Status::Reorganization,
        refused(9) && node.coordinator == i,
        refused(9) && node.coordinator != i && node.coordinator != 0,
        refused(9) && node.coordinator == 0,
        refused(7) && i == 0,
        refused(7) && (1..=MAX_NODES).contains(&i),
        refused(7) && i > MAX_NODES,
        refused(1) && idle && grounds.turned_away(),
        refused(1) && idle && !grounds.turned_away(),
        refused(1) && grounds.down && grounds.busy,
    ]
}

/// Which of `PRINTED` a list meets with a number, by the numbers of its events.
pub fn printed(refused: &[Option<u8>], stopped: bool, number: u8) -> [bool; PRINTED.len()] {
    let last_accepted = refused.iter().rposition(|number| number.is_none());
    let mut met = [false; PRINTED.len()];
    for (k, _) in refused.iter().enumerate().filter(|(_, refused)| **refused == Some(number)) {
        let next = refused.get(k + 1) == Some(&None);
        met[usize::from(k >= 99)] = true;
        met[2] |= next;
        met[3] |= !next && last_accepted.is_some_and(|last| last > k);
        met[4] |= stopped;
        met[5] |= !stopped && k + 1 == refused.len();
    }
    met
}
