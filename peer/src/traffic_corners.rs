//! Counts what the compared events met of the messages that are counted by pair, and judges them. What T-05
//! of document 02 says of them, and which events send a message and to whom, is written out here, apart
//! from the machine.

use crate::corners::{acting, add, before_ends, Count, Source};
use crate::history::beyond_calls;
use crate::machine::{
    count_mut, count_of, only, owner, total, Activity, Body, Event, Message, Node, PairCounts, Set,
    Status, Table, Traffic, MAX_CALL, MAX_COUNT, MAX_COUNTER, MAX_NODES,
};

/// How an event comes to send a message.
#[derive(Clone, Copy, Debug, PartialEq, Eq)]
pub enum Way {
    CheckAsks,
    TimeoutContacts,
    TickInvites,
    ExpireAsks,
    ExpireMerges,
    ExpireInvites,
    ExpireForwards,
    ExpireAccepts,
    FinishHands,
    AreYouCoordinatorReplies,
    AreYouThereReplies,
    InvitationReplies,
    InvitationForwards,
    InvitationAccepts,
    AcceptReplies,
    ReadyReplies,
    ReplyAsks,
    ReplyMerges,
    ReplyInvites,
    ReplyHands,
    ReplyForwards,
    ReplyAccepts,
    ReplyReplies,
}

/// In the order of `Way`.
pub const WAYS: [(Way, &str); 23] = [
    (Way::CheckAsks, "check, asks"),
    (Way::TimeoutContacts, "timeout, contacts"),
    (Way::TickInvites, "tick, merges and invites"),
    (Way::ExpireAsks, "expire, asks"),
    (Way::ExpireMerges, "expire, merges and invites"),
    (Way::ExpireInvites, "expire, invites"),
    (Way::ExpireForwards, "expire, forwards"),
    (Way::ExpireAccepts, "expire, accepts"),
    (Way::FinishHands, "finish, hands"),
    (Way::AreYouCoordinatorReplies, "deliver 1, replies"),
    (Way::AreYouThereReplies, "deliver 2, replies"),
    (Way::InvitationReplies, "deliver 3, replies"),
    (Way::InvitationForwards, "deliver 3, forwards"),
    (Way::InvitationAccepts, "deliver 3, accepts"),
    (Way::AcceptReplies, "deliver 4, replies"),
    (Way::ReadyReplies, "deliver 5, replies"),
    (Way::ReplyAsks, "deliver 6, asks"),
    (Way::ReplyMerges, "deliver 6, merges and invites"),
    (Way::ReplyInvites, "deliver 6, invites"),
    (Way::ReplyHands, "deliver 6, hands"),
    (Way::ReplyForwards, "deliver 6, forwards"),
    (Way::ReplyAccepts, "deliver 6, accepts"),
    (Way::ReplyReplies, "deliver 6, replies"),
];

impl Way {
    /// "a new group is needed"
    pub fn forms(self) -> bool {
        matches!(self, Way::TickInvites | Way::ExpireMerges | Way::ReplyMerges)
    }

    /// "a call is needed": all but replies are calls.
    pub fn calls(self) -> bool {
        !matches!(
            self,
            Way::AreYouCoordinatorReplies
                | Way::AreYouThereReplies
                | Way::InvitationReplies
                | Way::AcceptReplies
                | Way::ReadyReplies
                | Way::ReplyReplies
        )
    }

    /// Whether it is a delivery's, which never meets 14: "a delivered one is already out".
    pub fn delivers(self) -> bool {
        self as usize >= Way::AreYouCoordinatorReplies as usize
    }
}

/// "a message must be sent": by which way, from whom, and to whom.
#[derive(Clone, Copy, Debug, PartialEq, Eq)]
pub struct Need {
    pub way: Way,
    pub from: u8,
    pub to: u8,
}

/// The message that an event must send on a table where none of the grounds 1 to 11, 18 and 19 applies.
pub fn need(table: &Table, event: &Event) -> Option<Need> {
    let i = acting(event);
    if !(1..=table.n.min(MAX_NODES)).contains(&i) {
        return None;
    }
    let node = table.node(i);
    let (way, to) = match *event {
        Event::Check(_) => (Way::CheckAsks, next_asked(table.n, i, 0)?),
        Event::Timeout(_) if node.coordinator != i => (Way::TimeoutContacts, node.coordinator),
        Event::Tick(_) => match node.activity {
            Activity::Waiting { ticks: 1, found } => {
                (Way::TickInvites, invited(found, node.members)?)
            }
            _ => return None,
        },
        Event::Finish(..) => (Way::FinishHands, highest(node.members)?),
        Event::Expire(_) => match node.activity {
            Activity::Asking { asked, found } => {
                after_asking(table, i, asked, found, [Way::ExpireAsks, Way::ExpireMerges])?
            }
            Activity::Inviting { found, former, .. } => {
                (Way::ExpireInvites, invited(found, former)?)
            }
            Activity::Forwarding { rest, .. } => {
                forwarded(node.coordinator, rest, [Way::ExpireForwards, Way::ExpireAccepts])
            }
            _ => return None,
        },
        Event::Deliver(a, b) => {
            let m = table.messages.iter().find(|m| m.sender == a && m.receiver == b)?;
            answered(table, m)?
        }
        _ => return None,
    };
    (1..=MAX_NODES).contains(&to).then_some(Need { way, from: i, to })
}

/// What a delivered message makes its receiver send, and to whom.
fn answered(table: &Table, m: &Message) -> Option<(Way, u8)> {
    let (i, node) = (m.receiver, table.node(m.receiver));
    Some(match m.body {
        Body::AreYouCoordinator => (Way::AreYouCoordinatorReplies, m.sender),
        Body::AreYouThere { .. } => (Way::AreYouThereReplies, m.sender),
        Body::Accept { .. } => (Way::AcceptReplies, m.sender),
        Body::Ready { .. } => (Way::ReadyReplies, m.sender),
        Body::Invitation { group }
            if node.status == Status::Normal && owner(group) != i && node.group != group =>
        {
            let rest = if node.coordinator == i { node.members } else { 0 };
            forwarded(owner(group), rest, [Way::InvitationForwards, Way::InvitationAccepts])
        }
        Body::Invitation { .. } => (Way::InvitationReplies, m.sender),
        Body::Reply { yes } if node.open_call() == Some(m.call) => match node.activity {
            Activity::Asking { asked, found } => {
                let found = if yes { found | only(asked) } else { found };
                after_asking(table, i, asked, found, [Way::ReplyAsks, Way::ReplyMerges])?
            }
            Activity::Inviting { found, former, .. } => {
                (Way::ReplyInvites, invited(found, former)?)
            }
            Activity::Handing { rest, .. } => (Way::ReplyHands, highest(rest)?),
            Activity::Forwarding { rest, .. } => {
                forwarded(node.coordinator, rest, [Way::ReplyForwards, Way::ReplyAccepts])
            }
            Activity::Accepting { caller, .. } => (Way::ReplyReplies, caller),
            _ => return None,
        },
        Body::Reply { .. } | Body::Unknown { .. } => return None,
    })
}

fn highest(set: Set) -> Option<u8> {
    (1..=MAX_NODES).rev().find(|&j| set & only(j) != 0)
}

/// Whom node i of n asks after node j.
fn next_asked(n: u8, i: u8, j: u8) -> Option<u8> {
    (j.saturating_add(1)..=n).find(|&k| k != i)
}

/// Whom the next invitation is for.
fn invited(found: Set, former: Set) -> Option<u8> {
    highest(found).or(highest(former))
}

/// The next forwarded invitation, or Accept to the new coordinator.
fn forwarded(coordinator: u8, rest: Set, [forwards, accepts]: [Way; 2]) -> (Way, u8) {
    highest(rest).map_or((accepts, coordinator), |to| (forwards, to))
}

/// The next question of node i, or its first invitation where it merges.
fn after_asking(
    table: &Table,
    i: u8,
    asked: u8,
    found: Set,
    [asks, merges]: [Way; 2],
) -> Option<(Way, u8)> {
    if let Some(next) = next_asked(table.n, i, asked) {
        return Some((asks, next));
    }
    // "if i < p it waits p − i ticks"
    let p = highest(found)?;
    (i > p).then_some((merges, p))
}

/// What an event that must send a message meets, with each way.
const SIDES: [&str; 6] = [
    "refused 17",
    "accepted, one below the end",
    "accepted, another pair at the end",
    "refused 14, 17 too",
    "refused 13, 17 too",
    "refused 12, 17 too",
];

/// Whether a way can meet it.
fn possible(way: Way, side: usize) -> bool {
    match side {
        3 => !way.delivers(),
        4 => way.calls(),
        5 => way.forms(),
        _ => true,
    }
}

/// What an accepted event meets: which counts it raises, and what the table holds.
const ACCEPTED: [&str; 15] = [
    "counts, none raised",
    "counts, sent raised",
    "counts, delivered raised",
    "counts, lost raised",
    "counts, delivered raised, and sent to its sender",
    "counts, delivered raised, and sent to a third",
    // No run here is so long, and none of the following.
    "counts, sent raised to its end",
    "counts, delivered raised to its end",
    "counts, lost raised to its end",
    "counts, sent at its end elsewhere",
    "counts, delivered at its end elsewhere",
    "counts, lost at its end elsewhere",
    "counts, total above 32 bits",
    "counts, call raises sent to its end, within the calls",
    "counts, reply raises sent to its end, within the calls",
];

/// A rule of the range that is broken in the counts of a table that is else in range. The first eight
/// break the sum alone, the next twenty have a count that stands for no pair, alone or with another so that
/// the sum holds there, and the next five a count that is too high, where the sum holds. In the last two
/// the sum holds modulo 2^32; it can do so only with counts that are too high.
pub const BROKEN: [&str; 35] = [
    "sent one too many",
    "sent one too few",
    "delivered one too many",
    "delivered one too few",
    "lost one too many",
    "lost one too few",
    "sent counted for another pair",
    "messages wait, no counts",
    "sent on the diagonal",
    "delivered on the diagonal",
    "lost on the diagonal",
    "sent and delivered on the diagonal",
    "sent and lost on the diagonal",
    "sent in a row above n",
    "delivered in a row above n",
    "lost in a row above n",
    "sent and delivered in a row above n",
    "sent and lost in a row above n",
    "sent in a column above n",
    "delivered in a column above n",
    "lost in a column above n",
    "sent and delivered in a column above n",
    "sent and lost in a column above n",
    "sent in a row and a column above n",
    "delivered in a row and a column above n",
    "lost in a row and a column above n",
    "sent and delivered in a row and a column above n",
    "sent and lost in a row and a column above n",
    "sent above its end",
    "sent and delivered above their ends",
    "sent and lost above their ends",
    "sent far above its end",
    "all far above their ends",
    "delivered plus lost wraps",
    "delivered plus waiting wraps",
];

/// What no event shows.
const WRONG: [&str; 8] = [
    "counts, another answer than by the grounds 12, 13, 14 and 17",
    "counts, 13, 14 or 17 where no message must be sent",
    "counts, not raised by what the event sends, delivers and loses",
    "counts, changed by a refused event",
    "counts, 17 in a run",
    "counts, 17 within the calls",
    "counts, no longer within the calls",
    "counts, a rule broken and not answered 1",
];

/// What is remembered of a table for the event that follows.
pub struct TrafficBefore {
    traffic: Traffic,
    /// Whether as many messages wait as may.
    full: bool,
    /// The acting node.
    node: Option<Node>,
    pub need: Option<Need>,
    /// Whether the calls bound what was sent, as they do in a run.
    within_calls: bool,
}

impl TrafficBefore {
    pub fn of(table: &Table, event: &Event) -> TrafficBefore {
        let i = acting(event);
        TrafficBefore {
            traffic: table.traffic.clone(),
            full: table.messages.len() >= usize::from(table.limits.messages),
            node: (1..=table.n.min(MAX_NODES)).contains(&i).then(|| *table.node(i)),
            need: need(table, event),
            within_calls: beyond_calls(table).is_none(),
        }
    }

    /// Which of 12, 13, 14 and 17 apply to an event that must send a message.
    pub fn grounds(&self, need: &Need) -> [bool; 4] {
        let node = self.node.unwrap_or(Node::START);
        [
            need.way.forms() && node.counter >= MAX_COUNTER,
            need.way.calls() && node.last_call >= MAX_CALL,
            !need.way.delivers() && self.full,
            count_of(&self.traffic.sent, need.from, need.to) >= MAX_COUNT,
        ]
    }

    /// Whether the event must send a message, and its pair's count is at the end.
    pub fn no_more(&self) -> bool {
        self.need.is_some_and(|need| self.grounds(&need)[3])
    }

    /// The counts after the event, where it is accepted.
    fn raised(&self, event: &Event) -> Traffic {
        let mut traffic = self.traffic.clone();
        let raise = |counts: &mut PairCounts, a: u8, b: u8| {
            let count = count_mut(counts, a, b);
            *count = count.wrapping_add(1);
        };
        match *event {
            Event::Deliver(a, b) => raise(&mut traffic.delivered, a, b),
            Event::Lose(a, b) => raise(&mut traffic.lost, a, b),
            _ => {}
        }
        if let Some(need) = self.need {
            raise(&mut traffic.sent, need.from, need.to);
        }
        traffic
    }
}

/// The counts, each for runs and for tables.
#[derive(Clone, Debug)]
pub struct TrafficCorners {
    ways: [[Count; SIDES.len()]; WAYS.len()],
    accepted: [Count; ACCEPTED.len()],
    broken: [Count; BROKEN.len()],
    wrong: [Count; WRONG.len()],
}

impl Default for TrafficCorners {
    fn default() -> TrafficCorners {
        TrafficCorners {
            ways: [[[0; 2]; SIDES.len()]; WAYS.len()],
            accepted: [[0; 2]; ACCEPTED.len()],
            broken: [[0; 2]; BROKEN.len()],
            wrong: [[0; 2]; WRONG.len()],
        }
    }
}

impl TrafficCorners {
    /// Counts an event with what followed.
    pub fn count(
        &mut self,
        source: Source,
        before: &TrafficBefore,
        event: &Event,
        answer: Result<(), u8>,
        after: &Table,
    ) {
        let mut wrong = [false; WRONG.len()];
        wrong[3] = answer.is_err() && after.traffic != before.traffic;
        wrong[4] = answer == Err(17) && source == Source::Run;
        wrong[5] = answer == Err(17) && before.within_calls;
        if !before_ends(answer) {
            match &before.need {
                Some(need) => {
                    let grounds = before.grounds(need);
                    let first = grounds.iter().position(|&applies| applies);
                    wrong[0] = answer.err() != first.map(|k| [12, 13, 14, 17][k]);
                    let met = &mut self.ways[need.way as usize];
                    add(met, source as usize, sides(before, need, answer, grounds));
                }
                None => wrong[1] = matches!(answer, Err(13 | 14 | 17)),
            }
        }
        if answer.is_ok() {
            wrong[2] = after.traffic != before.raised(event);
            wrong[6] = before.within_calls && beyond_calls(after).is_some();
            add(&mut self.accepted, source as usize, accepted(before, event));
        }
        add(&mut self.wrong, source as usize, wrong);
    }

    /// Counts the answer on a table with a rule of the range broken in its counts.
    pub fn broken(&mut self, which: usize, answer: Result<(), u8>) {
        let right = answer == Err(1);
        self.broken[which][Source::Table as usize] += u64::from(right);
        self.wrong[WRONG.len() - 1][Source::Table as usize] += u64::from(!right);
    }

    /// Every corner, with its counts.
    pub fn corners(&self) -> Vec<(String, Count)> {
        let mut corners = Vec::new();
        for ((way, name), counts) in WAYS.iter().zip(&self.ways) {
            for side in (0..SIDES.len()).filter(|&side| possible(*way, side)) {
                corners.push((format!("{name}: {}", SIDES[side]), counts[side]));
            }
        }
        corners.extend(ACCEPTED.iter().zip(self.accepted).map(|(name, n)| (name.to_string(), n)));
        let broken = BROKEN.iter().zip(self.broken);
        corners.extend(broken.map(|(name, count)| (format!("counts refused 1, {name}"), count)));
        corners
    }

    /// What was met though the papers have no place for it, with its counts.
    pub fn wrong(&self) -> impl Iterator<Item = (&'static str, Count)> {
        WRONG.into_iter().zip(self.wrong)
    }
}

/// Which of `SIDES` an event meets.
fn sides(
    before: &TrafficBefore,
    need: &Need,
    answer: Result<(), u8>,
    grounds: [bool; 4],
) -> [bool; SIDES.len()] {
    let sent = count_of(&before.traffic.sent, need.from, need.to);
    let ends = before.traffic.sent.iter().flatten().filter(|&&count| count == MAX_COUNT).count();
    let too = |number: u8| answer == Err(number) && grounds[3];
    [
        too(17),
        answer.is_ok() && sent == MAX_COUNT - 1,
        answer.is_ok() && ends > 0,
        too(14),
        too(13),
        too(12),
    ]
}

/// Which of `ACCEPTED` an accepted event meets.
fn accepted(before: &TrafficBefore, event: &Event) -> [bool; ACCEPTED.len()] {
    let Traffic { sent, delivered, lost } = &before.traffic;
    let need = before.need;
    let nearly = |counts: &PairCounts, a: u8, b: u8| count_of(counts, a, b) == MAX_COUNT - 1;
    let raised = match *event {
        Event::Deliver(a, b) => Some((a, b, nearly(delivered, a, b))),
        _ => None,
    };
    let lost_now = match *event {
        Event::Lose(a, b) => Some(nearly(lost, a, b)),
        _ => None,
    };
    let last_sent = need.is_some_and(|need| nearly(sent, need.from, need.to));
    let at_end = |counts: &PairCounts| counts.iter().flatten().any(|&count| count == MAX_COUNT);
    let within = before.within_calls && last_sent;
    let calls = need.is_some_and(|need| need.way.calls());
    let to_sender = |need: Need| raised.map(|(a, ..)| a == need.to);
    [
        need.is_none() && raised.is_none() && lost_now.is_none(),
        need.is_some() && raised.is_none(),
        need.is_none() && raised.is_some(),
        lost_now.is_some(),
        need.and_then(to_sender) == Some(true),
        need.and_then(to_sender) == Some(false),
        last_sent,
        raised.is_some_and(|(.., last)| last),
        lost_now == Some(true),
        at_end(sent),
        at_end(delivered),
        at_end(lost),
        total(sent) > u64::from(u32::MAX),
        within && calls,
        within && !calls,
    ]
}
