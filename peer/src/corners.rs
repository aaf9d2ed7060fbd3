//! Counts what the compared events met: refusals, kinds delivered, activities, transitions, picks of the
//! next node and invitations, so that a corner that was never met shows. What document 01 and T-02 and
//! T-03 of document 02 make possible is written out here, apart from the machine. `recovery_corners.rs`
//! does the same for the records of a recovery, `traffic_corners.rs` for the messages counted by pair,
//! `check_corners.rs` for checks, `limit_corners.rs` for the limits, and `majority_corners.rs` for finishes.

use crate::check_corners::{CheckBefore, CheckCorners};
use crate::limit_corners::{LimitBefore, LimitCorners};
use crate::list::List;
use crate::machine::{
    advance, only, owner, Activity, Body, Event, Message, Node, Set, Status, Table, MAX_CALL,
    MAX_MESSAGES,
};
use crate::majority_corners::{FinishBefore, MajorityCorners};
use crate::proved::tag;
use crate::recovery_corners::{Call, RecoveryCorners};
use crate::tally::Book;
use crate::traffic_corners::{TrafficBefore, TrafficCorners};
use std::fmt::Write;

/// Where an event came from: a run from the starting table, or a table made up.
#[derive(Clone, Copy, Debug, PartialEq, Eq)]
pub enum Source {
    Run = 0,
    Table = 1,
}

pub const EVENTS: [&str; 9] =
    ["crash", "recover", "check", "timeout", "tick", "expire", "finish", "deliver", "lose"];

pub const ACTIVITIES: [&str; 9] = [
    "idle",
    "asking",
    "waiting",
    "inviting",
    "collecting",
    "handing",
    "contacting",
    "forwarding",
    "accepting",
];

pub const KINDS: [&str; 6] =
    ["AreYouCoordinator", "AreYouThere", "Invitation", "Accept", "Ready", "reply"];

/// What an accepted event did, finer than its name.
const DEEDS: [&str; 22] = [
    "crash",
    "recover",
    "check",
    "timeout",
    "tick",
    "expire",
    "finish",
    "lose",
    "deliver 1, yes",
    "deliver 1, no",
    "deliver 2, yes",
    "deliver 2, no",
    "deliver 3, no change",
    "deliver 3, new group",
    // The receiver is Normal, and not the owner.
    "deliver 3, group held",
    "deliver 4, joins",
    "deliver 4, no change",
    "deliver 5, task taken",
    "deliver 5, no change",
    "deliver 6, yes",
    "deliver 6, no",
    "deliver 6, dropped",
];

/// What a call shows of how the next node is picked: the first call of an activity or one that goes on,
/// from a set of two or more, and where it goes on to. The first fifteen are three for each of those who
/// pick: asking, inviting those found, inviting those set aside, forwarding, handing.
const PICKS: [&str; 17] = [
    "asking, first of two or more",
    "asking, next of two or more",
    "asking, next higher",
    "inviting, first of two or more found",
    "inviting, next of two or more found",
    "inviting, next lower found",
    // With none found, which no run has.
    "inviting, first of two or more set aside",
    "inviting, next of two or more set aside",
    "inviting, next lower set aside",
    "forwarding, first of two or more",
    "forwarding, next of two or more",
    "forwarding, next lower",
    "handing, first of two or more",
    "handing, next of two or more",
    "handing, next lower",
    "inviting, next higher set aside",
    "inviting, the second time",
];

/// What an invitation meets: the receiver's status, and what the group is to it.
const INVITED: [&str; 10] = [
    "invited, Down, group held",
    "invited, Down, another group",
    "invited, Election, group held",
    "invited, Election, another group",
    "invited, Reorganization, group held",
    "invited, Reorganization, another group",
    "invited, Normal, group held",
    "invited, Normal, group held and owned",
    "invited, Normal, group owned",
    "invited, Normal, another group",
];

/// An invitation to the group that a node holds, which is Normal and not the owner: T-03's.
const TWICE: [&str; 8] = [
    // Which no run has: it comes before the owner's Ready, without which nobody else is Normal there.
    "invited twice, by the owner",
    "invited twice, forwarded",
    "invited twice, call open",
    "invited twice, call given up",
    "invited twice, with members",
    // No run here is so long.
    "invited twice, no call number left",
    "invited twice, 64 wait",
    "invited twice, others wait behind it",
];

/// An invitation to a group that a node neither holds nor owns, which is Normal: it joins as before.
const ELSEWHERE: [&str; 6] = [
    "invited elsewhere, its own coordinator",
    "invited elsewhere, a member",
    "invited elsewhere, newer group of its coordinator",
    "invited elsewhere, older group of its coordinator",
    "invited elsewhere, equal counter",
    // No run here is so long.
    "invited elsewhere, no call number left",
];

/// What no invitation does.
const WRONG_INVITATIONS: [&str; 4] = [
    "invited, group held, refused",
    "invited, group held, a node changes",
    "invited, group held, not one plain reply behind the rest",
    "invited elsewhere, does not join",
];

/// What no call shows, for each of those who pick.
const WRONG_PICKS: [&str; 5] = [
    "asking, not the next up",
    "inviting, not the highest found",
    "inviting, not the highest set aside",
    "forwarding, not the highest",
    "handing, not the highest",
];

const IDLE: usize = 0;
const ASKING: usize = 1;
const WAITING: usize = 2;
const INVITING: usize = 3;
const COLLECTING: usize = 4;
const HANDING: usize = 5;
const CONTACTING: usize = 6;
const FORWARDING: usize = 7;
const ACCEPTING: usize = 8;

/// The activities that the papers let follow in each deed on each activity.
fn possible(deed: usize, before: usize) -> &'static [usize] {
    const SAME: [[usize; 1]; 9] = [[0], [1], [2], [3], [4], [5], [6], [7], [8]];
    // "a forwarding or accepting cabinet isn't that owner", which here is its own coordinator
    let own_coordinator = !matches!(before, FORWARDING | ACCEPTING);
    match DEEDS[deed] {
        "crash" => &[IDLE],
        "recover" if before == IDLE => &[IDLE],
        // With n = 1 nobody is asked.
        "check" if before == IDLE => &[IDLE, ASKING],
        "timeout" if before == IDLE => &[IDLE, CONTACTING],
        // With none found and no members, which no run has, nobody is invited.
        "tick" if before == WAITING => &[WAITING, INVITING, COLLECTING],
        "finish" if before == COLLECTING => &[HANDING, IDLE],
        "expire" | "deliver 6, no" | "deliver 6, yes" => match before {
            ASKING if DEEDS[deed] == "deliver 6, yes" => &[ASKING, WAITING, INVITING],
            ASKING => &[ASKING, IDLE, WAITING, INVITING],
            INVITING => &[INVITING, COLLECTING],
            HANDING if DEEDS[deed] == "expire" => &[IDLE],
            HANDING => &[HANDING, IDLE],
            FORWARDING => &[FORWARDING, ACCEPTING],
            CONTACTING | ACCEPTING => &[IDLE],
            _ => &[],
        },
        "deliver 3, new group" if own_coordinator => &[FORWARDING, ACCEPTING],
        "deliver 3, new group" => &[ACCEPTING],
        "deliver 1, yes" | "deliver 2, yes" | "deliver 4, joins" if own_coordinator => {
            &SAME[before]
        }
        "lose"
        | "deliver 1, no"
        | "deliver 2, no"
        | "deliver 3, no change"
        | "deliver 3, group held"
        | "deliver 4, no change"
        | "deliver 5, task taken"
        | "deliver 5, no change"
        | "deliver 6, dropped" => &SAME[before],
        _ => &[],
    }
}

/// The refusals that an event on a table can meet.
fn refusable(event: usize, number: usize) -> bool {
    let name = EVENTS[event];
    match number {
        1 | 7 => true,
        8 => name == "finish",
        9 => name != "lose",
        10 => matches!(name, "check" | "timeout" | "tick" | "expire" | "finish"),
        11 => matches!(name, "deliver" | "lose"),
        12 => matches!(name, "recover" | "tick" | "expire" | "deliver"),
        13 => matches!(name, "check" | "timeout" | "tick" | "expire" | "finish" | "deliver"),
        // A delivered message is already out, so a delivery never meets it.
        14 => matches!(name, "check" | "timeout" | "tick" | "expire" | "finish"),
        17 => matches!(name, "check" | "timeout" | "tick" | "expire" | "finish" | "deliver"),
        18 => name == "check",
        19 => name == "finish",
        _ => false,
    }
}

/// Whether an answer is a ground that comes before the ends of ranges, 12, 13, 14 and 17.
pub fn before_ends(answer: Result<(), u8>) -> bool {
    matches!(answer, Err(1 | 7..=11 | 18 | 19))
}

/// The places of refusals. At 16, which is no ground of these, all that are none at all are counted.
const NUMBERS: usize = 20;

fn number_place(number: u8) -> usize {
    match number {
        0..=15 | 17..=19 => usize::from(number),
        _ => 16,
    }
}

/// The grounds that events, lists and lines can meet.
fn grounds() -> impl Iterator<Item = usize> {
    (1..=15).chain(17..=19)
}

/// What is remembered of a table for the count of the event that follows.
pub struct Before {
    node: Option<Node>,
    message: Option<Message>,
    /// All of it, where the message is an invitation to the group that its receiver holds.
    held: Option<Table>,
    traffic: TrafficBefore,
    check: Option<CheckBefore>,
    finish: Option<FinishBefore>,
    limits: LimitBefore,
}

impl Before {
    pub fn of(table: &Table, event: &Event) -> Before {
        let (event, i) = (*event, acting(event));
        let message = match event {
            Event::Deliver(a, b) => {
                table.messages.iter().find(|m| m.sender == a && m.receiver == b).copied()
            }
            _ => None,
        };
        let node = (1..=table.n.min(16)).contains(&i).then(|| *table.node(i));
        let held = match (&node, message.map(|m| m.body)) {
            (Some(node), Some(Body::Invitation { group })) if node.group == group => {
                Some(table.clone())
            }
            _ => None,
        };
        Before {
            node,
            message,
            held,
            traffic: TrafficBefore::of(table, &event),
            check: CheckBefore::of(table, &event),
            finish: FinishBefore::of(table, &event),
            limits: LimitBefore::of(table, &event),
        }
    }
}

/// The node whose turn it is; for deliver and lose this is the receiver.
pub fn acting(event: &Event) -> u8 {
    match *event {
        Event::Crash(i)
        | Event::Recover(i)
        | Event::Check(i)
        | Event::Timeout(i)
        | Event::Tick(i)
        | Event::Expire(i)
        | Event::Finish(i, _)
        | Event::Deliver(_, i)
        | Event::Lose(_, i) => i,
    }
}

/// The event's name.
pub fn event_name(event: &Event) -> &'static str {
    EVENTS[event_place(event)]
}

fn event_place(event: &Event) -> usize {
    match event {
        Event::Crash(_) => 0,
        Event::Recover(_) => 1,
        Event::Check(_) => 2,
        Event::Timeout(_) => 3,
        Event::Tick(_) => 4,
        Event::Expire(_) => 5,
        Event::Finish(..) => 6,
        Event::Deliver(..) => 7,
        Event::Lose(..) => 8,
    }
}

/// How often something was met, in runs and in tables.
pub type Count = [u64; 2];

/// The counts, each for runs and for tables.
#[derive(Clone, Debug)]
pub struct Corners {
    /// Refusals of events, by event and number.
    refused: [[Count; NUMBERS]; 9],
    /// Refusals that are not an event's: those of lists, and 15.
    other_refusals: [u64; NUMBERS],
    kinds: [Count; 6],
    activities: [Count; 9],
    transitions: Box<[[[Count; 9]; 9]; 22]>,
    picks: [Count; 17],
    wrong_picks: [Count; 5],
    invited: [Count; 10],
    twice: [Count; 8],
    elsewhere: [Count; 6],
    wrong_invitations: [Count; 4],
    recoveries: RecoveryCorners,
    traffic: TrafficCorners,
    checks: CheckCorners,
    finishes: MajorityCorners,
    limits: LimitCorners,
    /// Whom each inviting node has called since it merged, as far as it was seen.
    called: [Set; 16],
}

impl Default for Corners {
    fn default() -> Corners {
        Corners {
            refused: [[[0; 2]; NUMBERS]; 9],
            other_refusals: [0; NUMBERS],
            kinds: [[0; 2]; 6],
            activities: [[0; 2]; 9],
            transitions: Box::new([[[[0; 2]; 9]; 9]; 22]),
            picks: [[0; 2]; 17],
            wrong_picks: [[0; 2]; 5],
            invited: [[0; 2]; 10],
            twice: [[0; 2]; 8],
            elsewhere: [[0; 2]; 6],
            wrong_invitations: [[0; 2]; 4],
            recoveries: RecoveryCorners::default(),
            traffic: TrafficCorners::default(),
            checks: CheckCorners::default(),
            finishes: MajorityCorners::default(),
            limits: LimitCorners::default(),
            called: [0; 16],
        }
    }
}

impl Corners {
    /// The events that follow are those of another run, or begin on another table.
    pub fn begin(&mut self) {
        self.called = [0; 16];
        self.finishes.begin();
    }

    /// Counts an event with what followed.
    pub fn event(
        &mut self,
        source: Source,
        before: &Before,
        event: &Event,
        answer: Result<(), u8>,
        after: &Table,
    ) {
        self.traffic.count(source, &before.traffic, event, answer, after);
        if let Some(before) = &before.check {
            self.checks.count(source, before, answer, after);
        }
        self.finishes.count(source, before.finish.as_ref(), answer, after);
        self.limits.count(source, &before.limits, &before.traffic, answer, after);
        let source = source as usize;
        let place = event_place(event);
        if answer != Err(1) {
            self.invitation(source, before, answer, after);
        }
        if let Err(number) = answer {
            self.refused[place][number_place(number)][source] += 1;
            return;
        }
        let Some(node) = &before.node else {
            return;
        };
        let i = acting(event);
        let now = after.node(i);
        let deed = match (place, before.message) {
            (0..=6, _) => place,
            (7, Some(message)) => {
                self.kinds[usize::from(message.body.kind().clamp(1, 6)) - 1][source] += 1;
                delivered(&message, node, now, after)
            }
            _ => 7,
        };
        let (from, to) = (activity_place(&node.activity), activity_place(&now.activity));
        self.activities[from][source] += 1;
        self.transitions[deed][from][to][source] += 1;
        if now.last_call != node.last_call {
            self.pick(source, i, after.n, node, now);
        }
    }

    /// Counts what a call shows of how the next node is picked.
    fn pick(&mut self, source: usize, i: u8, n: u8, before: &Node, after: &Node) {
        let Some(now) = called(&after.activity) else {
            return;
        };
        let goes_on = activity_place(&before.activity) == activity_place(&after.activity);
        let last = if goes_on { called(&before.activity).unwrap_or(0) } else { 0 };
        // Who picks, and who is left of the set.
        let (picker, left) = match after.activity {
            Activity::Inviting { found, former, .. } => match before.activity {
                Activity::Inviting { found: 0, .. } | Activity::Waiting { found: 0, .. } => {
                    (2, former)
                }
                _ => (1, found),
            },
            Activity::Forwarding { rest, .. } => (3, rest),
            Activity::Handing { rest, .. } => (4, rest),
            _ => (0, ((1u32 << n) - (1 << now)) as Set & !only(i)),
        };
        let mut met = |pick: usize| self.picks[pick][source] += 1;
        if left != 0 {
            met(3 * picker + usize::from(goes_on));
        }
        if goes_on {
            match picker {
                0 if now > last => met(2),
                1..=4 if now < last => met(3 * picker + 2),
                2 if now > last => met(15),
                _ => {}
            }
        }
        if let Activity::Inviting { .. } = after.activity {
            let called = &mut self.called[usize::from(i) - 1];
            *called = if goes_on { *called | only(last) } else { 0 };
            if picker == 2 && *called & only(now) != 0 {
                met(16);
            }
        }
        let wrong = match picker {
            0 => Some(now) != (last + 1..=n).find(|&j| j != i),
            _ => left > only(now),
        };
        self.wrong_picks[picker][source] += u64::from(wrong);
    }

    /// Counts what an invitation meets at its receiver, if it is one, on a table in range.
    fn invitation(
        &mut self,
        source: usize,
        before: &Before,
        answer: Result<(), u8>,
        after: &Table,
    ) {
        let (Some(node), Some(m)) = (&before.node, &before.message) else {
            return;
        };
        let Body::Invitation { group } = m.body else {
            return;
        };
        let owned = owner(group) == m.receiver;
        let is = match (node.status, &before.held) {
            (Status::Normal, Some(_)) => 6 + usize::from(owned),
            (Status::Normal, None) => 9 - usize::from(owned),
            (status, held) => 2 * status as usize + usize::from(held.is_none()),
        };
        self.invited[is][source] += 1;
        let normal = node.status == Status::Normal && !owned;
        // T-05's ground is the only one that comes before a plain reply, and the last before another
        // message.
        let refused_17 = answer == Err(17) && before.traffic.no_more();
        let wrong = match &before.held {
            _ if node.status == Status::Down => [false; 4],
            // "gets a plain reply and changes nothing else", whatever the status and whoever owns the
            // group
            Some(table) => {
                if normal {
                    add(&mut self.twice, source, twice(table, m));
                }
                let other_nodes = after.nodes != table.nodes;
                let other_messages = answer.is_ok() && !replied(table, m, after);
                [answer.is_err() && !refused_17, other_nodes, other_messages, false]
            }
            None if normal => {
                add(&mut self.elsewhere, source, elsewhere(node, m.receiver, group));
                let now = after.node(m.receiver);
                let joined = (now.status, now.group) == (Status::Election, group);
                let right = match node.last_call {
                    MAX_CALL => answer == Err(13),
                    _ => joined || refused_17,
                };
                [false, false, false, !right]
            }
            None => [false; 4],
        };
        add(&mut self.wrong_invitations, source, wrong);
    }

    /// Counts a call for the records of a recovery.
    pub fn recovery(&mut self, source: Source, call: &Call) {
        self.recoveries.count(source, call);
        self.limits.recovery(source, call);
    }

    /// Counts a refusal of a list or of a line.
    pub fn refusal(&mut self, number: u8) {
        self.other_refusals[number_place(number)] += 1;
    }

    /// Counts a list that is read and the text printed for it, and judges each of its events by that.
    pub fn printed(&mut self, list: &List, text: &[u8]) {
        let refused = refused_lines(text, list.events.len());
        let mut table = Table::start(list.n, list.limits);
        for (event, &number) in list.events.iter().zip(&refused) {
            self.checks.printed_event(&table, event, number);
            self.finishes.printed_event(&table, event, number);
            self.limits.printed_event(&table, event, number);
            let _ = advance(&mut table, event);
        }
        self.checks.printed(&refused, list.stop.is_some());
        self.finishes.printed(&refused, list.stop.is_some());
        self.limits.printed(&table);
    }

    /// Counts the first field of any list, and fields behind it that must be first, by the text printed.
    pub fn fields(&mut self, list: &[u8], text: &[u8]) {
        self.limits.fields(list, text);
    }

    /// Counts the answer of a step to a field with the tag of a first one.
    pub fn first_tag(&mut self, field: &[u8], answer: u8) {
        self.limits.first_tag(field, answer);
    }

    /// Counts the answer on a table with a rule of the range broken in its counts, the one at this place of
    /// `BROKEN`.
    pub fn broken_counts(&mut self, which: usize, answer: Result<(), u8>) {
        self.traffic.broken(which, answer);
    }

    /// Counts the answer on a table with a rule of the range broken by its limits, the one with this number
    /// below `BROKEN`.
    pub fn broken_limits(&mut self, which: usize, answer: Result<(), u8>) {
        self.limits.broken(which, answer);
    }

    /// Counts the answer on a table whose limits are no allowed pair, and the one on the table with its right
    /// ones.
    pub fn limits_first(&mut self, answer: Result<(), u8>, else_answer: Result<(), u8>) {
        self.limits.first(answer, else_answer);
    }

    /// Every corner that the papers make possible, with its counts.
    fn corners(&self) -> Vec<(String, Count)> {
        let mut corners = Vec::new();
        for number in grounds() {
            let mut count = [self.other_refusals[number], 0];
            for event in &self.refused {
                count = [count[0] + event[number][0], count[1] + event[number][1]];
            }
            corners.push((format!("refusal {number}"), count));
        }
        for (name, count) in KINDS.iter().zip(self.kinds) {
            corners.push((format!("delivered {name}"), count));
        }
        for (name, count) in ACTIVITIES.iter().zip(self.activities) {
            corners.push((format!("activity {name}"), count));
        }
        for (event, name) in EVENTS.iter().enumerate() {
            for number in grounds().filter(|&number| refusable(event, number)) {
                corners.push((format!("{name} refused {number}"), self.refused[event][number]));
            }
        }
        for (deed, name) in DEEDS.iter().enumerate() {
            for (before, from) in ACTIVITIES.iter().enumerate() {
                for &after in possible(deed, before) {
                    corners.push((
                        format!("{name}: {from} -> {}", ACTIVITIES[after]),
                        self.transitions[deed][before][after],
                    ));
                }
            }
        }
        let named = PICKS.iter().zip(self.picks).chain(INVITED.iter().zip(self.invited));
        let named = named.chain(TWICE.iter().zip(self.twice));
        let named = named.chain(ELSEWHERE.iter().zip(self.elsewhere));
        let named = named.map(|(&name, count)| (name, count)).chain(self.recoveries.corners());
        corners.extend(named.map(|(name, count)| (name.to_string(), count)));
        corners.extend(self.traffic.corners());
        corners.extend(self.checks.corners());
        corners.extend(self.finishes.corners());
        corners.extend(self.limits.corners());
        corners
    }
}

impl Book for Corners {
    fn impossible(&self) -> Vec<String> {
        let mut found = Vec::new();
        let met = |count: Count| count != [0, 0];
        for (event, name) in EVENTS.iter().enumerate() {
            for number in 0..NUMBERS {
                if !refusable(event, number) && met(self.refused[event][number]) {
                    found.push(format!("{name} refused {number}"));
                }
            }
        }
        for (deed, name) in DEEDS.iter().enumerate() {
            for (before, from) in ACTIVITIES.iter().enumerate() {
                for (after, to) in ACTIVITIES.iter().enumerate() {
                    if !possible(deed, before).contains(&after)
                        && met(self.transitions[deed][before][after])
                    {
                        found.push(format!("{name}: {from} -> {to}"));
                    }
                }
            }
        }
        let picks = WRONG_PICKS.iter().zip(self.wrong_picks);
        let wrong = picks.chain(WRONG_INVITATIONS.iter().zip(self.wrong_invitations));
        let wrong = wrong.map(|(&name, count)| (name, count)).chain(self.recoveries.wrong());
        let wrong = wrong.chain(self.traffic.wrong()).chain(self.checks.wrong());
        let wrong = wrong.chain(self.finishes.wrong()).chain(self.limits.wrong());
        found.extend(wrong.filter(|&(_, count)| met(count)).map(|(name, _)| name.to_string()));
        found
    }

    fn text(&self) -> String {
        counts_text(&self.corners())
    }

    /// In runs and tables together.
    fn seldom(&self, times: u64) -> Vec<String> {
        let corners = self.corners().into_iter();
        let seldom = corners.filter(|(_, [runs, tables])| runs + tables < times);
        seldom.map(|(name, [runs, tables])| format!("{name}: {}", runs + tables)).collect()
    }
}

/// Counts in lines: in runs and lists, in tables, and the corner. Last how many corners there are, how
/// many were met, and the least met of them.
pub fn counts_text(corners: &[(String, Count)]) -> String {
    let mut text = String::from("   in runs  in tables  corner\n");
    for (name, [runs, tables]) in corners {
        let empty = if runs + tables == 0 { "  (not met)" } else { "" };
        writeln!(text, "{runs:>10} {tables:>10}  {name}{empty}").expect("a String takes it");
    }
    let sum = |(_, [runs, tables]): &(String, Count)| runs + tables;
    let met = corners.iter().filter(|corner| sum(corner) > 0).count();
    let thousand = corners.iter().filter(|corner| sum(corner) >= 1000).count();
    writeln!(text, "{} corners, {met} met, {thousand} met a thousand times or more", corners.len())
        .expect("a String takes it");
    if let Some(least) = corners.iter().min_by_key(|corner| sum(corner)) {
        writeln!(text, "least met: {}, {} times", least.0, sum(least)).expect("a String takes it");
    }
    text
}

/// The number that a text has for each of so many events, or none where it is accepted.
fn refused_lines(text: &[u8], events: usize) -> Vec<Option<u8>> {
    let mut refused = vec![None; events];
    for line in String::from_utf8_lossy(text).lines() {
        let words: Vec<&str> = line.split(' ').collect();
        if let ["refused", e, r] = words[..] {
            let place = e.parse::<usize>().ok().and_then(|e| e.checked_sub(1));
            if let Some(number) = place.and_then(|place| refused.get_mut(place)) {
                *number = r.parse().ok();
            }
        }
    }
    refused
}

/// Adds one to the counts of all that was met.
pub fn add<const K: usize>(counts: &mut [Count; K], source: usize, met: [bool; K]) {
    for (count, met) in counts.iter_mut().zip(met) {
        count[source] += u64::from(met);
    }
}

/// The place of a message that is the oldest of its pair.
fn place(table: &Table, m: &Message) -> usize {
    table.messages.iter().position(|other| other == m).expect("it waits")
}

/// Which of `TWICE` an invitation meets.
fn twice(table: &Table, m: &Message) -> [bool; 8] {
    let node = table.node(m.receiver);
    let forwarded = m.sender != node.coordinator;
    let open = table.node(m.sender).open_call() == Some(m.call);
    [
        !forwarded,
        forwarded,
        open,
        !open,
        node.members != 0,
        node.last_call == MAX_CALL,
        table.messages.len() == MAX_MESSAGES,
        place(table, m) + 1 < table.messages.len(),
    ]
}

/// Which of `ELSEWHERE` an invitation to a group meets at node i.
fn elsewhere(node: &Node, i: u8, group: u32) -> [bool; 6] {
    if node.last_call == MAX_CALL {
        return [false, false, false, false, false, true];
    }
    let member = node.coordinator != i;
    let same_owner = owner(group) == node.coordinator;
    let newer = group > node.group;
    let equal_counter = group / 16 == node.group / 16;
    [!member, member, same_owner && newer, same_owner && !newer, equal_counter, false]
}

/// Whether the messages after are those before without the oldest of a pair, and behind them one reply to
/// it, yes, with its call's number.
fn replied(before: &Table, m: &Message, after: &Table) -> bool {
    let mut messages = before.messages.clone();
    messages.remove(place(before, m));
    let body = Body::Reply { yes: true };
    messages.push(Message { sender: m.receiver, receiver: m.sender, call: m.call, body });
    messages == after.messages
}

fn activity_place(activity: &Activity) -> usize {
    usize::from(tag(activity))
}

/// Whom an activity that picks its nodes calls now.
pub fn called(activity: &Activity) -> Option<u8> {
    match *activity {
        Activity::Asking { asked: now, .. }
        | Activity::Inviting { now, .. }
        | Activity::Handing { now, .. }
        | Activity::Forwarding { now, .. } => Some(now),
        _ => None,
    }
}

/// The deed of a delivery, from the receiver before and after it.
fn delivered(message: &Message, before: &Node, now: &Node, after: &Table) -> usize {
    let says_yes =
        after.messages.last().is_some_and(|reply| matches!(reply.body, Body::Reply { yes: true }));
    let either = |first: bool, deed: usize| if first { deed } else { deed + 1 };
    match message.body {
        Body::AreYouCoordinator => either(says_yes, 8),
        Body::AreYouThere { .. } => either(says_yes, 10),
        Body::Invitation { group }
            if before.status == Status::Normal
                && before.group == group
                && owner(group) != message.receiver =>
        {
            14
        }
        Body::Invitation { .. } => either(now.status == before.status, 12),
        Body::Accept { .. } => either(now.members != before.members, 15),
        Body::Ready { .. } => either(now.status != before.status, 17),
        Body::Reply { .. } if before.open_call() != Some(message.call) => 21,
        Body::Reply { yes } => either(yes, 19),
        Body::Unknown { .. } => 21,
    }
}
