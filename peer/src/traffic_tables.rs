//! Random counts of messages by pair, and random tables for what T-05 of document 02 says of them: tables
//! on which an event must send a message and a pair's count is at its end, tables with one rule of the
//! range broken in the counts, and tables whose counts are as high as the calls allow.

use crate::drive::{other_task, task};
use crate::history::due_by_calls;
use crate::limit_tables::any_limits;
use crate::machine::{
    count_mut, count_of, group_number, only, owner, Activity, Body, Event, Limits, Message, Node,
    PairCounts, Set, Status, Table, Traffic, MAX_CALL, MAX_COUNT, MAX_COUNTER, MAX_NODES, MIN_TASK,
};
use crate::numbers::Numbers;
use crate::tables::{add_messages, any_message, near_ends, of_nodes, other, part, set_activity};
use crate::traffic_corners::{need, Way, WAYS};

/// All ordered pairs of n nodes.
pub fn pairs(n: u8) -> impl Iterator<Item = (u8, u8)> {
    (1..=n).flat_map(move |a| (1..=n).filter(move |&b| b != a).map(move |b| (a, b)))
}

/// Gives each pair the counts that it has where nothing was delivered or lost: what waits was sent.
pub fn count_waiting(table: &mut Table) {
    let waiting = table.waiting();
    table.traffic = Traffic::START;
    for (a, b) in pairs(table.n.min(MAX_NODES)) {
        *count_mut(&mut table.traffic.sent, a, b) = count_of(&waiting, a, b);
    }
}

/// Gives each pair of a table counts that are in range: few, or often at an end.
pub fn give_counts(table: &mut Table, numbers: &mut Numbers) {
    let waiting = table.waiting();
    table.traffic = Traffic::START;
    let manner = numbers.below(4);
    for (a, b) in pairs(table.n) {
        let waiting = count_of(&waiting, a, b);
        let sent = match manner {
            0 => waiting,
            1 => waiting + numbers.below(8),
            _ => near_ends(waiting, MAX_COUNT, numbers),
        };
        set_counts(&mut table.traffic, (a, b), sent, waiting, numbers);
    }
}

/// Gives a pair so many sent messages; those that don't wait were delivered or lost.
fn set_counts(
    traffic: &mut Traffic,
    (a, b): (u8, u8),
    sent: u32,
    waiting: u32,
    numbers: &mut Numbers,
) {
    let gone = sent - waiting;
    let delivered = match numbers.below(4) {
        0 => 0,
        1 => gone,
        _ => numbers.between(0, gone),
    };
    *count_mut(&mut traffic.sent, a, b) = sent;
    *count_mut(&mut traffic.delivered, a, b) = delivered;
    *count_mut(&mut traffic.lost, a, b) = gone - delivered;
}

/// The same, with what waits of the pair in a table.
pub fn set_sent(table: &mut Table, pair: (u8, u8), sent: u32, numbers: &mut Numbers) {
    let waiting = count_of(&table.waiting(), pair.0, pair.1);
    set_counts(&mut table.traffic, pair, sent, waiting, numbers);
}

/// Moves the counts of some pairs to their ends, or just before them.
pub fn move_counts_to_ends(table: &mut Table, numbers: &mut Numbers) {
    let waiting = table.waiting();
    for (a, b) in pairs(table.n) {
        if numbers.one_in(4) {
            let (sent, waiting) = (MAX_COUNT - numbers.below(4), count_of(&waiting, a, b));
            set_counts(&mut table.traffic, (a, b), sent, waiting, numbers);
        }
    }
}

/// What is at its end in a table on which a message must be sent.
#[derive(Clone, Copy, Debug, PartialEq, Eq)]
enum End {
    /// The pair's count, and with it what ground 14, 13 or 12 looks at.
    Sent,
    SentAndWaiting,
    SentAndCalls,
    SentAndCounter,
    /// The pair's count is one below.
    Nearly,
    /// The counts of other pairs.
    Others,
}

impl End {
    /// Whether a way can meet all these grounds.
    fn fits(self, way: Way) -> bool {
        match self {
            End::SentAndWaiting => !way.delivers(),
            End::SentAndCalls => way.calls(),
            End::SentAndCounter => way.forms(),
            End::Sent | End::Nearly | End::Others => true,
        }
    }
}

const ENDS: [End; 6] = [
    End::Sent,
    End::SentAndWaiting,
    End::SentAndCalls,
    End::SentAndCounter,
    End::Nearly,
    End::Others,
];

/// A table in range and an event that must send a message on it, in any way, where a count is at its end.
pub fn to_send(numbers: &mut Numbers) -> (Table, Event) {
    let (way, _) = match numbers.one_in(4) {
        // The answers to calls come more often, since any activity of the receiver is a case of its own.
        true => numbers.of(&WAYS[Way::AreYouCoordinatorReplies as usize..Way::ReplyAsks as usize]),
        false => numbers.of(&WAYS),
    };
    let end = Some(numbers.of(&ENDS)).filter(|end| end.fits(way)).unwrap_or(End::Others);
    let limits = any_limits(numbers);
    let scene = Scene {
        way,
        limits,
        waiting: (end == End::SentAndWaiting).then_some(usize::from(limits.messages)),
        no_call: end == End::SentAndCalls,
        no_counter: end == End::SentAndCounter,
    };
    let (mut table, event) = sending(&scene, numbers);
    give_counts(&mut table, numbers);
    let need = need(&table, &event).expect("the event must send a message");
    let pair = (need.from, need.to);
    let waiting = count_of(&table.waiting(), need.from, need.to);
    match end {
        End::Nearly => set_sent(&mut table, pair, MAX_COUNT - 1, numbers),
        End::Others => {
            // The way back, or any pair, which may be the only other one.
            let any = (numbers.between(1, u32::from(table.n)) as u8, need.from);
            let at_end = if any.0 == any.1 || numbers.one_in(2) { (pair.1, pair.0) } else { any };
            set_sent(&mut table, at_end, MAX_COUNT, numbers);
            let sent = near_ends(waiting, MAX_COUNT - 2, numbers);
            set_sent(&mut table, pair, sent, numbers);
        }
        _ => set_sent(&mut table, pair, MAX_COUNT, numbers),
    }
    (table, event)
}

/// A table on which an event must send a message.
pub struct Scene {
    /// How it comes to send it.
    pub way: Way,
    pub limits: Limits,
    /// How many messages wait, the delivered one too. Where it is not said, there is room for one more.
    pub waiting: Option<usize>,
    /// Whether the acting node has no call number left, and no counter.
    pub no_call: bool,
    pub no_counter: bool,
}

/// The table, without counts, and the event. It can send where it is not to be refused: there is a counter
/// and a call number, if the scene does not say otherwise.
pub fn sending(scene: &Scene, numbers: &mut Numbers) -> (Table, Event) {
    let &Scene { way, limits, waiting, no_call, no_counter } = scene;
    // Where node i asks on there is one more to be asked, and where it merges one below it.
    let least = if matches!(way, Way::ExpireAsks | Way::ReplyAsks) { 3 } else { 2 };
    let n = match numbers.below(4) {
        0 => least,
        1 => u32::from(limits.nodes),
        _ => numbers.between(least, u32::from(limits.nodes)),
    } as u8;
    let merges = matches!(way, Way::ExpireMerges | Way::ReplyMerges);
    let i = numbers.between(if merges { 2 } else { 1 }, u32::from(n)) as u8;
    let mut table = of_nodes(n, limits, numbers);
    let sender = other(i, n, numbers);
    let node = &mut table.nodes[usize::from(i) - 1];
    *node = sending_node(way, i, n, numbers);
    let counter = near_ends(0, MAX_COUNTER - 1, numbers);
    node.counter = if no_counter { MAX_COUNTER } else { counter };
    // A reply to an open call has its number.
    let last_call = near_ends(1, MAX_CALL - 1, numbers);
    node.last_call = if no_call { MAX_CALL } else { last_call };
    let node = *node;
    let most = usize::from(limits.messages);
    let event = match delivered(way, &node, i, n, numbers) {
        Some(body) => {
            let call = match body {
                Body::Reply { .. } => node.last_call,
                _ => near_ends(1, MAX_CALL, numbers),
            };
            // It is the oldest of its pair.
            table.messages.retain(|m| (m.sender, m.receiver) != (sender, i));
            table.messages.truncate(waiting.unwrap_or(most) - 1);
            let place = numbers.place(table.messages.len() + 1);
            table.messages.insert(place, Message { sender, receiver: i, call, body });
            Event::Deliver(sender, i)
        }
        None => {
            table.messages.truncate(waiting.unwrap_or(most - 1));
            match way {
                Way::CheckAsks => Event::Check(i),
                Way::TimeoutContacts => Event::Timeout(i),
                Way::TickInvites => Event::Tick(i),
                // T-10: a minority has no full peal.
                Way::FinishHands if node.minority(n) => Event::Finish(i, other_task(numbers)),
                Way::FinishHands => Event::Finish(i, task(numbers)),
                _ => Event::Expire(i),
            }
        }
    };
    add_messages(&mut table, waiting.unwrap_or(0), numbers);
    (table, event)
}

/// A part of a set that is not empty, which the set must not be either.
fn some(set: Set, numbers: &mut Numbers) -> Set {
    match part(set, numbers) {
        0 => 1 << set.trailing_zeros(),
        part => part,
    }
}

/// Node i of n, which goes on in this way. Its counter and last call number come later.
pub fn sending_node(way: Way, i: u8, n: u8, numbers: &mut Numbers) -> Node {
    let others = (u16::MAX >> (MAX_NODES - n)) & !only(i);
    let any_status = numbers.of(&[Status::Election, Status::Reorganization, Status::Normal]);
    let counter = near_ends(1, MAX_COUNTER, numbers);
    let another = group_number(counter, other(i, n, numbers));
    let any_group = numbers.of(&[group_number(counter, i), another]);
    let mut node = Node {
        status: any_status,
        group: any_group,
        task: numbers.bits() as u16,
        members: part(others, numbers),
        ..Node::START
    };
    let found = part(others, numbers);
    let last = if i == n { n - 1 } else { n };
    let caller = other(i, n, numbers);
    let (now, call) = (other(i, n, numbers), near_ends(1, MAX_CALL, numbers));
    match way {
        Way::CheckAsks => (node.status, node.group) = (Status::Normal, group_number(counter, i)),
        Way::TimeoutContacts => node.group = another,
        Way::TickInvites => {
            let found = if node.members == 0 { some(others, numbers) } else { found };
            node.activity = Activity::Waiting { ticks: 1, found };
        }
        Way::ExpireAsks | Way::ReplyAsks => {
            let before_last = others & !only(last);
            let asked = some(before_last, numbers).trailing_zeros() as u8 + 1;
            node.activity = Activity::Asking { asked, found };
        }
        Way::ExpireMerges | Way::ReplyMerges => {
            // Those below node i, which then has found none above; the last is not found now.
            let found = some(others & (only(i) - 1), numbers);
            node.activity = Activity::Asking { asked: last, found };
        }
        Way::ExpireInvites | Way::ReplyInvites => {
            let former = if found == 0 { some(others, numbers) } else { part(others, numbers) };
            node.activity = Activity::Inviting { found, former, now };
        }
        Way::ExpireForwards | Way::ReplyForwards | Way::ExpireAccepts | Way::ReplyAccepts => {
            node.group = another;
            let forwards = matches!(way, Way::ExpireForwards | Way::ReplyForwards);
            let rest = if forwards { some(others, numbers) } else { 0 };
            node.activity = Activity::Forwarding { rest, now, caller, call };
        }
        Way::ReplyHands => {
            node.task = node.task.max(MIN_TASK);
            node.activity = Activity::Handing { rest: some(others, numbers), now };
        }
        Way::ReplyReplies => {
            node.group = another;
            node.activity = Activity::Accepting { caller, call };
        }
        Way::FinishHands => {
            node.members = some(others, numbers);
            node.activity = Activity::Collecting;
        }
        Way::InvitationForwards => {
            (node.status, node.group) = (Status::Normal, group_number(counter, i));
            node.members = some(others, numbers);
        }
        Way::InvitationAccepts => {
            node.status = Status::Normal;
            if owner(node.group) == i {
                node.members = 0;
            }
        }
        // Mostly so that the receiver says yes or does more than reply, or, for T-03, would have done more.
        _ if numbers.one_in(4) => {}
        Way::AreYouCoordinatorReplies => {
            (node.status, node.group) = (Status::Normal, group_number(counter, i));
        }
        Way::AreYouThereReplies => {
            (node.group, node.members) = (group_number(counter, i), some(others, numbers));
        }
        Way::InvitationReplies => (node.status, node.group) = (Status::Normal, another),
        Way::AcceptReplies => {
            (node.status, node.group) = (Status::Election, group_number(counter, i));
        }
        Way::ReadyReplies => node.status = Status::Reorganization,
    }
    node.coordinator = owner(node.group);
    let any_activity = way.delivers() && (way as usize) < Way::ReplyAsks as usize;
    if any_activity {
        let activity = numbers.below(if node.coordinator == i { 7 } else { 9 });
        set_activity(&mut node, activity, i, n, numbers);
    }
    node
}

/// What is delivered to node i of n in this way, if something is.
pub fn delivered(way: Way, node: &Node, i: u8, n: u8, numbers: &mut Numbers) -> Option<Body> {
    let counter = near_ends(1, MAX_COUNTER, numbers);
    let any_group = group_number(counter, numbers.between(1, u32::from(n)) as u8);
    let group = if numbers.one_in(5) { any_group } else { node.group };
    Some(match way {
        Way::AreYouCoordinatorReplies => Body::AreYouCoordinator,
        Way::AreYouThereReplies => Body::AreYouThere { group },
        Way::AcceptReplies => Body::Accept { group },
        Way::ReadyReplies => Body::Ready { group, task: task(numbers) },
        Way::InvitationReplies if node.status == Status::Normal => {
            let owned = group_number(counter, i);
            Body::Invitation { group: numbers.of(&[node.group, node.group, owned]) }
        }
        Way::InvitationReplies => Body::Invitation { group },
        Way::InvitationForwards | Way::InvitationAccepts => {
            let group = group_number(counter, other(i, n, numbers));
            let held = group == node.group;
            // Another group of the same owner; counters go up to more than 1.
            let next = group_number(if counter == 1 { 2 } else { counter - 1 }, owner(group));
            Body::Invitation { group: if held { next } else { group } }
        }
        Way::ReplyMerges => Body::Reply { yes: false },
        _ if way.delivers() => Body::Reply { yes: numbers.one_in(2) },
        _ => return None,
    })
}

/// Breaks one rule of the range in the counts of a table that is in range, in the way named at this place of
/// `BROKEN`. False where the table has no place for it, and then it stays as it was.
pub fn break_counts(table: &mut Table, which: usize, numbers: &mut Numbers) -> bool {
    let n = table.n;
    let waiting = table.waiting();
    match which {
        8..=27 => {
            let row_above = matches!(which, 13..=17 | 23..=27);
            let column_above = which >= 18;
            if n == MAX_NODES && (row_above || column_above) {
                return false;
            }
            let mut number = |above: bool| match above {
                true => numbers.between(u32::from(n) + 1, u32::from(MAX_NODES)) as u8,
                false => numbers.between(1, u32::from(n)) as u8,
            };
            let (a, b) = match which {
                8..=12 => {
                    let a = number(false);
                    (a, a)
                }
                _ => (number(row_above), number(column_above)),
            };
            let count = near_ends(1, MAX_COUNT, numbers);
            let Traffic { sent, delivered, lost } = &mut table.traffic;
            let raised: &mut [&mut PairCounts] = match (which - 8) % 5 {
                0 => &mut [sent],
                1 => &mut [delivered],
                2 => &mut [lost],
                3 => &mut [sent, delivered],
                _ => &mut [sent, lost],
            };
            raised.iter_mut().for_each(|counts| *count_mut(counts, a, b) = count);
            true
        }
        6 => {
            // Of a pair that has something to lose to one that has room for it.
            let sent = &mut table.traffic.sent;
            let (mut from, mut to) = (None, None);
            for pair in pairs(n) {
                let count = count_of(sent, pair.0, pair.1);
                if count > 0 && (from.is_none() || numbers.one_in(2)) {
                    from = Some(pair);
                } else if count < MAX_COUNT && (to.is_none() || numbers.one_in(2)) {
                    to = Some(pair);
                }
            }
            let (Some(from), Some(to)) = (from, to) else {
                return false;
            };
            *count_mut(sent, from.0, from.1) -= 1;
            *count_mut(sent, to.0, to.1) += 1;
            true
        }
        7 if table.messages.is_empty() => false,
        7 => {
            table.traffic = Traffic::START;
            true
        }
        _ if n < 2 => false,
        _ => {
            // A few tries, since not every pair has what is to be changed.
            let broken = (0..8).find_map(|_| {
                let a = numbers.between(1, u32::from(n)) as u8;
                let b = other(a, n, numbers);
                let Traffic { sent, delivered, lost } = &table.traffic;
                let counts = [sent, delivered, lost].map(|counts| count_of(counts, a, b));
                let broken = broken_pair(which, counts, count_of(&waiting, a, b), numbers)?;
                Some((a, b, broken))
            });
            let Some((a, b, [sent, delivered, lost])) = broken else {
                return false;
            };
            *count_mut(&mut table.traffic.sent, a, b) = sent;
            *count_mut(&mut table.traffic.delivered, a, b) = delivered;
            *count_mut(&mut table.traffic.lost, a, b) = lost;
            true
        }
    }
}

/// The counts of one pair, broken: sent, delivered, lost.
fn broken_pair(
    which: usize,
    [sent, delivered, lost]: [u32; 3],
    waiting: u32,
    numbers: &mut Numbers,
) -> Option<[u32; 3]> {
    let raised = |count: u32| (count < MAX_COUNT).then_some(count + 1);
    Some(match which {
        0 => [raised(sent)?, delivered, lost],
        1 => [sent.checked_sub(1)?, delivered, lost],
        2 => [sent, raised(delivered)?, lost],
        3 => [sent, delivered.checked_sub(1)?, lost],
        4 => [sent, delivered, raised(lost)?],
        5 => [sent, delivered, lost.checked_sub(1)?],
        // Above the end by one or a few, with something of both.
        28 => {
            let gone = MAX_COUNT + 1 + numbers.below(3) - waiting;
            let lost = numbers.between(gone.saturating_sub(MAX_COUNT), MAX_COUNT.min(gone));
            [gone + waiting, gone - lost, lost]
        }
        29 | 30 => {
            let gone = MAX_COUNT + 1 + numbers.below(3);
            let of = if which == 29 { [gone, 0] } else { [0, gone] };
            [gone + waiting, of[0], of[1]]
        }
        31 => [2 * MAX_COUNT + waiting, MAX_COUNT, MAX_COUNT],
        32 => {
            let gone = u32::MAX - waiting;
            let lost = numbers.between(MAX_COUNT + 1, gone - MAX_COUNT - 1);
            [gone + waiting, gone - lost, lost]
        }
        // The two are 2^32 more than what is sent and does not wait.
        33 => {
            let sent = sent.max(waiting);
            let lost = numbers.between(MAX_COUNT + 1 + sent, u32::MAX);
            [sent, 0u32.wrapping_sub(lost).wrapping_add(sent - waiting), lost]
        }
        // Nothing is sent, and delivered with what waits is 2^32.
        _ if waiting == 0 => return None,
        _ => [0, 0u32.wrapping_sub(waiting), 0],
    })
}

/// A table in range, and an event that takes out the last message of a pair which has sent 33,554,430, where
/// all others of the pair were delivered, and it is, or were lost, and it is.
pub fn to_take_last(numbers: &mut Numbers) -> (Table, Event) {
    let limits = any_limits(numbers);
    let n = numbers.between(2, u32::from(limits.nodes)) as u8;
    let mut table = of_nodes(n, limits, numbers);
    table.messages.truncate(usize::from(limits.messages) - 1);
    let m = any_message(&table, numbers);
    let (a, b) = (m.sender, m.receiver);
    table.messages.retain(|m| (m.sender, m.receiver) != (a, b));
    let place = numbers.place(table.messages.len() + 1);
    table.messages.insert(place, m);
    give_counts(&mut table, numbers);
    let gone = MAX_COUNT - 1;
    let (event, counts) = match numbers.one_in(2) {
        true => (Event::Deliver(a, b), [gone, 0]),
        false => (Event::Lose(a, b), [0, gone]),
    };
    *count_mut(&mut table.traffic.sent, a, b) = MAX_COUNT;
    *count_mut(&mut table.traffic.delivered, a, b) = counts[0];
    *count_mut(&mut table.traffic.lost, a, b) = counts[1];
    (table, event)
}

/// Gives each pair of a table in range as many sent messages as the calls allow, or a few less: the sum of
/// both nodes' last call numbers, which come near their ends, without what is due.
pub fn raise_to_calls(table: &mut Table, numbers: &mut Numbers) {
    for node in &mut table.nodes[..usize::from(table.n)] {
        node.last_call = MAX_CALL - numbers.of(&[0, 0, 1, 2]);
    }
    let (due, waiting) = (due_by_calls(table), table.waiting());
    for (a, b) in pairs(table.n) {
        let calls = table.node(a).last_call + table.node(b).last_call;
        let sent = calls - count_of(&due, a, b) - numbers.of(&[0, 0, 0, 1, 2]);
        set_counts(&mut table.traffic, (a, b), sent, count_of(&waiting, a, b), numbers);
    }
}
