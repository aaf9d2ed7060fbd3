//! The potential of a table: a number that every accepted quiet event lowers, so that from a table no more of them are
//! accepted than it says; what the fall needs of a table; and the bound of the number. T-13: "at most 20,000
//! further events can be accepted if all of them are deliver, lose, expire, tick or finish". The weights and the bound are
//! those of the proofs; the papers have none.

use crate::machine::{Activity, Body, Event, Message, Node, Set, Status, Table};

/// Whether an event is one of T-13's: "deliver, lose, expire, tick or finish".
pub fn is_quiet(event: &Event) -> bool {
    use Event::*;
    matches!(event, Deliver(..) | Lose(..) | Expire(_) | Tick(_) | Finish(..))
}

fn count(set: Set) -> u64 {
    u64::from(set.count_ones())
}

/// What a waiting message adds. A reply is delivered, and that is all. A call is delivered, and its reply is. An
/// invitation is delivered, and then there are a call of Accept, its reply and the expiry of that call.
pub fn message_weight(m: &Message) -> u64 {
    match m.body {
        Body::Invitation { .. } => 4,
        Body::Reply { .. } => 1,
        _ => 2,
    }
}

/// What an activity of a node of n adds.
pub fn activity_weight(n: u8, activity: &Activity) -> u64 {
    let n = u64::from(n);
    let others = n.saturating_sub(1);
    match *activity {
        Activity::Idle => 0,
        Activity::Asking { asked, .. } => 3 * n.saturating_sub(u64::from(asked)) + 13 * others + 3,
        Activity::Waiting { ticks, .. } => 12 * others + 2 + u64::from(ticks),
        Activity::Inviting { found, former, .. } => {
            5 * (count(found) + count(former)) + 7 * others + 3
        }
        Activity::Collecting => 7 * others + 2,
        Activity::Handing { rest, .. } => 2 * count(rest) + 1,
        Activity::Contacting => 1,
        Activity::Forwarding { rest, .. } => 5 * count(rest) + 4,
        Activity::Accepting { .. } => 1,
    }
}

/// What the members of node i add: they count where an invitation would be forwarded to them, now or after a Ready.
pub fn members_weight(i: u8, node: &Node) -> u64 {
    match coordinates(i, node) {
        true => 5 * count(node.members),
        false => 0,
    }
}

/// Whether node i is in Reorganization or Normal and its own coordinator.
fn coordinates(i: u8, node: &Node) -> bool {
    reorganized(node) && node.coordinator == i
}

/// Whether node i is Normal and its own coordinator.
fn leads(i: u8, node: &Node) -> bool {
    node.status == Status::Normal && node.coordinator == i
}

/// Whether a node is in Reorganization or Normal.
pub fn reorganized(node: &Node) -> bool {
    matches!(node.status, Status::Reorganization | Status::Normal)
}

/// The potential: the sum over the nodes and the waiting messages.
pub fn potential(table: &Table) -> u64 {
    let nodes = (1..=table.n).map(|i| {
        let node = table.node(i);
        activity_weight(table.n, &node.activity) + members_weight(i, node)
    });
    nodes.sum::<u64>() + table.messages.iter().map(message_weight).sum::<u64>()
}

/// What the fall needs of a table, and every table of a run has: who asks or waits is Normal and its own coordinator,
/// and waits no more than n - 1 ticks; who invites or collects is in Election; who hands is in Reorganization or
/// Normal. The error says of which node it does not hold.
pub fn suited(table: &Table) -> Result<(), String> {
    for i in 1..=table.n {
        let node = table.node(i);
        let fits = match node.activity {
            Activity::Asking { .. } => leads(i, node),
            Activity::Waiting { ticks, .. } => leads(i, node) && ticks < table.n,
            Activity::Inviting { .. } | Activity::Collecting => node.status == Status::Election,
            Activity::Handing { .. } => reorganized(node),
            Activity::Idle
            | Activity::Contacting
            | Activity::Forwarding { .. }
            | Activity::Accepting { .. } => true,
        };
        if !fits {
            return Err(format!("node {i} is {:?} with {:?}", node.status, node.activity));
        }
    }
    Ok(())
}

/// No table of a run with n nodes and so many waiting messages has a larger potential: an own coordinator that asks
/// the first node and has all others as members adds 21 (n - 1) + 3, and no message more than 4.
pub fn rest_bound(n: u8, waiting: usize) -> u64 {
    let n = u64::from(n);
    n * (21 * n.saturating_sub(1) + 3) + 4 * waiting as u64
}

/// With turns of T-09 alone no message waits after so many of them, from a table of n nodes with this potential: of
/// any n × (n − 1) turns one accepts an event while a message waits.
pub fn turns_bound(n: u8, potential: u64) -> u64 {
    potential * u64::from(n) * u64::from(n).saturating_sub(1)
}
