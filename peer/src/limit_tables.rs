//! Random limits, and random tables for what T-08 of document 02 says of them: tables on which an event must
//! send a message and about as many wait as may, and tables that are out of range by their limits alone.

use crate::limit_corners::{PAIRS, THE_STAND, TOO_MANY, TOO_MANY_FROM, WRONG_N, WRONG_N_FROM};
use crate::machine::{
    count_of, Body, Event, Limits, Message, Table, MAX_COUNT, MAX_MESSAGES, MAX_NODES, STAND, TOWER,
};
use crate::numbers::Numbers;
use crate::tables::{near_ends, with_waiting};
use crate::traffic_corners::{need, Way, WAYS};
use crate::traffic_tables::{count_waiting, give_counts, sending, set_sent, Scene};

/// The tower's limits or the stand's, each as often.
pub fn any_limits(numbers: &mut Numbers) -> Limits {
    numbers.of(&[TOWER, STAND])
}

/// Limits that are no allowed pair.
pub fn wrong_pair(numbers: &mut Numbers) -> Limits {
    let which = numbers.place(PAIRS.len() + 1);
    pair(which, numbers)
}

/// The pair at this place of `PAIRS`, or, behind them, any other: near an allowed one, or of any bytes.
fn pair(which: usize, numbers: &mut Numbers) -> Limits {
    if let Some(&(nodes, messages)) = PAIRS.get(which) {
        return Limits { nodes, messages };
    }
    loop {
        let Limits { nodes, messages } = any_limits(numbers);
        let limits = match numbers.below(4) {
            0 => Limits { nodes: nodes ^ 1 << numbers.below(8), messages },
            1 => Limits { nodes, messages: messages ^ 1 << numbers.below(8) },
            2 => Limits { nodes: numbers.below(18) as u8, messages: numbers.below(66) as u8 },
            _ => Limits { nodes: numbers.byte(), messages: numbers.byte() },
        };
        let named = PAIRS.contains(&(limits.nodes, limits.messages));
        if ![TOWER, STAND].contains(&limits) && !named {
            return limits;
        }
    }
}

/// A table in range and an event that must send a message on it, in any way: as many wait as may, or one
/// less, or, in the tower, as many as may on the stand or one more. Where the queue of the stand is full,
/// what ground 12, 13 or 17 looks at is often at its end too.
pub fn to_fill(numbers: &mut Numbers) -> (Table, Event) {
    // Those that form a group come more often, since they have one end more.
    let forming = [Way::TickInvites, Way::ExpireMerges, Way::ReplyMerges];
    let way = if numbers.one_in(8) { numbers.of(&forming) } else { numbers.of(&WAYS).0 };
    let (own, stand) = (usize::from(TOWER.messages), usize::from(STAND.messages));
    let (limits, waiting) = match numbers.below(20) {
        0 | 1 => (STAND, stand - 1),
        2..=9 => (STAND, stand),
        10..=12 => (TOWER, stand),
        13..=15 => (TOWER, stand + 1),
        16 | 17 => (TOWER, own - 1),
        _ => (TOWER, own),
    };
    // One end at once, or none, or all that the way can meet.
    let full_stand = (limits, waiting) == (STAND, stand);
    let (end, all) = (numbers.below(3), numbers.one_in(8));
    let no_counter = full_stand && way.forms() && (all || end == 0 && numbers.one_in(2));
    let no_call = full_stand && way.calls() && (all || end == 1);
    let no_more = full_stand && (all || end == 2);
    let scene = Scene { way, limits, waiting: Some(waiting), no_call, no_counter };
    let (mut table, event) = sending(&scene, numbers);
    give_counts(&mut table, numbers);
    let need = need(&table, &event).expect("the event must send a message");
    let pair = (need.from, need.to);
    let least = count_of(&table.waiting(), need.from, need.to);
    let sent = if no_more { MAX_COUNT } else { near_ends(least, MAX_COUNT - 1, numbers) };
    set_sent(&mut table, pair, sent, numbers);
    (table, event)
}

/// A table that breaks one of the rules below `BROKEN`, and the same with limits, n or messages that are in
/// range. Where it can be, no other rule is broken.
pub fn to_break(which: usize, numbers: &mut Numbers) -> (Table, Table) {
    match which {
        ..WRONG_N_FROM => with_wrong_pair(which, numbers),
        WRONG_N_FROM..TOO_MANY_FROM => with_wrong_n(WRONG_N[which - WRONG_N_FROM], numbers),
        _ => with_too_many(TOO_MANY[which - TOO_MANY_FROM], numbers),
    }
}

/// The limits are no allowed pair; n and what waits are within them, but for a limit of 0 nodes.
fn with_wrong_pair(which: usize, numbers: &mut Numbers) -> (Table, Table) {
    let (wrong, right) = (pair(which, numbers), any_limits(numbers));
    let nodes = u32::from(wrong.nodes.clamp(1, right.nodes));
    let n = numbers.between(nodes.min(2), nodes) as u8;
    let most = if n == 1 { 0 } else { u32::from(wrong.messages.min(right.messages)) };
    let waiting = if numbers.one_in(2) { most } else { numbers.between(0, most) };
    let fine = with_waiting(n, right, waiting as usize, numbers);
    (Table { limits: wrong, ..fine.clone() }, fine)
}

fn limits_of(rig: usize) -> Limits {
    if rig == THE_STAND {
        STAND
    } else {
        TOWER
    }
}

/// n is 0 or over the limit of nodes. What is over it on the stand is in range in the tower.
fn with_wrong_n((rig, from, to): (usize, u8, u8), numbers: &mut Numbers) -> (Table, Table) {
    let limits = limits_of(rig);
    let n = numbers.between(u32::from(from), u32::from(to)) as u8;
    let fine_n = if n == 0 { numbers.between(1, 4) as u8 } else { n.min(MAX_NODES) };
    let most = if fine_n == 1 { 0 } else { u32::from(limits.messages) };
    let waiting = numbers.between(0, most) as usize;
    let fine = with_waiting(fine_n, TOWER, waiting, numbers);
    (Table { n, limits, ..fine.clone() }, fine)
}

/// More messages wait than may. What is too many on the stand is in range in the tower.
fn with_too_many((rig, from, to): (usize, u8, u8), numbers: &mut Numbers) -> (Table, Table) {
    let limits = limits_of(rig);
    let waiting = numbers.between(u32::from(from), u32::from(to)) as usize;
    let n = numbers.between(2, u32::from(limits.nodes)) as u8;
    let fine = with_waiting(n, TOWER, waiting.min(MAX_MESSAGES), numbers);
    let mut broken = Table { limits, ..fine.clone() };
    if waiting > MAX_MESSAGES {
        // In bytes they have no place, and are read as none.
        let none = Message { sender: 1, receiver: 2, call: 1, body: Body::AreYouCoordinator };
        broken.messages.resize(waiting, none);
        count_waiting(&mut broken);
    }
    (broken, fine)
}
