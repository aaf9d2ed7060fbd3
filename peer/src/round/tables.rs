//! Random tables for the turns of T-09: on which deliveries meet 12, 13 or 17, with long lines of messages of one
//! pair and equal ones among them, not in range, and in other forms of the same bytes; and random places.

use crate::drive::run;
use crate::limit_corners::BROKEN as BROKEN_LIMITS;
use crate::limit_tables::{any_limits, to_break};
use crate::machine::{advance, Activity, Event, Status, Table, MAX_COUNT, MAX_NODES};
use crate::numbers::Numbers;
use crate::proved::{
    fill_unused, TableBytes, MESSAGES_AT, MESSAGE_BYTES, NODES_AT, NODE_BYTES, TABLE_BYTES,
    WAITING_AT,
};
use crate::round::bound::pair_of;
use crate::round::driver::Place;
use crate::tables::{in_range, move_to_ends, of_nodes, other, record_in_another_form, spoil};
use crate::traffic_corners::{need, Way, WAYS};
use crate::traffic_tables::{give_counts, sending, set_sent, Scene};

/// Any pair of n nodes; with n = 1 any place at all, which often looks like a pair.
pub fn any_place(n: u8, numbers: &mut Numbers) -> Place {
    match n {
        1 if numbers.one_in(2) => {
            let a = numbers.between(1, u32::from(MAX_NODES)) as u8;
            (a, other(a, MAX_NODES, numbers))
        }
        1 => {
            let any = (numbers.byte(), numbers.byte());
            numbers.of(&[(0, 0), (1, 1), (0, 1), (1, 0), (255, 255), any])
        }
        _ => {
            let a = numbers.between(1, u32::from(n)) as u8;
            (a, other(a, n, numbers))
        }
    }
}

/// A place that is no pair of n nodes, by one of its numbers or by both.
pub fn no_pair(n: u8, numbers: &mut Numbers) -> Place {
    let (a, b) = any_place(n.clamp(2, MAX_NODES), numbers);
    let up_to_16 = numbers.between(u32::from(n.min(15)) + 1, u32::from(MAX_NODES)) as u8;
    let over_16 = numbers.between(u32::from(MAX_NODES) + 1, 255) as u8;
    let over = if n < MAX_NODES { numbers.of(&[up_to_16, over_16]) } else { over_16 };
    match numbers.below(8) {
        0 => (0, b),
        1 => (a, 0),
        2 | 3 => (over, b),
        4 | 5 => (a, over),
        6 => (a, a),
        _ => numbers.of(&[(0, 0), (over, over), (over, 0), (0, over)]),
    }
}

/// A table in range, and a pair of it for which it was made, if it was made for one.
pub fn to_turn(numbers: &mut Numbers) -> (Table, Option<Place>) {
    match numbers.below(8) {
        0..=2 => {
            let (table, pair) = to_lose(numbers);
            (table, Some(pair))
        }
        3 => (of_a_run(numbers), None),
        4 => {
            let limits = any_limits(numbers);
            let n = numbers.between(1, u32::from(limits.nodes)) as u8;
            (of_nodes(n, limits, numbers), None)
        }
        _ => {
            let mut table = in_range(numbers);
            if table.messages.is_empty() {
                return (table, None);
            }
            let m = table.messages[numbers.place(table.messages.len())];
            line_up(&mut table, pair_of(&m), numbers);
            if numbers.one_in(4) {
                set_down(&mut table, m.receiver);
            }
            give_counts(&mut table, numbers);
            (table, Some(pair_of(&m)))
        }
    }
}

/// As after a crash.
fn set_down(table: &mut Table, i: u8) {
    let node = &mut table.nodes[usize::from(i) - 1];
    (node.status, node.activity) = (Status::Down, Activity::Idle);
}

/// The table of a random run, with its numbers near their ends or not.
fn of_a_run(numbers: &mut Numbers) -> Table {
    let limits = any_limits(numbers);
    let n = numbers.between(2, u32::from(limits.nodes).min(8)) as u8;
    let length = numbers.between(20, 200) as usize;
    let mut table = Table::start(n, limits);
    for event in run(n, limits, length, numbers) {
        let _ = advance(&mut table, &event);
    }
    if numbers.one_in(2) {
        move_to_ends(&mut table, numbers);
    }
    table
}

/// Makes a part of the messages behind the oldest of a pair messages of that pair too, of which one may be equal
/// to an older one. The counts are no longer right.
fn line_up(table: &mut Table, pair: Place, numbers: &mut Numbers) {
    let of_pair = |table: &Table| -> Vec<usize> {
        (0..table.messages.len()).filter(|&at| pair_of(&table.messages[at]) == pair).collect()
    };
    let oldest = of_pair(table)[0];
    let times = numbers.of(&[1, 2, 4, 16]);
    for m in &mut table.messages[oldest + 1..] {
        if numbers.one_in(times) {
            (m.sender, m.receiver) = pair;
        }
    }
    let places = of_pair(table);
    if places.len() > 1 && !numbers.one_in(4) {
        let youngest = places.len() - 1;
        let any = numbers.between(1, youngest as u32) as usize;
        let younger = numbers.of(&[any, youngest]);
        table.messages[places[younger]] = table.messages[places[numbers.place(younger)]];
    }
}

/// A table in range and a pair whose oldest message meets 12, 13 or 17 where it is delivered.
fn to_lose(numbers: &mut Numbers) -> (Table, Place) {
    let ground = numbers.of(&[12, 12, 13, 17]);
    let fits = |way: Way| match ground {
        12 => way == Way::ReplyMerges,
        13 => way.delivers() && way.calls(),
        _ => way.delivers(),
    };
    let ways: Vec<Way> = WAYS.iter().map(|&(way, _)| way).filter(|&way| fits(way)).collect();
    let limits = any_limits(numbers);
    let waiting = numbers.one_in(3).then_some(usize::from(limits.messages));
    let (no_call, no_counter) = (ground == 13, ground == 12);
    let scene = Scene { way: numbers.of(&ways), limits, waiting, no_call, no_counter };
    let (mut table, event) = sending(&scene, numbers);
    let Event::Deliver(a, b) = event else {
        unreachable!("all these ways are a delivery's");
    };
    if ground == 12 && numbers.one_in(2) {
        // The reply, which is a no, makes it recover.
        table.nodes[usize::from(b) - 1].activity = Activity::Contacting;
    }
    line_up(&mut table, (a, b), numbers);
    give_counts(&mut table, numbers);
    if let (17, Some(need)) = (ground, need(&table, &event)) {
        set_sent(&mut table, (need.from, need.to), MAX_COUNT, numbers);
    }
    (table, (a, b))
}

/// A table that is not in range, mostly by one thing alone.
pub fn not_in_range(numbers: &mut Numbers) -> Table {
    loop {
        let limits = any_limits(numbers);
        let n = match numbers.below(4) {
            0 => 1,
            _ => numbers.between(1, u32::from(limits.nodes)) as u8,
        };
        let mut table = of_nodes(n, limits, numbers);
        match numbers.below(8) {
            0 => table.n = 0,
            1 => table.n = numbers.between(u32::from(limits.nodes) + 1, 255) as u8,
            2 => (table, _) = to_break(numbers.place(BROKEN_LIMITS), numbers),
            _ => spoil(&mut table, numbers),
        }
        if !table.in_range() {
            return table;
        }
    }
}

/// A table in bytes in another form that is read as the same: other bytes with the same remainder as status,
/// activity, and yes or no, any bytes in what an activity or a message's kind does not have and in what is no part
/// of the table; and now and then bytes behind it.
pub fn in_another_form(bytes: &TableBytes, numbers: &mut Numbers) -> Vec<u8> {
    let mut form = *bytes;
    let n = usize::from(form[0].min(MAX_NODES));
    for record in form[NODES_AT..MESSAGES_AT].chunks_exact_mut(NODE_BYTES).take(n) {
        record_in_another_form(record, numbers);
    }
    let waiting = usize::from(form[WAITING_AT]);
    for message in form[MESSAGES_AT..WAITING_AT].chunks_exact_mut(MESSAGE_BYTES).take(waiting) {
        if message[2] == 6 {
            message[13] ^= numbers.byte() & !1;
        }
    }
    fill_unused(&mut form, numbers);
    let mut longer = vec![0; numbers.of(&[0, 0, 1, 40])];
    numbers.fill(&mut longer);
    [&form[..], &longer].concat()
}

/// A table in bytes that is cut short.
pub fn cut_short(bytes: &TableBytes, numbers: &mut Numbers) -> Vec<u8> {
    let length = match numbers.below(4) {
        0 => TABLE_BYTES - 1,
        1 => TABLE_BYTES - 2,
        _ => numbers.place(TABLE_BYTES),
    };
    bytes[..length].to_vec()
}
