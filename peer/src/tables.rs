//! Random tables: in range, near the ends of the ranges, and with a number out of range.

use crate::check_corners::lowest_other;
use crate::drive::{any_node, full_peal, member, other_task};
use crate::limit_corners::BROKEN as BROKEN_LIMITS;
use crate::limit_tables::{any_limits, to_break, wrong_pair};
use crate::machine::{
    group_number, highest, only, owner, Activity, Body, Event, Limits, Message, Node, Set, Status,
    Table, MAX_CALL, MAX_COUNT, MAX_COUNTER, MAX_MESSAGES, MAX_NODES, MAX_TICKS, MIN_TASK, STAND,
    TOWER,
};
use crate::numbers::Numbers;
use crate::proved::{
    table_from_bytes, table_to_bytes, MESSAGES_AT, MESSAGE_BYTES, NODES_AT, NODE_BYTES, TABLE_BYTES,
};
use crate::traffic_corners::BROKEN;
use crate::traffic_tables::{
    break_counts, count_waiting, give_counts, move_counts_to_ends, set_sent,
};

/// A table in range, the tower's or the stand's.
pub fn in_range(numbers: &mut Numbers) -> Table {
    let limits = any_limits(numbers);
    let n = match numbers.below(16) {
        0 => 1,
        1..=3 => 2,
        4..=6 => 3,
        7 => limits.nodes,
        _ => numbers.between(2, u32::from(limits.nodes)) as u8,
    };
    of_nodes(n, limits, numbers)
}

/// A table of n nodes, in range.
pub fn of_nodes(n: u8, limits: Limits, numbers: &mut Numbers) -> Table {
    let most = u32::from(limits.messages);
    let waiting = match numbers.below(8) {
        _ if n == 1 => 0,
        0 => 0,
        1 | 2 => numbers.below(5),
        3 => most - 1,
        4 | 5 => most,
        _ => numbers.below(most + 1),
    };
    with_waiting(n, limits, waiting as usize, numbers)
}

/// A table of n nodes in which so many messages wait, in range if n and they are. With n = 1 there is no
/// pair to send one.
pub fn with_waiting(n: u8, limits: Limits, waiting: usize, numbers: &mut Numbers) -> Table {
    let mut table = Table::start(n, limits);
    for i in 1..=n {
        table.nodes[usize::from(i) - 1] = node(i, n, numbers);
    }
    add_messages(&mut table, waiting, numbers);
    give_counts(&mut table, numbers);
    table
}

/// Adds messages behind the others until so many wait.
pub fn add_messages(table: &mut Table, waiting: usize, numbers: &mut Numbers) {
    while table.messages.len() < waiting {
        let m = any_message(table, numbers);
        table.messages.push(m);
    }
}

/// A table and a node number for the records of a recovery. Mostly the table is in range and the node is
/// Down; now and then its group is already the one that the recovery forms, which no run has.
pub fn to_recover(numbers: &mut Numbers) -> (Table, u8) {
    let limits = any_limits(numbers);
    let n = match numbers.below(8) {
        0 => 1,
        1..=3 => limits.nodes,
        _ => numbers.between(1, u32::from(limits.nodes)) as u8,
    };
    let mut table = of_nodes(n, limits, numbers);
    let i = match numbers.below(8) {
        0 => match numbers.below(4) {
            0 => 0,
            1 if limits == STAND => STAND.nodes + 1,
            1 | 2 if n < MAX_NODES => numbers.between(u32::from(n) + 1, u32::from(MAX_NODES)) as u8,
            _ => numbers.between(u32::from(MAX_NODES) + 1, 255) as u8,
        },
        1 => 1,
        2 | 3 => n,
        _ => numbers.between(1, u32::from(n)) as u8,
    };
    if (1..=n).contains(&i) && !numbers.one_in(4) {
        // As after a crash.
        let node = &mut table.nodes[usize::from(i) - 1];
        (node.status, node.activity) = (Status::Down, Activity::Idle);
        if node.counter < MAX_COUNTER && numbers.one_in(4) {
            node.group = group_number(node.counter + 1, i);
        }
    }
    match numbers.below(16) {
        0..=2 => spoil(&mut table, numbers),
        3 => (table, _) = to_break(numbers.place(BROKEN_LIMITS), numbers),
        4 | 5 => table = scramble(&table, numbers),
        _ => {}
    }
    (table, i)
}

/// A table and a check on it, of a node with any status, coordinator and activity that the range allows, often
/// idle. What grounds 13, 14 and 17 look at is at its end in a third of them each. Now and then the table is
/// not in range, by something else or since the node is Down and not idle.
pub fn to_check(numbers: &mut Numbers) -> (Table, Event) {
    let limits = any_limits(numbers);
    let n = match numbers.below(8) {
        0 => 1,
        1 => 2,
        2 => limits.nodes,
        _ => numbers.between(2, u32::from(limits.nodes)) as u8,
    };
    let i = if numbers.one_in(4) { 1 } else { numbers.between(1, u32::from(n)) as u8 };
    let mut table = of_nodes(n, limits, numbers);
    let [no_call, full, no_more] = [0; 3].map(|_| numbers.one_in(3));
    let own = n == 1 || numbers.one_in(2);
    let node = &mut table.nodes[usize::from(i) - 1];
    node.status =
        numbers.of(&[Status::Down, Status::Election, Status::Reorganization, Status::Normal]);
    let owner = if own { i } else { other(i, n, numbers) };
    node.group = group_number(near_ends(1, MAX_COUNTER, numbers), owner);
    node.coordinator = owner;
    node.last_call = if no_call { MAX_CALL } else { near_ends(0, MAX_CALL - 1, numbers) };
    let activity = match n {
        _ if numbers.one_in(2) => 0,
        1 => numbers.of(&[2, 4, 6]),
        _ => numbers.between(1, if own { 6 } else { 8 }),
    };
    set_activity(node, activity, i, n, numbers);
    if node.status == Status::Down && !numbers.one_in(4) {
        node.activity = Activity::Idle;
        node.coordinator = numbers.of(&[0, owner]);
    }
    if n > 1 {
        let most = usize::from(limits.messages);
        table.messages.truncate(most - 1);
        if full {
            add_messages(&mut table, most, numbers);
        }
        give_counts(&mut table, numbers);
        if no_more {
            set_sent(&mut table, (i, lowest_other(i)), MAX_COUNT, numbers);
        }
    }
    let number = match numbers.below(16) {
        0 => any_node(n, numbers),
        1 if n < MAX_NODES => numbers.between(u32::from(n) + 1, u32::from(MAX_NODES)) as u8,
        _ => i,
    };
    if numbers.one_in(16) {
        spoil(&mut table, numbers);
    }
    (table, Event::Check(number))
}

/// A table and a few finishes of a node on it: mostly it collects, and the tasks are too low, of a full peal, and
/// another. Its members are often just enough for a full peal or one too few (T-10), and often they are up and in its
/// group. What grounds 13, 14 and 17 look at is at its end in a quarter of them each. Now and then the table is not
/// in range.
pub fn to_finish(numbers: &mut Numbers) -> (Table, Vec<Event>) {
    // Runs have fewer nodes.
    let (limits, n) = match numbers.below(16) {
        0 | 1 => (STAND, STAND.nodes),
        2 => (STAND, numbers.between(1, 4) as u8),
        3..=6 => (TOWER, numbers.between(1, 6) as u8),
        _ => (TOWER, numbers.between(7, 16) as u8),
    };
    let i = numbers.between(1, u32::from(n)) as u8;
    let ends = numbers.one_in(2);
    let [no_call, full, no_more] = [0; 3].map(|_| ends && numbers.one_in(2));
    let waiting = match n {
        1 => 0,
        _ if full => u32::from(limits.messages),
        _ => numbers.below(4),
    };
    let mut table = with_waiting(n, limits, waiting as usize, numbers);
    let enough = u32::from(n) / 2;
    let count = match numbers.below(16) {
        0..=5 => enough.saturating_sub(1),
        6..=12 => enough,
        _ => numbers.below(u32::from(n)),
    };
    let (mut members, mut others) = (0, (u16::MAX >> (MAX_NODES - n)) & !only(i));
    for _ in 0..count {
        let j = member(others, numbers);
        (members, others) = (members | only(j), others & !only(j));
    }
    let own = n == 1 || !numbers.one_in(4);
    let owner = if own { i } else { other(i, n, numbers) };
    let group = group_number(near_ends(1, MAX_COUNTER, numbers), owner);
    if numbers.one_in(2) {
        // A part of the others too, whose acceptances may be late.
        let there = members | part(others, numbers);
        for j in (1..=n).filter(|&j| there & only(j) != 0) {
            let node = &mut table.nodes[usize::from(j) - 1];
            node.status = numbers.of(&[Status::Election, Status::Reorganization]);
            (node.group, node.coordinator, node.activity) = (group, owner, Activity::Idle);
        }
    }
    let node = &mut table.nodes[usize::from(i) - 1];
    (node.group, node.coordinator, node.members) = (group, owner, members);
    node.last_call = if no_call { MAX_CALL } else { near_ends(0, MAX_CALL - 1, numbers) };
    node.task = if numbers.one_in(4) { full_peal(numbers) } else { node.task };
    let any_status = numbers.of(&[Status::Election, Status::Reorganization, Status::Normal]);
    node.status = if numbers.one_in(2) { Status::Election } else { any_status };
    let activity = match n {
        _ if !numbers.one_in(5) => 4,
        1 => numbers.of(&[0, 2, 6]),
        _ if own => numbers.below(7),
        _ => numbers.of(&[0, 1, 2, 3, 5, 6, 7, 7, 8, 8]),
    };
    set_activity(node, activity, i, n, numbers);
    if numbers.one_in(24) {
        (node.status, node.activity) = (Status::Down, Activity::Idle);
    }
    if no_more && members != 0 {
        set_sent(&mut table, (i, highest(members)), MAX_COUNT, numbers);
    }
    if numbers.one_in(16) {
        spoil(&mut table, numbers);
    }
    let number = match numbers.below(32) {
        0 => numbers.of(&[0, n + 1, 17, 255]),
        _ => i,
    };
    let low = numbers.below(u32::from(MIN_TASK)) as u16;
    let tasks = [numbers.of(&[99, low]), full_peal(numbers), other_task(numbers)];
    let from = numbers.of(&[0, 1, 1, 2]);
    (table, tasks[from..].iter().map(|&task| Event::Finish(number, task)).collect())
}

/// A number from low to high, often at an end.
pub fn near_ends(low: u32, high: u32, numbers: &mut Numbers) -> u32 {
    match numbers.below(8) {
        0 | 1 => low,
        2 => low + numbers.below(4),
        3 => high - 1,
        4 | 5 => high,
        6 => high - numbers.below(4),
        _ => numbers.between(low, high),
    }
}

fn group(n: u8, numbers: &mut Numbers) -> u32 {
    let owner = numbers.between(1, u32::from(n)) as u8;
    group_number(near_ends(1, MAX_COUNTER, numbers), owner)
}

/// A task that a finish can have, often at an end.
pub fn any_task(numbers: &mut Numbers) -> u16 {
    near_ends(u32::from(MIN_TASK), 65_535, numbers) as u16
}

/// A part of a set: often none of it or all of it.
pub fn part(set: Set, numbers: &mut Numbers) -> Set {
    let bits = numbers.bits();
    match numbers.below(6) {
        0 | 1 => 0,
        2 => set,
        3 => set & bits as Set & (bits >> 16) as Set,
        _ => set & bits as Set,
    }
}

/// A node of n other than i; n must be at least 2.
pub fn other(i: u8, n: u8, numbers: &mut Numbers) -> u8 {
    let j = numbers.between(1, u32::from(n) - 1) as u8;
    if j < i {
        j
    } else {
        j + 1
    }
}

/// The record of node i of n, in range.
pub fn node(i: u8, n: u8, numbers: &mut Numbers) -> Node {
    let others = (u16::MAX >> (MAX_NODES - n)) & !only(i);
    let mut node = Node {
        status: numbers.of(&[
            Status::Down,
            Status::Election,
            Status::Election,
            Status::Reorganization,
            Status::Reorganization,
            Status::Normal,
            Status::Normal,
            Status::Normal,
        ]),
        counter: near_ends(0, MAX_COUNTER, numbers),
        group: group(n, numbers),
        coordinator: 0,
        task: match numbers.below(4) {
            0 => 0,
            1 => u16::from(i),
            2 => numbers.bits() as u16,
            _ => any_task(numbers),
        },
        members: part(others, numbers),
        last_call: near_ends(0, MAX_CALL, numbers),
        activity: Activity::Idle,
    };
    if node.status == Status::Down {
        node.group = numbers.of(&[0, node.group]);
        node.coordinator = numbers.below(u32::from(n) + 1) as u8;
        return node;
    }
    if numbers.one_in(2) {
        node.group = group_number(node.group / 16, i);
    }
    let activity = if n == 1 { numbers.of(&[0, 2, 4, 6]) } else { numbers.below(9) };
    if activity > 6 {
        node.group = group_number(node.group / 16, other(i, n, numbers));
    }
    node.coordinator = owner(node.group);
    set_activity(&mut node, activity, i, n, numbers);
    node
}

/// Gives node i the activity of a number, with what it needs; 7 and 8 are forwarding and accepting, for a
/// node that is not its own coordinator. With n = 1 there are only 0, 2, 4 and 6.
pub fn set_activity(node: &mut Node, activity: u32, i: u8, n: u8, numbers: &mut Numbers) {
    let others = (u16::MAX >> (MAX_NODES - n)) & !only(i);
    let found = part(others, numbers);
    node.activity = match activity {
        0 => Activity::Idle,
        1 => {
            // Often the last, so that what comes after the last is met.
            let last = if i == n { n - 1 } else { n };
            let asked = if numbers.one_in(2) { last } else { other(i, n, numbers) };
            Activity::Asking { asked, found }
        }
        2 => {
            let ticks = numbers.of(&[1, 1, 2, MAX_TICKS]);
            Activity::Waiting { ticks, found }
        }
        3 => {
            // Often nobody is left, as after the last.
            let nobody = numbers.one_in(3);
            let former = part(others, numbers);
            let [found, former] = [found, former].map(|set| if nobody { 0 } else { set });
            Activity::Inviting { found, former, now: other(i, n, numbers) }
        }
        4 => Activity::Collecting,
        5 => {
            node.task = any_task(numbers);
            Activity::Handing { rest: found, now: other(i, n, numbers) }
        }
        6 => Activity::Contacting,
        k => {
            let caller = other(i, n, numbers);
            let call = near_ends(1, MAX_CALL, numbers);
            if k == 7 {
                Activity::Forwarding { rest: found, now: other(i, n, numbers), caller, call }
            } else {
                Activity::Accepting { caller, call }
            }
        }
    };
}

/// Puts the bytes of a record in another form that is read as the same: other bytes with the same remainder as status and activity, and
/// any bytes in what the activity does not have.
pub fn record_in_another_form(record: &mut [u8], numbers: &mut Numbers) {
    record[0] ^= numbers.byte() & !3;
    let tag = record[18] % 9;
    // Set 19 to 20, former 21 to 22, node 23, caller 24, call 25 to 28.
    let lacks = match tag {
        0 | 4 | 6 => [19..29, 0..0],
        1 | 2 | 5 => [21..23, 24..29],
        3 => [24..29, 0..0],
        7 => [21..23, 0..0],
        _ => [19..24, 0..0],
    };
    record[18] = tag + 9 * numbers.below(27) as u8;
    for places in lacks {
        numbers.fill(&mut record[places]);
    }
}

/// A message that often fits its receiver: in its group, or with the number of its open call. The table must
/// have two nodes or more.
pub fn any_message(table: &Table, numbers: &mut Numbers) -> Message {
    let n = table.n;
    let sender = numbers.between(1, u32::from(n)) as u8;
    let receiver = other(sender, n, numbers);
    message_to(n, sender, receiver, table.node(receiver), numbers)
}

/// The same for a receiver with this record.
pub fn message_to(n: u8, sender: u8, receiver: u8, to: &Node, numbers: &mut Numbers) -> Message {
    let group = match numbers.below(3) {
        0 if to.group != 0 => to.group,
        1 => group_number(near_ends(1, MAX_COUNTER, numbers), receiver),
        _ => group(n, numbers),
    };
    let own = to.coordinator == receiver && to.group != 0;
    let body = match (numbers.below(9), to.status) {
        (0, _) => Body::AreYouCoordinator,
        (1, _) if own => Body::AreYouThere { group: numbers.of(&[group, to.group]) },
        (1, _) => Body::AreYouThere { group },
        (2, _) => Body::Invitation { group },
        (3, _) => Body::Accept { group },
        (4, _) => Body::Ready { group, task: any_task(numbers) },
        // One that its receiver does more with than reply.
        (5, Status::Normal) if own => {
            Body::Invitation { group: group_number(near_ends(1, MAX_COUNTER, numbers), sender) }
        }
        // One to the group that its receiver holds, or to another of its coordinator's.
        (5, Status::Normal) => {
            let other = group_number(near_ends(1, MAX_COUNTER, numbers), to.coordinator);
            Body::Invitation { group: numbers.of(&[to.group, to.group, other]) }
        }
        (5, Status::Election) if own => Body::Accept { group: to.group },
        (5, Status::Reorganization) => Body::Ready { group: to.group, task: any_task(numbers) },
        _ => Body::Reply { yes: numbers.one_in(2) },
    };
    let call = match body {
        Body::Reply { .. } if to.last_call > 0 && !numbers.one_in(3) => to.last_call,
        _ => near_ends(1, MAX_CALL, numbers),
    };
    Message { sender, receiver, call, body }
}

/// Moves some of the counters, call numbers and counts of a table to their ends, or just before them.
pub fn move_to_ends(table: &mut Table, numbers: &mut Numbers) {
    for node in &mut table.nodes[..usize::from(table.n)] {
        if numbers.one_in(2) {
            node.counter = MAX_COUNTER - numbers.below(3);
        }
        if numbers.one_in(2) {
            node.last_call = MAX_CALL - numbers.below(4);
        }
    }
    move_counts_to_ends(table, numbers);
}

/// Changes a number of a table, mostly so that it is just out of range.
pub fn spoil(table: &mut Table, numbers: &mut Numbers) {
    if numbers.one_in(8) && break_counts(table, numbers.place(BROKEN.len()), numbers) {
        return;
    }
    if numbers.one_in(12) {
        table.limits = wrong_pair(numbers);
        return;
    }
    let Limits { nodes: most_nodes, messages: most } = table.limits;
    let n = table.n;
    let i = numbers.between(1, u32::from(n)) as u8;
    let k = usize::from(i) - 1;
    let above = numbers.of(&[n.wrapping_add(1), 17, 255]);
    let wrong_node = numbers.of(&[0, i, above]);
    let wrong_set = if n == MAX_NODES || numbers.one_in(2) { only(i) } else { only(n + 1) };
    let wrong_call = numbers.of(&[0, MAX_CALL + 1, u32::MAX]);
    let wrong_group = numbers.of(&[
        0,
        u32::from(i) - 1,
        15,
        16 + u32::from(n % 16),
        (MAX_COUNTER + 1) * 16,
        u32::MAX,
        u32::MAX - 15,
    ]);
    let node = &mut table.nodes[k];
    match numbers.below(24) {
        0 => node.counter = numbers.of(&[MAX_COUNTER + 1, u32::MAX]),
        1 | 2 => node.group = wrong_group,
        3 => node.coordinator = numbers.of(&[0, i, above, n]),
        4 => node.members |= wrong_set,
        5 => node.last_call = numbers.of(&[MAX_CALL + 1, u32::MAX]),
        6 => node.status = Status::Down,
        7 => node.task = numbers.of(&[0, 99, 100, 65_535]),
        8..=13 => spoil_activity(&mut node.activity, numbers, wrong_node, wrong_set, wrong_call),
        14 => {
            // A forwarding or accepting node that is its own coordinator, or another activity.
            node.group = group_number(1, i);
            node.coordinator = i;
        }
        15 | 16 => table.n = numbers.of(&[0, most_nodes + 1, 17, 18, 32, 255]),
        17 => {
            let waiting = usize::from(numbers.of(&[most + 1, most + 2, 65, 128, 255]));
            let none = Message { sender: 1, receiver: 2, call: 1, body: Body::AreYouCoordinator };
            table.messages.resize(waiting, none);
            count_waiting(table);
        }
        _ if table.messages.is_empty() => node.members |= wrong_set,
        what => {
            let place = numbers.place(table.messages.len());
            spoil_message(
                &mut table.messages[place],
                what,
                numbers,
                above,
                wrong_call,
                wrong_group,
            );
        }
    }
}

fn spoil_activity(
    activity: &mut Activity,
    numbers: &mut Numbers,
    wrong_node: u8,
    wrong_set: Set,
    wrong_call: u32,
) {
    let first = numbers.one_in(2);
    match activity {
        Activity::Idle | Activity::Collecting | Activity::Contacting => {
            *activity = Activity::Asking { asked: wrong_node, found: 0 };
        }
        Activity::Asking { asked, .. } if first => *asked = wrong_node,
        Activity::Asking { found, .. } => *found |= wrong_set,
        Activity::Waiting { ticks, .. } if first => *ticks = numbers.of(&[0, MAX_TICKS + 1, 255]),
        Activity::Waiting { found, .. } => *found |= wrong_set,
        Activity::Inviting { now, .. } if first => *now = wrong_node,
        Activity::Inviting { found, former, .. } => {
            *if numbers.one_in(2) { found } else { former } |= wrong_set;
        }
        Activity::Handing { now, .. } if first => *now = wrong_node,
        Activity::Handing { rest, .. } => *rest |= wrong_set,
        Activity::Forwarding { rest, now, caller, call } => match numbers.below(4) {
            0 => *rest |= wrong_set,
            1 => *now = wrong_node,
            2 => *caller = wrong_node,
            _ => *call = wrong_call,
        },
        Activity::Accepting { caller, .. } if first => *caller = wrong_node,
        Activity::Accepting { call, .. } => *call = wrong_call,
    }
}

fn spoil_message(
    m: &mut Message,
    what: u32,
    numbers: &mut Numbers,
    above: u8,
    wrong_call: u32,
    wrong_group: u32,
) {
    match what {
        18 => m.sender = numbers.of(&[0, m.receiver, above]),
        19 => m.receiver = numbers.of(&[0, m.sender, above]),
        20 => m.call = wrong_call,
        21 => m.body = Body::Unknown { kind: numbers.of(&[0, 7, 8, 255]) },
        _ => match &mut m.body {
            Body::Ready { task, .. } if numbers.one_in(2) => *task = numbers.of(&[0, 99]),
            Body::AreYouThere { group }
            | Body::Invitation { group }
            | Body::Accept { group }
            | Body::Ready { group, .. } => *group = wrong_group,
            _ => m.call = wrong_call,
        },
    }
}

/// Changes a few bytes of the table's bytes, and gives what they then mean.
pub fn scramble(table: &Table, numbers: &mut Numbers) -> Table {
    let mut bytes = [0; TABLE_BYTES];
    table_to_bytes(table, &mut bytes);
    for _ in 0..numbers.between(1, 4) {
        // Two thirds of them in the nodes and messages that are part of the table.
        let place = match numbers.below(3) {
            0 => NODES_AT + numbers.place(NODE_BYTES * usize::from(table.n)),
            1 if !table.messages.is_empty() => {
                let waiting = table.messages.len().min(MAX_MESSAGES);
                MESSAGES_AT + numbers.place(MESSAGE_BYTES * waiting)
            }
            _ => numbers.place(TABLE_BYTES),
        };
        bytes[place] = match numbers.below(3) {
            0 => bytes[place] ^ 1 << numbers.below(8),
            1 => bytes[place].wrapping_add(1),
            _ => numbers.byte(),
        };
    }
    table_from_bytes(&bytes)
}
