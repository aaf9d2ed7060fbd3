//! The named types of the crate `nevraspu` against the peer's: what both read from the same tables, in range or not, and
//! the fields and words of events.

use nevraspu as named;
use peer::bully;
use peer::compare::event_words;
use peer::drive::any_event;
use peer::list::write_event;
use peer::machine::*;
use peer::numbers::Numbers;
use peer::proved::{fill_unused, node_from_bytes, table_to_bytes, TABLE_BYTES};
use peer::tables::{in_range, scramble, spoil};
use std::collections::HashSet;

fn status(status: named::Status) -> u8 {
    status as u8
}

fn set(set: named::Cabinets) -> Set {
    set.iter().inspect(|&i| assert!(set.contains(i))).map(only).sum()
}

fn activity(activity: named::Activity) -> Activity {
    use named::Activity::*;
    match activity {
        Idle => Activity::Idle,
        Asking { asked, found } => Activity::Asking { asked, found: set(found) },
        Waiting { ticks, found } => Activity::Waiting { ticks, found: set(found) },
        Inviting { now, found, former } => {
            Activity::Inviting { now, found: set(found), former: set(former) }
        }
        Collecting => Activity::Collecting,
        Handing { now, still } => Activity::Handing { now, rest: set(still) },
        Contacting => Activity::Contacting,
        Forwarding { now, still, caller, call } => {
            Activity::Forwarding { now, rest: set(still), caller, call }
        }
        Accepting { caller, call } => Activity::Accepting { caller, call },
    }
}

fn same_record(record: &named::Record, node: &Node) {
    assert_eq!(status(record.status), node.status as u8);
    assert_eq!((record.counter, record.group, record.task), (node.counter, node.group, node.task));
    assert_eq!((record.coordinator, record.last_call), (node.coordinator, node.last_call));
    assert_eq!(set(record.members), node.members);
    assert_eq!(record.members.len(), node.members.count_ones() as usize);
    assert_eq!(activity(record.activity), node.activity);
    assert_eq!(node_from_bytes(&record.to_bytes()), *node);
}

fn message(message: &named::Message) -> Message {
    let named::Message { sender, receiver, call, body } = *message;
    let body = match body {
        named::Body::AreYouCoordinator => Body::AreYouCoordinator,
        named::Body::AreYouThere { group } => Body::AreYouThere { group },
        named::Body::Invitation { group } => Body::Invitation { group },
        named::Body::Accept { group } => Body::Accept { group },
        named::Body::Ready { group, task } => Body::Ready { group, task },
        named::Body::Reply { yes } => Body::Reply { yes },
        named::Body::Unknown { kind } => Body::Unknown { kind },
    };
    Message { sender, receiver, call, body }
}

fn event(event: &Event) -> named::Event {
    match *event {
        Event::Crash(i) => named::Event::Crash(i),
        Event::Recover(i) => named::Event::Recover(i),
        Event::Check(i) => named::Event::Check(i),
        Event::Timeout(i) => named::Event::Timeout(i),
        Event::Tick(i) => named::Event::Tick(i),
        Event::Expire(i) => named::Event::Expire(i),
        Event::Finish(cabinet, task) => named::Event::Finish { cabinet, task },
        Event::Deliver(sender, receiver) => named::Event::Deliver { sender, receiver },
        Event::Lose(sender, receiver) => named::Event::Lose { sender, receiver },
    }
}

/// What both read of a table.
fn same_table(read: &named::Table, table: &Table) {
    assert_eq!(read.cabinets(), table.n);
    let limits = Limits { nodes: read.most_cabinets(), messages: read.most_messages() };
    assert_eq!(limits, table.limits);
    for i in 0..=255 {
        let there = (1..=table.n.min(MAX_NODES)).contains(&i);
        assert_eq!(read.record(i).is_some(), there);
        read.record(i).iter().for_each(|record| same_record(record, table.node(i)));
    }
    let messages: Vec<Message> = read.messages().iter().map(message).collect();
    assert_eq!(messages, table.messages[..table.messages.len().min(MAX_MESSAGES)]);
    for (a, b) in (0..=17).flat_map(|a| (0..=17).map(move |b| (a, b))) {
        let there = a != b && [a, b].iter().all(|i| (1..=table.n.min(MAX_NODES)).contains(i));
        let Traffic { sent, delivered, lost } = &table.traffic;
        let counts = there.then(|| named::Counts {
            sent: count_of(sent, a, b),
            delivered: count_of(delivered, a, b),
            lost: count_of(lost, a, b),
        });
        assert_eq!(read.counts(named::Pair::new(a, b)), counts);
    }
}

#[test]
fn tables_and_steps() {
    let mut numbers = Numbers::new(1);
    let mut accepted = 0;
    for k in 0..12_000 {
        let mut table = in_range(&mut numbers);
        match k % 4 {
            1 => spoil(&mut table, &mut numbers),
            2 => table = scramble(&table, &mut numbers),
            _ => {}
        }
        let mut bytes = [0; TABLE_BYTES];
        table_to_bytes(&table, &mut bytes);
        if k % 2 == 0 {
            fill_unused(&mut bytes, &mut numbers);
        }
        let read = named::Table::from_bytes(&bytes);
        same_table(&read, &table);
        let any = any_event(table.n.clamp(1, MAX_NODES), &mut numbers);
        let before = table.clone();
        match (read.step(event(&any)), step(&mut table, &any)) {
            (Ok(after), Ok(())) => same_table(&after, &table),
            (Err(refusal), Err(number)) => assert_eq!(refusal.number(), number),
            (named, own) => panic!("{any:?}: {named:?}, here {own:?}"),
        }
        accepted += usize::from(before != table);
        let i = numbers.between(0, 17) as u8;
        match (read.recovery(i), recovery(&before, i)) {
            (Ok(named), Ok(own)) => {
                named.iter().zip(&own).for_each(|(record, node)| same_record(record, node))
            }
            (Err(refusal), Err(number)) => assert_eq!(refusal.number(), number),
            (named, own) => panic!("recovery of {i}: {named:?}, here {own:?}"),
        }
    }
    assert!(accepted > 1000, "{accepted}");
}

#[test]
fn starting_tables() {
    for n in 0..=255 {
        same_table(&named::Table::tower(n), &Table::start(n, TOWER));
        same_table(&named::Table::stand(n), &Table::start(n, STAND));
    }
}

#[test]
fn events() {
    let mut numbers = Numbers::new(1);
    for _ in 0..3000 {
        let any = any_event(16, &mut numbers);
        let mut field = Vec::new();
        write_event(&mut field, &any);
        assert_eq!(event(&any).field(), field);
        assert_eq!(event(&any).to_string(), event_words(&any));
    }
}

/// What both read of a table of the Bully machine.
fn same_bully_table(read: &named::bully::Table, table: &bully::machine::Table) {
    use bully::machine::Place;
    use named::bully::Place::*;
    assert_eq!(read.cabinets(), table.n);
    for i in 0..=255 {
        assert_eq!(read.record(i).is_some(), (1..=table.n).contains(&i));
    }
    for i in 1..=table.n {
        let (record, node) = (read.record(i).unwrap(), table.node(i));
        assert_eq!((record.runs, status(record.status)), (node.runs, node.status as u8));
        assert_eq!((record.coordinator, record.task), (node.coordinator, node.task));
        assert_eq!((record.halter, set(record.up)), (node.halter, node.up));
        let place = match record.place {
            Idle => Place::Idle,
            Asking(i) => Place::Asking(i),
            Halting(i) => Place::Halting(i),
            Announcing { now, still } => Place::Announcing { now, still: set(still) },
            ReorganizationPoint => Place::Point,
            Handing { now, still } => Place::Handing { now, still: set(still) },
            Checking(i) => Place::Checking(i),
            Contacting => Place::Contacting,
        };
        assert_eq!(place, node.place);
    }
}

#[test]
fn bully_tables_and_steps() {
    use bully::machine::{step, Event};
    use named::bully::Event as Named;
    let mut numbers = Numbers::new(1);
    let (mut places, mut accepted) = (HashSet::new(), 0);
    for _ in 0..12_000 {
        let mut table = bully::tables::in_range(&mut numbers);
        let read = named::bully::Table::from_bytes(&bully::bytes::table_to_bytes(&table));
        same_bully_table(&read, &table);
        places.extend((1..=table.n).map(|i| bully::bytes::place_numbers(&table.node(i).place).0));
        let any = bully::runs::any_event(table.n, &mut numbers);
        let event = match any {
            Event::Crash(i) => Named::Crash(i),
            Event::Recover(i) => Named::Recover(i),
            Event::Check(i) => Named::Check(i),
            Event::Timeout(i) => Named::Timeout(i),
            Event::GoOn(i) => Named::GoOn(i),
            Event::Finish(cabinet, task) => Named::Finish { cabinet, task },
        };
        assert_eq!(event.field(), bully::bytes::event_to_field(&any));
        match (read.step(event), step(&mut table, &any)) {
            (Ok(after), Ok(())) => {
                same_bully_table(&after, &table);
                accepted += 1;
            }
            (Err(refusal), Err(number)) => assert_eq!(refusal.number(), number),
            (named, own) => panic!("{any:?}: {named:?}, here {own:?}"),
        }
    }
    assert_eq!(places.len(), 8);
    assert!(accepted > 1000, "{accepted}");
    for n in 1..=16 {
        same_bully_table(&named::bully::Table::start(n), &bully::machine::Table::start(n));
    }
}
