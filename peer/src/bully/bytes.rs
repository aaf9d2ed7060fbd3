//! The Bully machine behind the library's boundary: its table in bytes, and its events as fields.

use crate::bully::machine::{Event, Node, Place, Table};
use crate::list::first_field;
use crate::machine::{Set, MAX_NODES};
use crate::proved::{status_from_byte, two, whole, TOO_SHORT};
use std::ops::Range;

pub const NODE_BYTES: usize = 12;
pub const TABLE_BYTES: usize = 1 + MAX_NODES as usize * NODE_BYTES;

/// A table in bytes, numbers high byte first: n, and 16 nodes.
pub type TableBytes = [u8; TABLE_BYTES];

/// The library's step by any machine, which is to answer 1 on a table that is not in range.
pub fn bully_step_by(
    machine: impl Fn(&mut Table, &Event) -> Result<(), u8>,
    table: &[u8],
    field: &[u8],
    out: &mut [u8],
) -> u8 {
    let Some(out) = out.first_chunk_mut() else {
        return TOO_SHORT;
    };
    let mut table = table_from_bytes(&whole(table));
    match first_event(field).and_then(|event| machine(&mut table, &event)) {
        Ok(()) => {
            *out = table_to_bytes(&table);
            0
        }
        Err(number) => number,
    }
}

/// What is no part of a table after an accepted event: all behind its n nodes.
pub fn free(table: &[u8]) -> Range<usize> {
    let n = table.first().map_or(0, |&n| usize::from(n.min(MAX_NODES)));
    (1 + n * NODE_BYTES).min(table.len())..table.len()
}

/// A table as bytes. The nodes above n get 0.
pub fn table_to_bytes(table: &Table) -> TableBytes {
    let mut bytes = [0; TABLE_BYTES];
    bytes[0] = table.n;
    let n = usize::from(table.n.min(MAX_NODES));
    let (places, _) = bytes[1..].as_chunks_mut();
    for (node, place) in table.nodes[..n].iter().zip(places) {
        *place = node_to_bytes(node);
    }
    bytes
}

/// Reads a table. Nodes above n are as in the table of all Down.
pub fn table_from_bytes(bytes: &TableBytes) -> Table {
    let mut table = Table::start(bytes[0]);
    let n = usize::from(table.n.min(MAX_NODES));
    let (places, _) = bytes[1..].as_chunks();
    for (node, place) in table.nodes[..n].iter_mut().zip(places) {
        *node = node_from_bytes(place);
    }
    table
}

/// A place's number, 0 to 7, its node and its set still; what it does not have is 0.
pub fn place_numbers(place: &Place) -> (u8, u8, Set) {
    match *place {
        Place::Idle => (0, 0, 0),
        Place::Asking(j) => (1, j, 0),
        Place::Halting(j) => (2, j, 0),
        Place::Announcing { now, still } => (3, now, still),
        Place::Point => (4, 0, 0),
        Place::Handing { now, still } => (5, now, still),
        Place::Checking(j) => (6, j, 0),
        Place::Contacting => (7, 0, 0),
    }
}

/// runs 1, status 1, coordinator 1, task 2, last halter 1, Up 2, place 1, node 1, still 2
fn node_to_bytes(x: &Node) -> [u8; NODE_BYTES] {
    let (place, node, still) = place_numbers(&x.place);
    let [[task_high, task_low], [up_high, up_low], [still_high, still_low]] =
        [x.task, x.up, still].map(u16::to_be_bytes);
    [
        u8::from(x.runs),
        x.status as u8,
        x.coordinator,
        task_high,
        task_low,
        x.halter,
        up_high,
        up_low,
        place,
        node,
        still_high,
        still_low,
    ]
}

/// Runs is the lowest bit, and status and place are read by their remainders. What a place does not have is
/// read past.
fn node_from_bytes(bytes: &[u8; NODE_BYTES]) -> Node {
    let (node, still) = (bytes[9], two(&bytes[10..12]));
    Node {
        runs: bytes[0] % 2 == 1,
        status: status_from_byte(bytes[1]),
        coordinator: bytes[2],
        task: two(&bytes[3..5]),
        halter: bytes[5],
        up: two(&bytes[6..8]),
        place: match bytes[8] % 8 {
            0 => Place::Idle,
            1 => Place::Asking(node),
            2 => Place::Halting(node),
            3 => Place::Announcing { now: node, still },
            4 => Place::Point,
            5 => Place::Handing { now: node, still },
            6 => Place::Checking(node),
            _ => Place::Contacting,
        },
    }
}

/// The event of the first field of some bytes, or refusal 3, 4 or 5. What stands behind that field is not
/// looked at.
pub fn first_event(bytes: &[u8]) -> Result<Event, u8> {
    let field = first_field(bytes)?;
    match (field.tag, field.contents) {
        (0x10, &[i]) => Ok(Event::Crash(i)),
        (0x11, &[i]) => Ok(Event::Recover(i)),
        (0x12, &[i]) => Ok(Event::Check(i)),
        (0x13, &[i]) => Ok(Event::Timeout(i)),
        (0x16, &[i, high, low]) => Ok(Event::Finish(i, u16::from_be_bytes([high, low]))),
        (0x19, &[i]) => Ok(Event::GoOn(i)),
        (0x10..=0x13 | 0x16 | 0x19, _) => Err(5),
        _ => Err(4),
    }
}

/// The field of an event.
pub fn event_to_field(event: &Event) -> Vec<u8> {
    let one = |tag: u8, i: u8| vec![tag, 0, 1, i];
    match *event {
        Event::Crash(i) => one(0x10, i),
        Event::Recover(i) => one(0x11, i),
        Event::Check(i) => one(0x12, i),
        Event::Timeout(i) => one(0x13, i),
        Event::Finish(i, task) => {
            let [high, low] = task.to_be_bytes();
            vec![0x16, 0, 3, i, high, low]
        }
        Event::GoOn(i) => one(0x19, i),
    }
}
