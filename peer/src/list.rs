//! The reader of event lists: bytes into n and events, with refusals 2 to 6 and their places.

use crate::machine::{Event, Limits, STAND, TOWER};

pub const MAX_LIST: usize = 65_536;

/// The first field's tags, with the limits that each gives. T-08: "A list meant for the stand gives them by a
/// first tag of 0x02 instead of 0x01, with the same byte n."
pub const FIRST_TAGS: [(u8, Limits); 2] = [(0x01, TOWER), (0x02, STAND)];

/// A refusal that ends the list: "the offset b of its field's tag (0 for the whole list)" and the
/// number.
#[derive(Clone, Copy, Debug, PartialEq, Eq)]
pub struct Stop {
    pub offset: usize,
    pub number: u8,
}

/// What a list says: n and the limits, "the events ... before the list ends or stops", and where it stopped
/// if it did.
#[derive(Clone, Debug, PartialEq, Eq)]
pub struct List {
    pub n: u8,
    pub limits: Limits,
    pub events: Vec<Event>,
    pub stop: Option<Stop>,
}

/// Reads a list. The error is a refusal of the whole list or of the first field.
pub fn read_list(list: &[u8]) -> Result<List, Stop> {
    if list.len() > MAX_LIST {
        return Err(Stop { offset: 0, number: 2 });
    }
    let first = read_field(list, 0)?;
    let (n, limits) = read_n(&first).map_err(|number| Stop { offset: 0, number })?;
    let mut events = Vec::new();
    let mut at = first.end;
    while at < list.len() {
        let event = read_field(list, at).and_then(|field| {
            let event = read_event(&field).map_err(|number| Stop { offset: at, number })?;
            Ok((event, field.end))
        });
        match event {
            Ok((event, end)) => {
                events.push(event);
                at = end;
            }
            Err(stop) => return Ok(List { n, limits, events, stop: Some(stop) }),
        }
    }
    Ok(List { n, limits, events, stop: None })
}

/// "one-byte tag, two-byte length with the high byte first, contents"
pub struct Field<'a> {
    pub tag: u8,
    pub contents: &'a [u8],
    end: usize,
}

/// Ground 3: "only 1 or 2 bytes left, or fewer contents than its length says; an empty list too".
/// The caller has seen to it that something is left after the first field.
fn read_field(list: &[u8], at: usize) -> Result<Field<'_>, Stop> {
    let stop = Stop { offset: at, number: 3 };
    let head = list.get(at..at + 3).ok_or(stop)?;
    let end = at + 3 + usize::from(u16::from_be_bytes([head[1], head[2]]));
    let contents = list.get(at + 3..end).ok_or(stop)?;
    Ok(Field { tag: head[0], contents, end })
}

/// "First field: 0x01, one byte n." T-08: "Ground 4 lets 0x02 stand first as well, and nowhere else." Grounds
/// 4, 5 and 6, which reads the limits that the tag gives.
fn read_n(field: &Field) -> Result<(u8, Limits), u8> {
    let by_tag = FIRST_TAGS.iter().find(|&&(tag, _)| tag == field.tag);
    let &(_, limits) = by_tag.ok_or(4)?;
    match *field.contents {
        [n] if (1..=limits.nodes).contains(&n) => Ok((n, limits)),
        [_] => Err(6),
        _ => Err(5),
    }
}

/// "Then events". Ground 4: "unknown tag, 0x01 not first", and 0x02 not first. Ground 5: "length wrong for
/// the tag".
fn read_event(field: &Field) -> Result<Event, u8> {
    match (field.tag, field.contents) {
        (0x10, &[i]) => Ok(Event::Crash(i)),
        (0x11, &[i]) => Ok(Event::Recover(i)),
        (0x12, &[i]) => Ok(Event::Check(i)),
        (0x13, &[i]) => Ok(Event::Timeout(i)),
        (0x14, &[i]) => Ok(Event::Tick(i)),
        (0x15, &[i]) => Ok(Event::Expire(i)),
        (0x16, &[i, high, low]) => Ok(Event::Finish(i, u16::from_be_bytes([high, low]))),
        (0x17, &[a, b]) => Ok(Event::Deliver(a, b)),
        (0x18, &[a, b]) => Ok(Event::Lose(a, b)),
        (0x10..=0x18, _) => Err(5),
        _ => Err(4),
    }
}

/// The first field of some bytes, or refusal 3. What stands behind that field is not looked at.
pub fn first_field(bytes: &[u8]) -> Result<Field<'_>, u8> {
    read_field(bytes, 0).map_err(|stop| stop.number)
}

/// The event of that field, or refusal 3, 4 or 5.
pub fn first_event(bytes: &[u8]) -> Result<Event, u8> {
    read_event(&first_field(bytes)?)
}

/// Adds the field of an event to a list.
pub fn write_event(list: &mut Vec<u8>, event: &Event) {
    match *event {
        Event::Crash(i) => list.extend([0x10, 0, 1, i]),
        Event::Recover(i) => list.extend([0x11, 0, 1, i]),
        Event::Check(i) => list.extend([0x12, 0, 1, i]),
        Event::Timeout(i) => list.extend([0x13, 0, 1, i]),
        Event::Tick(i) => list.extend([0x14, 0, 1, i]),
        Event::Expire(i) => list.extend([0x15, 0, 1, i]),
        Event::Finish(i, task) => {
            let [high, low] = task.to_be_bytes();
            list.extend([0x16, 0, 3, i, high, low])
        }
        Event::Deliver(a, b) => list.extend([0x17, 0, 2, a, b]),
        Event::Lose(a, b) => list.extend([0x18, 0, 2, a, b]),
    }
}

/// A list of n and events as bytes, for the tower or the stand.
pub fn write_list(n: u8, limits: Limits, events: &[Event]) -> Vec<u8> {
    let by_limits = FIRST_TAGS.iter().find(|&&(_, given)| given == limits);
    let &(tag, _) = by_limits.expect("no list has other limits");
    let mut list = vec![tag, 0, 1, n];
    for event in events {
        write_event(&mut list, event);
    }
    list
}
