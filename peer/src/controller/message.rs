//! A message as it crosses the cable. Words in quotation marks in the comments are T-11's.

use crate::list::first_field;
use crate::machine::{Body, Message};

/// "0x20 sender, receiver and kind; 0x21 call number; 0x22 group; 0x23 task; 0x24 yes or no as 1 or 0"
pub const ENDS: u8 = 0x20;
pub const CALL: u8 = 0x21;
pub const GROUP: u8 = 0x22;
pub const TASK: u8 = 0x23;
pub const YES: u8 = 0x24;

/// No message has more bytes than Ready.
pub const MOST_BYTES: usize = 25;

/// The bytes of a message. "Fields come in that order, only those that the kind carries". A kind outside 1 to 6
/// carries nothing more than all do.
pub fn encode(m: &Message) -> Vec<u8> {
    let mut bytes = Vec::with_capacity(MOST_BYTES);
    put(&mut bytes, ENDS, &[m.sender, m.receiver, m.body.kind()]);
    put(&mut bytes, CALL, &m.call.to_be_bytes());
    if let Some(group) = m.body.group() {
        put(&mut bytes, GROUP, &group.to_be_bytes());
    }
    match m.body {
        Body::Ready { task, .. } => put(&mut bytes, TASK, &task.to_be_bytes()),
        Body::Reply { yes } => put(&mut bytes, YES, &[u8::from(yes)]),
        _ => {}
    }
    bytes
}

/// "tagged fields in the house form": document 01's "one-byte tag, two-byte length with the high byte first,
/// contents".
fn put(bytes: &mut Vec<u8>, tag: u8, contents: &[u8]) {
    bytes.extend([tag, 0, contents.len() as u8]);
    bytes.extend(contents);
}

/// The message of some bytes, with numbers that may be out of range; None where they "are not of that form".
pub fn decode(bytes: &[u8]) -> Option<Message> {
    let rest = &mut &bytes[..];
    let [sender, receiver, kind] = take(rest, ENDS)?;
    let call = u32::from_be_bytes(take(rest, CALL)?);
    let body = match kind {
        1 => Body::AreYouCoordinator,
        2 => Body::AreYouThere { group: take_group(rest)? },
        3 => Body::Invitation { group: take_group(rest)? },
        4 => Body::Accept { group: take_group(rest)? },
        5 => {
            let group = take_group(rest)?;
            Body::Ready { group, task: u16::from_be_bytes(take(rest, TASK)?) }
        }
        6 => match take(rest, YES)? {
            [0] => Body::Reply { yes: false },
            [1] => Body::Reply { yes: true },
            _ => return None,
        },
        _ => return None,
    };
    rest.is_empty().then_some(Message { sender, receiver, call, body })
}

fn take_group(rest: &mut &[u8]) -> Option<u32> {
    take(rest, GROUP).map(u32::from_be_bytes)
}

/// Takes the first field off, if it has this tag and so many bytes.
fn take<const LENGTH: usize>(rest: &mut &[u8], tag: u8) -> Option<[u8; LENGTH]> {
    let field = first_field(rest).ok()?;
    *rest = &rest[3 + field.contents.len()..];
    let contents = field.contents.try_into().ok()?;
    (field.tag == tag).then_some(contents)
}
