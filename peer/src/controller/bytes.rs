//! The controller behind the library's boundary: the record, the event and what comes out in bytes.

use crate::controller::message::{encode, MOST_BYTES};
use crate::controller::share::Cabinet;
use crate::list::{first_event, first_field};
use crate::machine::{Event, Share};
use crate::proved::{node_from_bytes, node_to_bytes, whole, NODE_BYTES, TOO_SHORT};
use std::ops::Range;

/// The length of the outgoing message stands behind the record, 0 for none, and the message behind it.
pub const LENGTH_AT: usize = NODE_BYTES;
pub const MESSAGE_AT: usize = LENGTH_AT + 1;
pub const SHARE_BYTES: usize = MESSAGE_AT + MOST_BYTES;

/// The library's function for an event, by any controller.
pub fn event_by(
    controller: impl Fn(&Cabinet, &Event) -> Result<Share, u8>,
    (n, own): (u8, u8),
    record: &[u8],
    field: &[u8],
    out: &mut [u8],
) -> u8 {
    let cabinet = Cabinet { n, own, record: node_from_bytes(&whole(record)) };
    answer(out, || controller(&cabinet, &own_event(field)?))
}

/// The library's function for an incoming message, by any controller.
pub fn message_by(
    controller: impl Fn(&Cabinet, &[u8]) -> Result<Share, u8>,
    (n, own): (u8, u8),
    record: &[u8],
    message: &[u8],
    out: &mut [u8],
) -> u8 {
    let cabinet = Cabinet { n, own, record: node_from_bytes(&whole(record)) };
    answer(out, || controller(&cabinet, message))
}

/// The event of the first field of some bytes, or refusal 3, 4 or 5; "one event other than deliver and lose" (T-11),
/// whose tags are none here.
pub fn own_event(bytes: &[u8]) -> Result<Event, u8> {
    match first_field(bytes)?.tag {
        0x17 | 0x18 => Err(4),
        _ => first_event(bytes),
    }
}

/// Writes what comes out, if it is accepted and there is room.
fn answer(out: &mut [u8], share: impl FnOnce() -> Result<Share, u8>) -> u8 {
    let Some(out) = out.first_chunk_mut::<SHARE_BYTES>() else {
        return TOO_SHORT;
    };
    match share() {
        Ok(Share { node, sent, .. }) => {
            let (record, behind) = out.split_first_chunk_mut().expect("a record stands first");
            node_to_bytes(&node, record);
            let message = sent.as_ref().map(encode).unwrap_or_default();
            behind[0] = message.len() as u8;
            behind[1..][..message.len()].copy_from_slice(&message);
            0
        }
        Err(number) => number,
    }
}

/// What an accepted call wrote: the record, and the outgoing message, which is empty where there is none. None where
/// it does not fit there.
pub fn written(out: &[u8]) -> Option<(&[u8; NODE_BYTES], &[u8])> {
    let (record, behind) = out.split_first_chunk()?;
    let (&length, message) = behind.split_first()?;
    Some((record, message.get(..usize::from(length))?))
}

/// Of the bytes that out begins with after an accepted call, those that are free: behind the message.
pub fn free(written: &[u8]) -> Vec<Range<usize>> {
    let behind = |&length: &u8| MESSAGE_AT + usize::from(length)..SHARE_BYTES;
    written.get(LENGTH_AT).map(behind).into_iter().collect()
}
