//! Compares a library's controllers with this program's, on calls with any bytes, and judges them. A difference is
//! told with the smallest call that still shows it.

use crate::compare::Lent;
use crate::controller::bytes::{free, MESSAGE_AT, SHARE_BYTES};
use crate::controller::corners::{Call, Corners};
use crate::controller::damage::Damage;
use crate::controller::reading::{Given, Input};
use crate::corners::Source;
use crate::numbers::Numbers;
use crate::proved::{node_from_bytes, whole, Library, Own};
use crate::shortest::shortest;
use crate::vectors::{node_text, write_hex};

/// How a call was made, as far as it says what must be answered.
#[derive(Clone, Copy, Debug, Default)]
pub struct Made {
    /// The kind of the message and what was done to its bytes.
    pub damage: Option<(u8, Damage)>,
    /// The rule of the range that was broken.
    pub broken: Option<usize>,
}

/// The call of a library's function.
pub fn answered(library: &impl Library, given: &Given, out: &mut [u8]) -> u8 {
    let Given { n, own, record, input } = given;
    match input {
        Input::Field(field) => library.controller_event(*n, *own, record, field, out),
        Input::Message(bytes) => library.controller_message(*n, *own, record, bytes, out),
    }
}

/// Makes one call through the library and through this program's controller, and compares the answers and every byte
/// of the lent buffer; then the call is judged by itself, and counted in the corners. Gives the answer.
pub fn call(
    library: &impl Library,
    source: Source,
    given: &Given,
    made: Made,
    lent: &mut Lent,
    corners: &mut Corners,
) -> Result<u8, String> {
    let answer = answered(library, given, &mut lent.now);
    let mut own = [0; SHARE_BYTES];
    let room = lent.now.len().min(SHARE_BYTES);
    let number = answered(&Own, given, &mut own[..room]);
    let length = MESSAGE_AT + usize::from(own[MESSAGE_AT - 1]);
    let expected = if number == 0 { &own[..length] } else { &[] };
    if let Some(words) = lent.judge_bytes(answer, number, expected, &free(expected)) {
        return Err(words);
    }
    let Made { damage, broken } = made;
    corners.call(source, &Call { given, damage, broken, answer, lent })?;
    Ok(answer)
}

/// What differs in a call into so many bytes with random ones in them.
fn difference(library: &impl Library, given: &Given, room: usize) -> Option<String> {
    let mut lent = Lent::new(room, &mut Numbers::new(room as u64));
    let (made, corners) = (Made::default(), &mut Corners::default());
    call(library, Source::Table, given, made, &mut lent, corners).err()
}

/// The call with as few bytes as still show a difference: the buffer's, those of the event or the message, and
/// those of the record that are not 0.
pub fn smallest(library: &impl Library, given: &Given, room: usize) -> (Given, usize) {
    let differs = |given: &Given, room: usize| difference(library, given, room).is_some();
    let mut given = given.clone();
    let room = if differs(&given, SHARE_BYTES) { SHARE_BYTES } else { room };
    if !differs(&given, room) {
        return (given, room);
    }
    let with = |given: &Given, bytes: &[u8]| {
        let input = match &given.input {
            Input::Field(_) => Input::Field(bytes.to_vec()),
            Input::Message(_) => Input::Message(bytes.to_vec()),
        };
        Given { input, ..given.clone() }
    };
    let bytes = given.input.bytes().to_vec();
    let bytes = shortest(bytes, |bytes| differs(&with(&given, bytes), room));
    given = with(&given, &bytes);
    // What one byte needs another may need no longer.
    loop {
        let before = given.clone();
        for place in (0..given.record.len()).rev() {
            let mut plainer = given.clone();
            plainer.record[place] = 0;
            if differs(&plainer, room) {
                given = plainer;
            }
        }
        if given == before {
            break;
        }
    }
    while given.record.last() == Some(&0) {
        let mut cut = given.clone();
        cut.record.pop();
        if !differs(&cut, room) {
            break;
        }
        given = cut;
    }
    (given, room)
}

/// A call as the vectors write it.
pub fn call_words(given: &Given, room: usize) -> String {
    let Given { n, own, record, input } = given;
    let function = match input {
        Input::Field(_) => "nevraspu_controller_event",
        Input::Message(_) => "nevraspu_controller_message",
    };
    let (record, bytes) = (write_hex(record), write_hex(input.bytes()));
    format!("{function} {n} {own} {record} {bytes} out {room}")
}

/// A call's difference in words, with the smallest that shows one: as the vectors write it, and its record.
pub fn tell_call(library: &impl Library, given: &Given, room: usize, found: &str) -> String {
    let (given, room) = smallest(library, given, room);
    let words = difference(library, &given, room);
    format!(
        "{}\n{}{}",
        call_words(&given, room),
        node_text(given.own, &node_from_bytes(&whole(&given.record))),
        words.as_deref().unwrap_or(found)
    )
}
