//! Lists and texts as long as they may be, and longer.

use crate::compare::event_words;
use crate::drive::field_bytes;
use crate::list::{write_event, MAX_LIST};
use crate::list_text::list_of_text::MAX_TEXT;
use crate::list_text::text_of_list::text_of_list;
use crate::list_text::texts::any_event;
use crate::machine::Event;
use crate::numbers::Numbers;

/// A list that so many bytes are left behind, 0 to 5.
fn full_list(left: usize, numbers: &mut Numbers) -> Vec<u8> {
    let mut list = vec![numbers.of(&[0x01, 0x02]), 0, 1, numbers.between(1, 4) as u8];
    while list.len() + left < MAX_LIST {
        let event = any_event(numbers);
        let rest = (MAX_LIST - left - list.len()).checked_sub(field_bytes(&event));
        // No events have 1, 2, 3 or 7 bytes together.
        if rest.is_some_and(|rest| !matches!(rest, 1..=3 | 7)) {
            write_event(&mut list, &event);
        }
    }
    list
}

/// List k: as long as it may be, whole or stopped in its last bytes.
pub fn list(k: usize, numbers: &mut Numbers) -> Vec<u8> {
    if k.is_multiple_of(2) {
        return full_list(0, numbers);
    }
    let left = numbers.between(1, 5) as usize;
    let mut list = full_list(left, numbers);
    list.extend(&[numbers.of(&[0x11, 0x19]), 0, 2, 1, 1][..left]);
    list
}

/// The kinds of texts.
pub const KINDS: usize = 8;

/// What parts the event that is too many from those before it, in turn.
const PARTED: [&str; 5] = [", ", "\n", " # full\n", "\t,", "\n\n#\n "];

/// What makes a text long, in turn: what stands before it, the byte, and what stands behind it.
const PADDINGS: [(&str, u8, &str); 7] = [
    ("", b'\n', "cabinets 1"),
    ("cabinets 1", b'\n', "tick 1"),
    ("cabinets 1,tick ", b'0', "1"),
    ("stand", b' ', "1, finish 1 5"),
    ("cabinets 1 #", b',', "\ncrash 3"),
    ("#", 0xff, "\nstand 4"),
    ("cabinets 1\n", b'\r', ""),
];

/// A text of a kind: of a list as long as it may be or longer by one event, or as long as a text may be, or longer. Each
/// round makes others.
pub fn text(kind: usize, round: usize, numbers: &mut Numbers) -> Vec<u8> {
    match kind {
        0 => in_lines_or_one(&full_list(0, numbers), numbers),
        1 => event_too_many(0, round, numbers),
        // Something behind it does not matter.
        2 => {
            let left = numbers.between(1, 5) as usize;
            let behind = numbers.of(&[&b" x"[..], b"\ncrash 1", b"\n\n", b","]);
            [&event_too_many(left, round, numbers), behind].concat()
        }
        // It is wrong by itself.
        3 => {
            let mut text = event_too_many(numbers.place(4), round, numbers);
            text.pop();
            text.push(b'x');
            text
        }
        4 => padded(MAX_TEXT, "", round),
        // The last byte is wrong.
        5 => padded(MAX_TEXT, "\n,", round),
        6 => padded(MAX_TEXT + 1, "", round),
        _ => {
            let length = MAX_TEXT + numbers.between(2, 100_000) as usize;
            padded(length, numbers.of(&["", "\n,"]), round)
        }
    }
}

/// A text of a list that so many bytes are left behind, with an event that has more.
fn event_too_many(left: usize, round: usize, numbers: &mut Numbers) -> Vec<u8> {
    let mut text = in_lines_or_one(&full_list(left, numbers), numbers);
    text.extend(PARTED[round % PARTED.len()].bytes());
    let longer = |event: &Event| field_bytes(event) > left;
    let event = std::iter::repeat_with(|| any_event(numbers)).find(longer);
    text.extend(event_words(&event.expect("one is longer")).bytes());
    text
}

/// The text of a list in lines, or in one line.
fn in_lines_or_one(list: &[u8], numbers: &mut Numbers) -> Vec<u8> {
    let mut text = text_of_list(list);
    let parted = numbers.of(b"\n,");
    text.pop();
    text.iter_mut().filter(|byte| **byte == b'\n').for_each(|byte| *byte = parted);
    text
}

/// A text of so many bytes that is right up to these last ones.
fn padded(length: usize, last: &str, round: usize) -> Vec<u8> {
    let (before, pad, behind) = PADDINGS[round % PADDINGS.len()];
    let mut text = before.as_bytes().to_vec();
    text.resize(length - behind.len() - last.len(), pad);
    text.extend(behind.bytes().chain(last.bytes()));
    text
}
