//! One list or one text through a library and through this program's own functions, with lent buffers of every length; and
//! what holds of both directions together.

use crate::compare::{text_difference, Lent};
use crate::list::{read_list, List, Stop, MAX_LIST};
use crate::list_text::corners::{of_list, of_text, Corner};
use crate::list_text::list_of_text::{list_of_text, list_or_line, told, Expected, Wrong, MAX_TEXT};
use crate::list_text::reading::{judge_told, list_of};
use crate::list_text::text_of_list::text_of_list;
use crate::numbers::Numbers;
use crate::proved::Library;
use crate::two_bytes::compare::difference;

/// How long a lent buffer is, seen from what is to be written.
pub const ROOMS: [&str; 4] = ["of just that length", "one byte too short", "shorter", "longer"];

/// A list as text. Gives what was met; the error is a difference.
pub fn judge_list(
    library: &impl Library,
    list: &[u8],
    numbers: &mut Numbers,
) -> Result<Vec<Corner>, String> {
    let text = text_of_list(list);
    let mut met = of_list(list);
    let (room, long) = room_for(text.len(), numbers);
    let call = |out: &mut [u8]| library.text_of_list(list, out);
    text_difference(call, &text, room).map_or(Ok(()), Err)?;
    met.push(("text_of_list, a buffer", long));
    met.push(("text_of_list, then list_of_text", read_back(library, list, &text, numbers)?));
    Ok(met)
}

/// The list of a text, or what is told of it. Gives what was met; the error is a difference.
pub fn judge_text(
    library: &impl Library,
    text: &[u8],
    numbers: &mut Numbers,
) -> Result<Vec<Corner>, String> {
    let read = list_of_text(text);
    let mut met = of_text(text, &read);
    let own = read.map_err(|wrong| told(text, wrong));
    judge_own(text, &own)?;
    let of = match own {
        Ok(_) => "list_of_text, a buffer for the list,",
        Err(_) => "list_of_text, a buffer for what is told,",
    };
    met.push((of, list_by(library, text, &own, numbers)?));
    Ok(met)
}

/// How many bytes are lent for so many, and how long that is.
fn room_for(length: usize, numbers: &mut Numbers) -> (usize, &'static str) {
    let kind = numbers.place(ROOMS.len());
    let room = match kind {
        0 => length,
        1 => length - 1,
        2 => numbers.place(length),
        // As many as every list has room in.
        _ if length < MAX_LIST && numbers.one_in(500) => MAX_LIST,
        _ => length + numbers.between(1, 64) as usize,
    };
    (room, ROOMS[kind])
}

/// The same list, or the same line, by the library, where there is room for it; all else must be as it was. Gives how long
/// the buffer was.
fn list_by(
    library: &impl Library,
    text: &[u8],
    own: &Result<Vec<u8>, Vec<u8>>,
    numbers: &mut Numbers,
) -> Result<&'static str, String> {
    let (Ok(bytes) | Err(bytes)) = own;
    let (room, long) = room_for(bytes.len(), numbers);
    let mut lent = Lent::new(room, numbers);
    let given = library.list_of_text(text, &mut lent.now);
    let expected = own.as_ref().map(Vec::len).map_err(Vec::len);
    let expected = (bytes.len() <= room).then_some(expected);
    let into = |words: String| format!("into {room} bytes: {words}");
    if given != expected {
        return Err(into(format!("answer {given:?}, here {expected:?}")));
    }
    let written = if expected.is_some() { bytes.as_slice() } else { &[] };
    difference(("peer", written), ("library", &lent.now[..written.len()])).map_err(into)?;
    match lent.changed(written.len()) {
        Some(place) => Err(into(format!("byte {place} of the buffer has changed"))),
        None => Ok(long),
    }
}

/// What is printed for a list must be read back to its bytes, up to where it stops, where it is then wrong. Gives how far.
fn read_back(
    library: &impl Library,
    list: &[u8],
    text: &[u8],
    numbers: &mut Numbers,
) -> Result<&'static str, String> {
    let (length, bytes, how_far) = match read_list(list) {
        Err(_) => (0, 0, "nothing to read back"),
        Ok(List { stop: None, .. }) => (text.len(), list.len(), "all of it"),
        Ok(List { stop: Some(stop), .. }) => {
            let ends = text[..text.len() - 1].iter().rposition(|&byte| byte == b'\n');
            (ends.map_or(0, |place| place + 1), stop.offset, "up to where it stops")
        }
    };
    let (right, list) = (&text[..length], &list[..bytes]);
    if bytes > 0 {
        let own = list_or_line(right);
        if own.as_deref() != Ok(list) || list_of(right).as_deref() != Some(list) {
            return Err("the peer's own text is not read back".to_string());
        }
        list_by(library, right, &own, numbers).map_err(|words| format!("read back, {words}"))?;
    }
    let expected = if bytes > 0 { Expected::Event } else { Expected::FirstWord };
    if length < text.len() && list_of_text(text) != Err(Wrong { offset: length, expected }) {
        return Err("the peer's own line `stopped` is read".to_string());
    }
    Ok(how_far)
}

/// What this program itself says of a text, by the reader of lists, by what it prints for the list, and by another reading.
fn judge_own(text: &[u8], own: &Result<Vec<u8>, Vec<u8>>) -> Result<(), String> {
    let other = list_of(text).filter(|list| list.len() <= MAX_LIST && text.len() <= MAX_TEXT);
    if own.as_ref().ok() != other.as_ref() {
        return Err("the peer's two readings of the text differ".to_string());
    }
    match own {
        Err(line) => {
            judge_told(text, line).map_err(|words| format!("the peer's own line: {words}"))
        }
        Ok(list) => match read_list(list) {
            Ok(List { stop: None, .. })
                if list_of_text(&text_of_list(list)).as_ref() == Ok(list) =>
            {
                Ok(())
            }
            // A number of cabinets out of range is written as it is.
            Err(Stop { offset: 0, number: 6 }) => Ok(()),
            read => Err(format!("the peer's own list: {read:?}")),
        },
    }
}
