//! Lists of events in bytes: their texts, and what comes of them.
//!
//! A list is a row of fields, first the number of cabinets, then events (01, "The list and the
//! printed table"). Every function here answers any bytes. Where a list stops, its text says so by
//! a line, which [`stopped`] reads.
//!
//! ```
//! use nevraspu::{lists, Refusal};
//!
//! let list = lists::list_of_text(b"cabinets 2, recover 1, check 2")?;
//! assert_eq!(list, [0x01, 0, 1, 2, 0x11, 0, 1, 1, 0x12, 0, 1, 2]);
//! assert_eq!(lists::text_of_list(&list), b"cabinets 2\nrecover 1\ncheck 2\n");
//!
//! // Cabinet 2 is Down: its check, the second event, is refused with 9.
//! let text = "cabinets 2\nrefused 2 9\n1 3 1 16 1 1 0\n2 0 0 0 0 0 0\nmessages 0\n\
//!             sent 0\ndelivered 0\nlost 0\n";
//! assert_eq!(lists::print(&list), text.as_bytes());
//! assert_eq!(lists::fold(&list), 1);
//!
//! // Two bytes more are a field cut short.
//! let damaged = [&list[..], &[0x10, 0]].concat();
//! let stopped = lists::stopped(&lists::print(&damaged)).unwrap();
//! assert_eq!((stopped.offset, stopped.refusal), (12, Refusal::CutShort));
//! # Ok::<(), nevraspu::BadText>(())
//! ```

pub use crate::stopped::stopped;
use crate::{calls, BadText};
use std::iter::FusedIterator;

/// The longest list.
pub const LIST_MOST: usize = 65_536;
/// The longest texts of [`print()`], [`rest`], [`trace`], [`text_of_list`] and [`aldebaran`].
const PRINT_MOST: usize = 279_149;
const REST_MOST: usize = 279_163;
const TRACE_MOST: usize = 16_778_240;
const LIST_TEXT_MOST: usize = 278_540;
const ALDEBARAN_MOST: usize = 32_768;
/// The room that a trace is given first.
const TRACE_FIRST: usize = 1 << 16;
/// How long the pieces of [`short_lists`] are.
const PIECE: usize = 1 << 20;

/// What a call writes that always has room in so many bytes.
fn written(most: usize, call: impl FnOnce(&mut [u8]) -> Option<usize>) -> Vec<u8> {
    let mut out = vec![0; most];
    let length = call(&mut out).expect("the longest text has room");
    out.truncate(length);
    out
}

/// The text that the bench program prints for a list: what is refused, and the table after it.
pub fn print(list: &[u8]) -> Vec<u8> {
    written(PRINT_MOST, |out| calls::print(list, out))
}

/// A list run step by step: for each event its answer, the record that changed and the messages
/// taken out and put in; last the bench program's table.
///
/// ```
/// use nevraspu::lists;
///
/// let list = lists::list_of_text(b"cabinets 2, recover 1, recover 1")?;
/// let trace = String::from_utf8(lists::trace(&list)).unwrap();
/// let mut lines = trace.lines();
/// assert_eq!(lines.next(), Some("cabinets 2"));
/// assert_eq!(lines.next(), Some("1 recover 1 accepted"));
/// assert_eq!(lines.next(), Some("  1 3 1 16 1 1 0 idle"));
/// assert_eq!(lines.next(), Some("2 recover 1 refused 9"));
/// # Ok::<(), nevraspu::BadText>(())
/// ```
pub fn trace(list: &[u8]) -> Vec<u8> {
    // Most traces are far shorter than the longest.
    let mut room = TRACE_FIRST;
    while room < TRACE_MOST {
        let mut out = vec![0; room];
        if let Some(length) = calls::trace(list, &mut out) {
            out.truncate(length);
            return out;
        }
        room *= 2;
    }
    written(TRACE_MOST, |out| calls::trace(list, out))
}

/// What a list comes to when nobody does anything more: as [`print()`], but behind the list the
/// driver of [`Table::turn`](crate::Table::turn) goes round until no message waits, and the line
/// `turns k` says how many turns it made.
///
/// ```
/// use nevraspu::lists;
///
/// // 2 asks 1 whether it coordinates, is told so, invites it, and collects.
/// let list = lists::list_of_text(b"cabinets 2, recover 1, recover 2, check 2")?;
/// let text = String::from_utf8(lists::rest(&list)).unwrap();
/// assert!(text.contains("turns 7\n"));
/// assert!(text.contains("messages 0\n"));
/// # Ok::<(), nevraspu::BadText>(())
/// ```
pub fn rest(list: &[u8]) -> Vec<u8> {
    written(REST_MOST, |out| calls::rest(list, out))
}

/// A list as text: `cabinets` or `stand` and n, then a line for each event.
pub fn text_of_list(list: &[u8]) -> Vec<u8> {
    written(LIST_TEXT_MOST, |out| calls::text_of_list(list, out))
}

/// The list of a text: `cabinets` or `stand` and n, then events, parted by a comma or line ends;
/// `#` starts a comment.
///
/// ```
/// use nevraspu::lists;
///
/// let bad = lists::list_of_text(b"cabinets 2\nrecover 256\n").unwrap_err();
/// assert_eq!((bad.line(), bad.column()), (2, 9));
/// assert_eq!(bad.to_string(), "line 2, column 9: expected a number from 0 to 255");
/// ```
pub fn list_of_text(text: &[u8]) -> Result<Vec<u8>, BadText> {
    let mut out = vec![0; LIST_MOST];
    match calls::list_of_text(text, &mut out).expect("the longest list has room") {
        Ok(length) => {
            out.truncate(length);
            Ok(out)
        }
        Err(length) => Err(BadText::told(&out[..length])),
    }
}

/// How many events of a list, up to its end or to where it stops, are accepted.
pub fn fold(list: &[u8]) -> u32 {
    calls::fold(list)
}

/// The short lists up to a length from 0 to 4 among n cabinets, 1 to 3, as one transition system in
/// the Aldebaran text form (02, T-12). For other numbers the text is `stopped 0 22`.
///
/// ```
/// use nevraspu::{lists, Refusal};
///
/// let text = "des (0, 2, 3)\n(0, \"RECOVER 1\", 1)\n(0, \"RECOVER 2\", 2)\n";
/// assert_eq!(lists::aldebaran(2, 1), text.as_bytes());
/// assert_eq!(lists::stopped(&lists::aldebaran(2, 5)).unwrap().refusal, Refusal::WrongSystem);
/// ```
pub fn aldebaran(n: u8, length: u8) -> Vec<u8> {
    written(ALDEBARAN_MOST, |out| calls::aldebaran(&[n, length], out))
}

/// Every list of so many events, 0 to 7, among n cabinets, 1 to 3, that the machine accepts one
/// after another from the tower's starting table, finish with task 100 only: a line for each, and a
/// last line `lists k` (02, T-01). For other numbers the text is `stopped 0 16`.
///
/// The text, of up to 13,430,775 bytes, comes in pieces of 1 MiB. For each the library searches from
/// the first list on.
///
/// ```
/// use nevraspu::lists;
///
/// let text: Vec<u8> = lists::short_lists(1, 2).flatten().collect();
/// let lists = "recover 1, crash 1\nrecover 1, check 1\nrecover 1, timeout 1\nlists 3\n";
/// assert_eq!(text, lists.as_bytes());
/// ```
pub fn short_lists(n: u8, length: u8) -> ShortLists {
    ShortLists { input: [n, length], from: Some(0) }
}

/// The pieces of the text of [`short_lists`].
#[derive(Clone, Debug)]
pub struct ShortLists {
    input: [u8; 2],
    /// Where the next piece begins; None behind the last.
    from: Option<u64>,
}

impl Iterator for ShortLists {
    type Item = Vec<u8>;

    fn next(&mut self) -> Option<Vec<u8>> {
        let from = self.from?;
        let mut piece = vec![0; PIECE];
        let length = calls::short_lists(&self.input, from, &mut piece);
        self.from = (length == PIECE).then_some(from + PIECE as u64);
        piece.truncate(length);
        (length > 0).then_some(piece)
    }
}

impl FusedIterator for ShortLists {}

#[cfg(test)]
mod tests {
    use super::*;
    use crate::{Event, Refusal, Stopped};

    /// A list of the tower's 16 cabinets with so many crashes.
    fn crashes(count: usize) -> Vec<u8> {
        let first = crate::event::field(0x01, &[16]);
        [first, Event::Crash(16).field().repeat(count)].concat()
    }

    #[test]
    fn a_long_list_has_a_long_trace() {
        let list = crashes(16_383);
        assert_eq!(list.len(), LIST_MOST);
        let trace = trace(&list);
        assert!(trace.len() > 4 * TRACE_FIRST);
        assert!(trace.starts_with(b"cabinets 16\n1 crash 16 refused 9\n"));
        assert!(trace.ends_with(b"messages 0\nsent 0\ndelivered 0\nlost 0\n"));
        assert_eq!(stopped(&trace), None);
    }

    #[test]
    fn a_list_that_is_too_long_stops_at_once() {
        let list = crashes(16_384);
        let at_once = Some(Stopped { offset: 0, refusal: Refusal::ListTooLong });
        for text in [print(&list), trace(&list), rest(&list), text_of_list(&list)] {
            assert_eq!(stopped(&text), at_once);
        }
        assert_eq!(fold(&list), 0);
    }

    #[test]
    fn short_lists_come_in_whole_pieces() {
        let pieces: Vec<Vec<u8>> = short_lists(3, 6).collect();
        let (last, others) = pieces.split_last().expect("a piece");
        assert!(!others.is_empty() && others.iter().all(|piece| piece.len() == PIECE));
        assert!(!last.is_empty() && last.len() <= PIECE);
        let text = String::from_utf8(pieces.concat()).expect("ASCII");
        let lists = text.lines().count() - 1;
        assert_eq!(text.lines().last(), Some(format!("lists {lists}").as_str()));
        assert_eq!(stopped(text.as_bytes()), None);
    }

    /// The header's numbers are these.
    #[test]
    fn the_header_names_the_same_room() {
        const HEADER: &str = include_str!("../../include/nevraspu.h");
        let named = |name: &str| {
            let start = format!("#define NEVRASPU_{name} ");
            let line =
                HEADER.lines().find_map(|line| line.strip_prefix(&start)).expect("a constant");
            line.split(' ').next().and_then(|number| number.parse().ok()).unwrap_or(0)
        };
        for (name, most) in [
            ("LIST_MOST", LIST_MOST),
            ("PRINT_MOST", PRINT_MOST),
            ("REST_MOST", REST_MOST),
            ("TRACE_MOST", TRACE_MOST),
            ("LIST_TEXT_MOST", LIST_TEXT_MOST),
            ("ALDEBARAN_MOST", ALDEBARAN_MOST),
            ("RECORD_SIZE", crate::Record::SIZE),
            ("TABLE_SIZE", crate::Table::SIZE),
            ("BULLY_TABLE_SIZE", crate::bully::Table::SIZE),
        ] {
            assert_eq!(named(name), most, "{name}");
        }
    }

    #[test]
    fn other_numbers_have_no_lists() {
        let refused = |refusal| Some(Stopped { offset: 0, refusal });
        let short_lists = |n, length| short_lists(n, length).flatten().collect::<Vec<u8>>();
        for (n, length) in [(0, 0), (4, 0), (1, 8), (255, 255)] {
            assert_eq!(stopped(&short_lists(n, length)), refused(Refusal::WrongShortLists));
            assert_eq!(stopped(&aldebaran(n, length)), refused(Refusal::WrongSystem));
        }
    }
}
