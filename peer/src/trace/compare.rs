//! One list through a library and through this program's own trace, into lent buffers of every length; and the bench
//! program's text read off the trace, against what the library prints.

use crate::compare::{printed_difference, written_difference, BEHIND};
use crate::numbers::Numbers;
use crate::proved::Library;
use crate::trace::corners::{of_trace, Corner};
use crate::trace::reading::{bench_text, judge, read};
use crate::trace::text::{trace, Trace};
use std::collections::HashSet;

/// How long a lent buffer is, seen from the trace: of the first two all of it is written, of the others not.
pub const ROOMS: [&str; 7] = [
    "of just that length",
    "longer",
    "one byte too short",
    "cut anywhere",
    "up to the end of a piece",
    "up to the last byte of a piece",
    "of no bytes",
];
const ENOUGH: usize = 2;

/// What has no room.
pub const PIECES: [&str; 4] =
    ["`stopped 0 r` alone", "the first line", "an event's lines", "the rest"];

/// A list by the library. Gives what was met; the error is a difference.
pub fn judge_list(
    library: &impl Library,
    list: &[u8],
    numbers: &mut Numbers,
) -> Result<HashSet<Corner>, String> {
    let own = trace(list);
    let text = std::str::from_utf8(&own.text).map_err(|e| e.to_string())?;
    let wrong = |words: String| format!("the peer's own trace: {words}");
    let told = read(text).map_err(|words| wrong(words.to_string()))?;
    judge(text, &told).map_err(wrong)?;
    let mut met = of_trace(list, &told);
    let short = numbers.one_in(2).then(|| ENOUGH + numbers.place(ROOMS.len() - ENOUGH));
    for kind in [Some(numbers.place(ENOUGH)), short].into_iter().flatten() {
        let room = room(&own, kind, numbers);
        let written = own.fitting(room);
        let print = |out: &mut [u8]| library.trace(list, out);
        if let Some(words) = written_difference(print, &own.text, written, room) {
            return Err(format!("traced {words}"));
        }
        met.insert(("a buffer", ROOMS[kind], 0));
        if written < own.text.len() {
            met.insert(("a buffer without room for", PIECES[piece(&own, room)], 0));
        }
    }
    // The library's trace is the same.
    let bench = bench_text(&own.text);
    match printed_difference(library, list, &bench, bench.len() + BEHIND) {
        Some(words) => Err(format!("read off the trace: {words}")),
        None => Ok(met),
    }
}

/// So many bytes are lent.
fn room(trace: &Trace, kind: usize, numbers: &mut Numbers) -> usize {
    let length = trace.text.len();
    match kind {
        0 => length,
        1 => length + numbers.between(1, BEHIND as u32) as usize,
        2 => length - 1,
        3 => numbers.place(length),
        // But for the last.
        4 => numbers.of(&[&[0], &trace.ends[..trace.ends.len() - 1]].concat()),
        5 => numbers.of(&trace.ends) - 1,
        _ => 0,
    }
}

/// Which piece is the first that has no room.
fn piece(trace: &Trace, room: usize) -> usize {
    let place = trace.ends.iter().position(|&end| end > room).unwrap_or(0);
    match (place, trace.ends.len()) {
        (0, 1) => 0,
        (0, _) => 1,
        (place, length) if place + 1 < length => 2,
        _ => 3,
    }
}
