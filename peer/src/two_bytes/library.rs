//! The comparison of a library's function with the peer's text, byte by byte, into lent buffers of every length, and for
//! T-01 from any byte of the text on: on every input that is not refused, and on wrong inputs of every kind. The calls are
//! the same ones each time.

use crate::compare::Lent;
use crate::corners::Source;
use crate::numbers::Numbers;
use crate::proved::Texts;
use crate::tally::Where::{self, Both, Tables};
use crate::tally::{Book, Tally, TIMES};
use crate::two_bytes::compare::{difference, input_words};
use crate::two_bytes::corners::{corners, rounds, Corner};
use crate::two_bytes::process::side_by_side;
use crate::two_bytes::{Function, Request, ALDEBARAN, SHORT_LISTS};

const SEED: u64 = 20_260;
/// A text of no more bytes is asked for so many times from each place into each room.
const SHORT: usize = 4096;
const AGAIN: usize = 14;

/// From which byte of the text on.
const FROMS: [&str; 8] = [
    "its first byte",
    "any byte of it",
    "the start of a line",
    "its end",
    "its last byte",
    "its second byte",
    "behind its end",
    "far behind its end",
];

/// How many bytes are lent, seen from what is left of the text there.
const ROOMS: [&str; 8] = [
    "longer",
    "7 bytes",
    "4,096 bytes",
    "just so long",
    "one byte too short",
    "no bytes",
    "one byte",
    "cut anywhere",
];
/// A longer text is asked for from so many of the places, each with one of the rooms.
const LONG: usize = 4;

/// What is met by a call.
#[derive(Clone, Copy, Debug, PartialEq, Eq, Hash)]
enum Met {
    From(usize),
    Room(usize),
    Wrong(Corner),
}

impl Met {
    fn words(self, request: &Request) -> String {
        match self {
            Met::From(kind) => format!("the text from {} on", FROMS[kind]),
            Met::Room(kind) => format!("a buffer: {}", ROOMS[kind]),
            Met::Wrong(corner) => format!("input: {}", corner.words(request)),
        }
    }
}

/// From how many of the places a text is asked for.
fn froms(request: &Request) -> usize {
    match request.function {
        Function::Whole(_) => 1,
        Function::Window(_) => FROMS.len(),
    }
}

/// Every corner, with where it must be met: runs stand for the inputs that are not refused, tables for the others.
fn possible(request: &Request) -> Vec<(Met, Where)> {
    let froms = (0..froms(request)).map(|kind| (Met::From(kind), Both));
    let rooms = (0..ROOMS.len()).map(|kind| (Met::Room(kind), Both));
    let wrong = corners(request).into_iter().map(|corner| (Met::Wrong(corner), Tables));
    froms.chain(rooms).chain(wrong).collect()
}

fn tally(request: &Request) -> Tally<Met> {
    match request.function {
        Function::Whole(_) => {
            Tally::new(|| possible(&ALDEBARAN), |met: &Met| met.words(&ALDEBARAN))
        }
        Function::Window(_) => {
            Tally::new(|| possible(&SHORT_LISTS), |met: &Met| met.words(&SHORT_LISTS))
        }
    }
}

/// Compares a library, which each stretch of calls has for itself. Gives how many calls passed; the error is the first
/// difference, or a corner that was met too seldom.
pub fn compare<L: Texts>(
    request: &'static Request,
    library: impl Fn() -> L + Sync,
) -> (u64, Result<(), String>) {
    // Those with a long text come last.
    let mut inputs: Vec<[u8; 2]> = request.inputs().map(|(n, length)| [n, length]).collect();
    inputs.sort_by_key(|&[n, length]| (n * length, n));
    let wrong = rounds(&corners(request), TIMES as usize);
    let (stretches, found) = side_by_side(wrong.len() + inputs.len(), |k| {
        let numbers = Numbers::new(SEED + k as u64);
        let mut stretch = Stretch { request, library: library(), numbers, calls: Vec::new() };
        match k.checked_sub(wrong.len()) {
            None => stretch.refused(wrong[k])?,
            Some(k) => stretch.right(&inputs[k])?,
        }
        Ok(stretch.calls)
    });
    let calls: Vec<&Call> = stretches.iter().flatten().collect();
    let passed = calls.len() as u64;
    if let Err(words) = found {
        return (passed, Err(format!("the library: {words}")));
    }
    let mut met = tally(request);
    for (source, corners) in calls {
        corners.iter().for_each(|corner| met.add(*source, *corner));
    }
    print!("{}", met.text().replace("   in runs  in tables", "    inputs    refused"));
    println!("{passed} calls: the library and the peer give the same");
    let wrong = [met.impossible(), met.seldom(TIMES)].concat();
    let told =
        |words: &String| Err(format!("met fewer than {TIMES} times, or has no place: {words}"));
    (passed, wrong.first().map_or(Ok(()), told))
}

/// Where a call is counted, and what it met.
type Call = (Source, Vec<Met>);

/// What is done in one go.
struct Stretch<L> {
    request: &'static Request,
    library: L,
    numbers: Numbers,
    calls: Vec<Call>,
}

impl<L: Texts> Stretch<L> {
    /// An input that is not refused.
    fn right(&mut self, input: &[u8]) -> Result<(), String> {
        let text = self.request.text(input);
        let froms = froms(self.request);
        if text.len() > SHORT {
            return (0..LONG)
                .try_for_each(|k| self.call(input, &text, (k % froms, k), Source::Run, &[]));
        }
        // As often where there is one place alone.
        for k in 0..AGAIN * FROMS.len() * ROOMS.len() {
            let kinds = (k / ROOMS.len() % froms, k % ROOMS.len());
            self.call(input, &text, kinds, Source::Run, &[])?;
        }
        Ok(())
    }

    /// A random wrong input.
    fn refused(&mut self, corner: Corner) -> Result<(), String> {
        let input = corner.random(self.request, &mut self.numbers).bytes;
        let met = |corner: &Corner| corner.met(self.request, &input);
        let met: Vec<Met> = corners(self.request).into_iter().filter(met).map(Met::Wrong).collect();
        let kinds = (self.numbers.place(froms(self.request)), self.numbers.place(ROOMS.len()));
        self.call(&input, self.request.refusal, kinds, Source::Table, &met)
    }

    /// A call for an input with this text, from a place of one kind into a room of another.
    fn call(
        &mut self,
        input: &[u8],
        text: &[u8],
        (from_kind, room_kind): (usize, usize),
        source: Source,
        met: &[Met],
    ) -> Result<(), String> {
        let numbers = &mut self.numbers;
        let from = from(from_kind, text, numbers);
        let left = usize::try_from(from).ok().and_then(|from| text.get(from..)).unwrap_or(&[]);
        let room = room(room_kind, left.len(), numbers);
        let mut lent = Lent::new(room, numbers);
        let (answer, expected, written) = match self.request.function {
            Function::Whole(call) => {
                let written = if left.len() <= room { left } else { &[] };
                let expected = (left.len() <= room).then_some(left.len());
                (call(&self.library, input, &mut lent.now), expected, written)
            }
            Function::Window(call) => {
                let written = &left[..left.len().min(room)];
                let answer = call(&self.library, input, from, &mut lent.now);
                (Some(answer), Some(written.len()), written)
            }
        };
        let tell = |words: String| {
            let input = input_words(input);
            Err(format!("input {input}, from byte {from} into {room} bytes: {words}"))
        };
        if answer != expected {
            return tell(format!("the answer is {answer:?}, expected: {expected:?}"));
        }
        if let Err(words) = difference(("peer", written), ("library", &lent.now[..written.len()])) {
            return tell(words);
        }
        if let Some(place) = lent.changed(written.len()) {
            return tell(format!("byte {place} of the buffer has changed"));
        }
        self.calls.push((source, [&[Met::From(from_kind), Met::Room(room_kind)], met].concat()));
        Ok(())
    }
}

/// A place of a kind. No text is empty.
fn from(kind: usize, text: &[u8], numbers: &mut Numbers) -> u64 {
    let place = numbers.place(text.len());
    let length = text.len() as u64;
    match kind {
        0 => 0,
        1 => place as u64,
        2 => text[..place].iter().rposition(|&byte| byte == b'\n').map_or(0, |end| end as u64 + 1),
        3 => length,
        4 => length - 1,
        5 => 1,
        6 => length + u64::from(numbers.between(1, 5000)),
        _ => numbers.of(&[1 << 31, 1 << 32, 1 << 63, u64::MAX - 12, u64::MAX]),
    }
}

/// How many bytes are lent.
fn room(kind: usize, left: usize, numbers: &mut Numbers) -> usize {
    match kind {
        0 => left + numbers.between(1, 64) as usize,
        1 => 7,
        2 => 4096,
        3 => left,
        4 => left.saturating_sub(1),
        5 => 0,
        6 => 1,
        _ => numbers.place(left + 1),
    }
}
