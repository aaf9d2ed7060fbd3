//! Counts what the compared turns and schedules met, and judges the turns. What T-09 of document 02 makes of a turn
//! is written out here apart from the driver: which answer it has, what becomes of the oldest message by the
//! library's own steps deliver and lose on the same bytes, and which pair comes next in the list of all.

use crate::compare::{two_tables, Lent};
use crate::corners::{event_name, Source, EVENTS};
use crate::list::write_event;
use crate::machine::{count_of, Event, PairCounts, Status, Table, MAX_NODES, STAND};
use crate::proved::{
    table_from_bytes, whole, Library, TableBytes, MESSAGES_AT, NODES_AT, NODE_BYTES, TABLE_BYTES,
    TOO_SHORT,
};
use crate::round::bound::{line, Gone};
use crate::round::bytes::{written, TURN_BYTES};
use crate::round::driver::Place;
use crate::tally::Where::{self, Both, Either, Tables};
use crate::tally::{Book, Tally};
use crate::traffic_tables::pairs;

/// What is met, in words: of what, and how.
type Corner = [&'static str; 2];

/// What was done, by its number.
const DONE: [&str; 3] = ["nothing", "delivered", "lost"];

const ROUNDS: [&str; MAX_NODES as usize] = [
    "n = 1", "n = 2", "n = 3", "n = 4", "n = 5", "n = 6", "n = 7", "n = 8", "n = 9", "n = 10",
    "n = 11", "n = 12", "n = 13", "n = 14", "n = 15", "n = 16",
];

/// Where the next turn is.
const NEXT: [&str; 4] = [
    "next (1, 2) behind (n, n - 1)",
    "next the first receiver of the next sender",
    "next the receiver behind the sender itself",
    "next the next receiver",
];

/// What else an accepted turn meets, a followed message, and an event between turns.
const MET: [(Corner, Where); 24] = [
    (["lost", "the receiver Down"], Both),
    // No run here is so long.
    (["lost", "the delivery meets 12"], Tables),
    (["lost", "the delivery meets 13"], Tables),
    // T-05: "From the starting table no event ever meets the new ground".
    (["lost", "the delivery meets 17"], Tables),
    (["delivered", "as many wait as may"], Either),
    // A message that must be sent, with 14 not met.
    (["delivered", "as many wait as may, after it too"], Either),
    (["lost", "as many wait as may"], Either),
    (["delivered", "others of the pair wait behind it"], Both),
    (["lost", "others of the pair wait behind it"], Both),
    (["n = 1", "the place like a pair"], Both),
    (["n = 1", "any other place"], Both),
    (["table", "longer"], Either),
    (["table", "in other bytes of the same"], Either),
    (["buffer", "4,439 bytes"], Either),
    (["buffer", "more bytes"], Either),
    (["followed", "gone by a delivery"], Both),
    (["followed", "gone by a loss"], Both),
    (["followed", "gone by an event between turns"], Both),
    (["followed", "k = 0"], Either),
    (["followed", "k = 1"], Either),
    (["followed", "k = 2"], Either),
    (["followed", "k = 3 or more"], Either),
    // In a run no two calls of a node have the same number, and each is answered once.
    (["followed", "behind an equal one of its pair"], Tables),
    (["between turns", "refused"], Both),
];

/// How the bound is met: in the last turn that it allows.
const EQUAL: [Corner; 2] =
    [["the bound", "met in its last turn, k = 0"], ["the bound", "met in its last turn, k > 0"]];

/// What refused turns meet.
const REFUSED: [Corner; 18] = [
    ["refused 7", "sender 0"],
    ["refused 7", "receiver 0"],
    ["refused 7", "sender over n, up to 16"],
    ["refused 7", "sender over 16"],
    ["refused 7", "receiver over n, up to 16"],
    ["refused 7", "receiver over 16"],
    ["refused 7", "sender equals receiver"],
    ["refused 7", "both out of range"],
    ["refused 1", "at a pair"],
    ["refused 1", "at no pair"],
    ["refused 1", "n = 1"],
    ["refused 1", "n 0"],
    ["refused 1", "n over the limit"],
    ["refused 1", "the table cut short"],
    ["answered 255", "no byte"],
    ["answered 255", "4,438 bytes"],
    ["answered 255", "1 too"],
    ["answered 255", "7 too"],
];

/// Every corner that the papers make possible.
fn possible() -> Vec<(Corner, Where)> {
    let mut corners = Vec::new();
    for done in DONE {
        corners.extend(["tower", "stand"].map(|rig| ([done, rig], Both)));
        corners.extend(NEXT.map(|next| ([done, next], Either)));
    }
    corners.extend(ROUNDS.map(|n| (["turn", n], Either)));
    corners.extend(MET);
    corners.extend(EVENTS.map(|event| (["between turns", event], Either)));
    corners.extend(EQUAL.map(|corner| (corner, Either)));
    corners.extend(REFUSED.map(|corner| (corner, Tables)));
    corners
}

/// A turn through a library.
pub struct Call<'a> {
    /// The table as it was given.
    pub table: &'a [u8],
    pub place: Place,
    pub answer: u8,
    /// The lent buffer after the call.
    pub lent: &'a Lent,
}

/// How often each corner was met, in schedules from the starting table and on tables made up.
#[derive(Clone, Debug)]
pub struct Corners {
    tally: Tally<Corner>,
    /// Of the followed messages that went in a turn: the turns that one waited and those that it could, where the
    /// one is the largest share of the other, and of equal shares the longest.
    largest: Option<(u64, u64)>,
}

impl Default for Corners {
    fn default() -> Corners {
        Corners { tally: Tally::new(possible, words), largest: None }
    }
}

impl Corners {
    fn add(&mut self, source: Source, corner: Corner) {
        self.tally.add(source, corner);
    }

    /// Counts a turn with what followed. The error says in words what must not follow.
    pub fn turn(
        &mut self,
        source: Source,
        library: &impl Library,
        call: &Call,
    ) -> Result<(), String> {
        let Call { table: given, place, answer, lent } = *call;
        let bytes: TableBytes = whole(given);
        let before = table_from_bytes(&bytes);
        let delivery = step(library, call, Event::Deliver);
        let not_in_range = delivery.0 == 1;
        let round: Vec<Place> = pairs(before.n.min(MAX_NODES)).collect();
        let at = round.iter().position(|&pair| pair == place);
        let right = match at {
            _ if lent.now.len() < TURN_BYTES => TOO_SHORT,
            _ if not_in_range => 1,
            // "With n = 1 a turn does nothing; else a place in the round that is no such pair meets 7."
            None if before.n != 1 => 7,
            _ => 0,
        };
        if answer != right {
            return Err(format!(
                "answered {answer}, by the buffer, the range and the place {right}"
            ));
        }
        let (kept, what) = if answer == 0 { (TURN_BYTES, "accepted") } else { (0, "refused") };
        if let Some(place) = lent.changed(kept) {
            return Err(format!("{what}, and byte {place} of the buffer has changed"));
        }
        if answer != 0 {
            self.refused(source, call, &before, not_in_range, at.is_some());
            return Ok(());
        }
        let (after, next, done) = written(&lent.now).ok_or("nothing is written")?;
        let after = table_from_bytes(after);
        let Some(at) = at else {
            self.alone(source, place, &before, &after, (next, done))?;
            self.accepted(source, call, &bytes, &before, DONE[0]);
            return Ok(());
        };
        let (right, why, left) = deed(library, call, &before, delivery)?;
        judge_done(place, right, done, &before, &after)?;
        if after != left {
            let words = two_tables(&after, &left);
            return Err(format!("another table than by the library's own step\n{words}"));
        }
        if next != round[(at + 1) % round.len()] {
            return Err(format!("the next place is {next:?}"));
        }
        let done = DONE[usize::from(right)];
        self.add(source, [done, NEXT[which_next(&round, at)]]);
        if let Some(why) = why {
            self.add(source, [done, why]);
        }
        self.waiting(source, done, place, &before, &after);
        self.accepted(source, call, &bytes, &before, done);
        Ok(())
    }

    /// "With n = 1 a turn does nothing".
    fn alone(
        &mut self,
        source: Source,
        place: Place,
        before: &Table,
        after: &Table,
        (next, done): (Place, u8),
    ) -> Result<(), String> {
        if (next, done) != (place, 0) || before != after {
            return Err(format!("n = 1, and the next place is {next:?}, done {done}"));
        }
        let inside = 1..=MAX_NODES;
        let pair = inside.contains(&place.0) && inside.contains(&place.1) && place.0 != place.1;
        let like = if pair { "the place like a pair" } else { "any other place" };
        self.add(source, ["n = 1", like]);
        Ok(())
    }

    /// Counts by the messages that wait before and after a turn at a pair.
    fn waiting(
        &mut self,
        source: Source,
        done: &'static str,
        pair: Place,
        before: &Table,
        after: &Table,
    ) {
        if done == DONE[0] {
            return;
        }
        let most = usize::from(before.limits.messages);
        if before.messages.len() == most {
            self.add(source, [done, "as many wait as may"]);
        }
        if after.messages.len() == most {
            self.add(source, [done, "as many wait as may, after it too"]);
        }
        if !line(after, pair).is_empty() {
            self.add(source, [done, "others of the pair wait behind it"]);
        }
    }

    /// Counts by the forms of what an accepted turn was given.
    fn accepted(
        &mut self,
        source: Source,
        call: &Call,
        bytes: &TableBytes,
        table: &Table,
        done: &'static str,
    ) {
        let rig = if table.limits == STAND { "stand" } else { "tower" };
        self.add(source, [done, rig]);
        let n = usize::from(table.n.min(MAX_NODES));
        self.add(source, ["turn", ROUNDS[n - 1]]);
        let mut records = bytes[NODES_AT..MESSAGES_AT].chunks_exact(NODE_BYTES).take(n);
        // Status and activity are read by their remainders.
        if records.any(|record| record[0] > 3 || record[18] > 8) {
            self.add(source, ["table", "in other bytes of the same"]);
        }
        if call.table.len() > TABLE_BYTES {
            self.add(source, ["table", "longer"]);
        }
        let just = call.lent.now.len() == TURN_BYTES;
        self.add(source, ["buffer", if just { "4,439 bytes" } else { "more bytes" }]);
    }

    /// Counts a refused turn, on a table that is not in range or is, at a pair or at none.
    fn refused(
        &mut self,
        source: Source,
        call: &Call,
        table: &Table,
        not_in_range: bool,
        pair: bool,
    ) {
        let (n, (a, b)) = (table.n, call.place);
        match call.answer {
            TOO_SHORT => {
                match call.lent.now.len() {
                    0 => self.add(source, ["answered 255", "no byte"]),
                    4438 => self.add(source, ["answered 255", "4,438 bytes"]),
                    _ => {}
                }
                if not_in_range {
                    self.add(source, ["answered 255", "1 too"]);
                } else if !pair && n != 1 {
                    self.add(source, ["answered 255", "7 too"]);
                }
            }
            1 => {
                self.add(source, ["refused 1", if pair { "at a pair" } else { "at no pair" }]);
                match n {
                    0 => self.add(source, ["refused 1", "n 0"]),
                    1 => self.add(source, ["refused 1", "n = 1"]),
                    _ if n > table.limits.nodes => {
                        self.add(source, ["refused 1", "n over the limit"]);
                    }
                    _ => {}
                }
                if call.table.len() < TABLE_BYTES {
                    self.add(source, ["refused 1", "the table cut short"]);
                }
            }
            _ => {
                let inside = |i: u8| (1..=n).contains(&i);
                let why = match (a, b) {
                    _ if inside(a) && a == b => "sender equals receiver",
                    _ if !inside(a) && !inside(b) => "both out of range",
                    (0, _) => "sender 0",
                    (_, 0) => "receiver 0",
                    _ if a > MAX_NODES => "sender over 16",
                    _ if b > MAX_NODES => "receiver over 16",
                    _ if a > n => "sender over n, up to 16",
                    _ => "receiver over n, up to 16",
                };
                self.add(source, ["refused 7", why]);
            }
        }
    }

    /// Counts an event between turns.
    pub fn event(&mut self, source: Source, event: &Event, answer: u8) {
        let what = if answer == 0 { event_name(event) } else { "refused" };
        self.add(source, ["between turns", what]);
    }

    /// Counts a followed message that went.
    pub fn gone(&mut self, source: Source, gone: &Gone) {
        let &Gone { k, equal, by, turns, allowed } = gone;
        let how = match (by.turn, by.lost) {
            (false, _) => "gone by an event between turns",
            (true, false) => "gone by a delivery",
            (true, true) => "gone by a loss",
        };
        self.add(source, ["followed", how]);
        self.add(source, ["followed", ["k = 0", "k = 1", "k = 2", "k = 3 or more"][k.min(3)]]);
        if equal {
            self.add(source, ["followed", "behind an equal one of its pair"]);
        }
        if by.turn && turns == allowed {
            self.add(source, EQUAL[k.min(1)]);
        }
        let larger = |(other, most): (u64, u64)| (turns * most, allowed) > (other * allowed, most);
        if by.turn && self.largest.is_none_or(larger) {
            self.largest = Some((turns, allowed));
        }
    }

    /// How often a followed message went in the last turn that the bound allows.
    pub fn bound_met(&self) -> u64 {
        EQUAL.iter().flat_map(|corner| self.tally.count(corner)).sum()
    }
}

impl Book for Corners {
    /// The counts, and then how near the bound the followed messages came.
    fn text(&self) -> String {
        let counts = self.tally.text();
        let largest = match self.largest {
            None => "no followed message went".to_string(),
            Some((turns, allowed)) => {
                let share = turns as f64 / allowed as f64;
                format!("largest share of the bound: {share:.3}, {turns} of {allowed} turns")
            }
        };
        format!("{counts}{largest}; met in its last turn {} times\n", self.bound_met())
    }

    fn impossible(&self) -> Vec<String> {
        self.tally.impossible()
    }

    fn seldom(&self, times: u64) -> Vec<String> {
        self.tally.seldom(times)
    }
}

/// A corner's words.
fn words(corner: &Corner) -> String {
    corner.join(", ")
}

/// The library's own step deliver or lose at the place and on the bytes that a turn was given: its answer, and what
/// it wrote.
fn step(library: &impl Library, call: &Call, event: fn(u8, u8) -> Event) -> (u8, TableBytes) {
    let mut field = Vec::with_capacity(8);
    write_event(&mut field, &event(call.place.0, call.place.1));
    let mut out = [0; TABLE_BYTES];
    let answer = library.step(call.table, &field, &mut out);
    (answer, out)
}

/// What must be done at a pair, why a message is lost, and the table that must be left, where the library's own
/// step deliver has this answer: "with no message it does nothing, with a Down receiver it loses the oldest, else
/// it delivers it. A delivery that meets 12, 13 or 17 becomes a loss."
fn deed(
    library: &impl Library,
    call: &Call,
    before: &Table,
    (delivery, delivered): (u8, TableBytes),
) -> Result<(u8, Option<&'static str>, Table), String> {
    let why = if line(before, call.place).is_empty() {
        return Ok((0, None, before.clone()));
    } else if before.node(call.place.1).status == Status::Down {
        "the receiver Down"
    } else {
        match delivery {
            0 => return Ok((1, None, table_from_bytes(&delivered))),
            12 => "the delivery meets 12",
            13 => "the delivery meets 13",
            17 => "the delivery meets 17",
            number => return Err(format!("the delivery meets {number}")),
        }
    };
    match step(library, call, Event::Lose) {
        (0, lost) => Ok((2, Some(why), table_from_bytes(&lost))),
        (number, _) => Err(format!("{why}, and the loss meets {number}")),
    }
}

/// What a turn at a pair takes out and counts: nothing, or exactly the oldest message, as delivered alone or as
/// lost alone.
fn judge_done(
    (a, b): Place,
    right: u8,
    done: u8,
    before: &Table,
    after: &Table,
) -> Result<(), String> {
    if done != right {
        return Err(format!("done {done}, and it must be {right}"));
    }
    let (was, is) = (line(before, (a, b)), line(after, (a, b)));
    if is != was[usize::from(right > 0)..] {
        return Err("not the oldest of the pair alone was taken out".to_string());
    }
    let raised = |counts: fn(&Table) -> &PairCounts| {
        count_of(counts(after), a, b).wrapping_sub(count_of(counts(before), a, b))
    };
    let counted = (raised(|t| &t.traffic.delivered), raised(|t| &t.traffic.lost));
    if counted != (u32::from(right == 1), u32::from(right == 2)) {
        return Err(format!("done {done}, and delivered and lost are raised by {counted:?}"));
    }
    Ok(())
}

/// Which of `NEXT` comes behind this place of the list of all pairs.
fn which_next(round: &[Place], at: usize) -> usize {
    match (round[at], round.get(at + 1)) {
        (_, None) => 0,
        ((a, _), Some(&(sender, _))) if sender != a => 1,
        ((_, b), Some(&(_, receiver))) if receiver > b + 1 => 2,
        _ => 3,
    }
}
