//! Counts what quiet events and turns met in runs, and how far the potential fell in each. Which falls each procedure
//! can have is written out here once more, apart from the weights.

use crate::corners::{acting, event_name, Source, ACTIVITIES, KINDS};
use crate::machine::{Activity, Body, Event, Table, MAX_NODES, STAND};
use crate::proved::tag;
use crate::round::driver::Done;
use crate::tally::Where::{self, Either};
use crate::tally::{Book, Tally};

/// What is met, in words: of what, how, and where.
type Corner = [&'static str; 3];

const RIGS: [&str; 2] = ["tower", "stand"];

/// How far the potential fell.
const FALLS: [&str; 4] = ["by 1", "by 2", "by 3", "by more"];
const BY_1: usize = 0;
const BY_2: usize = 1;
const BY_3: usize = 2;
const BY_MORE: usize = 3;

/// What an accepted quiet event does, and by how much the potential can fall in it. A call that is sent weighs 2, an
/// invitation 4.
const PROCEDURES: [(&str, &[usize]); 39] = [
    ("an invitation lost", &[BY_MORE]),
    ("a reply lost", &[BY_1]),
    ("another call lost", &[BY_2]),
    ("tick, waits on", &[BY_1]),
    // By 1 where all others were found.
    ("tick, merges", &[BY_1, BY_MORE]),
    // By 1 where all others joined.
    ("finish, hands", &[BY_1, BY_MORE]),
    ("finish, no members", &[BY_MORE]),
    // By 4 where it passes itself over.
    ("expire, asks the next", &[BY_1, BY_MORE]),
    ("expire, none found", &[BY_MORE]),
    // Node 1 that has found all but the last: by 2.
    ("expire, waits", &[BY_2, BY_3, BY_MORE]),
    ("expire, merges", &[BY_MORE]),
    ("expire, invites the next", &[BY_1]),
    ("expire, collects", &[BY_1]),
    ("expire, recovers from handing", &[BY_MORE]),
    ("expire, recovers from contacting", &[BY_1]),
    ("expire, recovers from accepting", &[BY_1]),
    ("expire, forwards to the next", &[BY_1]),
    ("expire, accepts", &[BY_1]),
    ("AreYouCoordinator, replies", &[BY_1]),
    ("AreYouThere, replies", &[BY_1]),
    ("Invitation, replies", &[BY_3]),
    ("Invitation, forwards", &[BY_1]),
    ("Invitation, accepts", &[BY_1]),
    ("Invitation, stops asking", &[BY_MORE]),
    ("Invitation, stops waiting", &[BY_MORE]),
    ("Invitation, stops contacting", &[BY_2]),
    ("Accept, replies", &[BY_1]),
    ("Ready, replies", &[BY_1]),
    ("reply, dropped", &[BY_1]),
    ("reply, asks the next", &[BY_2, BY_MORE]),
    ("reply, none found", &[BY_MORE]),
    // Node 1 that has found the last: by 2.
    ("reply, waits", &[BY_2, BY_3, BY_MORE]),
    ("reply, merges", &[BY_MORE]),
    ("reply, invites the next or collects", &[BY_2]),
    ("reply, hands to the next", &[BY_1]),
    ("reply, has handed to all", &[BY_2]),
    ("reply, ends contacting", &[BY_2]),
    ("reply, forwards to the next or accepts", &[BY_2]),
    ("reply, ends accepting", &[BY_1]),
];

/// The grounds that quiet events meet in runs.
const REFUSED: [(u8, &str); 7] =
    [(7, "7"), (8, "8"), (9, "9"), (10, "10"), (11, "11"), (14, "14"), (19, "19")];

const TURNS: [&str; 3] = ["nothing", "delivered", "lost"];

const NODES: [&str; MAX_NODES as usize] =
    ["1", "2", "3", "4", "5", "6", "7", "8", "9", "10", "11", "12", "13", "14", "15", "16"];

/// How a stretch of quiet events ends.
const ENDS: [&str; 3] = ["at rest", "before another event", "no message waits, after turns alone"];

/// At which activities of the node that it meets a quiet event can be accepted.
fn at_activities() -> Vec<[&'static str; 2]> {
    let calls = ["asking", "inviting", "handing", "contacting", "forwarding", "accepting"];
    let mut found = vec![["tick", "waiting"], ["finish", "collecting"]];
    found.extend(calls.map(|activity| ["expire", activity]));
    found.extend(ACTIVITIES.map(|activity| ["deliver", activity]));
    found.extend(ACTIVITIES.map(|activity| ["lose", activity]));
    found
}

/// Every corner that the papers make possible.
fn possible() -> Vec<(Corner, Where)> {
    let mut corners = Vec::new();
    for rig in RIGS {
        corners.extend(at_activities().iter().map(|[event, at]| [*event, *at, rig]));
        corners.extend(TURNS.map(|done| ["turn", done, rig]));
    }
    for kind in KINDS {
        corners.extend(["delivered", "lost"].map(|done| [kind, done, ""]));
    }
    for (procedure, falls) in PROCEDURES {
        corners.extend(falls.iter().map(|&fall| [procedure, "falls", FALLS[fall]]));
    }
    corners.extend(REFUSED.map(|(_, number)| ["refused", number, ""]));
    corners.extend(NODES.map(|n| ["n", n, ""]));
    corners.extend(ENDS.map(|end| ["a stretch ends", end, ""]));
    corners.into_iter().map(|corner| (corner, Either)).collect()
}

/// How often each corner was met, and the largest shares.
#[derive(Clone, Debug)]
pub struct Corners {
    tally: Tally<Corner>,
    /// The quiet events that were accepted.
    pub accepted: u64,
    /// A table's potential and its bound, where the share is the largest.
    of_bound: (u64, u64),
    /// Of the stretches with an accepted event: how many were accepted and the potential at its start.
    of_potential: (u64, u64),
    /// The most that were accepted in a stretch, in the tower and on the stand.
    most: [u64; 2],
}

impl Default for Corners {
    fn default() -> Corners {
        let tally = Tally::new(possible, words);
        Corners { tally, accepted: 0, of_bound: (0, 1), of_potential: (0, 1), most: [0; 2] }
    }
}

/// The larger share of two; of equal shares the one of more.
fn larger(a: (u64, u64), b: (u64, u64)) -> (u64, u64) {
    if (a.0 * b.1, a.1) > (b.0 * a.1, b.1) {
        a
    } else {
        b
    }
}

fn rig(table: &Table) -> usize {
    usize::from(table.limits == STAND)
}

impl Corners {
    fn add(&mut self, corner: Corner) {
        self.tally.add(Source::Run, corner);
    }

    /// Counts an accepted quiet event in which the potential fell by so much, with the tables before and after it.
    pub fn quiet(&mut self, before: &Table, event: &Event, after: &Table, fall: u64) {
        self.accepted += 1;
        let node = before.node(acting(event));
        let activity = ACTIVITIES[usize::from(tag(&node.activity))];
        self.add([event_name(event), activity, RIGS[rig(before)]]);
        if let Some(body) = taken(before, event) {
            let done = if matches!(event, Event::Lose(..)) { "lost" } else { "delivered" };
            self.add([KINDS[usize::from(body.kind()) - 1], done, ""]);
        }
        let fall = FALLS[(fall.clamp(1, 4) - 1) as usize];
        self.add([procedure(before, event, after), "falls", fall]);
        self.add(["n", NODES[usize::from(before.n) - 1], ""]);
    }

    /// Counts a refused quiet event.
    pub fn refused(&mut self, table: &Table, number: u8) {
        self.add(["n", NODES[usize::from(table.n) - 1], ""]);
        let place = REFUSED.iter().find(|&&(ground, _)| ground == number);
        self.add(["refused", place.map_or("on another ground", |&(_, words)| words), ""]);
    }

    pub fn turn(&mut self, table: &Table, done: Done) {
        self.add(["turn", TURNS[done as usize], RIGS[rig(table)]]);
    }

    /// Counts a stretch of quiet events that is over: how many were accepted, the potential at its start.
    pub fn stretch(&mut self, table: &Table, accepted: u64, potential: u64, rests: bool) {
        if accepted > 0 {
            self.add(["a stretch ends", ENDS[usize::from(!rests)], ""]);
            self.of_potential = larger((accepted, potential), self.of_potential);
            let most = &mut self.most[rig(table)];
            *most = accepted.max(*most);
        }
    }

    /// Counts a row of turns alone, behind which no message waits.
    pub fn turns_alone(&mut self) {
        self.add(["a stretch ends", ENDS[2], ""]);
    }

    /// Takes in a table's potential and its bound.
    pub fn table(&mut self, potential: u64, bound: u64) {
        self.of_bound = larger((potential, bound), self.of_bound);
    }
}

impl Book for Corners {
    /// The counts, and then the largest shares.
    fn text(&self) -> String {
        let share = |(part, whole): (u64, u64)| {
            format!("{:.3}, {part} of {whole}", part as f64 / whole as f64)
        };
        format!(
            "{}largest share of the bound that a potential was: {}\n\
             largest share of the potential that was accepted: {}\n\
             most quiet events accepted in a row: {} in the tower, {} on the stand\n",
            self.tally.text(),
            share(self.of_bound),
            share(self.of_potential),
            self.most[0],
            self.most[1]
        )
    }

    fn impossible(&self) -> Vec<String> {
        self.tally.impossible()
    }

    fn seldom(&self, times: u64) -> Vec<String> {
        self.tally.seldom(times)
    }
}

/// A corner's words.
fn words(corner: &Corner) -> String {
    let parts: Vec<&str> = corner.iter().copied().filter(|part| !part.is_empty()).collect();
    parts.join(", ")
}

/// What a deliver or lose takes out.
fn taken(before: &Table, event: &Event) -> Option<Body> {
    let (Event::Deliver(a, b) | Event::Lose(a, b)) = *event else {
        return None;
    };
    before.messages.iter().find(|m| (m.sender, m.receiver) == (a, b)).map(|m| m.body)
}

/// What an accepted quiet event does, by the tables before and after it.
fn procedure(before: &Table, event: &Event, after: &Table) -> &'static str {
    let (was, is) = (before.node(acting(event)), after.node(acting(event)));
    let on = |first, other| if was.group == is.group { first } else { other };
    match (event, taken(before, event)) {
        (Event::Lose(..), Some(Body::Invitation { .. })) => "an invitation lost",
        (Event::Lose(..), Some(Body::Reply { .. })) => "a reply lost",
        (Event::Lose(..), _) => "another call lost",
        (Event::Tick(_), _) => on("tick, waits on", "tick, merges"),
        (Event::Finish(..), _) if is.members == 0 => "finish, no members",
        (Event::Finish(..), _) => "finish, hands",
        (Event::Expire(_), _) => match (was.activity, is.activity) {
            (Activity::Asking { .. }, Activity::Asking { .. }) => "expire, asks the next",
            (Activity::Asking { .. }, Activity::Idle) => "expire, none found",
            (Activity::Asking { .. }, Activity::Waiting { .. }) => "expire, waits",
            (Activity::Asking { .. }, _) => "expire, merges",
            (Activity::Inviting { .. }, Activity::Collecting) => "expire, collects",
            (Activity::Inviting { .. }, _) => "expire, invites the next",
            (Activity::Handing { .. }, _) => "expire, recovers from handing",
            (Activity::Contacting, _) => "expire, recovers from contacting",
            (Activity::Accepting { .. }, _) => "expire, recovers from accepting",
            (Activity::Forwarding { .. }, Activity::Accepting { .. }) => "expire, accepts",
            (Activity::Forwarding { .. }, _) => "expire, forwards to the next",
            _ => "expire, no open call",
        },
        (_, Some(Body::AreYouCoordinator)) => "AreYouCoordinator, replies",
        (_, Some(Body::AreYouThere { .. })) => "AreYouThere, replies",
        (_, Some(Body::Accept { .. })) => "Accept, replies",
        (_, Some(Body::Ready { .. })) => "Ready, replies",
        (_, Some(Body::Invitation { .. })) => match (was.activity, is.activity) {
            _ if was.group == is.group => "Invitation, replies",
            (Activity::Asking { .. }, _) => "Invitation, stops asking",
            (Activity::Waiting { .. }, _) => "Invitation, stops waiting",
            (Activity::Contacting, _) => "Invitation, stops contacting",
            (Activity::Idle, Activity::Forwarding { .. }) => "Invitation, forwards",
            (Activity::Idle, _) => "Invitation, accepts",
            _ => "Invitation, stops another activity",
        },
        (_, Some(Body::Reply { .. })) => match (was.activity, is.activity) {
            _ if was == is => "reply, dropped",
            (Activity::Asking { .. }, Activity::Asking { .. }) => "reply, asks the next",
            (Activity::Asking { .. }, Activity::Idle) => "reply, none found",
            (Activity::Asking { .. }, Activity::Waiting { .. }) => "reply, waits",
            (Activity::Asking { .. }, _) => "reply, merges",
            (Activity::Inviting { .. }, _) => "reply, invites the next or collects",
            (Activity::Handing { .. }, Activity::Idle) => "reply, has handed to all",
            (Activity::Handing { .. }, _) => "reply, hands to the next",
            (Activity::Contacting, _) => "reply, ends contacting",
            (Activity::Forwarding { .. }, _) => "reply, forwards to the next or accepts",
            (Activity::Accepting { .. }, _) => "reply, ends accepting",
            _ => "reply, no open call",
        },
        _ => "no quiet event",
    }
}
