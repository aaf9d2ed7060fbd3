//! Counts what the compared events of the Bully machine met, and judges them. What T-07 of document 02 and
//! Appendix I make of each event is written out here place by place, apart from the machine, which has the
//! appendix's procedures.

use crate::bully::bytes::{first_event, TABLE_BYTES};
use crate::bully::machine::{Event, Node, Place, Table};
use crate::bully::tables::rule_names;
use crate::corners::Source;
use crate::machine::{only, Set, Status, MAX_NODES, MIN_TASK};
use crate::proved::TOO_SHORT;
use crate::tally::Where::{self, Both, Tables};
use crate::tally::{Book, Tally};

/// What is met, in words: of what, what, and how.
type Corner = [&'static str; 3];

const EVENTS: [&str; 6] = ["crash", "recover", "check", "timeout", "go on", "finish"];

const PLACES: [&str; 8] =
    ["idle", "asking", "halting", "announcing", "point", "handing", "checking", "contacting"];

const STATUSES: [&str; 4] = ["Down", "Election", "Reorganization", "Normal"];

/// How a number is that of no node.
const NUMBERS: [&str; 3] = ["0", "over n, up to 16", "over 16"];

/// How an election starts.
const STARTS: [&str; 3] = ["asks the next higher", "the highest, halts", "n = 1, elected"];

/// Why an election starts, and what can follow. In a run the highest node is never halted, never gives up and
/// has no coordinator but itself, so it is never idle in Election, or Down while it runs, and never contacts
/// another. A node alone has nobody to announce to, to hand to or to check.
const ELECTIONS: [(&str, [Option<Where>; STARTS.len()]); 7] = [
    ("recover", [Some(Both), Some(Both), Some(Both)]),
    ("timeout, Down", [Some(Both), Some(Tables), Some(Tables)]),
    ("timeout, Election", [Some(Both), Some(Tables), Some(Tables)]),
    ("announcing timed out", [Some(Both), Some(Both), None]),
    ("handing timed out", [Some(Both), Some(Both), None]),
    ("checking, not Normal", [Some(Both), Some(Both), None]),
    ("contacting timed out", [Some(Both), Some(Tables), Some(Tables)]),
];

/// What else accepted events come to.
const WAYS: [(Corner, Where); 53] = [
    (["check", "its own coordinator, Normal", "checks 1"], Both),
    (["check", "its own coordinator, Normal", "skips itself, checks 2"], Both),
    (["check", "its own coordinator, Normal", "n = 1, no effect"], Both),
    (["check", "its own coordinator, Reorganization", "no effect"], Both),
    (["check", "a member, Reorganization", "no effect"], Both),
    (["check", "a member, Normal", "no effect"], Both),
    (["check", "Down", "no effect"], Both),
    (["check", "Election", "no effect"], Both),
    (["timeout", "its own coordinator, Reorganization", "no effect"], Both),
    (["timeout", "its own coordinator, Normal", "no effect"], Both),
    (["timeout", "a member, Reorganization", "contacts"], Both),
    (["timeout", "a member, Normal", "contacts"], Both),
    // In a run whoever is in Reorganization or Normal has a coordinator.
    (["timeout", "coordinator 0", "contacts"], Tables),
    (["asking", "timed out", "the next"], Both),
    (["asking", "timed out, the last", "halts"], Both),
    (["asking", "timed out, the last", "of node 1, elected"], Both),
    (["halting", "answered", "the next"], Both),
    (["halting", "answered, the last", "announces"], Both),
    (["halting", "timed out", "the next"], Both),
    (["halting", "timed out, the last", "announces"], Both),
    (["halting", "timed out, the last", "Up empty"], Both),
    (["elected", "two or more in Up", "the highest first"], Both),
    (["announcing", "answered", "taken"], Both),
    // In a run nobody else halts a node of Up meanwhile, but it may have recovered; and nobody is told twice.
    (["announcing", "answered", "ignored by halter"], Tables),
    (["announcing", "answered", "ignored by status"], Tables),
    (["announcing", "answered", "ignored by both"], Both),
    (["announcing", "answered", "the next"], Both),
    (["announcing", "answered", "the highest of two or more next"], Both),
    (["announcing", "answered, the last", "the reorganization point"], Both),
    (["finish", "Up empty", "Normal"], Both),
    (["finish", "one in Up", "hands"], Both),
    (["finish", "two or more in Up", "the highest first"], Both),
    (["handing", "answered", "taken"], Both),
    // By the claims no run has two coordinators in Reorganization.
    (["handing", "answered", "ignored by coordinator"], Tables),
    (["handing", "answered", "ignored by status"], Both),
    (["handing", "answered", "ignored by both"], Both),
    (["handing", "answered", "the next"], Both),
    (["handing", "answered", "the highest of two or more next"], Both),
    (["handing", "answered, the last", "Normal"], Both),
    (["checking", "Normal", "the next"], Both),
    (["checking", "Normal", "skips itself"], Both),
    // In a run the highest node has no coordinator but itself.
    (["checking", "Normal, the last", "ends"], Tables),
    (["checking", "Normal, the last but itself", "ends"], Both),
    (["checking", "timed out", "the next"], Both),
    (["checking", "timed out", "skips itself"], Both),
    (["checking", "timed out, the last", "ends"], Both),
    (["checking", "timed out, the last but itself", "ends"], Both),
    (["checking", "Down", "elects"], Both),
    (["checking", "Election", "elects"], Both),
    // In a run it has handed its task to all of those before it is Normal.
    (["checking", "Reorganization", "elects"], Tables),
    (["contacting", "answered", "ends"], Both),
    (["contacting", "timed out", "elects"], Both),
    (["contacting", "coordinator 0", "elects"], Tables),
];

/// What calls meet that are made of any bytes.
const CALLS: [Corner; 13] = [
    ["field", "refused 3", ""],
    ["field", "refused 4", ""],
    ["field", "refused 5", ""],
    ["field", "refused 3", "1 too"],
    ["field", "refused 4", "1 too"],
    ["field", "refused 5", "1 too"],
    ["buffer", "answered 255", "no byte"],
    ["buffer", "answered 255", "one too few"],
    ["buffer", "answered 255", "fewer"],
    ["buffer", "just a table", "accepted"],
    ["buffer", "longer", "accepted"],
    ["bytes", "as table", "refused 1"],
    ["bytes", "as table", "not refused 1"],
];

/// Every corner that the papers make possible.
fn possible() -> Vec<(Corner, Where)> {
    let mut corners = WAYS.to_vec();
    for event in EVENTS {
        for number in NUMBERS {
            corners.push(([event, "refused 7", number], Both));
        }
        corners.push(([event, "refused 9", ""], Both));
        for place in PLACES {
            let answer = if stands(event, place) { "accepted" } else { "refused 10" };
            // What does not run is idle.
            if event != "recover" || place == "idle" {
                corners.push(([event, answer, place], Both));
            }
        }
        corners.push(([event, "refused 1", ""], Tables));
    }
    for later in ["", "9 too", "10 too"] {
        corners.push((["finish", "refused 8", later], Both));
    }
    corners.push((["finish", "refused 7", "8 too"], Both));
    for (cause, starts) in ELECTIONS {
        let starts = STARTS.iter().zip(starts).filter_map(|(start, at)| Some((*start, at?)));
        corners.extend(starts.map(|(start, at)| ([cause, "election", start], at)));
    }
    for status in STATUSES {
        corners.push((["asking", "answered, gives up", status], Both));
        corners.push((["halting", "answered, of status", status], Both));
    }
    corners.extend(PLACES.map(|place| (["halting", "answered, stops", place], Both)));
    corners.extend(rule_names().map(|name| (["range", "broken", name], Tables)));
    corners.extend(CALLS.map(|corner| (corner, Tables)));
    corners
}

fn event_name(event: &Event) -> &'static str {
    match event {
        Event::Crash(_) => "crash",
        Event::Recover(_) => "recover",
        Event::Check(_) => "check",
        Event::Timeout(_) => "timeout",
        Event::GoOn(_) => "go on",
        Event::Finish(..) => "finish",
    }
}

fn place_name(place: &Place) -> &'static str {
    match place {
        Place::Idle => "idle",
        Place::Asking(_) => "asking",
        Place::Halting(_) => "halting",
        Place::Announcing { .. } => "announcing",
        Place::Point => "point",
        Place::Handing { .. } => "handing",
        Place::Checking(_) => "checking",
        Place::Contacting => "contacting",
    }
}

fn status_name(status: Status) -> &'static str {
    STATUSES[status as usize]
}

/// "go on needs a call to make and finish the reorganization point"; document 01: "check, timeout: not idle".
fn stands(event: &str, place: &str) -> bool {
    match event {
        "check" | "timeout" => place == "idle",
        "go on" => place != "idle" && place != "point",
        "finish" => place == "point",
        _ => true,
    }
}

fn node_of(table: &Table, i: u8) -> Option<&Node> {
    (1..=table.n.min(MAX_NODES)).contains(&i).then(|| table.node(i))
}

/// The grounds that apply to an event on a table in range, in their order.
fn grounds(table: &Table, event: &Event) -> Vec<u8> {
    let name = event_name(event);
    let low = matches!(*event, Event::Finish(_, task) if task < MIN_TASK);
    let node = node_of(table, event.node());
    let runs_wrongly = node.is_some_and(|node| node.runs == (name == "recover"));
    let elsewhere = node.is_some_and(|node| !stands(name, place_name(&node.place)));
    let all = [(7, node.is_none()), (8, low), (9, runs_wrongly), (10, elsewhere)];
    all.into_iter().filter(|&(_, applies)| applies).map(|(number, _)| number).collect()
}

fn highest(set: Set) -> Option<u8> {
    (1..=MAX_NODES).rev().find(|&i| set & only(i) != 0)
}

/// What must follow on an accepted event of node i: the table, which is first as before, and the corners that
/// this is.
struct Follows {
    table: Table,
    i: u8,
    met: Vec<Corner>,
}

impl Follows {
    fn of(table: &Table, event: &Event) -> Follows {
        let i = event.node();
        let place = place_name(&table.node(i).place);
        let met = vec![[event_name(event), "accepted", place]];
        let mut follows = Follows { table: *table, i, met };
        let own = follows.own();
        match *event {
            Event::Crash(_) => {
                (own.runs, own.status, own.place) = (false, Status::Down, Place::Idle);
            }
            Event::Recover(_) => {
                (own.runs, own.halter) = (true, 0);
                follows.elect("recover");
            }
            Event::Check(_) => follows.check(),
            Event::Timeout(_) => follows.timeout(),
            Event::GoOn(_) => follows.go_on(),
            Event::Finish(_, task) => {
                own.task = task;
                let up = own.up;
                follows.met.push(match up.count_ones() {
                    0 => ["finish", "Up empty", "Normal"],
                    1 => ["finish", "one in Up", "hands"],
                    _ => ["finish", "two or more in Up", "the highest first"],
                });
                follows.hand(up);
            }
        }
        follows
    }

    fn own(&mut self) -> &mut Node {
        self.table.node_mut(self.i)
    }

    fn stand(&mut self, place: Place) {
        self.own().place = place;
    }

    /// An election starts: the next higher one is asked first, if there is one.
    fn elect(&mut self, cause: &'static str) {
        let (i, n) = (self.i, self.table.n);
        let start = match n {
            _ if i < n => STARTS[0],
            2.. => STARTS[1],
            _ => STARTS[2],
        };
        self.met.push([cause, "election", start]);
        if i < n {
            self.stand(Place::Asking(i + 1));
        } else {
            self.halt_own();
        }
    }

    /// The halting step: the node is the first that is halted, and then comes the next lower one.
    fn halt_own(&mut self) {
        let i = self.i;
        let own = self.own();
        (own.status, own.halter, own.up) = (Status::Election, i, 0);
        if i > 1 {
            self.stand(Place::Halting(i - 1));
        } else {
            self.elected();
        }
    }

    /// The election point.
    fn elected(&mut self) {
        let i = self.i;
        let own = self.own();
        (own.coordinator, own.status) = (i, Status::Reorganization);
        let up = own.up;
        if up.count_ones() > 1 {
            self.met.push(["elected", "two or more in Up", "the highest first"]);
        }
        self.announce(up);
    }

    /// NewCoordinator is due to these.
    fn announce(&mut self, to: Set) {
        self.stand(match highest(to) {
            Some(now) => Place::Announcing { now, still: to & !only(now) },
            None => Place::Point,
        });
    }

    /// Ready is due to these.
    fn hand(&mut self, to: Set) {
        let own = self.own();
        match highest(to) {
            Some(now) => own.place = Place::Handing { now, still: to & !only(now) },
            None => (own.status, own.place) = (Status::Normal, Place::Idle),
        }
    }

    fn check(&mut self) {
        let (i, n) = (self.i, self.table.n);
        let own = *self.own();
        let is = match own.status {
            Status::Down => "Down",
            Status::Election => "Election",
            Status::Reorganization if own.coordinator == i => "its own coordinator, Reorganization",
            Status::Reorganization => "a member, Reorganization",
            Status::Normal if own.coordinator == i => "its own coordinator, Normal",
            Status::Normal => "a member, Normal",
        };
        let checks = is == "its own coordinator, Normal";
        let how = match n {
            1 if checks => "n = 1, no effect",
            _ if !checks => "no effect",
            _ if i == 1 => "skips itself, checks 2",
            _ => "checks 1",
        };
        self.met.push(["check", is, how]);
        if checks && n > 1 {
            self.stand(Place::Checking(if i == 1 { 2 } else { 1 }));
        }
    }

    fn timeout(&mut self) {
        let i = self.i;
        let own = *self.own();
        let (is, how) = match (own.status, own.coordinator) {
            (Status::Down, _) => return self.elect("timeout, Down"),
            (Status::Election, _) => return self.elect("timeout, Election"),
            (_, 0) => ("coordinator 0", "contacts"),
            (Status::Reorganization, c) if c == i => {
                ("its own coordinator, Reorganization", "no effect")
            }
            (Status::Normal, c) if c == i => ("its own coordinator, Normal", "no effect"),
            (Status::Reorganization, _) => ("a member, Reorganization", "contacts"),
            (Status::Normal, _) => ("a member, Normal", "contacts"),
        };
        self.met.push(["timeout", is, how]);
        if how == "contacts" {
            self.stand(Place::Contacting);
        }
    }

    /// One call is made, that of the place. None is a timeout.
    fn go_on(&mut self) {
        let own = *self.own();
        let j = own.called().unwrap_or(0);
        let called = node_of(&self.table, j).copied().filter(|node| node.runs);
        match own.place {
            Place::Asking(_) => self.asked(j, called),
            Place::Halting(_) => self.halted(j, called),
            Place::Announcing { still, .. } => self.announced(j, still, called),
            Place::Handing { still, .. } => self.handed(j, still, called),
            Place::Checking(_) => self.checked(j, called),
            Place::Contacting if called.is_some() => {
                self.met.push(["contacting", "answered", "ends"]);
                self.stand(Place::Idle);
            }
            Place::Contacting => {
                let why = if j == 0 { "coordinator 0" } else { "timed out" };
                self.met.push(["contacting", why, "elects"]);
                self.elect("contacting timed out");
            }
            Place::Idle | Place::Point => {}
        }
    }

    fn asked(&mut self, j: u8, called: Option<Node>) {
        if called.is_some() {
            let status = status_name(self.own().status);
            self.met.push(["asking", "answered, gives up", status]);
            self.stand(Place::Idle);
        } else if j < self.table.n {
            self.met.push(["asking", "timed out", "the next"]);
            self.stand(Place::Asking(j + 1));
        } else {
            let how = if self.i == 1 { "of node 1, elected" } else { "halts" };
            self.met.push(["asking", "timed out, the last", how]);
            self.halt_own();
        }
    }

    fn halted(&mut self, j: u8, called: Option<Node>) {
        let i = self.i;
        if let Some(node) = called {
            self.met.push(["halting", "answered, stops", place_name(&node.place)]);
            self.met.push(["halting", "answered, of status", status_name(node.status)]);
            let node = Node { status: Status::Election, halter: i, place: Place::Idle, ..node };
            *self.table.node_mut(j) = node;
            self.own().up |= only(j);
        }
        let alone = self.own().up == 0;
        self.met.push(match (called.is_some(), j > 1) {
            (true, true) => ["halting", "answered", "the next"],
            (true, false) => ["halting", "answered, the last", "announces"],
            (false, true) => ["halting", "timed out", "the next"],
            (false, false) if alone => ["halting", "timed out, the last", "Up empty"],
            (false, false) => ["halting", "timed out, the last", "announces"],
        });
        if j > 1 {
            self.stand(Place::Halting(j - 1));
        } else {
            self.elected();
        }
    }

    fn announced(&mut self, j: u8, still: Set, called: Option<Node>) {
        let i = self.i;
        let Some(node) = called else {
            return self.elect("announcing timed out");
        };
        let how = match (node.halter == i, node.status == Status::Election) {
            (true, true) => "taken",
            (false, true) => "ignored by halter",
            (true, false) => "ignored by status",
            (false, false) => "ignored by both",
        };
        if how == "taken" {
            let node = self.table.node_mut(j);
            (node.coordinator, node.status) = (i, Status::Reorganization);
        }
        self.met.push(["announcing", "answered", how]);
        self.met.push(match still.count_ones() {
            0 => ["announcing", "answered, the last", "the reorganization point"],
            1 => ["announcing", "answered", "the next"],
            _ => ["announcing", "answered", "the highest of two or more next"],
        });
        self.announce(still);
    }

    fn handed(&mut self, j: u8, still: Set, called: Option<Node>) {
        let (i, task) = (self.i, self.own().task);
        let Some(node) = called else {
            return self.elect("handing timed out");
        };
        let how = match (node.coordinator == i, node.status == Status::Reorganization) {
            (true, true) => "taken",
            (false, true) => "ignored by coordinator",
            (true, false) => "ignored by status",
            (false, false) => "ignored by both",
        };
        if how == "taken" {
            let node = self.table.node_mut(j);
            (node.task, node.status) = (task, Status::Normal);
        }
        self.met.push(["handing", "answered", how]);
        self.met.push(match still.count_ones() {
            0 => ["handing", "answered, the last", "Normal"],
            1 => ["handing", "answered", "the next"],
            _ => ["handing", "answered", "the highest of two or more next"],
        });
        self.hand(still);
    }

    fn checked(&mut self, j: u8, called: Option<Node>) {
        let (i, n) = (self.i, self.table.n);
        let status = called.map(|node| node.status);
        if let Some(status @ (Status::Down | Status::Election | Status::Reorganization)) = status {
            self.met.push(["checking", status_name(status), "elects"]);
            return self.elect("checking, not Normal");
        }
        let next = if j + 1 == i { j + 2 } else { j + 1 };
        self.met.push(match (called.is_some(), next <= n, j + 1 == i) {
            (true, true, false) => ["checking", "Normal", "the next"],
            (true, true, true) => ["checking", "Normal", "skips itself"],
            (true, false, false) => ["checking", "Normal, the last", "ends"],
            (true, false, true) => ["checking", "Normal, the last but itself", "ends"],
            (false, true, false) => ["checking", "timed out", "the next"],
            (false, true, true) => ["checking", "timed out", "skips itself"],
            (false, false, false) => ["checking", "timed out, the last", "ends"],
            (false, false, true) => ["checking", "timed out, the last but itself", "ends"],
        });
        self.stand(if next <= n { Place::Checking(next) } else { Place::Idle });
    }
}

/// How often each corner was met, in runs and on tables.
#[derive(Clone, Debug)]
pub struct Corners(Tally<Corner>);

impl Default for Corners {
    fn default() -> Corners {
        Corners(Tally::new(possible, words))
    }
}

impl Corners {
    fn add(&mut self, source: Source, corner: Corner) {
        self.0.add(source, corner);
    }

    /// Counts an event on a table in range, with what followed. What must not follow is a corner that is not
    /// among the possible ones.
    pub fn event(
        &mut self,
        source: Source,
        before: &Table,
        event: &Event,
        answer: u8,
        after: &Table,
    ) {
        let name = event_name(event);
        let grounds = grounds(before, event);
        if answer != grounds.first().copied().unwrap_or(0) {
            self.add(source, [name, "another answer than by the grounds", ""]);
        } else if answer == 0 {
            let follows = Follows::of(before, event);
            if follows.table != *after {
                return self.add(source, [name, "another table than by the papers", ""]);
            }
            if !after.in_range() {
                return self.add(source, [name, "out of range after it", ""]);
            }
            for corner in follows.met {
                self.add(source, corner);
            }
        } else {
            self.refused(source, before, event, &grounds);
        }
    }

    fn refused(&mut self, source: Source, table: &Table, event: &Event, grounds: &[u8]) {
        let name = event_name(event);
        let i = event.node();
        match (grounds, node_of(table, i)) {
            ([7, later @ ..], _) => {
                self.add(
                    source,
                    match i {
                        0 => [name, "refused 7", NUMBERS[0]],
                        1..=MAX_NODES => [name, "refused 7", NUMBERS[1]],
                        _ => [name, "refused 7", NUMBERS[2]],
                    },
                );
                if later.contains(&8) {
                    self.add(source, [name, "refused 7", "8 too"]);
                }
            }
            ([8, 9, ..], _) => self.add(source, [name, "refused 8", "9 too"]),
            ([8, 10], _) => self.add(source, [name, "refused 8", "10 too"]),
            ([8], _) => self.add(source, [name, "refused 8", ""]),
            ([9, ..], _) => self.add(source, [name, "refused 9", ""]),
            (_, Some(node)) => self.add(source, [name, "refused 10", place_name(&node.place)]),
            (_, None) => {}
        }
    }

    /// Counts the answer to an event on a table in which the rule of this name is broken and no other.
    pub fn broken(&mut self, rule: &'static str, event: &Event, answer: u8) {
        if answer == 1 {
            self.add(Source::Table, [event_name(event), "refused 1", ""]);
            self.add(Source::Table, ["range", "broken", rule]);
        } else {
            self.add(Source::Table, ["range", "broken, and not refused 1", rule]);
        }
    }

    /// Counts a call on a table that is in range or has a rule broken, with any bytes as field, into so many
    /// bytes.
    pub fn call(&mut self, in_range: bool, field: &[u8], room: usize, answer: u8) {
        let short = room < TABLE_BYTES;
        let corner = match (answer, first_event(field)) {
            (TOO_SHORT, _) if room == 0 => ["buffer", "answered 255", "no byte"],
            (TOO_SHORT, _) if room == TABLE_BYTES - 1 => ["buffer", "answered 255", "one too few"],
            (TOO_SHORT, _) if short => ["buffer", "answered 255", "fewer"],
            (3..=5, Err(number)) if number == answer && !short => {
                let refused = ["refused 3", "refused 4", "refused 5"][usize::from(answer) - 3];
                ["field", refused, if in_range { "" } else { "1 too" }]
            }
            (0, Ok(_)) if room == TABLE_BYTES && in_range => ["buffer", "just a table", "accepted"],
            (0, Ok(_)) if !short && in_range => ["buffer", "longer", "accepted"],
            (1, Ok(_)) if !short && !in_range => return,
            (7..=10, Ok(_)) if !short && in_range => return,
            _ => ["call", "another answer than by the buffer, the field and the range", ""],
        };
        self.add(Source::Table, corner);
    }

    /// Counts the answer to an event on any bytes as table.
    pub fn any_bytes(&mut self, answer: u8) {
        let refused = if answer == 1 { "refused 1" } else { "not refused 1" };
        self.add(Source::Table, ["bytes", "as table", refused]);
    }

    /// What was met, as a fuzzer tells it.
    pub fn book(&self) -> &dyn Book {
        &self.0
    }
}

/// A corner's words, those that it has.
fn words(corner: &Corner) -> String {
    let has: Vec<&str> = corner.iter().copied().filter(|words| !words.is_empty()).collect();
    has.join(", ")
}
