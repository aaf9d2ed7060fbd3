//! The Bully machine: the table, when it is in range, and what each of the six events does to it. The
//! procedures stand here as Appendix I prints them, in its order and with its lines in the comments, to be
//! read beside it. Words in quotation marks are T-07's of document 02, or the appendix's where they have
//! its names; their cabinet is called node here.
//!
//! A process runs a procedure until it comes to a call, and stands there. Going on makes that call and runs
//! the procedure until the next one. A table may come from anywhere, so a process that stands in a loop is
//! entered there: each loop is a function of the iterations that are left, and what follows the loop in the
//! appendix follows it in the function.

use crate::machine::{only, take_highest, Set, Status, MAX_NODES, MIN_TASK};

/// "the place in its procedure": the call that is made when it goes on, or the reorganization point.
#[derive(Clone, Copy, Debug, PartialEq, Eq)]
pub enum Place {
    /// No procedure runs.
    Idle,
    /// In Election, AreYouThere(j).
    Asking(u8),
    /// In Election, Halt(j, i).
    Halting(u8),
    /// In Election, NewCoordinator(now, i); those still to come stand in the set.
    Announcing { now: u8, still: Set },
    /// In Election: "The reorganization of the system occurs here."
    Point,
    /// In Election, Ready(now, i, S(i).d); those still to come stand in the set.
    Handing { now: u8, still: Set },
    /// In Check, AreYouNormal(j, ans).
    Checking(u8),
    /// In Timeout, AreYouThere(S(i).c).
    Contacting,
}

/// "The record". 0 stands for none in coordinator, task and halter.
#[derive(Clone, Copy, Debug, PartialEq, Eq)]
pub struct Node {
    pub runs: bool,
    /// S(i).s
    pub status: Status,
    /// S(i).c
    pub coordinator: u8,
    /// S(i).d
    pub task: u16,
    /// S(i).h
    pub halter: u8,
    /// S(i).Up
    pub up: Set,
    pub place: Place,
}

/// Node i stands at nodes[i - 1]; those above n are no part of the table and are never written.
#[derive(Clone, Copy, Debug, PartialEq, Eq)]
pub struct Table {
    pub n: u8,
    pub nodes: [Node; MAX_NODES as usize],
}

/// "events crash, recover, check, timeout, go on and finish with a task"
#[derive(Clone, Copy, Debug, PartialEq, Eq)]
pub enum Event {
    Crash(u8),
    Recover(u8),
    Check(u8),
    Timeout(u8),
    GoOn(u8),
    /// node, task
    Finish(u8, u16),
}

impl Event {
    /// The node whose event it is.
    pub fn node(&self) -> u8 {
        match *self {
            Event::Crash(i)
            | Event::Recover(i)
            | Event::Check(i)
            | Event::Timeout(i)
            | Event::GoOn(i)
            | Event::Finish(i, _) => i,
        }
    }
}

impl Node {
    /// Down and idle, every number 0, the set empty.
    pub const START: Node = Node {
        runs: false,
        status: Status::Down,
        coordinator: 0,
        task: 0,
        halter: 0,
        up: 0,
        place: Place::Idle,
    };

    /// Whom it calls when it goes on, if it has a call to make; 0 is nobody.
    pub fn called(&self) -> Option<u8> {
        match self.place {
            Place::Idle | Place::Point => None,
            Place::Asking(j) | Place::Halting(j) | Place::Checking(j) => Some(j),
            Place::Announcing { now, .. } | Place::Handing { now, .. } => Some(now),
            Place::Contacting => Some(self.coordinator),
        }
    }
}

impl Table {
    /// "all Down"
    pub fn start(n: u8) -> Table {
        Table { n, nodes: [Node::START; MAX_NODES as usize] }
    }

    /// Node i, which must be 1 to 16.
    pub fn node(&self, i: u8) -> &Node {
        &self.nodes[usize::from(i) - 1]
    }

    /// The same, to be changed.
    pub fn node_mut(&mut self, i: u8) -> &mut Node {
        &mut self.nodes[usize::from(i) - 1]
    }

    /// "1 is for n outside 1 to 16, a number or set beyond its range, a holder in its own Up or call, or one
    /// that does not run but is not Down and idle"
    pub fn in_range(&self) -> bool {
        (1..=MAX_NODES).contains(&self.n) && (1..=self.n).all(|i| self.node_in_range(i))
    }

    fn node_in_range(&self, i: u8) -> bool {
        let node = self.node(i);
        let all: Set = u16::MAX >> (MAX_NODES - self.n);
        let other = |j: u8| (1..=self.n).contains(&j) && j != i;
        let others = |set: Set| set & !(all & !only(i)) == 0;
        let place = match node.place {
            Place::Idle | Place::Point => true,
            // The range of the appendix's loop: "FOR j := i + 1, i + 2, ..., n - 1, n"
            Place::Asking(j) => other(j) && j > i,
            // "FOR j := i - 1, i - 2, ..., 2, 1"
            Place::Halting(j) => other(j) && j < i,
            Place::Announcing { now, still } | Place::Handing { now, still } => {
                other(now) && others(still)
            }
            Place::Checking(j) => other(j),
            Place::Contacting => node.coordinator != i,
        };
        node.coordinator <= self.n
            && node.halter <= self.n
            && others(node.up)
            && place
            && (node.runs || node.status == Status::Down && node.place == Place::Idle)
    }
}

/// Applies an event to a table; the error is the refusal's number, and then nothing has changed.
pub fn step(table: &mut Table, event: &Event) -> Result<(), u8> {
    if !table.in_range() {
        return Err(1);
    }
    advance(table, event)
}

/// The same for a table that is known to be in range, as every table of a run is.
pub fn advance(table: &mut Table, event: &Event) -> Result<(), u8> {
    check_grounds(table, event)?;
    let i = event.node();
    let place = table.node(i).place;
    let mut process = Process { table, i, goes_on: matches!(event, Event::GoOn(_)) };
    let ran = match *event {
        Event::Crash(_) => process.fail(),
        Event::Recover(_) => process.recovery(),
        Event::Check(_) => process.check(),
        Event::Timeout(_) => process.timeout(),
        Event::GoOn(_) => process.go_on(place),
        Event::Finish(_, task) => process.finish(task),
    };
    process.own().place = ran.err().unwrap_or(Place::Idle);
    Ok(())
}

/// Grounds 7 to 10, "in their old places".
fn check_grounds(table: &Table, event: &Event) -> Result<(), u8> {
    let i = event.node();
    if !(1..=table.n).contains(&i) {
        return Err(7);
    }
    if matches!(*event, Event::Finish(_, task) if task < MIN_TASK) {
        return Err(8);
    }
    let node = table.node(i);
    // "9 asks whether the cabinet runs"
    if node.runs == matches!(event, Event::Recover(_)) {
        return Err(9);
    }
    let stands = match event {
        Event::Crash(_) | Event::Recover(_) => true,
        // Document 01: "check, timeout: not idle"
        Event::Check(_) | Event::Timeout(_) => node.place == Place::Idle,
        // "go on needs a call to make and finish the reorganization point"
        Event::GoOn(_) => node.called().is_some(),
        Event::Finish(..) => node.place == Place::Point,
    };
    if stands {
        Ok(())
    } else {
        Err(10)
    }
}

/// IMMEDIATE PROCEDURE AreYouThere(i); "Nothing is actually done at node i."
fn are_you_there(_: &mut Node) {}

/// IMMEDIATE PROCEDURE AreYouNormal(i, answer);
fn are_you_normal(s: &mut Node) -> bool {
    s.status == Status::Normal
}

/// IMMEDIATE PROCEDURE Halt(i, j);
fn halt(s: &mut Node, j: u8) {
    s.status = Status::Election;
    s.halter = j;
    stop(s);
}

/// IMMEDIATE PROCEDURE NewCoordinator(i, j)
fn new_coordinator(s: &mut Node, j: u8) {
    if s.halter == j && s.status == Status::Election {
        s.coordinator = j;
        s.status = Status::Reorganization;
    }
}

/// IMMEDIATE PROCEDURE Ready(i, j, x);
fn ready(s: &mut Node, j: u8, x: u16) {
    if s.coordinator == j && s.status == Status::Reorganization {
        s.task = x;
        s.status = Status::Normal;
    }
}

/// CALL STOP. "A halt stops whatever the halted cabinet was doing."
fn stop(s: &mut Node) {
    s.place = Place::Idle;
}

/// How a procedure ran: to its end, or to a place where its process now stands, which is the error.
type Ran = Result<(), Place>;

/// The process of node i, which runs a procedure.
struct Process<'a> {
    table: &'a mut Table,
    i: u8,
    /// Whether the call that it comes to next is made. "Going on makes one cabinet's next call."
    goes_on: bool,
}

/// FOR j IN a set, each with those still to come: first the one that a process stands at, if it does, then
/// "from the highest down".
struct Walk {
    first: Option<u8>,
    still: Set,
}

impl Iterator for Walk {
    type Item = (u8, Set);

    fn next(&mut self) -> Option<(u8, Set)> {
        let j = self.first.take().or_else(|| take_highest(&mut self.still))?;
        Some((j, self.still))
    }
}

impl Process<'_> {
    /// S(i)
    fn own(&mut self) -> &mut Node {
        self.table.node_mut(self.i)
    }

    /// FOR j IN S(i).Up
    fn up(&mut self) -> Walk {
        Walk { first: None, still: self.own().up }
    }

    /// CALL of a procedure at node j, ONTIMEOUT(T): what it answers, and None for a timeout. The error is
    /// the place of this call, where the process stands until it goes on.
    fn call<A>(
        &mut self,
        place: Place,
        j: u8,
        procedure: impl FnOnce(&mut Node) -> A,
    ) -> Result<Option<A>, Place> {
        if !std::mem::take(&mut self.goes_on) {
            return Err(place);
        }
        // "a call to one that does not run, or to coordinator 0, times out within it"
        let answers = j != 0 && self.table.node(j).runs;
        Ok(answers.then(|| procedure(self.table.node_mut(j))))
    }

    /// The call that the process stands at, and the procedure from there on.
    fn go_on(&mut self, place: Place) -> Ran {
        match place {
            Place::Asking(j) => self.asking(j),
            Place::Halting(j) => self.halting(j),
            Place::Announcing { now, still } => self.announcing(Walk { first: Some(now), still }),
            Place::Handing { now, still } => self.handing(Walk { first: Some(now), still }),
            Place::Checking(j) => self.checking(j),
            Place::Contacting => self.contacting(),
            Place::Idle | Place::Point => unreachable!("ground 10"),
        }
    }

    /// "When a node i fails, variable S(i).s is set to "Down" and all processing stops."
    fn fail(&mut self) -> Ran {
        let s = self.own();
        s.runs = false;
        s.status = Status::Down;
        Ok(())
    }

    /// PROCEDURE Election(i);
    fn election(&mut self) -> Ran {
        self.asking(self.i + 1)
    }

    /// In Election: FOR j := i + 1, i + 2, ..., n - 1, n DO, from this j on.
    fn asking(&mut self, first: u8) -> Ran {
        let i = self.i;
        for j in first..=self.table.n {
            // CALL AreYouThere(j), ONTIMEOUT(T): NEXT ITERATION;
            let Some(()) = self.call(Place::Asking(j), j, are_you_there)? else {
                continue;
            };
            // RETURN;
            return Ok(());
        }
        // "Next, halt all lower priority nodes, starting with this node."
        // [[CALL STOP; S(i).s := "Election"; S(i).h := i; S(i).Up := {};]]
        let s = self.own();
        stop(s);
        s.status = Status::Election;
        s.halter = i;
        s.up = 0;
        self.halting(i - 1)
    }

    /// In Election: FOR j := i - 1, i - 2, ..., 2, 1 DO, from this j on.
    fn halting(&mut self, first: u8) -> Ran {
        let i = self.i;
        for j in (1..=first).rev() {
            // CALL Halt(j, i), ONTIMEOUT(T): NEXT ITERATION;
            let Some(()) = self.call(Place::Halting(j), j, |s| halt(s, i))? else {
                continue;
            };
            // [[S(i).Up := {j} UNION S(i).Up;]]
            self.own().up |= only(j);
        }
        // "Now node i has reached its "election point.""
        // [[S(i).c := i; S(i).s := "Reorganization";]]
        let s = self.own();
        s.coordinator = i;
        s.status = Status::Reorganization;
        let up = self.up();
        self.announcing(up)
    }

    /// In Election: FOR j IN S(i).Up DO, "to inform nodes of new coordinator".
    fn announcing(&mut self, up: Walk) -> Ran {
        let i = self.i;
        for (j, still) in up {
            // CALL NewCoordinator(j, i), ONTIMEOUT(T):
            let place = Place::Announcing { now: j, still };
            let Some(()) = self.call(place, j, |s| new_coordinator(s, i))? else {
                // BEGIN CALL Election(i); RETURN; END;
                return self.election();
            };
        }
        // "The reorganization of the system occurs here."
        Err(Place::Point)
    }

    /// "When done, node i has computed S(i).d, the new task description."
    fn finish(&mut self, task: u16) -> Ran {
        self.own().task = task;
        let up = self.up();
        self.handing(up)
    }

    /// In Election: FOR j IN S(i).Up DO, to hand out the task.
    fn handing(&mut self, up: Walk) -> Ran {
        let i = self.i;
        for (j, still) in up {
            // CALL Ready(j, i, S(i).d), ONTIMEOUT(T):
            let task = self.own().task;
            let place = Place::Handing { now: j, still };
            let Some(()) = self.call(place, j, |s| ready(s, i, task))? else {
                // CALL Election(i); RETURN;
                return self.election();
            };
        }
        // [[S(i).s := "Normal";]]
        self.own().status = Status::Normal;
        // END Election;
        Ok(())
    }

    /// PROCEDURE Recovery(i); "Recovery clears the last halter, starts the election and leaves the status
    /// Down until the halting step, though the cabinet runs."
    fn recovery(&mut self) -> Ran {
        let s = self.own();
        s.runs = true;
        // S(i).h := UNDEFINED;
        s.halter = 0;
        // CALL Election(i);
        self.election()
    }

    /// PROCEDURE Check(i);
    fn check(&mut self) -> Ran {
        let i = self.i;
        let s = self.own();
        // IF [[S(i).s = "Normal" AND S(i).c = i]] THEN
        if s.status == Status::Normal && s.coordinator == i {
            return self.checking(1);
        }
        Ok(())
    }

    /// In Check: FOR j := 1, 2, ..., i - 1, i + 1, ..., n DO, from this j on.
    fn checking(&mut self, first: u8) -> Ran {
        let i = self.i;
        for j in (first..=self.table.n).filter(|&j| j != i) {
            // CALL AreYouNormal(j, ans), ONTIMEOUT(T): NEXT ITERATION;
            let Some(ans) = self.call(Place::Checking(j), j, are_you_normal)? else {
                continue;
            };
            // IF ans = "No" THEN BEGIN CALL Election(i); RETURN; END;
            if !ans {
                return self.election();
            }
        }
        Ok(())
    }

    /// PROCEDURE Timeout(i);
    fn timeout(&mut self) -> Ran {
        let i = self.i;
        let s = self.own();
        // IF [[S(i).s = "Normal" OR S(i).s = "Reorganization"]] THEN
        match s.status {
            // "In Reorganization or Normal, a timeout at its own coordinator changes nothing."
            Status::Normal | Status::Reorganization if s.coordinator == i => Ok(()),
            Status::Normal | Status::Reorganization => self.contacting(),
            // ELSE CALL Election(i);
            Status::Down | Status::Election => self.election(),
        }
    }

    /// In Timeout: "Check if coordinator is up."
    fn contacting(&mut self) -> Ran {
        let coordinator = self.own().coordinator;
        // CALL AreYouThere(S(i).c), ONTIMEOUT(T): CALL Election(i);
        let Some(()) = self.call(Place::Contacting, coordinator, are_you_there)? else {
            return self.election();
        };
        Ok(())
    }
}
