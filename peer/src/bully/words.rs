//! Events, places, calls and tables of the Bully machine in words.

use crate::bully::machine::{Event, Node, Place, Table};
use crate::machine::{nodes_of, Set, Status, MAX_NODES};
use std::fmt;

impl fmt::Display for Event {
    fn fmt(&self, f: &mut fmt::Formatter) -> fmt::Result {
        match *self {
            Event::Crash(i) => write!(f, "crash {i}"),
            Event::Recover(i) => write!(f, "recover {i}"),
            Event::Check(i) => write!(f, "check {i}"),
            Event::Timeout(i) => write!(f, "timeout {i}"),
            Event::GoOn(i) => write!(f, "go on {i}"),
            Event::Finish(i, task) => write!(f, "finish {i} {task}"),
        }
    }
}

impl fmt::Display for Place {
    fn fmt(&self, f: &mut fmt::Formatter) -> fmt::Result {
        match *self {
            Place::Idle => write!(f, "idle"),
            Place::Asking(j) => write!(f, "asking {j}"),
            Place::Halting(j) => write!(f, "halting {j}"),
            Place::Announcing { now, still } => {
                write!(f, "announcing {now}, still {}", set_words(still))
            }
            Place::Point => write!(f, "reorganization point"),
            Place::Handing { now, still } => write!(f, "handing {now}, still {}", set_words(still)),
            Place::Checking(j) => write!(f, "checking {j}"),
            Place::Contacting => write!(f, "contacting"),
        }
    }
}

/// `{1, 2}`
fn set_words(set: Set) -> String {
    let members: Vec<String> = nodes_of(set).map(|i| i.to_string()).collect();
    format!("{{{}}}", members.join(", "))
}

/// What a record holds, in the order of its bytes: runs, status, coordinator, task, last halter, Up, place.
pub fn record_words(node: &Node) -> [String; 7] {
    [
        if node.runs { "yes" } else { "no" }.to_string(),
        format!("{:?}", node.status),
        node.coordinator.to_string(),
        node.task.to_string(),
        node.halter.to_string(),
        set_words(node.up),
        node.place.to_string(),
    ]
}

/// Which call an accepted go on of node i made, and what became of it, from the tables before and after it
/// alone: the place before names the call, and one that runs answers. None where the place has no call.
pub fn call_words(before: &Table, after: &Table, i: u8) -> Option<String> {
    let node = before.node(i);
    let (call, j) = match node.place {
        Place::Idle | Place::Point => return None,
        Place::Asking(j) => ("AreYouThere", j),
        Place::Contacting => ("AreYouThere", node.coordinator),
        Place::Halting(j) => ("Halt", j),
        Place::Announcing { now, .. } => ("NewCoordinator", now),
        Place::Handing { now, .. } => ("Ready", now),
        Place::Checking(j) => ("AreYouNormal", j),
    };
    let became = if j == 0 || !before.node(j).runs {
        "no answer"
    } else {
        match node.place {
            Place::Halting(_) => "done",
            Place::Announcing { .. } | Place::Handing { .. } => {
                if before.node(j) == after.node(j) {
                    "ignored"
                } else {
                    "taken"
                }
            }
            Place::Checking(_) if before.node(j).status == Status::Normal => "yes",
            Place::Checking(_) => "no",
            _ => "answered",
        }
    };
    Some(format!("{call} {j}: {became}"))
}

/// n and a line for each node.
pub fn table_text(table: &Table) -> String {
    let mut text = format!("n {}\n", table.n);
    for (i, node) in (1..=table.n.min(MAX_NODES)).zip(&table.nodes) {
        let [runs, status, coordinator, task, halter, up, place] = record_words(node);
        text += &format!(
            "cabinet {i}: runs {runs}, {status}, coordinator {coordinator}, task {task}, \
             last halter {halter}, Up {up}, {place}\n"
        );
    }
    text
}
