//! Activities and messages in words.

use crate::machine::{nodes_of, Activity, Body, Message, Set};

/// An activity with what it has to go on.
pub fn activity_words(activity: &Activity) -> String {
    match *activity {
        Activity::Idle => "idle".to_string(),
        Activity::Asking { asked, found } => format!("asking {asked} found {}", set_words(found)),
        Activity::Waiting { ticks, found } => {
            format!("waiting ticks {ticks} found {}", set_words(found))
        }
        Activity::Inviting { found, former, now } => {
            format!("inviting {now} found {} former {}", set_words(found), set_words(former))
        }
        Activity::Collecting => "collecting".to_string(),
        Activity::Handing { rest, now } => format!("handing {now} still {}", set_words(rest)),
        Activity::Contacting => "contacting".to_string(),
        Activity::Forwarding { rest, now, caller, call } => {
            format!("forwarding {now} still {} caller {caller} call {call}", set_words(rest))
        }
        Activity::Accepting { caller, call } => format!("accepting caller {caller} call {call}"),
    }
}

/// A set: its nodes from 1 up, or `none`.
fn set_words(set: Set) -> String {
    if set == 0 {
        return "none".to_string();
    }
    let nodes: Vec<String> = nodes_of(set).map(|i| i.to_string()).collect();
    nodes.join(" ")
}

/// A message: whose and to whom, its kind, what it carries, and its call number.
pub fn message_words(m: &Message) -> String {
    let body = match m.body {
        Body::AreYouCoordinator => "AreYouCoordinator".to_string(),
        Body::AreYouThere { group } => format!("AreYouThere group {group}"),
        Body::Invitation { group } => format!("Invitation group {group}"),
        Body::Accept { group } => format!("Accept group {group}"),
        Body::Ready { group, task } => format!("Ready group {group} task {task}"),
        Body::Reply { yes: true } => "reply yes".to_string(),
        Body::Reply { yes: false } => "reply no".to_string(),
        // In no run.
        Body::Unknown { kind } => format!("kind {kind}"),
    };
    format!("{} -> {} {body} call {}", m.sender, m.receiver, m.call)
}
