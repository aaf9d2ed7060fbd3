//! What lists and their traces meet, read from the bytes.

use crate::corners::{ACTIVITIES, EVENTS};
use crate::list::{read_list, MAX_LIST};
use crate::machine::{MAX_NODES, STAND};
use crate::tally::Graded;
use crate::tally::Where::{self, Either};
use crate::trace::compare::{PIECES, ROOMS};
use crate::trace::reading::Told;
use std::collections::HashSet;

/// What is met: of what, how, and a number that is told if it is not 0.
pub type Corner = (&'static str, &'static str, u8);

/// What stands below an accepted event: bit 0 of the place is a record, bit 1 a taken message, bit 2 a sent one. A sent one
/// alone is in no run, since a call changes the record of the one who makes it.
const BELOW: [&str; 8] = [
    "nothing",
    "a record",
    "a taken message",
    "a record and a taken message",
    "a sent message",
    "a record and a sent message",
    "a taken and a sent message",
    "a record, a taken and a sent message",
];

const STATUSES: [&str; 4] = ["Down", "Election", "Reorganization", "Normal"];
const SIZES: [&str; 3] = ["none", "one", "several"];
const DIGITS: [&str; 5] = ["1 digit", "2 digits", "3 digits", "4 digits", "5 digits"];

/// The sets of activities: the activity, the word before the set, and what it is called here.
const SETS: [(&str, &str, &str); 6] = [
    ("asking", "found", "asking, found"),
    ("waiting", "found", "waiting, found"),
    ("inviting", "found", "inviting, found"),
    ("inviting", "former", "inviting, former"),
    ("handing", "still", "handing, still"),
    ("forwarding", "still", "forwarding, still"),
];

/// Both sets of an inviting node.
const INVITING: [&str; 4] =
    ["with both sets empty", "with found ones", "with former ones", "with both sets"];

/// The kinds of messages; a reply is one of two.
const MESSAGES: [&str; 7] =
    ["AreYouCoordinator", "AreYouThere", "Invitation", "Accept", "Ready", "reply yes", "reply no"];

/// The refusals that each event, in the order of `EVENTS`, meets in some run. Counters, call numbers and counts come to their ends in none.
const REFUSALS: [&[u8]; 9] = [
    &[7, 9],
    &[7, 9],
    &[7, 9, 10, 14, 18],
    &[7, 9, 10, 14],
    &[7, 9, 10, 14],
    &[7, 9, 10, 14],
    &[7, 8, 9, 10, 14, 19],
    &[7, 9, 11],
    &[7, 11],
];

/// Events that can be accepted without a change of a record, and those that can with one.
const WITHOUT: [&str; 4] = ["check", "timeout", "deliver", "lose"];
const WITH: [&str; 8] =
    ["crash", "recover", "check", "timeout", "tick", "expire", "finish", "deliver"];

/// What is met in long runs or large groups alone.
const DEAR: [Corner; 7] = [
    ("an event's number of", DIGITS[3], 0),
    ("an event's number of", DIGITS[4], 0),
    ("a call number of", DIGITS[2], 0),
    ("a call number of", DIGITS[3], 0),
    ("a group of", "4 or 5 digits", 0),
    ("members,", "10 or more", 0),
    ("a whole list", "of 65,530 bytes or more", 0),
];

/// Every other corner.
fn usual() -> Vec<Corner> {
    let mut corners: Vec<Corner> = Vec::new();
    corners.extend((1..=MAX_NODES).map(|n| ("tower, n =", "", n)));
    corners.extend((1..=STAND.nodes).map(|n| ("stand, n =", "", n)));
    for (event, refusals) in EVENTS.into_iter().zip(REFUSALS) {
        corners.extend(refusals.iter().map(|&number| (event, "refused", number)));
    }
    let mut all = |of: &'static str, how: &[&'static str]| {
        corners.extend(how.iter().map(|&how| (of, how, 0)));
    };
    all("accepted without a record,", &WITHOUT);
    all("accepted with a record,", &WITH);
    all("an accepted event with", &BELOW[..4]);
    all("an accepted event with", &BELOW[5..]);
    all("an event's number of", &DIGITS[..3]);
    all("a number in an event of", &DIGITS);
    all("a record,", &STATUSES);
    all("a record,", &ACTIVITIES);
    for (activity, _, of) in SETS {
        // A node waits only where it has found one.
        all(of, &SIZES[usize::from(activity == "waiting")..]);
    }
    all("a set", &["with a node above 9"]);
    all("inviting", &INVITING);
    all("waiting", &["for 10 ticks or more"]);
    all("members,", &SIZES);
    all("a coordinator above 9", &[""]);
    all("a group of", &DIGITS[1..3]);
    all("a task of", &DIGITS);
    all("a call number of", &DIGITS[..2]);
    all("delivered,", &MESSAGES);
    all("lost,", &MESSAGES);
    all("sent,", &MESSAGES);
    all(
        "a list",
        &[
            "of no bytes",
            "of 65,536 bytes",
            "of 65,537 bytes",
            "of more bytes",
            "whole",
            "without events",
        ],
    );
    all("a buffer", &ROOMS);
    all("a buffer without room for", &PIECES);
    corners.extend((2..=6).map(|number| ("stopped at once by", "", number)));
    corners.extend((3..=5).map(|number| ("stopped later by", "", number)));
    corners
}

/// How often each was met.
pub fn book() -> Graded<Corner> {
    fn anywhere(corners: Vec<Corner>) -> Vec<(Corner, Where)> {
        corners.into_iter().map(|corner| (corner, Either)).collect()
    }
    Graded::new(|| anywhere(usual()), || anywhere(DEAR.to_vec()), words)
}

/// A corner's words.
fn words(&(of, how, number): &Corner) -> String {
    let number = if number == 0 { String::new() } else { number.to_string() };
    let words = [of, how, &number].into_iter().filter(|words| !words.is_empty());
    words.collect::<Vec<_>>().join(" ")
}

/// What a list and what is told of its events meet, each once.
pub fn of_trace(list: &[u8], told: &[Told]) -> HashSet<Corner> {
    let mut met = HashSet::new();
    match list.len() {
        0 => met.insert(("a list", "of no bytes", 0)),
        MAX_LIST => met.insert(("a list", "of 65,536 bytes", 0)),
        65_537 => met.insert(("a list", "of 65,537 bytes", 0)),
        65_538.. => met.insert(("a list", "of more bytes", 0)),
        _ => false,
    };
    let read = match read_list(list) {
        Ok(read) => read,
        Err(stop) => {
            met.insert(("stopped at once by", "", stop.number));
            return met;
        }
    };
    let limits = if read.limits == STAND { "stand, n =" } else { "tower, n =" };
    met.insert((limits, "", read.n));
    match read.stop {
        None if list.len() < 65_530 => met.insert(("a list", "whole", 0)),
        None => met.insert(("a whole list", "of 65,530 bytes or more", 0)),
        Some(stop) => met.insert(("stopped later by", "", stop.number)),
    };
    if read.events.is_empty() {
        met.insert(("a list", "without events", 0));
    }
    told.iter().for_each(|told| of_event(told, &mut met));
    met
}

/// The one of some words that is equal.
fn one_of(all: &[&'static str], word: &str) -> &'static str {
    all.iter().find(|&&one| one == word).copied().unwrap_or("another word")
}

fn digits(number: &str) -> &'static str {
    DIGITS.get(number.len() - 1).copied().unwrap_or("more digits")
}

fn of_event(told: &Told, met: &mut HashSet<Corner>) {
    let mut words = told.event.split(' ');
    let event = one_of(&EVENTS, words.next().unwrap_or_default());
    met.insert(("an event's number of", digits(told.e), 0));
    for number in words {
        met.insert(("a number in an event of", digits(number), 0));
    }
    if let Some(number) = told.refused {
        met.insert((event, "refused", number.parse().unwrap_or(0)));
        return;
    }
    let is = [told.record, told.taken, told.sent].map(|line| usize::from(line.is_some()));
    met.insert(("an accepted event with", BELOW[is[0] + 2 * is[1] + 4 * is[2]], 0));
    let of = ["accepted without a record,", "accepted with a record,"][is[0]];
    met.insert((of, event, 0));
    if let Some(record) = told.record {
        of_record(record, met);
    }
    if let Some(m) = told.taken {
        of_message(if event == "lose" { "lost," } else { "delivered," }, m, met);
    }
    if let Some(m) = told.sent {
        of_message("sent,", m, met);
    }
}

fn of_record(record: &str, met: &mut HashSet<Corner>) {
    let words: Vec<&str> = record.split(' ').collect();
    let (numbers, activity) = words.split_at(7);
    let number = |place: usize| numbers[place].parse().unwrap_or(0usize);
    met.insert(("a record,", STATUSES[number(1) % 4], 0));
    if number(2) > 9 {
        met.insert(("a coordinator above 9", "", 0));
    }
    let group = if numbers[3].len() > 3 { "4 or 5 digits" } else { digits(numbers[3]) };
    met.insert(("a group of", group, 0));
    met.insert(("a task of", digits(numbers[4]), 0));
    let members = number(6);
    met.insert(("members,", if members > 9 { "10 or more" } else { SIZES[members.min(2)] }, 0));
    let name = one_of(&ACTIVITIES, activity[0]);
    met.insert(("a record,", name, 0));
    if name == "waiting" && activity[2].len() > 1 {
        met.insert(("waiting", "for 10 ticks or more", 0));
    }
    let mut sizes = Vec::new();
    for (_, key, of) in SETS.iter().filter(|set| set.0 == name) {
        let set = set_behind(key, activity);
        sizes.push(set.len());
        met.insert((of, SIZES[set.len().min(2)], 0));
        if set.iter().any(|number| number.len() > 1) {
            met.insert(("a set", "with a node above 9", 0));
        }
    }
    if let [found, former] = sizes[..] {
        let both = usize::from(found > 0) + 2 * usize::from(former > 0);
        met.insert(("inviting", INVITING[both], 0));
    }
}

/// The numbers behind a word, or none.
fn set_behind<'a>(key: &str, words: &'a [&'a str]) -> &'a [&'a str] {
    let begin = words.iter().position(|&word| word == key).map_or(words.len(), |place| place + 1);
    let behind = &words[begin..];
    let is_number = |word: &&&str| word.bytes().all(|byte| byte.is_ascii_digit());
    &behind[..behind.iter().take_while(is_number).count()]
}

fn of_message(of: &'static str, m: &str, met: &mut HashSet<Corner>) {
    // Behind the sender, the arrow and the receiver.
    let body = m.splitn(4, ' ').last().unwrap_or_default();
    let kind = MESSAGES.into_iter().find(|kind| body.starts_with(kind)).unwrap_or("another kind");
    met.insert((of, kind, 0));
    let call = m.rsplit(' ').next().unwrap_or_default();
    met.insert(("a call number of", digits(call), 0));
}
