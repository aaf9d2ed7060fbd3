//! Random lists for the program `rest`: that leave many messages waiting, to Down receivers too, with refused events,
//! damaged, and about as long as a list may be.

use crate::damage::{damage, first_tag_later, no_event, other_first};
use crate::drive::{
    any_event, fill, full_queue, run, run_with_full_peals, run_with_wrong_checks, Ready, Run,
};
use crate::list::{write_list, MAX_LIST};
use crate::machine::{only, Event, Limits, Table, STAND, TOWER};
use crate::numbers::Numbers;
use crate::rest::runs::crowded;

/// List k of any number: of the tower with each n in turn, of the stand, damaged, and too long or nearly.
pub fn any_list(k: usize, numbers: &mut Numbers) -> Vec<u8> {
    let (n, limits, events) = events(k, numbers);
    whole_or_damaged(k, write_list(n, limits, &events), numbers)
}

/// A list as it is, damaged, or too long or nearly, in turn.
pub fn whole_or_damaged(k: usize, list: Vec<u8>, numbers: &mut Numbers) -> Vec<u8> {
    match k % 12 {
        0..=5 => list,
        6 => {
            let mut damaged = list;
            damage(&mut damaged, numbers);
            damaged
        }
        7 => match numbers.below(3) {
            0 => [list, no_event(numbers)].concat(),
            1 => first_tag_later(&list, numbers),
            _ => stopped(list, numbers),
        },
        8 | 9 => other_first(&list, numbers),
        _ => match numbers.below(8) {
            0 | 1 => Vec::new(),
            2 | 3 => resized(list, MAX_LIST + 1),
            4 | 5 => resized(list, numbers.between(65_538, 70_000) as usize),
            _ => resized(list, MAX_LIST),
        },
    }
}

/// The events of list k, from the starting table of n.
fn events(k: usize, numbers: &mut Numbers) -> (u8, Limits, Vec<Event>) {
    let limits = if k.is_multiple_of(4) { STAND } else { TOWER };
    // In the tower mostly more than the stand has.
    let least = if limits == TOWER && !numbers.one_in(16) { 5 } else { 1 };
    let n = numbers.between(least, u32::from(limits.nodes)) as u8;
    let (n, limits, mut events) = match numbers.below(12) {
        0 => full_queue(numbers),
        1 => run_with_full_peals(numbers),
        2 => run_with_wrong_checks(numbers),
        3..=5 => {
            let length = numbers.of(&[0, 5, 20, 60, 150]);
            (n, limits, run(n, limits, length, numbers))
        }
        _ => (n, limits, crowded(n, limits, numbers)),
    };
    if numbers.one_in(2) {
        further(n, limits, &mut events, numbers);
    }
    if numbers.one_in(3) {
        for _ in 0..numbers.between(1, 4) {
            let place = numbers.place(events.len() + 1);
            events.insert(place, any_event(n, numbers));
        }
    }
    if numbers.one_in(3) {
        let i = numbers.between(1, u32::from(n)) as u8;
        events.extend([Event::Crash(i), Event::Crash(i % n + 1)]);
    }
    (n, limits, events)
}

/// Events behind others after which more messages wait: members ask for their coordinators, coordinators hand Ready, or
/// nodes ask until as many wait as may.
fn further(n: u8, limits: Limits, events: &mut Vec<Event>, numbers: &mut Numbers) {
    let mut run = Run { table: Table::start(n, limits), events: Vec::new() };
    for event in events.drain(..) {
        run.go(event);
    }
    for i in 1..=n {
        let event = if numbers.one_in(3) { Event::Timeout(i) } else { Event::Finish(i, 200) };
        let Ready { timeout, finish, .. } = Ready::of(&run.table);
        let fits = if matches!(event, Event::Timeout(_)) { timeout } else { finish };
        if fits & only(i) != 0 {
            run.go(event);
        }
    }
    if numbers.one_in(3) {
        fill(&mut run, usize::from(limits.messages), numbers);
    }
    if numbers.one_in(3) {
        let event = Event::Check(numbers.between(1, u32::from(n)) as u8);
        run.go(event);
    }
    *events = run.events;
}

/// A list with a field behind it that stops it: of a wrong length, with an unknown tag, or cut.
fn stopped(mut list: Vec<u8>, numbers: &mut Numbers) -> Vec<u8> {
    let tag = numbers.between(0x10, 0x18) as u8;
    match numbers.below(3) {
        0 => list.extend([tag, 0, 4, 1, 1, 1, 1]),
        1 => list.extend([numbers.of(&[0x00, 0x01, 0x02, 0x0f, 0x19, 0xff]), 0, 1, 1]),
        _ => list.extend(&[tag, 0, 5, 1, 1][..numbers.between(1, 5) as usize]),
    }
    list
}

/// A list of so many bytes, by a field behind it that is too long to be an event.
fn resized(mut list: Vec<u8>, length: usize) -> Vec<u8> {
    let room = length.saturating_sub(list.len() + 3);
    let [high, low] = (room.min(65_535) as u16).to_be_bytes();
    list.extend([0x10, high, low]);
    list.resize(length, 0);
    list
}
