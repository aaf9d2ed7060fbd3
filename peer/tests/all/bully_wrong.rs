//! Bully machines and boundaries that are wrong on purpose: the fuzzer finds each of them, and the claims
//! alone find those that break them.

use crate::finds;
use crate::functions;

use finds::found_in;
use functions::Functions;
use peer::bully::bytes::{bully_step_by, first_event, TABLE_BYTES};
use peer::bully::claims::broken_claim;
use peer::bully::compare::{tell_walk, walk_difference, Walk};
use peer::bully::fuzzing::Fuzz;
use peer::bully::machine::*;
use peer::bully::runs::run;
use peer::corners::Source;
use peer::fuzz_loop::{Fuzzer, ENOUGH};
use peer::machine::{highest, only, Set, Status};
use peer::numbers::Numbers;
use peer::proved::{Library, Own, TOO_SHORT};
use std::time::Duration;
use Event::*;
use Place::*;

/// A library whose Bully machine is another.
fn with<'a>(bully_step: impl Fn(&[u8], &[u8], &mut [u8]) -> u8 + 'a) -> Functions<'a> {
    Functions { bully_step: Box::new(bully_step), ..Functions::default() }
}

/// How many failures the fuzzer finds in half a minute.
fn found(library: impl Library) -> u64 {
    found_in(Fuzz::new(library, 1), 30)
}

type Machine = fn(&mut Table, &Event) -> Result<(), u8>;

/// The events of the first of some runs of a machine by itself on which a claim is broken, and which.
fn breaks_a_claim(machine: Machine) -> Option<(Vec<Event>, String)> {
    let mut numbers = Numbers::new(1);
    (0..20_000).find_map(|_| {
        let (n, events) = run(machine, &mut numbers);
        let mut table = Table::start(n);
        let broken = events.iter().enumerate().find_map(|(k, event)| {
            let _ = machine(&mut table, event);
            Some((k + 1, broken_claim(&table)?))
        });
        let (length, words) = broken?;
        Some((events[..length].to_vec(), words))
    })
}

/// The step, and then a change of the table that it leaves, by the one before.
fn then(
    table: &mut Table,
    event: &Event,
    change: impl FnOnce(&Table, &mut Table),
) -> Result<(), u8> {
    let before = *table;
    step(table, event)?;
    change(&before, table);
    Ok(())
}

/// The node that goes on in this event, its place, and whom it calls, if that one runs.
fn call(table: &Table, event: &Event) -> Option<(u8, Place, u8)> {
    let GoOn(i) = *event else {
        return None;
    };
    let node = (1..=table.n.min(16)).contains(&i).then(|| table.node(i))?;
    let j = node.called().filter(|j| (1..=table.n).contains(j) && table.node(*j).runs)?;
    Some((i, node.place, j))
}

/// The node halted in this event.
fn halted(table: &Table, event: &Event) -> Option<u8> {
    call(table, event).filter(|(_, place, _)| matches!(place, Halting(_))).map(|(_, _, j)| j)
}

/// Halts from the lowest up.
fn halts_from_the_lowest(table: &mut Table, event: &Event) -> Result<(), u8> {
    let before = *table;
    let i = event.node();
    step(table, event)?;
    let own = table.node(i).place;
    match (before.node(i).place, own) {
        (Halting(j), _) if matches!(event, GoOn(_)) => {
            let up = match before.node(j).runs {
                true => before.node(i).up | only(j),
                false => before.node(i).up,
            };
            let node = table.node_mut(i);
            *node = Node { up, ..*before.node(i) };
            node.place = Halting(j + 1);
            if j + 1 == i {
                (node.coordinator, node.status) = (i, Status::Reorganization);
                node.place = match up {
                    0 => Point,
                    _ => Announcing { now: highest(up), still: up & !only(highest(up)) },
                };
            }
        }
        (_, Halting(_)) => table.node_mut(i).place = Halting(1),
        _ => {}
    }
    Ok(())
}

/// The halted node goes on with what it was doing.
fn halt_keeps_the_place(table: &mut Table, event: &Event) -> Result<(), u8> {
    then(table, event, |before, after| {
        if let Some(j) = halted(before, event) {
            after.node_mut(j).place = before.node(j).place;
        }
    })
}

fn halt_keeps_the_status(table: &mut Table, event: &Event) -> Result<(), u8> {
    then(table, event, |before, after| {
        if let Some(j) = halted(before, event) {
            after.node_mut(j).status = before.node(j).status;
        }
    })
}

fn halt_keeps_the_halter(table: &mut Table, event: &Event) -> Result<(), u8> {
    then(table, event, |before, after| {
        if let Some(j) = halted(before, event) {
            after.node_mut(j).halter = before.node(j).halter;
        }
    })
}

fn crash_keeps_the_status(table: &mut Table, event: &Event) -> Result<(), u8> {
    then(table, event, |before, after| {
        if let Crash(i) = *event {
            after.node_mut(i).status = before.node(i).status;
        }
    })
}

/// An election begins with the halting step.
fn does_not_ask(table: &mut Table, event: &Event) -> Result<(), u8> {
    step(table, event)?;
    let i = event.node();
    let asked = *table;
    // Whoever it would ask does not run.
    while let Asking(j) = table.node(i).place {
        *table.node_mut(j) = Node::START;
        step(table, &GoOn(i))?;
    }
    for j in i + 1..=table.n {
        *table.node_mut(j) = *asked.node(j);
    }
    Ok(())
}

fn ready_without_status(table: &mut Table, event: &Event) -> Result<(), u8> {
    let handed = call(table, event).filter(|(_, place, _)| matches!(place, Handing { .. }));
    then(table, event, |before, after| {
        if let Some((i, _, j)) = handed.filter(|&(i, _, j)| before.node(j).coordinator == i) {
            let node = after.node_mut(j);
            (node.task, node.status) = (before.node(i).task, Status::Normal);
        }
    })
}

fn ready_without_coordinator(table: &mut Table, event: &Event) -> Result<(), u8> {
    let handed = call(table, event).filter(|(_, place, _)| matches!(place, Handing { .. }));
    then(table, event, |before, after| {
        let Some((i, _, j)) = handed else {
            return;
        };
        if before.node(j).status == Status::Reorganization {
            let node = after.node_mut(j);
            (node.task, node.status) = (before.node(i).task, Status::Normal);
        }
    })
}

fn new_coordinator_if(
    table: &mut Table,
    event: &Event,
    takes: impl Fn(&Node, u8) -> bool,
) -> Result<(), u8> {
    let told = call(table, event).filter(|(_, place, _)| matches!(place, Announcing { .. }));
    then(table, event, |before, after| {
        if let Some((i, _, j)) = told.filter(|&(i, _, j)| takes(before.node(j), i)) {
            let node = after.node_mut(j);
            (node.coordinator, node.status) = (i, Status::Reorganization);
        }
    })
}

fn new_coordinator_without_halter(table: &mut Table, event: &Event) -> Result<(), u8> {
    new_coordinator_if(table, event, |node, _| node.status == Status::Election)
}

fn new_coordinator_without_status(table: &mut Table, event: &Event) -> Result<(), u8> {
    new_coordinator_if(table, event, |node, i| node.halter == i)
}

fn new_coordinator_always(table: &mut Table, event: &Event) -> Result<(), u8> {
    new_coordinator_if(table, event, |_, _| true)
}

fn recover_keeps_the_halter(table: &mut Table, event: &Event) -> Result<(), u8> {
    then(table, event, |before, after| {
        if let (Recover(i), Asking(_)) = (*event, after.node(event.node()).place) {
            after.node_mut(i).halter = before.node(i).halter;
        }
    })
}

/// It is in Election as soon as it runs.
fn recover_elects(table: &mut Table, event: &Event) -> Result<(), u8> {
    then(table, event, |_, after| {
        let node = after.node_mut(event.node());
        if matches!((event, node.place), (Recover(_), Asking(_))) {
            node.status = Status::Election;
        }
    })
}

/// The next of a set is the lowest.
fn sets_from_the_lowest(table: &mut Table, event: &Event) -> Result<(), u8> {
    then(table, event, |before, after| {
        let i = event.node();
        let lowest = |now: u8, still: Set| {
            let set = still | only(now);
            let now = set.trailing_zeros() as u8 + 1;
            (now, set & !only(now))
        };
        let node = after.node_mut(i);
        match node.place {
            place if place == before.node(i).place => {}
            Announcing { now, still } => {
                let (now, still) = lowest(now, still);
                node.place = Announcing { now, still };
            }
            Handing { now, still } => {
                let (now, still) = lowest(now, still);
                node.place = Handing { now, still };
            }
            _ => {}
        }
    })
}

/// One that does not answer is passed by, as in the loops before.
fn announces_on(table: &mut Table, event: &Event) -> Result<(), u8> {
    passes_by(table, event, |place| matches!(place, Announcing { .. }))
}

fn hands_on(table: &mut Table, event: &Event) -> Result<(), u8> {
    passes_by(table, event, |place| matches!(place, Handing { .. }))
}

/// As if who does not run answered and did not listen, where it is called from such a place.
fn passes_by(table: &mut Table, event: &Event, at: impl Fn(&Place) -> bool) -> Result<(), u8> {
    then(table, event, |before, after| {
        let i = event.node();
        let (GoOn(_), place) = (event, before.node(i).place) else {
            return;
        };
        let j = before.node(i).called().unwrap_or(0);
        if at(&place) && call(before, event).is_none() {
            *after = *before;
            *after.node_mut(j) = Node { runs: true, ..Node::START };
            step(after, event).expect("it is accepted without the change");
            *after.node_mut(j) = *before.node(j);
        }
    })
}

fn timeout_of_a_coordinator_elects(table: &mut Table, event: &Event) -> Result<(), u8> {
    let before = *table;
    step(table, event)?;
    if matches!(event, Timeout(_)) && *table == before {
        let node = table.node_mut(event.node());
        let (status, coordinator) = (node.status, node.coordinator);
        node.status = Status::Election;
        step(table, event)?;
        let node = table.node_mut(event.node());
        if let Asking(_) = node.place {
            (node.status, node.coordinator) = (status, coordinator);
        }
    }
    Ok(())
}

/// T-06's ground.
fn refuses_18(table: &mut Table, event: &Event) -> Result<(), u8> {
    let before = *table;
    step(table, event)?;
    if matches!(event, Check(_)) && before.n > 1 && *table == before {
        return Err(18);
    }
    Ok(())
}

/// T-10's ground, by Up.
fn refuses_19(table: &mut Table, event: &Event) -> Result<(), u8> {
    let before = *table;
    step(table, event)?;
    match *event {
        Finish(i, 100..=199) if 2 * before.node(i).up.count_ones() + 2 <= u32::from(before.n) => {
            Err(19)
        }
        _ => Ok(()),
    }
}

/// "Up" is not emptied at the halting step.
fn keeps_up(table: &mut Table, event: &Event) -> Result<(), u8> {
    then(table, event, |before, after| {
        let i = event.node();
        if matches!(after.node(i).place, Halting(j) if j + 1 == i) {
            after.node_mut(i).up = before.node(i).up;
        }
    })
}

/// Accepts what it should and moves nothing.
fn moves_nothing(table: &mut Table, event: &Event) -> Result<(), u8> {
    then(table, event, |before, after| *after = *before)
}

/// Takes part in the reorganization without its task.
fn ready_keeps_the_task(table: &mut Table, event: &Event) -> Result<(), u8> {
    then(table, event, |before, after| {
        if let Some((_, Handing { .. }, j)) = call(before, event) {
            after.node_mut(j).task = before.node(j).task;
        }
    })
}

/// Those that break a claim in their own runs, with words of what is found.
const AGAINST_THE_CLAIMS: [(Machine, &str); 7] = [
    (halts_from_the_lowest, "different coordinators"),
    (halt_keeps_the_place, "different coordinators"),
    (halt_keeps_the_status, "different coordinators"),
    (crash_keeps_the_status, "not in range"),
    (does_not_ask, "different coordinators"),
    (new_coordinator_always, "different coordinators"),
    (ready_keeps_the_task, "different tasks"),
];

const OTHERS: [Machine; 15] = [
    moves_nothing,
    halt_keeps_the_halter,
    ready_without_status,
    ready_without_coordinator,
    new_coordinator_without_halter,
    new_coordinator_without_status,
    recover_keeps_the_halter,
    recover_elects,
    sets_from_the_lowest,
    announces_on,
    hands_on,
    timeout_of_a_coordinator_elects,
    refuses_18,
    refuses_19,
    keeps_up,
];

#[test]
fn wrong_machines_are_found() {
    for (k, machine) in
        AGAINST_THE_CLAIMS.map(|(machine, _)| machine).iter().chain(&OTHERS).enumerate()
    {
        let library = with(|table: &[u8], field: &[u8], out: &mut [u8]| {
            bully_step_by(machine, table, field, out)
        });
        assert!(found(library) >= ENOUGH, "{k}");
    }
    assert_eq!(found_in(Fuzz::new(Own, 1), 2), 0);
    // It ends at enough differences.
    assert_eq!(found(with(|_: &[u8], _: &[u8], _: &mut [u8]| 9)), ENOUGH);
}

/// On the tables of such a machine alone, with nothing to compare them with.
#[test]
fn the_claims_alone_find_some() {
    for (k, (machine, found)) in AGAINST_THE_CLAIMS.into_iter().enumerate() {
        let (_, words) = breaks_a_claim(machine).unwrap_or_else(|| panic!("{k}"));
        assert!(words.contains(found), "{k}: {words}");
    }
    assert_eq!(breaks_a_claim(step), None);
}

/// A difference is told with the events that it needs, and no others.
#[test]
fn runs_are_shortened() {
    let mut events = vec![Recover(2), Finish(2, 5), Crash(2), Recover(1), Check(1), Recover(2)];
    events.extend([Timeout(1), GoOn(2), GoOn(1), Check(2)]);
    let library = with(|table: &[u8], field: &[u8], out: &mut [u8]| {
        bully_step_by(halt_keeps_the_place, table, field, out)
    });
    let walk = Walk { source: Source::Run, start: Table::start(2), events, noise: None };
    let found = walk_difference(&library, &walk, None).unwrap();
    assert_eq!(found.events, 8);
    let words = tell_walk(&library, &walk);
    assert!(
        words.contains("\nrecover 1, recover 2, go on 2\nevent 3, go on 2: byte 9 "),
        "{words}"
    );
    assert!(words.contains("library's, n 2\ncabinet 1: runs yes, Election, "), "{words}");
    // Where both sides break a claim it is told too.
    let walk = Walk { start: two_coordinators(), events: vec![Check(1)], ..walk };
    let found = walk_difference(&Own, &walk, None).unwrap();
    assert!(found.words.contains("1 and 2 are in Reorganization or Normal"), "{}", found.words);
    assert!(walk_difference(&Own, &Walk { source: Source::Table, ..walk }, None).is_none());
}

/// A table that no run has.
fn two_coordinators() -> Table {
    let mut table = Table::start(2);
    for i in 1..=2 {
        let status = Status::Reorganization;
        *table.node_mut(i) = Node { runs: true, status, coordinator: i, ..Node::START };
    }
    table
}

/// Boundaries that are nearly right are found.
#[test]
fn wrong_boundaries_are_found() {
    for mistake in 0..=13 {
        let library = with(move |table: &[u8], field: &[u8], out: &mut [u8]| {
            let answer = Own.bully_step(table, field, out);
            let record = |k: usize| table.get(k).copied().unwrap_or(0);
            let refused = (1..TOO_SHORT).contains(&answer);
            match mistake {
                // Writes the table that it was given when it refuses.
                0 if refused => out[..table.len().min(TABLE_BYTES)]
                    .copy_from_slice(&table[..table.len().min(TABLE_BYTES)]),
                // Answers 255 where the field is none.
                1 if (3..=5).contains(&answer) => return TOO_SHORT,
                // Writes a byte behind the table.
                2 if answer == 0 && out.len() > TABLE_BYTES => out[TABLE_BYTES] ^= 1,
                // Looks at what stands behind the field.
                3 if answer == 0 && field.len() > 6 => return 5,
                // Writes into a buffer that is too short.
                4 if answer == TOO_SHORT && !out.is_empty() => out[0] ^= 1,
                // Looks at the field before the buffer.
                5 if answer == TOO_SHORT => return first_event(field).err().unwrap_or(answer),
                // Looks at the table before the field.
                6 if (3..=5).contains(&answer) => {
                    let crash = [0x10, 0, 1, 0];
                    let range = Own.bully_step(table, &crash, out);
                    return if range == 1 { 1 } else { answer };
                }
                // Reads other bytes of runs, status and place than the bit and the remainders.
                7 if answer != TOO_SHORT && record(1) > 1 => return 1,
                8 if answer != TOO_SHORT && record(2) > 3 => return 1,
                9 if answer != TOO_SHORT && record(9) > 7 => return 1,
                // Looks at what an idle node does not have.
                10 if answer == 0 && record(9) % 8 == 0 && record(10) > 16 => return 1,
                // Refuses a table that is cut short, or longer.
                11 if answer == 0 && table.len() < TABLE_BYTES => return 1,
                12 if answer == 0 && table.len() > TABLE_BYTES => return 1,
                // Writes something where a place has nothing.
                13 if answer == 0 && out[9] == 4 => out[10] = 1,
                _ => {}
            }
            answer
        });
        assert!(found(library) >= ENOUGH, "{mistake}");
    }
}

/// What stands behind the n records after an accepted event is free.
#[test]
fn what_is_no_part_of_a_table_is_free() {
    let library = with(|table: &[u8], field: &[u8], out: &mut [u8]| {
        let answer = Own.bully_step(table, field, out);
        if answer == 0 && out[0] < 16 {
            out[TABLE_BYTES - 1] = 7;
        }
        answer
    });
    assert_eq!(found_in(Fuzz::new(library, 1), 2), 0);
}

/// A fuzzer that meets a corner too seldom fails.
#[test]
fn corners_must_be_met() {
    let mut fuzz = Fuzz::new(Own, 1);
    fuzz.go_on(Duration::ZERO, 0);
    assert_eq!(fuzz.tell(0).1, 0);
    assert!(fuzz.tell(1).1 > 300);
}
