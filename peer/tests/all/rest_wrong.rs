//! Potentials, programs and libraries that are wrong on purpose: the fuzzer's check finds each potential soon, and the
//! comparison of programs each program.

use crate::finds::{found_in, found_soon};
use crate::functions::Functions;
use peer::fuzz_loop::Fuzzer;
use peer::machine::*;
use peer::proved::{step_by, Own};
use peer::rest::check::check;
use peer::rest::compare::Potential;
use peer::rest::fuzzing::Fuzz;
use peer::rest::potential::potential;
use peer::rest::text::{rest, rest_by, turn_to_rest, FIRST};
use peer::round::bytes::turn_by;
use peer::round::driver::{next, turn, turn_in_range, Done, Place};
use std::process::Command;
use std::time::Duration;

/// So many parts of the fuzzer's, each of four runs, are a small number.
const SOON: u64 = 40;

/// The sum of something over the activities.
fn of_activities(table: &Table, weight: impl Fn(&Activity) -> u64) -> u64 {
    (1..=table.n).map(|i| weight(&table.node(i).activity)).sum()
}

fn of_messages(table: &Table, kinds: &[u8]) -> u64 {
    table.messages.iter().filter(|m| kinds.contains(&m.body.kind())).count() as u64
}

fn members(table: &Table) -> u64 {
    let counts = |i: u8| {
        let node = table.node(i);
        matches!(node.status, Status::Reorganization | Status::Normal) && node.coordinator == i
    };
    let ones = |i: u8| u64::from(table.node(i).members.count_ones());
    (1..=table.n).filter(|&i| counts(i)).map(ones).sum()
}

fn ones(set: Set) -> u64 {
    u64::from(set.count_ones())
}

/// Each weight one less, and some one more.
const WRONG: [(&str, Potential); 22] = [
    ("an accepting that weighs 0", |t| {
        potential(t) - of_activities(t, |a| u64::from(matches!(a, Activity::Accepting { .. })))
    }),
    ("a contacting that weighs 0", |t| {
        potential(t) - of_activities(t, |a| u64::from(matches!(a, Activity::Contacting)))
    }),
    ("an invitation that weighs 3", |t| potential(t) - of_messages(t, &[3])),
    ("an invitation that weighs 5", |t| potential(t) + of_messages(t, &[3])),
    ("a reply that weighs 0", |t| potential(t) - of_messages(t, &[6])),
    ("a reply that weighs 2", |t| potential(t) + of_messages(t, &[6])),
    ("an AreYouCoordinator that weighs 1", |t| potential(t) - of_messages(t, &[1])),
    ("an AreYouThere that weighs 1", |t| potential(t) - of_messages(t, &[2])),
    ("an Accept that weighs 1", |t| potential(t) - of_messages(t, &[4])),
    ("a Ready that weighs 1", |t| potential(t) - of_messages(t, &[5])),
    ("a Ready that weighs 3", |t| potential(t) + of_messages(t, &[5])),
    ("a tick that costs nothing", |t| {
        potential(t)
            - of_activities(t, |a| match *a {
                Activity::Waiting { ticks, .. } => u64::from(ticks),
                _ => 0,
            })
    }),
    ("members that weigh 4", |t| potential(t) - members(t)),
    ("members that weigh 6", |t| potential(t) + members(t)),
    ("members that weigh in Election too", |t| {
        let all = (1..=t.n).map(|i| 5 * ones(t.node(i).members)).sum::<u64>();
        potential(t) - 5 * members(t) + all
    }),
    ("2 for each node still to ask", |t| {
        potential(t)
            - of_activities(t, |a| match *a {
                Activity::Asking { asked, .. } => u64::from(t.n - asked),
                _ => 0,
            })
    }),
    ("4 for each still to invite", |t| {
        potential(t)
            - of_activities(t, |a| match *a {
                Activity::Inviting { found, former, .. } => ones(found) + ones(former),
                _ => 0,
            })
    }),
    ("one of the two sets counts", |t| {
        potential(t)
            - of_activities(t, |a| match *a {
                Activity::Inviting { former, .. } => 5 * ones(former),
                _ => 0,
            })
    }),
    ("a collecting of one less", |t| {
        potential(t) - of_activities(t, |a| u64::from(matches!(a, Activity::Collecting)))
    }),
    ("1 for each still to be handed to", |t| {
        potential(t)
            - of_activities(t, |a| match *a {
                Activity::Handing { rest, .. } => ones(rest),
                _ => 0,
            })
    }),
    ("a forwarding of one less", |t| {
        potential(t) - of_activities(t, |a| u64::from(matches!(a, Activity::Forwarding { .. })))
    }),
    ("4 for each still to be forwarded to", |t| {
        potential(t)
            - of_activities(t, |a| match *a {
                Activity::Forwarding { rest, .. } => ones(rest),
                _ => 0,
            })
    }),
];

/// The check of the fall finds each.
#[test]
fn wrong_potentials_are_found() {
    for (words, wrong) in WRONG {
        assert!(found_soon(Fuzz::with(Own, 1, wrong), SOON), "{words}");
    }
    // One that falls, and is larger than the bound allows; and one that is smaller than what is accepted.
    assert!(found_soon(Fuzz::with(Own, 1, |t| 10 * potential(t)), SOON));
    assert!(found_soon(Fuzz::with(Own, 1, |t| potential(t) / 2), SOON));
    assert!(!found_soon(Fuzz::new(Own, 1), SOON));
}

type Turn = fn(&mut Table, Place) -> Result<(Place, Done), u8>;
type Step = fn(&mut Table, &Event) -> Result<(), u8>;

/// A library whose turn does nothing and says otherwise, or loses all; in which no expiry changes anything, or a tick is
/// accepted that must be refused.
#[test]
fn wrong_libraries_are_found() {
    let turns: [Turn; 2] = [
        |table, place| turn(&mut table.clone(), place),
        |table, (a, b)| {
            let answer = turn(&mut table.clone(), (a, b));
            let _ = step(table, &Event::Lose(a, b));
            answer
        },
    ];
    for wrong in turns {
        let turn =
            move |table: &[u8], a: u8, b: u8, out: &mut [u8]| turn_by(wrong, table, (a, b), out);
        let library = Functions { turn: Box::new(turn), ..Functions::default() };
        assert!(found_soon(Fuzz::new(library, 1), SOON));
    }
    let steps: [Step; 2] = [
        |table, event| match event {
            Event::Expire(_) => step(&mut table.clone(), event),
            _ => step(table, event),
        },
        |table, event| match (event, step(table, event)) {
            (Event::Tick(_), Err(10)) => Ok(()),
            (_, answer) => answer,
        },
    ];
    for wrong in steps {
        let step =
            move |table: &[u8], field: &[u8], out: &mut [u8]| step_by(wrong, table, field, out);
        let library = Functions { step: Box::new(step), ..Functions::default() };
        assert!(found_soon(Fuzz::new(library, 1), SOON));
    }
}

/// With this program's own machine the fuzzer finds nothing. One that meets a corner too seldom fails.
#[test]
fn corners_must_be_met() {
    assert_eq!(found_in(Fuzz::new(Own, 1), 2), 0);
    let mut fuzz = Fuzz::new(Own, 1);
    fuzz.go_on(Duration::ZERO, 0);
    assert_eq!(fuzz.tell(0).1, 0);
    assert!(fuzz.tell(1).1 > 100);
}

/// Turns from a place on while something holds.
fn turns(table: &mut Table, mut place: (u8, u8), goes_on: impl Fn(&Table, u64) -> bool) -> u64 {
    let mut made = 0;
    while goes_on(table, made) {
        (place, _) = turn_in_range(table, place).unwrap();
        made += 1;
    }
    made
}

/// Programs that differ in one thing are found.
#[test]
fn wrong_programs_are_found() {
    type Turns = fn(&mut Table) -> u64;
    let wrong: [Turns; 6] = [
        // From another place on.
        |table| if table.n > 1 { turns(table, (2, 1), |t, _| !t.messages.is_empty()) } else { 0 },
        // One turn more, or to the end of the round.
        |table| {
            let made = turn_to_rest(table);
            made + u64::from(made > 0)
        },
        |table| {
            let n = u64::from(table.n);
            let round = n * (n - 1);
            turns(table, FIRST, |t, made| !t.messages.is_empty() || made % round.max(1) != 0)
        },
        // Only the turns that do something are counted.
        |table| {
            let taken = |t: &Table| total(&t.traffic.delivered) + total(&t.traffic.lost);
            let before = taken(table);
            turn_to_rest(table);
            taken(table) - before
        },
        // Not more than a thousand.
        |table| turns(table, FIRST, |t, made| !t.messages.is_empty() && made < 1000),
        // A pair is left out.
        |table| {
            let (mut place, mut made) = (FIRST, 0);
            while !table.messages.is_empty() && made < 100_000 {
                if place != (5, 2) {
                    turn_in_range(table, place).unwrap();
                }
                (place, made) = (next(table.n, place), made + 1);
            }
            made
        },
    ];
    for (k, wrong) in wrong.into_iter().enumerate() {
        let (_, found) = check(&[], |list| Ok(rest_by(advance, wrong, list)));
        assert!(found.is_err(), "{k}");
    }
    type Text = fn(&[u8]) -> Vec<u8>;
    let texts: [Text; 4] = [
        // No turns after a list that stopped.
        |list| {
            let text = rest(list);
            match String::from_utf8_lossy(&text).contains("stopped") {
                true => peer::print::run_list(list),
                false => text,
            }
        },
        |list| String::from_utf8_lossy(&rest(list)).replace("turns ", "turn ").into_bytes(),
        |list| [rest(list), b"\n".to_vec()].concat(),
        |list| rest(&list[..list.len().min(65_535)]),
    ];
    for (k, wrong) in texts.into_iter().enumerate() {
        let (_, found) = check(&[], |list| Ok(wrong(list)));
        assert!(found.is_err(), "{k}");
    }
    let named = ("a list".to_string(), vec![0x01, 0, 1, 1]);
    let (passed, found) = check(&[named], |_| Err("it can't be run".to_string()));
    assert_eq!((passed, found), (0, Err("a list: it can't be run".to_string())));
}

/// check-rest as a process: 0 for the peer's own program, 1 for another, 2 where there is none.
#[test]
fn the_program_that_compares() {
    let status = |arguments: &[&str]| {
        let output =
            Command::new(env!("CARGO_BIN_EXE_check-rest")).args(arguments).output().unwrap();
        let printed = String::from_utf8_lossy(&output.stdout).into_owned();
        (output.status.code(), printed)
    };
    let lists = concat!(env!("CARGO_MANIFEST_DIR"), "/../tests/lists");
    let (code, printed) = status(&[env!("CARGO_BIN_EXE_rest"), lists]);
    assert_eq!(code, Some(0), "{printed}");
    assert!(printed.ends_with(" passed, 0 failed\n"));
    let (code, printed) = status(&["/bin/cat", lists]);
    assert_eq!(code, Some(1), "{printed}");
    assert!(printed.ends_with(" passed, 1 failed\n"));
    assert_eq!(status(&["/no such program"]).0, Some(2));
    assert_eq!(status(&[env!("CARGO_BIN_EXE_rest"), "/no such folder"]).0, Some(2));
    assert_eq!(status(&[]).0, Some(2));
}
