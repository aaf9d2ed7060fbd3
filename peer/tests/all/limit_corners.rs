//! The corners of T-08 are counted where they are met, and nowhere else, and what the papers have no place for is
//! told.

use crate::met_corners;

use met_corners::met_corners;
use peer::compare::{recovery_difference, run_difference, walk_difference};
use peer::corners::{Before, Corners, Source};
use peer::list::{read_list, write_list};
use peer::machine::*;
use peer::print::run_list;
use peer::proved::{table_to_bytes, Own, TABLE_BYTES};
use peer::recovery_corners::Call;
use peer::tally::Book;
use peer::traffic_tables::count_waiting;
use Event::*;

/// What the names of T-08's corners begin with.
const NAMES: [&str; 7] =
    ["limits", "stand, ", "tower, ", "run on", "run in", "first field", "printed, "];

/// The corners of T-08 that were met, with their counts in runs and in tables.
fn met(corners: &Corners) -> Vec<(String, u64, u64)> {
    let named =
        |name: &str| name.starts_with("0x0") || NAMES.iter().any(|words| name.starts_with(words));
    met_corners(corners).into_iter().filter(|(name, ..)| named(name)).collect()
}

/// Their names alone; nothing may be told.
fn names(corners: &Corners) -> Vec<String> {
    assert_eq!(corners.impossible(), [""; 0]);
    met(corners).into_iter().map(|(name, ..)| name).collect()
}

/// A table of n nodes that have recovered, in which so many questions from 2 to 1 wait.
fn table(n: u8, limits: Limits, waiting: usize) -> Table {
    let mut table = Table::start(n, limits);
    for i in 1..=n {
        advance(&mut table, &Recover(i)).unwrap();
    }
    let ask = Message { sender: 2, receiver: 1, call: 1, body: Body::AreYouCoordinator };
    table.messages = vec![ask; waiting];
    count_waiting(&mut table);
    table
}

/// What an event on a table meets.
fn in_a_table(table: &Table, event: Event) -> Vec<String> {
    let mut corners = Corners::default();
    assert!(walk_difference(&Own, table, &[event], None, Some(&mut corners)).is_none());
    assert!(met(&corners).iter().all(|&(_, runs, tables)| (runs, tables) == (0, 1)));
    names(&corners)
}

#[test]
fn events_in_tables() {
    let asks = |side: &str| format!("limits, check, asks: {side}");
    let accepted = "stand, accepted, n = 2".to_string();
    assert_eq!(in_a_table(&table(2, STAND, 3), Check(1)), ["stand, accepted, n = 2"]);
    let at_11 = [asks("stand, 11 wait, accepted"), accepted.clone()];
    assert_eq!(in_a_table(&table(2, STAND, 11), Check(1)), at_11);
    let full = table(2, STAND, 12);
    assert_eq!(in_a_table(&full, Check(1)), [asks("stand, 12 wait, refused 14")]);
    let replies = |side: &str| format!("limits, deliver 1, replies: {side}");
    let delivered = [replies("stand, 12 wait, accepted"), accepted.clone()];
    assert_eq!(in_a_table(&full, Deliver(2, 1)), delivered);
    let nothing = [accepted, "stand, accepted, 12 wait, nothing to send".to_string()];
    for event in [Crash(1), Timeout(1), Lose(2, 1)] {
        assert_eq!(in_a_table(&full, event), nothing);
    }
    let mut member = full.clone();
    (member.nodes[0].group, member.nodes[0].coordinator) = (group_number(1, 2), 2);
    assert_eq!(in_a_table(&member, Check(1)), ["stand, refused 18, 12 wait"]);
    let mut no_more = full.clone();
    (no_more.traffic.sent[0][1], no_more.traffic.lost[0][1]) = (MAX_COUNT, MAX_COUNT);
    assert_eq!(in_a_table(&no_more, Check(1)), [asks("stand, 12 wait, refused 14, 17 too")]);
    assert_eq!(in_a_table(&no_more, Deliver(2, 1)), [replies("stand, 12 wait, refused 17")]);
    let mut no_call = full.clone();
    no_call.nodes[0].last_call = MAX_CALL;
    assert_eq!(in_a_table(&no_call, Check(1)), [asks("stand, 12 wait, refused 13, 14 too")]);
    let mut ticks = full.clone();
    ticks.nodes[1].activity = Activity::Waiting { ticks: 1, found: only(1) };
    ticks.nodes[1].counter = MAX_COUNTER;
    let merges = "limits, tick, merges and invites: stand, 12 wait, refused 12, 14 too";
    assert_eq!(in_a_table(&ticks, Tick(2)), [merges]);
    ticks.nodes[1].last_call = MAX_CALL;
    (ticks.traffic.sent[1][0], ticks.traffic.lost[1][0]) = (MAX_COUNT, MAX_COUNT - 12);
    let all = "stand, refused 12, and 13, 14 and 17 too";
    assert_eq!(in_a_table(&ticks, Tick(2)), [merges, all]);
    no_call.traffic = no_more.traffic.clone();
    let three = "stand, refused 13, and 14 and 17 too".to_string();
    let both = [asks("stand, 12 wait, refused 13, 14 too"), three];
    assert_eq!(in_a_table(&no_call, Check(1)), both);
    for (waiting, side) in [(12, "12"), (13, "13"), (63, "63")] {
        let met = in_a_table(&table(2, TOWER, waiting), Check(1));
        assert_eq!(met, [asks(&format!("tower, {side} wait, accepted"))]);
    }
    let full = table(2, TOWER, 64);
    assert_eq!(in_a_table(&full, Check(1)), [asks("tower, 64 wait, refused 14")]);
    assert_eq!(in_a_table(&full, Deliver(2, 1)), [replies("tower, 64 wait, accepted")]);
    assert_eq!(in_a_table(&table(2, TOWER, 14), Check(1)), [""; 0]);
    // By n, and nothing of a table that is out of range.
    for (n, limits, name) in [
        (1, STAND, "stand, accepted, n = 1"),
        (3, STAND, "stand, accepted, n = 3"),
        (4, STAND, "stand, accepted, n = 4"),
        (4, TOWER, "tower, accepted, n = 4"),
        (5, TOWER, "tower, accepted, n = 5"),
        (16, TOWER, "tower, accepted, n = 16"),
    ] {
        assert_eq!(in_a_table(&table(n, limits, 0), Crash(1)), [name]);
    }
    for limits in [Limits { nodes: 4, messages: 64 }, Limits { nodes: 0, messages: 0 }] {
        assert_eq!(in_a_table(&table(2, limits, 3), Check(1)), [""; 0]);
    }
    assert_eq!(in_a_table(&table(5, STAND, 3), Check(1)), [""; 0]);
    assert_eq!(in_a_table(&table(2, STAND, 13), Check(1)), [""; 0]);
}

/// Four nodes ask all others.
fn asking() -> Vec<Event> {
    let mut events: Vec<Event> = (1..=4).map(Recover).collect();
    for i in 1..=4 {
        events.extend([Check(i), Expire(i), Expire(i), Expire(i)]);
    }
    events
}

#[test]
fn events_in_runs() {
    let counted = |limits: Limits, more: &[Event]| {
        let mut corners = Corners::default();
        let events = [&asking()[..], more].concat();
        assert!(run_difference(&Own, 4, limits, &events, Some(&mut corners)).is_none());
        assert_eq!(corners.impossible(), [""; 0]);
        met(&corners).into_iter().filter(|(name, ..)| name.starts_with("run ")).collect::<Vec<_>>()
    };
    let expected = |names: &[(&str, u64)]| {
        names.iter().map(|&(name, count)| (name.to_string(), count, 0)).collect::<Vec<_>>()
    };
    let twelfth = ("run on the stand, the 12th message", 1);
    assert_eq!(counted(STAND, &[]), expected(&[twelfth]));
    let refused = ("run on the stand, 12 wait, refused 14", 2);
    assert_eq!(counted(STAND, &[Check(1), Check(2)]), expected(&[twelfth, refused]));
    let delivers = ("run on the stand, 12 wait, a delivery sends", 1);
    let lost = ("run on the stand, 12 wait, one is lost", 1);
    let more = [Deliver(1, 2), Lose(1, 3), Lose(1, 4)];
    assert_eq!(counted(STAND, &more), expected(&[twelfth, delivers, lost]));
    assert_eq!(counted(TOWER, &[Deliver(1, 2)]), []);
    let thirteenth = ("run in the tower, n up to 4, the 13th message", 1);
    assert_eq!(counted(TOWER, &[Check(1), Expire(1)]), expected(&[thirteenth]));
    // 60 wait after four rounds more.
    let mut full: Vec<Event> = (0..4).flat_map(|_| asking()[4..].to_vec()).collect();
    full.extend([Check(1), Expire(1), Expire(1), Expire(1), Check(2), Check(3), Deliver(1, 2)]);
    let refused = ("run in the tower, 64 wait, refused 14", 1);
    let delivers = ("run in the tower, 64 wait, a delivery sends", 1);
    assert_eq!(counted(TOWER, &full), expected(&[thirteenth, refused, delivers]));
}

/// Of the machine's own answers nothing is told; of others it is.
#[test]
fn wrong_answers_are_told() {
    let told =
        |table: &Table, event: Event, answer: Option<Result<(), u8>>, change: fn(&mut Table)| {
            let before = Before::of(table, &event);
            let mut after = table.clone();
            let right = step(&mut after, &event);
            change(&mut after);
            let mut corners = Corners::default();
            corners.event(Source::Table, &before, &event, answer.unwrap_or(right), &after);
            corners.impossible()
        };
    let has = |told: Vec<String>, words: &str| {
        assert!(told.iter().any(|told| told == words), "{words}: {told:?}");
    };
    let none: fn(&mut Table) = |_| {};
    let tables =
        [table(2, STAND, 3), table(2, STAND, 12), table(4, TOWER, 12), table(2, TOWER, 64)];
    for table in &tables {
        for event in [Check(1), Deliver(2, 1), Crash(1), Lose(2, 1), Recover(1)] {
            assert_eq!(told(table, event, None, none), [""; 0]);
            let changed: fn(&mut Table) = |after| after.limits.messages += 1;
            has(told(table, event, None, changed), "limits, changed by an event");
            let changed: fn(&mut Table) = |after| {
                after.limits = if after.limits == TOWER { STAND } else { TOWER };
            };
            has(told(table, event, None, changed), "limits, changed by an event");
        }
    }
    let too_early = "limits, 14 where fewer wait or nothing must be sent";
    let none_at_all = "limits, no 14 where as many wait and one more must be sent";
    has(told(&tables[0], Check(1), Some(Err(14)), none), too_early);
    has(told(&tables[2], Check(1), Some(Err(14)), none), too_early);
    for (table, accepted) in [(&tables[1], Ok(())), (&tables[3], Ok(())), (&tables[1], Err(17))] {
        has(told(table, Check(1), Some(accepted), none), none_at_all);
        has(told(table, Deliver(2, 1), Some(Err(14)), none), too_early);
        has(told(table, Crash(1), Some(Err(14)), none), too_early);
    }
    let one_more: fn(&mut Table) = |after| after.messages.push(after.messages[0]);
    has(
        told(&tables[1], Deliver(2, 1), None, one_more),
        "limits, more wait after an event than may",
    );
    has(
        told(&tables[3], Deliver(2, 1), None, one_more),
        "limits, more wait after an event than may",
    );
    // A table out of range by its limits.
    let no_pair = table(2, Limits { nodes: 4, messages: 64 }, 3);
    let too_many = table(2, STAND, 13);
    let over = table(5, STAND, 3);
    let alone = Table { n: 0, ..table(2, STAND, 3) };
    for (table, words) in [
        (no_pair, "limits, no allowed pair and not answered 1"),
        (over, "limits, n is none of 1 to the limit and not answered 1"),
        (alone, "limits, n is none of 1 to the limit and not answered 1"),
        (too_many, "limits, more wait than the limit and not answered 1"),
    ] {
        assert_eq!(told(&table, Check(1), None, none), [""; 0]);
        for answer in [Ok(()), Err(7), Err(14), Err(10)] {
            has(told(&table, Check(1), Some(answer), none), words);
        }
    }
}

#[test]
fn broken_tables_are_counted() {
    let mut corners = Corners::default();
    corners.broken_limits(1, Err(1));
    corners.broken_limits(20, Err(1));
    corners.broken_limits(28, Err(1));
    corners.limits_first(Err(1), Ok(()));
    corners.limits_first(Err(1), Err(14));
    let expected = [
        "limits refused 1, limits 4 64",
        "limits refused 1, stand, n = 5",
        "limits refused 1, stand, 13 wait",
        "limits refused 1, no allowed pair, else accepted",
        "limits refused 1, no allowed pair, 14 too",
    ];
    assert_eq!(names(&corners), expected);
    // What is not answered 1 is not counted as that.
    corners.broken_limits(1, Ok(()));
    corners.limits_first(Ok(()), Ok(()));
    assert!(met(&corners).iter().all(|&(_, runs, tables)| (runs, tables) == (0, 1)));
}

#[test]
fn recoveries() {
    let met = |table: &Table, i: u8| {
        let mut corners = Corners::default();
        let counted = Some((&mut corners, Source::Table));
        assert_eq!(recovery_difference(&Own, table, i, 240, 1, counted), None);
        names(&corners)
    };
    let down = |n: u8, limits: Limits, waiting: usize| {
        let mut table = table(n, limits, waiting);
        table.nodes = [Node::START; 16];
        table
    };
    let accepted = "stand, recovery accepted";
    assert_eq!(met(&down(2, STAND, 3), 1), [accepted]);
    let four = "stand, recovery accepted, node 4";
    assert_eq!(met(&down(4, STAND, 3), 4), [accepted, four]);
    let full = "stand, recovery accepted, 12 wait";
    assert_eq!(met(&down(4, STAND, 12), 3), [accepted, full]);
    assert_eq!(met(&down(4, STAND, 0), 5), ["stand, recovery refused 7, node 5"]);
    assert_eq!(met(&down(4, STAND, 0), 6), [""; 0]);
    let no_pair = Limits { nodes: 4, messages: 13 };
    let refused = "limits, recovery refused 1, no allowed pair";
    assert_eq!(met(&down(4, no_pair, 0), 1), [refused]);
    assert_eq!(met(&down(5, STAND, 0), 1), ["stand, recovery refused 1, n over 4"]);
    assert_eq!(met(&down(4, STAND, 13), 1), ["stand, recovery refused 1, more than 12 wait"]);
    assert_eq!(met(&down(16, TOWER, 64), 16), [""; 0]);
    // Of another answer it is told.
    for table in [down(4, no_pair, 0), down(5, STAND, 0), down(4, STAND, 13)] {
        let mut bytes = [0; TABLE_BYTES];
        table_to_bytes(&table, &mut bytes);
        let (out, step_out) = ([0; 240], [0; TABLE_BYTES]);
        for (answer, tells) in [(0, true), (7, true), (1, false), (255, false)] {
            let (out, step_out) = (&out[..if answer == 255 { 0 } else { 240 }], &step_out);
            let call = Call { table: &bytes, node: 1, answer, out, step_answer: 1, step_out };
            let mut corners = Corners::default();
            corners.recovery(Source::Table, &call);
            let told =
                corners.impossible().contains(&"limits, recovery not answered 1".to_string());
            assert_eq!(told, tells, "{answer}");
        }
    }
}

/// What the fields of a list meet, by its text.
fn fields(list: &[u8], text: &[u8]) -> (Vec<String>, Vec<String>) {
    let mut corners = Corners::default();
    corners.fields(list, text);
    let names = met(&corners).into_iter().map(|(name, ..)| name).collect();
    (names, corners.impossible())
}

#[test]
fn fields_of_lists() {
    let met = |list: &[u8]| {
        let (names, told) = fields(list, &run_list(list));
        assert_eq!(told, [""; 0], "{list:02x?}");
        names
    };
    for (n, tower, stand) in [
        (0, "stopped 0 6", "stopped 0 6"),
        (1, "passes", "passes"),
        (4, "passes", "passes"),
        (5, "passes", "stopped 0 6"),
        (16, "passes", "stopped 0 6"),
        (17, "stopped 0 6", "stopped 0 6"),
        (255, "stopped 0 6", "stopped 0 6"),
    ] {
        assert_eq!(met(&[1, 0, 1, n]), [format!("first field, 0x01, tower, n = {n}: {tower}")]);
        assert_eq!(met(&[2, 0, 1, n]), [format!("first field, 0x02, stand, n = {n}: {stand}")]);
    }
    assert_eq!(met(&[2, 0, 1, 2]), [""; 0]);
    assert_eq!(met(&[2, 0, 1, 2, 0x11, 0, 1, 1, 0x19, 0, 0]), [""; 0]);
    for cut in [&[2][..], &[2, 0], &[2, 0, 1], &[2, 0, 2, 1]] {
        assert_eq!(met(cut), ["first field, 0x02, cut: stopped 0 3"]);
    }
    assert_eq!(met(&[2, 0, 0]), ["first field, 0x02, no contents: stopped 0 5"]);
    let longer = "first field, 0x02, two bytes or more: stopped 0 5";
    assert_eq!(met(&[2, 0, 2, 2, 2]), [longer]);
    assert_eq!(met(&[0, 0, 1, 2]), ["first field, 0x00: stopped 0 4"]);
    assert_eq!(met(&[3, 0, 1, 2]), ["first field, 0x03: stopped 0 4"]);
    assert_eq!(met(&[3, 0, 0]), ["first field, 0x03, length wrong: stopped 0 4"]);
    assert_eq!(met(&[0x11, 0, 1, 1]), ["first field, an event: stopped 0 4"]);
    let event = [0x17, 0, 2, 1, 2];
    for first in [1, 2] {
        for tag in [1, 2] {
            let name = |place: &str| format!("0x0{first} first, 0x0{tag} {place}: stopped 4");
            let second = [first, 0, 1, 2, tag, 0, 1, 2];
            assert_eq!(met(&second), [name("second")]);
            let later = [&[first, 0, 1, 2], &event[..], &[tag, 0, 1, 2]].concat();
            assert_eq!(met(&later), [name("later")]);
            // The first of two such fields stops the list.
            assert_eq!(met(&[&later[..], &[1, 0, 1, 2]].concat()), [name("later")]);
        }
        let length = "0x02 not first, length wrong: stopped 4";
        let name = format!("0x0{first} first, 0x02 second: stopped 4");
        assert_eq!(met(&[first, 0, 1, 2, 2, 0, 0]), [name.as_str(), length]);
        assert_eq!(met(&[first, 0, 1, 2, 2, 0, 1]), ["0x02 not first, cut: stopped 3"]);
    }
    // A list that stops before it, or that is too long, has nothing of it.
    assert_eq!(met(&[2, 0, 1, 2, 0x19, 0, 0, 2, 0, 1, 2]), [""; 0]);
    assert_eq!(met(&[2, 0, 1, 2, 0x10, 0, 0, 2, 0, 1, 2]), [""; 0]);
    let mut long = vec![0; 65_537];
    long[..4].copy_from_slice(&[2, 0, 1, 4]);
    assert_eq!(met(&long), [""; 0]);
}

#[test]
fn wrong_texts_of_fields_are_told() {
    let first = ["first field, printed otherwise than by the grounds"];
    let later = ["first tag not first, printed otherwise than by the grounds"];
    for (list, text) in [
        (&[2, 0, 1, 5][..], "cabinets 5\n"),
        (&[2, 0, 1, 4], "stopped 0 6\n"),
        (&[2, 0, 1, 4], "stopped 0 4\n"),
        (&[1, 0, 1, 5], "stopped 0 6\n"),
        (&[2, 0, 0], "stopped 0 4\n"),
        (&[2, 0, 1], "stopped 0 5\n"),
        (&[3, 0, 1, 2], "stopped 0 6\n"),
        (&[2, 0, 1, 5], "stopped 0 6\nmessages 0\n"),
    ] {
        assert_eq!(fields(list, text.as_bytes()).1, first, "{list:02x?}");
    }
    for list in [&[2, 0, 1, 1, 2, 0, 1, 1][..], &[1, 0, 1, 1, 2, 0, 0], &[2, 0, 1, 1, 1, 0]] {
        let right = String::from_utf8(run_list(list)).unwrap();
        assert_eq!(fields(list, right.as_bytes()).1, [""; 0]);
        let line = right.lines().find(|line| line.starts_with("stopped")).unwrap();
        for other in ["", "stopped 4 5", "stopped 0 4", "stopped 8 4"] {
            let text = right.replace(line, other);
            assert_eq!(fields(list, text.as_bytes()).1, later, "{list:02x?} {other}");
        }
    }
}

/// The field that a step is given.
#[test]
fn first_tags_as_events() {
    for (tag, name) in [(1, "0x01 as an event: refused 4"), (2, "0x02 as an event: refused 4")] {
        let mut corners = Corners::default();
        corners.first_tag(&[tag, 0, 1, 2, 9], 4);
        assert_eq!(names(&corners), [name]);
        corners.first_tag(&[tag, 0, 1], 3);
        corners.first_tag(&[0x10, 0, 0], 5);
        assert_eq!(met(&corners), [(name.to_string(), 0, 1)]);
        corners.first_tag(&[tag, 0, 0], 5);
        assert_eq!(corners.impossible(), ["first tag as an event, not refused 4"]);
    }
}

#[test]
fn printed_lists() {
    let printed = |limits: Limits, more: &[Event], other: Option<(&str, &str)>| {
        let list = write_list(4, limits, &[&asking()[..], more].concat());
        let mut text = String::from_utf8(run_list(&list)).unwrap();
        if let Some((from, to)) = other {
            assert!(text.contains(from), "{text}");
            text = text.replace(from, to);
        }
        let mut corners = Corners::default();
        corners.printed(&read_list(&list).unwrap(), text.as_bytes());
        let names = met(&corners).into_iter().map(|(name, ..)| name.replacen("printed, ", "", 1));
        (names.collect::<Vec<_>>(), corners.impossible())
    };
    let right = |limits: Limits, more: &[Event]| {
        let (names, told) = printed(limits, more, None);
        assert_eq!(told, [""; 0]);
        names
    };
    let end = "stand, 12 wait at the end";
    assert_eq!(right(STAND, &[]), [end]);
    assert_eq!(right(STAND, &[Check(1)]), ["stand, 12 wait, refused 14", end]);
    assert_eq!(right(STAND, &[Deliver(1, 2)]), ["stand, 12 wait, a delivery sends", end]);
    assert_eq!(right(STAND, &[Lose(1, 2)]), [""; 0]);
    assert_eq!(right(TOWER, &[]), [""; 0]);
    let sent = "tower, n up to 4, 12 wait, and one is sent";
    let many = "tower, n up to 4, more than 12 wait at the end";
    assert_eq!(right(TOWER, &[Check(1)]), [sent, many]);
    assert_eq!(right(TOWER, &[Check(1), Lose(1, 2)]), [sent]);
    let mut full = Vec::new();
    for _ in 0..5 {
        full.extend_from_slice(&asking()[4..]);
    }
    assert_eq!(right(TOWER, &full), [sent, many, "tower, 64 wait, refused 14"]);
    // Another number, none, or one that is too many.
    let wrong = ["printed, 14 otherwise than by the limits"];
    let told = |limits: Limits, more: &[Event], from: &str, to: &str| {
        let told = printed(limits, more, Some((from, to))).1;
        told.into_iter().filter(|words| words.starts_with("printed")).collect::<Vec<_>>()
    };
    assert_eq!(told(STAND, &[Check(1)], "refused 21 14\n", ""), wrong);
    assert_eq!(told(STAND, &[Check(1)], "refused 21 14\n", "refused 21 17\n"), wrong);
    assert_eq!(told(STAND, &[Deliver(1, 2)], "cabinets 4\n", "cabinets 4\nrefused 21 14\n"), wrong);
    assert_eq!(told(TOWER, &[Check(1)], "cabinets 4\n", "cabinets 4\nrefused 21 14\n"), wrong);
    assert_eq!(told(STAND, &[], "cabinets 4\n", "cabinets 4\nrefused 19 14\n"), wrong);
}

/// A corner that is met too seldom is named with its count.
#[test]
fn seldom_corners() {
    let mut corners = Corners::default();
    assert_eq!(corners.seldom(0), [""; 0]);
    let all = corners.seldom(1).len();
    assert!(all > 800, "{all}");
    corners.fields(&[2, 0, 1, 4], &run_list(&[2, 0, 1, 4]));
    assert_eq!(corners.seldom(1).len(), all - 1);
    let seldom = corners.seldom(2);
    assert_eq!(seldom.len(), all);
    assert!(seldom.contains(&"first field, 0x02, stand, n = 4: passes: 1".to_string()));
}
