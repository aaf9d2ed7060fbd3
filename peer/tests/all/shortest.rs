//! The comparison finds machines that are wrong on purpose, and the search shortens what they show.

use crate::common;
use crate::functions;

use common::{invited_twice, LATE, NODES};
use functions::Functions;
use peer::compare::{
    list_difference, run_difference, shortest_run, tell_list, tell_run, tell_walk, walk_difference,
};
use peer::drive::run;
use peer::fuzz_loop::Fuzzer;
use peer::fuzzing::Fuzz;
use peer::list::{read_list, write_list};
use peer::machine::*;
use peer::numbers::Numbers;
use peer::print::print_table;
use peer::proved::*;
use peer::shortest::shortest;
use peer::traffic_tables::{count_waiting, pairs};
use std::time::Duration;
use Event::*;

/// A machine that may be wrong, behind the boundary of the library. What it sends is counted all the same, so
/// that it is not found by its counts.
fn library_of<'a>(
    steps: impl Fn(&mut Table, &Event) -> Result<(), u8> + Copy + 'a,
) -> Functions<'a> {
    let go = move |table: &mut Table, event: &Event| {
        steps(table, event)?;
        let waiting = table.waiting();
        for (a, b) in pairs(table.n) {
            let Traffic { sent, delivered, lost } = &mut table.traffic;
            let gone = count_of(delivered, a, b) + count_of(lost, a, b);
            *count_mut(sent, a, b) = gone + count_of(&waiting, a, b);
        }
        Ok(())
    };
    let print = move |list: &[u8], out: &mut [u8]| {
        let Ok(read) = read_list(list) else {
            return Own.print(list, out);
        };
        let mut table = Table::start(read.n, read.limits);
        let mut text = format!("cabinets {}\n", read.n);
        for (k, event) in read.events.iter().enumerate() {
            if let Err(r) = go(&mut table, event) {
                text += &format!("refused {} {r}\n", k + 1);
            }
        }
        if let Some(stop) = read.stop {
            text += &format!("stopped {} {}\n", stop.offset, stop.number);
        }
        print_table(&mut text, &table);
        let length = fitting(text.as_bytes(), out.len());
        out[..length].copy_from_slice(&text.as_bytes()[..length]);
        (length == text.len()).then_some(length)
    };
    let step = move |table: &[u8], field: &[u8], out: &mut [u8]| {
        let in_range = |table: &mut Table, event: &Event| match table.in_range() {
            true => go(table, event),
            false => Err(1),
        };
        step_by(in_range, table, field, out)
    };
    let fold = move |list: &[u8]| {
        let Ok(list) = read_list(list) else {
            return 0;
        };
        let mut table = Table::start(list.n, list.limits);
        list.events.iter().filter(|event| go(&mut table, event).is_ok()).count() as u32
    };
    let (print, step, fold) = (Box::new(print), Box::new(step), Box::new(fold));
    Functions { print, step, fold, ..Functions::default() }
}

/// "Clearing the counter at a crash: an old group number returns."
fn clears_counter(table: &mut Table, event: &Event) -> Result<(), u8> {
    step(table, event)?;
    if let Crash(i) = *event {
        table.nodes[usize::from(i) - 1].counter = 0;
    }
    Ok(())
}

/// "Matching a reply by its sender instead of its call number": here any reply matches.
fn takes_any_reply(table: &mut Table, event: &Event) -> Result<(), u8> {
    if let Deliver(a, b) = *event {
        let open = (1..=table.n).contains(&b).then(|| table.node(b).open_call()).flatten();
        let oldest = table.messages.iter_mut().find(|m| m.sender == a && m.receiver == b);
        if let (Some(call), Some(m)) = (open, oldest) {
            if let Body::Reply { .. } = m.body {
                m.call = call;
            }
        }
    }
    step(table, event)
}

/// Refuses a check with 14 when 63 wait already.
fn full_too_early(table: &mut Table, event: &Event) -> Result<(), u8> {
    let mut after = table.clone();
    step(&mut after, event)?;
    if let (Check(_), 64) = (event, after.messages.len()) {
        return Err(14);
    }
    *table = after;
    Ok(())
}

/// The first run of a row of random ones that shows a difference.
fn first_difference(library: &impl Library) -> (u8, Vec<Event>) {
    first_difference_of(5, library)
}

/// The same for the row of a seed.
fn first_difference_of(seed: u64, library: &impl Library) -> (u8, Vec<Event>) {
    let mut numbers = Numbers::new(seed);
    for _ in 0..2000 {
        let n = numbers.between(1, 16) as u8;
        let events = run(n, TOWER, 1000, &mut numbers);
        if run_difference(library, n, TOWER, &events, None).is_some() {
            return (n, events);
        }
    }
    panic!("no difference");
}

/// No event of the result can be taken out.
fn assert_least(library: &impl Library, n: u8, events: &[Event]) {
    let differs = |events: &[Event]| {
        run_difference(library, n, TOWER, events, None).is_some()
            || list_difference(library, &write_list(n, TOWER, events)).is_some()
    };
    assert!(differs(events));
    for k in 0..events.len() {
        let fewer = [&events[..k], &events[k + 1..]].concat();
        assert!(!differs(&fewer), "event {k} of {events:?} is not needed");
    }
}

#[test]
fn shortest_takes_out_what_is_not_needed() {
    let items: Vec<u32> = (0..1000).collect();
    let mut asked = 0;
    let found = shortest(items, |items| {
        asked += 1;
        [17, 18, 400, 999].iter().all(|k| items.contains(k))
    });
    assert_eq!(found, [17, 18, 400, 999]);
    assert!(asked < 500, "{asked}");
    assert_eq!(shortest(vec![1, 2, 3], |_| true), []);
    assert_eq!(shortest(vec![1, 2, 3], |items| items.len() == 3), [1, 2, 3]);
}

#[test]
fn right_machine_shows_no_difference() {
    let mut numbers = Numbers::new(4);
    for _ in 0..50 {
        let n = numbers.between(1, 16) as u8;
        let events = run(n, TOWER, 500, &mut numbers);
        for machine in [step, advance] {
            let library = library_of(machine);
            assert!(run_difference(&library, n, TOWER, &events, None).is_none());
            assert_eq!(list_difference(&library, &write_list(n, TOWER, &events)), None);
        }
    }
}

#[test]
fn cleared_counter_needs_two_events() {
    let library = library_of(clears_counter);
    let (n, events) = first_difference(&library);
    let (n, events) = shortest_run(&library, n, TOWER, &events);
    assert_eq!((n, events), (1, vec![Recover(1), Crash(1)]));
}

/// A call is given up, the next is open, and the reply to the first arrives. From some runs the search comes
/// to a longer one, of which no event can be taken out either.
#[test]
fn late_reply_needs_six_events() {
    let library = library_of(takes_any_reply);
    let found = (5..10).map(|seed| {
        let (n, events) = first_difference_of(seed, &library);
        assert!(events.len() > 100);
        let (n, events) = shortest_run(&library, n, TOWER, &events);
        assert_least(&library, n, &events);
        (n, events)
    });
    let (n, events) = found.min_by_key(|(_, events)| events.len()).unwrap();
    assert!(events.len() <= 8, "{events:?}");
    assert!(matches!(events.last(), Some(Deliver(..))));
    println!("{}", tell_run(&library, n, TOWER, &events));
}

#[test]
fn full_too_early_needs_a_long_run() {
    let library = library_of(full_too_early);
    let (n, events) = first_difference(&library);
    let (n, events) = shortest_run(&library, n, TOWER, &events);
    assert_least(&library, n, &events);
    // 63 messages must wait, each sent by an event of its own.
    assert!(events.len() > 63, "{}", events.len());
    assert!(matches!(events.last(), Some(Check(_))));
}

/// A library that reads the list wrongly: a difference in bytes.
#[test]
fn bytes_are_shortened() {
    // Forgets that 0x01 must be first.
    let print = |list: &[u8], out: &mut [u8]| {
        let at = list.windows(4).rposition(|w| w == [1, 0, 1, 2]).unwrap_or(0);
        Own.print(&list[at..], out)
    };
    let reads = Functions { print: Box::new(print), ..Functions::default() };
    let mut list = write_list(2, TOWER, &[Recover(1), Recover(2), Check(2)]);
    list.extend([1, 0, 1, 2]);
    list.extend([0x11, 0, 1, 2]);
    let words = tell_list(&list, |list| list_difference(&reads, list));
    assert!(words.starts_with("a list of 5 bytes:"), "{words}");
}

#[test]
fn tables_are_shortened() {
    let library = library_of(full_too_early);
    let mut table = Table::start(3, TOWER);
    for i in 1..=3 {
        step(&mut table, &Recover(i)).unwrap();
    }
    let m = Message { sender: 1, receiver: 2, call: 1, body: Body::AreYouCoordinator };
    table.messages = vec![m; 63];
    count_waiting(&mut table);
    let events = [Crash(1), Check(3), Tick(1), Check(2)];
    assert!(walk_difference(&library, &table, &events, Some(7), None).is_some());
    let words = tell_walk(&library, &table, &events, Some(7));
    assert_eq!(words.matches("\nevent ").count(), 2, "{words}");
    let words = tell_walk(&library_of(clears_counter), &table, &events, None);
    assert!(!words.contains("message "), "{words}");
    assert!(words.contains("cabinet 2 0 0 0 0 0 0 0 idle"), "{words}");
}

/// The fuzzer itself, for a moment: no difference in the right machine.
#[test]
fn fuzzer_finds_nothing_in_the_right_machine() {
    let mut fuzz = Fuzz::new(Own, 1);
    fuzz.go_on(Duration::from_millis(1500), 0);
    assert_eq!(fuzz.tell(0).1, 0);
}

/// "Emptying members before they are set aside: old members get no invitation."
fn forgets_members(table: &mut Table, event: &Event) -> Result<(), u8> {
    let before = table.clone();
    step(table, event)?;
    for (node, before) in table.nodes.iter_mut().zip(&before.nodes) {
        if let (Activity::Inviting { former, .. }, true) =
            (&mut node.activity, node.group != before.group)
        {
            *former = 0;
        }
    }
    Ok(())
}

/// "Taking the task with the invitation": here it is 100.
fn takes_task_early(table: &mut Table, event: &Event) -> Result<(), u8> {
    let before = table.clone();
    step(table, event)?;
    for (node, before) in table.nodes.iter_mut().zip(&before.nodes) {
        if node.coordinator != before.coordinator && node.status == Status::Election {
            node.task = 100;
        }
    }
    Ok(())
}

/// "Sending Ready on after a recovery, under the new group."
fn hands_on_after_recovery(table: &mut Table, event: &Event) -> Result<(), u8> {
    let before = table.clone();
    step(table, event)?;
    if let Expire(i) = *event {
        let was = before.node(i).activity;
        let node = &mut table.nodes[usize::from(i) - 1];
        if let (Activity::Handing { rest, .. }, true) = (was, node.last_call < MAX_CALL) {
            if rest != 0 && table.messages.len() < MAX_MESSAGES {
                node.last_call += 1;
                let receiver = 16 - rest.leading_zeros() as u8;
                let body = Body::Ready { group: node.group, task: before.node(i).task };
                table.messages.push(Message { sender: i, receiver, call: node.last_call, body });
            }
        }
    }
    Ok(())
}

/// The wrong turnings and the impostors that document 01 names.
#[test]
fn fuzzer_finds_wrong_turnings_and_impostors() {
    type Step = fn(&mut Table, &Event) -> Result<(), u8>;
    let machines: [(&str, Step); 12] = [
        ("clears the counter at a crash", clears_counter),
        ("forgets the members", forgets_members),
        ("takes the task early", takes_task_early),
        ("hands on after a recovery", hands_on_after_recovery),
        ("takes any reply", takes_any_reply),
        ("turns every event away", |_, _| Err(9)),
        ("returns the same table always", |table, event| step(&mut table.clone(), event)),
        ("answers accepted and moves nothing", |_, _| Ok(())),
        ("works on the first event and then idles", |table, event| {
            if table.nodes.iter().all(|node| *node == Node::START) {
                step(table, event)
            } else {
                Ok(())
            }
        }),
        ("cries 12", |_, _| Err(12)),
        ("cries 13", |_, _| Err(13)),
        ("cries 14", |_, _| Err(14)),
    ];
    for (name, machine) in machines {
        let mut fuzz = Fuzz::new(library_of(machine), 1);
        fuzz.go_on(Duration::from_secs(60), 0);
        assert!(fuzz.tell(0).1 > 0, "{name}");
    }
}

/// The set that a call's node was picked from, without it, and the node, by the activities before and
/// after the call.
type Picked = for<'a> fn(&Activity, &'a mut Activity) -> Option<(&'a mut Set, &'a mut u8)>;

/// Puts the node that an event's call went to back into its set, and takes the lowest.
fn picks_lowest(table: &mut Table, event: &Event, picked: Picked) -> Result<(), u8> {
    let before = table.nodes;
    step(table, event)?;
    for (node, before) in table.nodes.iter_mut().zip(before) {
        if node.last_call == before.last_call {
            continue;
        }
        if let Some((set, now)) = picked(&before.activity, &mut node.activity) {
            *set |= only(*now);
            *now = set.trailing_zeros() as u8 + 1;
            *set &= !only(*now);
            table.messages.last_mut().unwrap().receiver = *now;
        }
    }
    Ok(())
}

fn invites_lowest_found(table: &mut Table, event: &Event) -> Result<(), u8> {
    picks_lowest(table, event, |before, after| match (before, after) {
        (Activity::Inviting { found: 0, .. }, _) => None,
        (_, Activity::Inviting { found, now, .. }) => Some((found, now)),
        _ => None,
    })
}

fn invites_lowest_set_aside(table: &mut Table, event: &Event) -> Result<(), u8> {
    picks_lowest(table, event, |before, after| match (before, after) {
        (Activity::Inviting { found: 0, .. }, Activity::Inviting { former, now, .. }) => {
            Some((former, now))
        }
        _ => None,
    })
}

fn forwards_to_lowest(table: &mut Table, event: &Event) -> Result<(), u8> {
    picks_lowest(table, event, |_, after| match after {
        Activity::Forwarding { rest, now, .. } => Some((rest, now)),
        _ => None,
    })
}

fn hands_to_lowest(table: &mut Table, event: &Event) -> Result<(), u8> {
    picks_lowest(table, event, |_, after| match after {
        Activity::Handing { rest, now } => Some((rest, now)),
        _ => None,
    })
}

/// The two sets as one: "the cabinets found, then those set aside" is not heeded.
fn invites_highest_of_both(table: &mut Table, event: &Event) -> Result<(), u8> {
    let before = table.nodes;
    step(table, event)?;
    for (node, before) in table.nodes.iter_mut().zip(before) {
        if let (Activity::Inviting { found, former, now }, true) =
            (&mut node.activity, node.last_call != before.last_call)
        {
            if *former > only(*now) {
                *found |= only(*now);
                *now = 16 - former.leading_zeros() as u8;
                *former &= !only(*now);
                table.messages.last_mut().unwrap().receiver = *now;
            }
        }
    }
    Ok(())
}

/// "one in both is invited twice" is not heeded.
fn invites_once(table: &mut Table, event: &Event) -> Result<(), u8> {
    let before = table.clone();
    step(table, event)?;
    for (node, before) in table.nodes.iter_mut().zip(&before.nodes) {
        if let (Activity::Inviting { found, former, now }, true) =
            (&mut node.activity, node.group != before.group)
        {
            *former &= !(*found | only(*now));
        }
    }
    Ok(())
}

/// "Asking still goes from 1 up" is not heeded.
fn asks_highest_first(table: &mut Table, event: &Event) -> Result<(), u8> {
    step(table, event)?;
    if let Check(i) = *event {
        if let Activity::Asking { asked, .. } = &mut table.nodes[usize::from(i) - 1].activity {
            *asked = if i == table.n { i - 1 } else { table.n };
            table.messages.last_mut().unwrap().receiver = *asked;
        }
    }
    Ok(())
}

/// Machines that are right but for T-02, and the least n that has a choice for them.
#[test]
fn wrong_picks_show_in_runs() {
    type Step = fn(&mut Table, &Event) -> Result<(), u8>;
    let machines: [(&str, Step, u8); 7] = [
        ("invites the lowest found", invites_lowest_found, 3),
        ("invites the lowest set aside", invites_lowest_set_aside, 3),
        ("forwards to the lowest", forwards_to_lowest, 3),
        ("hands to the lowest", hands_to_lowest, 3),
        ("invites the highest of both sets", invites_highest_of_both, 3),
        ("invites one in both once", invites_once, 2),
        ("asks the highest first", asks_highest_first, 3),
    ];
    for (name, machine, least) in machines {
        let library = library_of(machine);
        let (n, events) = first_difference(&library);
        let (n, events) = shortest_run(&library, n, TOWER, &events);
        assert!(n >= least, "{name}: n {n}, {events:?}");
        assert_least(&library, n, &events);
    }
}

/// The invitation that an event delivers to a Normal node which doesn't own the group: the node's place, the
/// sender, and the group.
fn invited(table: &Table, event: &Event) -> Option<(usize, u8, u32)> {
    let Deliver(a, b) = *event else {
        return None;
    };
    let m = table.messages.iter().find(|m| m.sender == a && m.receiver == b)?;
    match m.body {
        Body::Invitation { group }
            if owner(group) != b && table.node(b).status == Status::Normal =>
        {
            Some((usize::from(b) - 1, a, group))
        }
        _ => None,
    }
}

/// Where T-03's test is to say no of a node that holds the group, or yes of one that doesn't.
type Misread = fn(node: &Node, sender: u8, group: u32) -> bool;

/// A machine with another test than T-03's: it takes the group held for another one, or for the one of the
/// invitation.
fn misreads(table: &mut Table, event: &Event, misread: Misread) -> Result<(), u8> {
    let Some((k, sender, group)) = invited(table, event) else {
        return step(table, event);
    };
    let held = table.nodes[k].group;
    if !misread(&table.nodes[k], sender, group) {
        return step(table, event);
    }
    let mut other = table.clone();
    other.nodes[k].group = if held != group { group } else { held ^ 16 };
    advance(&mut other, event)?;
    other.nodes[k].group = held;
    *table = other;
    Ok(())
}

/// What an answer to an invitation does beside, or instead: the table after it, the node's place, and the
/// place that the invitation had.
type Beside = fn(&mut Table, usize, usize);

/// A machine that does something else where T-03's test holds.
fn answers(table: &mut Table, event: &Event, beside: Beside) -> Result<(), u8> {
    let twice = invited(table, event).filter(|&(k, _, group)| table.nodes[k].group == group);
    let place = table.messages.iter().position(|m| *event == Deliver(m.sender, m.receiver));
    step(table, event)?;
    if let (Some((k, ..)), Some(place)) = (twice, place) {
        beside(table, k, place);
    }
    Ok(())
}

/// Document 01 alone.
fn joins_again(table: &mut Table, event: &Event) -> Result<(), u8> {
    misreads(table, event, |node, _, group| node.group == group)
}

/// T-03's story is where document 01 alone differs, and not before the last delivery; the listing shows it
/// too.
#[test]
fn document_01_alone_differs_in_the_story() {
    let library = library_of(joins_again);
    for given_up in [false, true] {
        let mut events = invited_twice(given_up);
        assert!(run_difference(&library, NODES, TOWER, &events, None).is_none());
        assert_eq!(list_difference(&library, &write_list(NODES, TOWER, &events)), None);
        events.push(LATE);
        let found = run_difference(&library, NODES, TOWER, &events, None).unwrap();
        assert_eq!(found.events, events.len(), "{}", found.words);
        assert!(list_difference(&library, &write_list(NODES, TOWER, &events)).is_some());
    }
}

/// The n of the shortest run found that shows a wrong machine; it ends with a delivery.
fn least_nodes(name: &str, library: &impl Library) -> u8 {
    let (n, events) = first_difference(library);
    let (n, events) = shortest_run(library, n, TOWER, &events);
    assert!(matches!(events.last(), Some(Deliver(..))), "{name}: {events:?}");
    assert_least(library, n, &events);
    n
}

/// Machines that test something else than T-03 does, named after that.
#[test]
fn misread_tests_show_in_runs() {
    let misreadings: [(&str, Misread); 5] = [
        ("never", |node, _, group| node.group == group),
        ("idle", |node, _, group| node.group == group && node.activity != Activity::Idle),
        ("coordinator", |node, _, group| node.group != group && node.coordinator == owner(group)),
        ("not newer", |node, _, group| node.group > group && node.coordinator == owner(group)),
        ("counter", |node, _, group| node.group != group && node.group / 16 == group / 16),
    ];
    for (name, misread) in misreadings {
        let machine = |table: &mut Table, event: &Event| misreads(table, event, misread);
        least_nodes(name, &library_of(machine));
    }
}

/// Machines that do something else than T-03 says. Two nodes alone have no invitation that arrives twice.
#[test]
fn misread_answers_show_in_runs() {
    let answered: [(&str, Beside); 8] = [
        ("back into Reorganization", |table, k, _| {
            table.nodes[k].status = Status::Reorganization;
        }),
        ("the activity stops", |table, k, _| table.nodes[k].activity = Activity::Idle),
        ("a call is counted", |table, k, _| table.nodes[k].last_call += 1),
        ("no reply", |table, _, _| table.messages.truncate(table.messages.len() - 1)),
        ("reply no", |table, _, _| {
            table.messages.last_mut().unwrap().body = Body::Reply { yes: false };
        }),
        ("its own call number", |table, k, _| {
            table.messages.last_mut().unwrap().call = table.nodes[k].last_call;
        }),
        ("reply to the coordinator", |table, k, _| {
            table.messages.last_mut().unwrap().receiver = table.nodes[k].coordinator;
        }),
        ("reply in the invitation's place", |table, _, place| {
            table.messages[place..].rotate_right(1);
        }),
    ];
    for (name, beside) in answered {
        let machine = |table: &mut Table, event: &Event| answers(table, event, beside);
        assert!(least_nodes(name, &library_of(machine)) >= 3, "{name}");
    }
}

/// What only tables show, the fuzzer finds there: no run comes to the end of the call numbers, and none has
/// an owner's invitation behind its Ready.
#[test]
fn misread_tests_show_in_tables() {
    let misreadings: [(&str, Misread); 2] = [
        ("forwarded", |node, sender, group| node.group == group && sender == owner(group)),
        ("call left", |node, _, group| node.group == group && node.last_call == MAX_CALL),
    ];
    for (name, misread) in misreadings {
        let library =
            library_of(|table: &mut Table, event: &Event| misreads(table, event, misread));
        let mut numbers = Numbers::new(6);
        for _ in 0..300 {
            let n = numbers.between(2, 6) as u8;
            let events = run(n, TOWER, 1000, &mut numbers);
            assert!(run_difference(&library, n, TOWER, &events, None).is_none(), "{name}");
        }
        let mut fuzz = Fuzz::new(library, 1);
        fuzz.go_on(Duration::from_secs(60), 0);
        assert!(fuzz.tell(0).1 > 0, "{name}");
    }
}

/// "one that prints a member count out of thin air"
#[test]
fn fuzzer_finds_wrong_count() {
    let print = |list: &[u8], out: &mut [u8]| {
        let length = Own.print(list, out)?;
        // The last node's count stands before `messages`.
        let end = out[..length].windows(10).rposition(|words| words == b"\nmessages ");
        if let Some(place) = end {
            out[place - 1] = b'7';
        }
        Some(length)
    };
    let prints = Functions { print: Box::new(print), ..Functions::default() };
    let mut fuzz = Fuzz::new(prints, 1);
    fuzz.go_on(Duration::from_secs(60), 0);
    assert!(fuzz.tell(0).1 > 0);
}
