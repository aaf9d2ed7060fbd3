//! Random runs hold demand 3 and what T-05 says of runs, and the check finds tables and machines that do not.

use peer::history::{beyond_calls, check_run, Checker};
use peer::machine::*;
use peer::traffic_tables::count_waiting;

/// A plain generator of numbers, so that every run can be repeated.
struct Numbers(u64);

impl Numbers {
    fn below(&mut self, limit: u8) -> u8 {
        self.0 ^= self.0 << 13;
        self.0 ^= self.0 >> 7;
        self.0 ^= self.0 << 17;
        ((self.0 >> 32) % u64::from(limit)) as u8
    }
}

/// An event that often fits the table: mostly deliveries of waiting messages.
fn pick(numbers: &mut Numbers, table: &Table) -> Event {
    let i = numbers.below(table.n) + 1;
    let k = usize::from(numbers.below(MAX_MESSAGES as u8)) % table.messages.len().max(1);
    let (a, b) = match table.messages.get(k) {
        Some(m) => (m.sender, m.receiver),
        None => (i, numbers.below(table.n) + 1),
    };
    match numbers.below(160) {
        0 => Event::Crash(i),
        1..=16 => Event::Recover(i),
        17..=28 => Event::Check(i),
        29..=34 => Event::Timeout(i),
        35..=54 => Event::Tick(i),
        55..=58 => Event::Expire(i),
        59..=74 => Event::Finish(i, 198 + u16::from(numbers.below(5))),
        75 => Event::Lose(a, b),
        _ => Event::Deliver(a, b),
    }
}

fn random_run(seed: u64, n: u8, limits: Limits, length: usize) -> Vec<Event> {
    let mut numbers = Numbers(seed);
    let mut table = Table::start(n, limits);
    let mut events = Vec::new();
    for _ in 0..length {
        let event = pick(&mut numbers, &table);
        let _ = advance(&mut table, &event);
        events.push(event);
    }
    events
}

/// T-08: "Demand 3 now speaks of both".
#[test]
fn random_runs_hold() {
    for seed in 1..=200u64 {
        for limits in [TOWER, STAND] {
            let n = (seed % u64::from(limits.nodes)) as u8 + 1;
            let events = random_run(seed.wrapping_mul(0x9e37_79b9_7f4a_7c15), n, limits, 2000);
            if let Err(words) = check_run(n, limits, &events) {
                panic!("seed {seed}, {limits:?}: {words}");
            }
        }
    }
}

/// T-08: "It is shown over the steps for any limits not above the tower's, with the rule of the two pairs left
/// out." A queue of none or one is among them; such a table is in range but for the pair.
#[test]
fn random_runs_of_any_limits_hold() {
    let mut full = 0;
    for seed in 1..=400u64 {
        let nodes = (seed % 16) as u8 + 1;
        let limits = Limits { nodes, messages: (seed % 65) as u8 };
        let n = (seed / 16 % u64::from(nodes)) as u8 + 1;
        let events = random_run(seed.wrapping_mul(0x9e37_79b9_7f4a_7c15), n, limits, 1000);
        let table = check_run(n, limits, &events).unwrap_or_else(|words| panic!("{seed}: {words}"));
        assert!(table.in_range_of_any_pair());
        assert_eq!(table.in_range(), [TOWER, STAND].contains(&limits));
        let mut table = Table::start(n, limits);
        full += events.iter().filter(|event| advance(&mut table, event) == Err(14)).count();
    }
    assert!(full > 300, "{full}");
}

/// The random runs are no idle ones: every activity comes up, and a task reaches a member, in both.
#[test]
fn random_runs_reach_every_activity() {
    for limits in [TOWER, STAND] {
        let mut activities = std::collections::BTreeSet::new();
        let mut task_taken = 0;
        for seed in 1..=200u64 {
            let n = (seed % u64::from(limits.nodes)) as u8 + 1;
            let mut table = Table::start(n, limits);
            for event in random_run(seed.wrapping_mul(0x9e37_79b9_7f4a_7c15), n, limits, 2000) {
                let _ = advance(&mut table, &event);
                for i in 1..=n {
                    let node = table.node(i);
                    let name = format!("{:?}", node.activity);
                    activities.insert(name.split(' ').next().unwrap().to_string());
                    let taken = node.status == Status::Normal && node.task >= MIN_TASK;
                    if taken && node.coordinator != i {
                        task_taken += 1;
                    }
                }
            }
        }
        assert_eq!(activities.len(), 9, "{activities:?}");
        assert!(task_taken > 1000, "{task_taken}");
    }
}

/// Runs a machine over random runs until the check finds something, and gives its words.
fn found(machine: impl Fn(&mut Table, &Event)) -> Option<String> {
    (1..=200u64).find_map(|seed| {
        let n = (seed % 5) as u8 + 2;
        let mut numbers = Numbers(seed.wrapping_mul(0x9e37_79b9_7f4a_7c15));
        let mut table = Table::start(n, TOWER);
        let mut checker = Checker::new(n, TOWER);
        (0..2000).find_map(|_| {
            let event = pick(&mut numbers, &table);
            machine(&mut table, &event);
            checker.check(&event, &table).err()
        })
    })
}

#[test]
fn idle_machine_is_found() {
    assert!(found(|_, _| {}).unwrap().contains("the history's new group"));
}

#[test]
fn cleared_counter_is_found() {
    let words = found(|table, event| {
        let accepted = advance(table, event).is_ok();
        if let (Event::Crash(i), true) = (event, accepted) {
            table.nodes[usize::from(*i) - 1].counter = 0;
        }
    });
    assert!(words.unwrap().contains("the history's new group"));
}

#[test]
fn other_task_is_found() {
    let words = found(|table, event| {
        let _ = advance(table, event);
        for node in &mut table.nodes {
            if node.status == Status::Reorganization && node.activity == Activity::Idle {
                node.status = Status::Normal;
            }
        }
    });
    assert!(words.unwrap().contains("the history's task is"));
}

#[test]
fn other_coordinator_is_found() {
    use Event::*;
    let mut table = Table::start(2, TOWER);
    let mut checker = Checker::new(2, TOWER);
    let mut events = vec![Recover(1), Recover(2), Check(2)];
    for _ in 0..3 {
        events.extend([Deliver(2, 1), Deliver(1, 2)]);
    }
    for event in events {
        step(&mut table, &event).unwrap();
        checker.check(&event, &table).unwrap();
    }
    step(&mut table, &Finish(2, 100)).unwrap();
    table.nodes[0].coordinator = 1;
    let words = checker.check(&Finish(2, 100), &table).unwrap_err();
    assert_eq!(words, "nodes 1 and 2 are in group 33 with coordinators 1 and 2");
}

#[test]
fn table_out_of_range_is_found() {
    let words = found(|table, event| {
        let _ = advance(table, event);
        table.nodes[0].members |= 1;
    });
    assert_eq!(words.unwrap(), "the table is not in range");
}

/// Limits that change are found, though the table is in range with them.
#[test]
fn changed_limits_are_found() {
    let words = found(|table, event| {
        let _ = advance(table, event);
        if table.n <= STAND.nodes && table.messages.is_empty() {
            table.limits = STAND;
        }
    });
    assert_eq!(words.unwrap(), "the table has other limits: Limits { nodes: 4, messages: 12 }");
}

/// A machine that sends as many messages on the stand as in the tower is found by the range.
#[test]
fn message_too_many_on_the_stand_is_found() {
    let mut checker = Checker::new(4, STAND);
    let mut table = Table::start(4, STAND);
    let go = |table: &mut Table, event: &Event| {
        table.limits = TOWER;
        let answer = advance(table, event);
        table.limits = STAND;
        answer.unwrap();
    };
    let mut events: Vec<Event> = (1..=4).map(Event::Recover).collect();
    for i in 1..=4 {
        events.extend([Event::Check(i), Event::Expire(i), Event::Expire(i), Event::Expire(i)]);
    }
    for event in events {
        go(&mut table, &event);
        checker.check(&event, &table).unwrap();
    }
    assert_eq!(table.messages.len(), 12);
    go(&mut table, &Event::Check(1));
    assert_eq!(checker.check(&Event::Check(1), &table).unwrap_err(), "the table is not in range");
}

/// The tables of a wrong machine that sends group 17 before node 2 has formed it, then forms it.
#[test]
fn group_before_its_time_is_found() {
    let mut checker = Checker::new(2, TOWER);
    let mut table = Table::start(2, TOWER);
    step(&mut table, &Event::Recover(1)).unwrap();
    let body = Body::Accept { group: 17 };
    table.messages.push(Message { sender: 1, receiver: 2, call: 1, body });
    count_waiting(&mut table);
    let words = checker.check(&Event::Recover(1), &table).unwrap_err();
    assert!(words.contains("the history formed no such group"));
    step(&mut table, &Event::Recover(2)).unwrap();
    let words = checker.check(&Event::Recover(2), &table).unwrap_err();
    assert!(words.contains("an earlier table held"));
}

/// T-05: tables of a run with other counts, whose sums hold, are found, and tables whose sums do not hold.
#[test]
fn other_counts_are_found() {
    let words = |change: fn(&mut Traffic)| {
        let mut table = Table::start(2, TOWER);
        let mut checker = Checker::new(2, TOWER);
        for event in [Event::Recover(1), Event::Check(1)] {
            step(&mut table, &event).unwrap();
            checker.check(&event, &table).unwrap();
        }
        step(&mut table, &Event::Lose(1, 2)).unwrap();
        change(&mut table.traffic);
        checker.check(&Event::Lose(1, 2), &table).map(|_| ()).map_err(|words| words.to_string())
    };
    assert_eq!(words(|_| {}), Ok(()));
    let of_events =
        |name: &str| Err(format!("the counts of messages {name} are not those of the events"));
    let twice = |traffic: &mut Traffic| (traffic.sent[0][1], traffic.lost[0][1]) = (2, 2);
    assert_eq!(words(twice), of_events("sent"));
    let delivered = |traffic: &mut Traffic| (traffic.delivered[0][1], traffic.lost[0][1]) = (1, 0);
    assert_eq!(words(delivered), of_events("delivered"));
    let out_of_range = Err("the table is not in range".to_string());
    assert_eq!(words(|traffic| traffic.lost[0][1] = 0), out_of_range);
    assert_eq!(words(|traffic| traffic.sent[0][1] = 2), out_of_range);
}

/// What is due counts: a call that waits for the one called, and an invitation that is to be replied to.
#[test]
fn beyond_the_calls() {
    let mut table = Table::start(3, TOWER);
    table.nodes[0].last_call = 5;
    table.traffic.sent[0][1] = 5;
    assert_eq!(beyond_calls(&table), None);
    table.traffic.sent[0][1] = 6;
    assert_eq!(beyond_calls(&table), Some((1, 2)));
    table.nodes[1].last_call = 1;
    assert_eq!(beyond_calls(&table), None);
    // A call from 2 to 1, and a reply, which is due to nobody.
    let message = |body| Message { sender: 2, receiver: 1, call: 1, body };
    table.messages = vec![message(Body::Reply { yes: true })];
    assert_eq!(beyond_calls(&table), None);
    table.messages.push(message(Body::AreYouThere { group: 16 }));
    assert_eq!(beyond_calls(&table), Some((1, 2)));
    table.messages.clear();
    for (caller, beyond) in [(2, Some((1, 2))), (3, None)] {
        table.nodes[0].activity = Activity::Accepting { caller, call: 1 };
        assert_eq!(beyond_calls(&table), beyond);
        table.nodes[0].activity = Activity::Forwarding { rest: 0, now: 3, caller, call: 1 };
        assert_eq!(beyond_calls(&table), beyond);
    }
}
