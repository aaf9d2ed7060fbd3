//! T-05 of document 02, "Traffic totals": the counts and the printed totals by hand, ground 17 and its order,
//! each rule of the range broken by itself, the random tables of the fuzzer, and libraries that are wrong on
//! purpose. The boundary is that of this program's own machine, and of the proved library where it is
//! linked.

use crate::wrong_libraries;

use peer::compare::{list_difference, run_difference, walk_difference};
use peer::drive::{any_manner, pick};
use peer::history::beyond_calls;
use peer::list::{write_event, write_list};
use peer::machine::*;
use peer::numbers::Numbers;
use peer::print::{print_table, run_list};
use peer::proved::*;
use peer::tables::in_range;
use peer::traffic_corners::{need, BROKEN, WAYS};
use peer::traffic_tables::{break_counts, count_waiting, pairs, raise_to_calls, to_send};
use wrong_libraries::{found, steps, texts};
use Event::*;

fn message(sender: u8, receiver: u8, call: u32, body: Body) -> Message {
    Message { sender, receiver, call, body }
}

/// A table of n nodes that have each recovered once.
fn recovered(n: u8) -> Table {
    let mut table = Table::start(n, TOWER);
    for i in 1..=n {
        step(&mut table, &Recover(i)).unwrap();
    }
    table
}

/// Gives a pair its counts.
fn set(table: &mut Table, (a, b): (u8, u8), [sent, delivered, lost]: [u32; 3]) {
    *count_mut(&mut table.traffic.sent, a, b) = sent;
    *count_mut(&mut table.traffic.delivered, a, b) = delivered;
    *count_mut(&mut table.traffic.lost, a, b) = lost;
}

/// The counts of a pair that are not 0, as lines of the vectors.
fn counts(table: &Table) -> Vec<(u8, u8, [u32; 3])> {
    let of = |a: u8, b: u8| {
        let Traffic { sent, delivered, lost } = &table.traffic;
        [sent, delivered, lost].map(|counts| count_of(counts, a, b))
    };
    let places = (1..=16).flat_map(|a| (1..=16).map(move |b| (a, b)));
    places.map(|(a, b)| (a, b, of(a, b))).filter(|(.., counts)| *counts != [0; 3]).collect()
}

fn refused(table: &Table, event: Event, number: u8) {
    let mut same = table.clone();
    assert_eq!(step(&mut same, &event), Err(number), "{event:?}");
    assert_eq!(&same, table);
}

/// K10's first events, and two that lose a message, with the counts after each.
#[test]
fn counts_of_a_run() {
    let mut table = Table::start(2, TOWER);
    let there = |sent: u32, delivered: u32, lost: u32| (2, 1, [sent, delivered, lost]);
    let back = |sent: u32, delivered: u32, lost: u32| (1, 2, [sent, delivered, lost]);
    let rows = [
        (Recover(1), vec![]),
        (Recover(2), vec![]),
        (Check(2), vec![there(1, 0, 0)]),
        (Deliver(2, 1), vec![back(1, 0, 0), there(1, 1, 0)]),
        (Deliver(1, 2), vec![back(1, 1, 0), there(2, 1, 0)]),
        (Deliver(2, 1), vec![back(2, 1, 0), there(2, 2, 0)]),
        // Accept.
        (Lose(1, 2), vec![back(2, 1, 1), there(2, 2, 0)]),
        (Expire(2), vec![back(2, 1, 1), there(2, 2, 0)]),
        (Finish(2, 200), vec![back(2, 1, 1), there(2, 2, 0)]),
        (Check(2), vec![back(2, 1, 1), there(3, 2, 0)]),
        (Crash(2), vec![back(2, 1, 1), there(3, 2, 0)]),
        (Lose(2, 1), vec![back(2, 1, 1), there(3, 2, 1)]),
    ];
    for (event, expected) in rows {
        step(&mut table, &event).unwrap();
        assert_eq!(counts(&table), expected, "{event:?}");
        refused(&table, Deliver(1, 1), 7);
    }
    refused(&table, Deliver(2, 1), 11);
    refused(&table, Lose(1, 2), 11);
}

/// "The listing ends with three more lines", where a list stops too, and not where the first field fails.
#[test]
fn printed_totals() {
    let events = [Recover(1), Check(1), Lose(1, 2), Expire(1), Check(1), Recover(3), Deliver(1, 2)];
    let list = write_list(3, TOWER, &events);
    let nodes = "1 3 1 16 1 1 0\n2 0 0 0 0 0 0\n3 3 3 18 3 1 0\nmessages 1\nsent 2\ndelivered 0\n";
    let text = format!("cabinets 3\nrefused 5 10\nrefused 7 9\n{nodes}lost 1\n");
    assert_eq!(String::from_utf8(run_list(&list)).unwrap(), text);
    let stopped = [&list[..], &[0x19, 0, 0]].concat();
    let text =
        format!("cabinets 3\nrefused 5 10\nrefused 7 9\nstopped {} 4\n{nodes}lost 1\n", list.len());
    assert_eq!(String::from_utf8(run_list(&stopped)).unwrap(), text);
    assert_eq!(run_list(&[1, 0, 1, 17]), b"stopped 0 6\n");
    assert_eq!(run_list(&[]), b"stopped 0 3\n");
}

/// "The totals equal the sums of the records": at and above 32 bits, of any table.
#[test]
fn totals_of_any_table() {
    let last = |table: &Table| {
        let mut text = String::new();
        print_table(&mut text, table);
        let at = text.find("sent ").unwrap();
        text[at..].to_string()
    };
    let mut table = Table::start(16, TOWER);
    for pair in pairs(16) {
        set(&mut table, pair, [MAX_COUNT, 1, MAX_COUNT - 1]);
    }
    assert!(table.in_range());
    assert_eq!(last(&table), "sent 8053063200\ndelivered 240\nlost 8053062960\n");
    let mut table = Table::start(1, TOWER);
    set(&mut table, (1, 1), [u32::MAX, u32::MAX, 4_000_000_000]);
    set(&mut table, (16, 16), [0, 1, 294_967_296]);
    assert_eq!(last(&table), "sent 4294967295\ndelivered 4294967296\nlost 4294967296\n");
    let all = [[u32::MAX; 16]; 16];
    table.traffic = Traffic { sent: all, delivered: all, lost: all };
    let all = "1099511627520";
    assert_eq!(last(&table), format!("sent {all}\ndelivered {all}\nlost {all}\n"));
}

/// Ground 17 by hand: refused at the end, accepted one below it, and never for a pair that sends nothing.
#[test]
fn ground_17() {
    let asks = message(2, 1, 9, Body::AreYouCoordinator);
    let mut table = recovered(3);
    table.messages = vec![asks];
    (table.nodes[2].group, table.nodes[2].coordinator) = (group_number(1, 2), 2);
    let at_end = |pair: (u8, u8)| {
        let mut table = table.clone();
        count_waiting(&mut table);
        let [sent, delivered] = [MAX_COUNT, MAX_COUNT - count_of(&table.waiting(), pair.0, pair.1)];
        set(&mut table, pair, [sent, delivered, 0]);
        assert!(table.in_range());
        table
    };
    let events =
        [(Check(1), (1, 2)), (Check(2), (2, 1)), (Timeout(3), (3, 2)), (Deliver(2, 1), (1, 2))];
    for (event, sends) in events {
        for pair in pairs(3) {
            let mut table = at_end(pair);
            if pair == sends {
                refused(&table, event, 17);
                *count_mut(&mut table.traffic.sent, pair.0, pair.1) -= 1;
                *count_mut(&mut table.traffic.delivered, pair.0, pair.1) -= 1;
                step(&mut table, &event).unwrap();
                assert_eq!(count_of(&table.traffic.sent, pair.0, pair.1), MAX_COUNT);
                assert!(table.in_range());
            } else {
                assert_eq!(step(&mut table, &event), Ok(()), "{event:?} {pair:?}");
                // One of the pair waits already.
                let sent = 1 + u32::from(sends == (2, 1));
                assert_eq!(count_of(&table.traffic.sent, sends.0, sends.1), sent);
            }
        }
    }
    // What sends nothing is not refused, whatever the counts are.
    let mut full = table.clone();
    for (a, b) in pairs(3) {
        let waiting = u32::from((a, b) == (2, 1));
        set(&mut full, (a, b), [MAX_COUNT, 0, MAX_COUNT - waiting]);
    }
    for event in [Crash(1), Timeout(1), Lose(2, 1)] {
        assert_eq!(step(&mut full.clone(), &event), Ok(()), "{event:?}");
    }
}

/// "after 14": 12, 13 and 14 come before it, and the grounds above them too.
#[test]
fn order_of_17() {
    let found = only(1);
    let mut table = recovered(2);
    table.nodes[1].activity = Activity::Waiting { ticks: 1, found };
    set(&mut table, (2, 1), [MAX_COUNT, MAX_COUNT, 0]);
    refused(&table, Tick(2), 17);
    let ask = message(1, 2, 1, Body::AreYouCoordinator);
    table.messages = vec![ask; 64];
    set(&mut table, (1, 2), [64, 0, 0]);
    refused(&table, Tick(2), 14);
    table.nodes[1].last_call = MAX_CALL;
    refused(&table, Tick(2), 13);
    table.nodes[1].counter = MAX_COUNTER;
    refused(&table, Tick(2), 12);
    table.nodes[1].activity = Activity::Idle;
    refused(&table, Tick(2), 10);
    (table.nodes[1].counter, table.nodes[1].last_call) = (1, 0);
    refused(&table, Check(2), 14);
    // A delivered message is out, and its reply is one too many.
    refused(&table, Deliver(1, 2), 17);
    refused(&table, Deliver(2, 1), 11);
    // A range that is broken comes first.
    set(&mut table, (2, 1), [MAX_COUNT + 1, MAX_COUNT, 1]);
    refused(&table, Deliver(1, 2), 1);
    refused(&table, Deliver(9, 2), 1);
}

/// The three rules of the range, each by itself.
fn rules(table: &Table) -> [bool; 3] {
    let waiting = table.waiting();
    let all = counts(table);
    let pair = |a: u8, b: u8| a != b && a.max(b) <= table.n;
    let sums = pairs(table.n).all(|(a, b)| {
        let [sent, delivered, lost] =
            [&table.traffic.sent, &table.traffic.delivered, &table.traffic.lost]
                .map(|counts| u128::from(count_of(counts, a, b)));
        sent == delivered + lost + u128::from(count_of(&waiting, a, b))
    });
    let places = all.iter().all(|&(a, b, _)| pair(a, b));
    let ends = all.iter().flat_map(|(.., counts)| counts).all(|&count| count <= 33_554_430);
    [sums, places, ends]
}

/// Each way to break a rule breaks it alone, but for the last two, which hold modulo 2^32; then any event
/// and every recovery is refused by 1.
#[test]
fn broken_counts() {
    let mut numbers = Numbers::new(1);
    let mut met = [0; BROKEN.len()];
    while met.iter().any(|&count| count < 200) {
        let table = in_range(&mut numbers);
        assert_eq!(rules(&table), [true; 3]);
        let which = numbers.place(BROKEN.len());
        let mut broken = table.clone();
        if !break_counts(&mut broken, which, &mut numbers) {
            assert_eq!(broken, table);
            continue;
        }
        met[which] += 1;
        let expected = match which {
            0..=7 => [false, true, true],
            8..=27 => [true, false, true],
            28..=32 => [true, true, false],
            _ => [false, true, false],
        };
        assert_eq!(rules(&broken), expected, "{}", BROKEN[which]);
        assert_eq!((broken.nodes, &broken.messages), (table.nodes, &table.messages));
        assert!(!broken.in_range());
        let changed = counts(&broken).iter().filter(|of| !counts(&table).contains(of)).count();
        assert!(changed <= 2 || which == 7, "{}", BROKEN[which]);
        if which >= 33 {
            let waiting = broken.waiting();
            assert!(pairs(table.n).all(|(a, b)| {
                let Traffic { sent, delivered, lost } = &broken.traffic;
                let sum = count_of(delivered, a, b).wrapping_add(count_of(lost, a, b));
                count_of(sent, a, b) == sum.wrapping_add(count_of(&waiting, a, b))
            }));
        }
        let event = pick(&table, &any_manner(&mut numbers), &mut numbers);
        refused(&broken, event, 1);
        assert_eq!(recovery(&broken, 1), Err(1));
    }
}

/// Counts at their ends are in range, and any event is answered as without them if it sends nothing.
#[test]
fn counts_at_their_ends() {
    let ends =
        [[MAX_COUNT, MAX_COUNT, 0], [MAX_COUNT, 0, MAX_COUNT], [MAX_COUNT, 1, MAX_COUNT - 1]];
    for n in 2..=16 {
        for counts in ends {
            let mut table = recovered(n);
            for pair in pairs(n) {
                set(&mut table, pair, counts);
            }
            assert!(table.in_range());
            assert_eq!(step(&mut table, &Crash(n)), Ok(()));
            refused(&table, Check(1), 17);
        }
    }
    // The last of a pair is delivered or lost: its counts come to their ends, and no further.
    let reply = message(1, 2, 9, Body::Reply { yes: true });
    let mut table = recovered(2);
    table.messages = vec![reply];
    for (event, before, after) in [
        (Deliver(1, 2), [MAX_COUNT, MAX_COUNT - 1, 0], [MAX_COUNT, MAX_COUNT, 0]),
        (Lose(1, 2), [MAX_COUNT, 0, MAX_COUNT - 1], [MAX_COUNT, 0, MAX_COUNT]),
    ] {
        let mut table = table.clone();
        set(&mut table, (1, 2), before);
        step(&mut table, &event).unwrap();
        assert_eq!(counts(&table), [(1, 2, after)]);
        assert!(table.in_range());
    }
}

/// The tables that the fuzzer makes for ground 17: in range, each way of sending, each answer.
#[test]
fn every_way_of_sending() {
    let mut numbers = Numbers::new(2);
    let mut met = [[0; 5]; WAYS.len()];
    for _ in 0..100_000 {
        let (table, event) = to_send(&mut numbers);
        assert!(table.in_range());
        let need = need(&table, &event).unwrap();
        let way = &mut met[need.way as usize];
        let before = count_of(&table.traffic.sent, need.from, need.to);
        let mut after = table.clone();
        match step(&mut after, &event) {
            Ok(()) => {
                assert!(before < MAX_COUNT && after.in_range());
                assert_eq!(count_of(&after.traffic.sent, need.from, need.to), before + 1);
                let sent = after.messages.last().unwrap();
                assert_eq!((sent.sender, sent.receiver), (need.from, need.to));
                way[0] += 1;
            }
            Err(number) => {
                assert_eq!((before, &after), (MAX_COUNT, &table));
                way[[17, 14, 13, 12].iter().position(|&ground| ground == number).unwrap() + 1] += 1;
            }
        }
    }
    for ((way, name), met) in WAYS.iter().zip(met) {
        let can = [true, true, !way.delivers(), way.calls(), way.forms()];
        for (count, can) in met.iter().zip(can) {
            assert_eq!(*count > 100, can, "{name}: {met:?}");
            assert!(can || *count == 0, "{name}: {met:?}");
        }
    }
}

/// Where the calls bound what was sent, they do so after any event, and ground 17 is never met, though counts
/// come to their ends.
#[test]
fn never_17_within_the_calls() {
    let mut numbers = Numbers::new(3);
    let (mut at_end, mut refused_13) = (0, 0);
    for _ in 0..4000 {
        let mut table = in_range(&mut numbers);
        raise_to_calls(&mut table, &mut numbers);
        assert!(table.in_range());
        for _ in 0..40 {
            assert_eq!(beyond_calls(&table), None);
            let event = pick(&table, &any_manner(&mut numbers), &mut numbers);
            let need = need(&table, &event);
            let answer = step(&mut table, &event);
            assert_ne!(answer, Err(17), "{event:?}");
            let sent = need.map(|need| count_of(&table.traffic.sent, need.from, need.to));
            at_end += u32::from(answer.is_ok() && sent == Some(MAX_COUNT));
            refused_13 += u32::from(answer == Err(13) && sent == Some(MAX_COUNT));
        }
    }
    assert!(at_end > 1000 && refused_13 > 1000, "{at_end} {refused_13}");
}

fn bytes_of(table: &Table) -> TableBytes {
    let mut bytes = [0; TABLE_BYTES];
    table_to_bytes(table, &mut bytes);
    bytes
}

/// A table as it was before T-05, of 1,362 bytes, with zeros for counts: in range where no message waits; where
/// one does, they put it out of range.
fn tables_without_counts(library: &impl Library) {
    let field = |event: Event| {
        let mut field = Vec::new();
        write_event(&mut field, &event);
        field
    };
    let mut table = Table::start(2, TOWER);
    // The counts are zeros from this byte on.
    let answers = |table: &Table, from: usize| {
        let mut given = bytes_of(table);
        given[from..LIMITS_AT].fill(0);
        let mut out = [0; TABLE_BYTES];
        let step = library.step(&given, &field(Recover(1)), &mut out);
        (step, library.recovery(&given, 1, &mut out))
    };
    assert_eq!(answers(&table, 1362), (0, 0));
    table.messages.push(message(2, 1, 1, Body::AreYouCoordinator));
    count_waiting(&mut table);
    assert_eq!(answers(&table, 1362), (1, 1));
    assert_eq!(answers(&table, LIMITS_AT), (0, 0));
    // Sent to 1 by 2 is the seventeenth count; its last byte stands at 1,429.
    assert_eq!(answers(&table, 1429), (1, 1));
    assert_eq!(answers(&table, 1430), (0, 0));
}

/// An event on a table with its bytes: the counts after it stand where they should.
fn counts_in_bytes(library: &impl Library) {
    let mut table = recovered(3);
    table.messages.push(message(3, 2, 7, Body::AreYouCoordinator));
    set(&mut table, (3, 2), [0x0102_0304, 0x0102_0300, 3]);
    set(&mut table, (2, 3), [MAX_COUNT - 1, 0, MAX_COUNT - 1]);
    let mut out = [0xa5; TABLE_BYTES];
    assert_eq!(library.step(&bytes_of(&table), &[0x17, 0, 2, 3, 2], &mut out), 0);
    let at =
        |records: usize, a: usize, b: usize| 1362 + 1024 * records + 4 * (16 * (a - 1) + b - 1);
    let four = |place: usize| u32::from_be_bytes(out[place..place + 4].try_into().unwrap());
    assert_eq!(four(at(0, 3, 2)), 0x0102_0304);
    assert_eq!(four(at(1, 3, 2)), 0x0102_0301);
    assert_eq!(four(at(2, 3, 2)), 3);
    assert_eq!(four(at(0, 2, 3)), MAX_COUNT);
    assert_eq!(four(at(1, 2, 3)), 0);
    assert_eq!(four(at(2, 2, 3)), MAX_COUNT - 1);
    let counts = &out[1362..LIMITS_AT];
    assert_eq!(counts.iter().filter(|&&byte| byte != 0).count(), 4 + 4 + 1 + 4 + 4);
}

fn boundary(library: &impl Library) {
    tables_without_counts(library);
    counts_in_bytes(library);
}

#[test]
fn own_machine() {
    boundary(&Own);
}

#[test]
fn proved_library() {
    Proved::linked().iter().for_each(boundary);
}

/// Changes the counts after an accepted event: those before, and those after.
type Miscount = fn(&Event, &Traffic, &mut Traffic);

fn swapped(counts: &PairCounts) -> PairCounts {
    std::array::from_fn(|a| std::array::from_fn(|b| counts[b][a]))
}

/// Machines that count otherwise are found in runs.
#[test]
fn miscounts_show_in_runs() {
    let machines: [(&str, Miscount); 9] = [
        ("counts nothing", |_, before, after| *after = before.clone()),
        ("does not count what is sent", |_, before, after| after.sent = before.sent),
        ("does not count replies", |event, before, after| {
            if let Deliver(..) = event {
                after.sent = before.sent;
            }
        }),
        ("does not count what is delivered", |_, before, after| {
            after.delivered = before.delivered;
        }),
        ("does not count what is lost", |_, before, after| after.lost = before.lost),
        ("takes lost for delivered", |event, before, after| {
            if let Lose(a, b) = *event {
                after.lost = before.lost;
                *count_mut(&mut after.delivered, a, b) += 1;
            }
        }),
        ("sender and receiver exchanged in sent", |_, _, after| after.sent = swapped(&after.sent)),
        ("sender and receiver exchanged in all", |_, _, after| {
            after.sent = swapped(&after.sent);
            after.delivered = swapped(&after.delivered);
            after.lost = swapped(&after.lost);
        }),
        ("a recovery clears its row", |event, _, after| {
            if let Recover(i) = *event {
                after.sent[usize::from(i) - 1] = [0; 16];
                after.delivered[usize::from(i) - 1] = [0; 16];
                after.lost[usize::from(i) - 1] = [0; 16];
            }
        }),
    ];
    for (name, miscount) in machines {
        let machine = |table: &mut Table, event: &Event| {
            let before = table.traffic.clone();
            step(table, event)?;
            miscount(event, &before, &mut table.traffic);
            Ok(())
        };
        let library = steps(machine);
        let mut numbers = Numbers::new(4);
        let shows = (0..50).any(|_| {
            let events = peer::drive::run(3, TOWER, 300, &mut numbers);
            run_difference(&library, 3, TOWER, &events, None).is_some()
        });
        assert!(shows, "{name}");
    }
}

/// A ground met too early, too late or by another count: what is answered instead of the right answer, if
/// something is.
type Ground = fn(&Table, &Event, Result<(), u8>) -> Option<u8>;

/// Machines with another ground 17 are found in tables.
#[test]
fn wrong_grounds_are_found() {
    /// What the pair of the message that must be sent has sent, there and back.
    fn pair(table: &Table, event: &Event) -> Option<(u32, u32)> {
        let need = need(table, event)?;
        let sent = &table.traffic.sent;
        Some((count_of(sent, need.from, need.to), count_of(sent, need.to, need.from)))
    }
    fn at_end(table: &Table, event: &Event) -> bool {
        pair(table, event).is_some_and(|(there, _)| there == MAX_COUNT)
    }
    let grounds: [(&str, Ground); 9] = [
        ("17 before 14", |table, event, right| {
            (right == Err(14) && at_end(table, event)).then_some(17)
        }),
        ("17 before 13", |table, event, right| {
            (right == Err(13) && at_end(table, event)).then_some(17)
        }),
        ("17 before 12", |table, event, right| {
            (right == Err(12) && at_end(table, event)).then_some(17)
        }),
        ("one too early", |table, event, right| {
            let (there, _) = pair(table, event)?;
            (right.is_ok() && there == MAX_COUNT - 1).then_some(17)
        }),
        ("by the other direction", |table, event, right| {
            let (_, back) = pair(table, event)?;
            (right.is_ok() && back == MAX_COUNT).then_some(17)
        }),
        ("by any pair", |table, event, right| {
            let any = table.traffic.sent.iter().flatten().any(|&count| count == MAX_COUNT);
            (right.is_ok() && any && pair(table, event).is_some()).then_some(17)
        }),
        ("for a message that is taken out", |table, event, right| match *event {
            Deliver(a, b) | Lose(a, b) if right.is_ok() => {
                (count_of(&table.traffic.sent, a, b) == MAX_COUNT).then_some(17)
            }
            _ => None,
        }),
        ("14 in its place", |_, _, right| (right == Err(17)).then_some(14)),
        ("another number", |_, _, right| (right == Err(17)).then_some(16)),
    ];
    for (name, ground) in grounds {
        let machine = |table: &mut Table, event: &Event| {
            let mut after = table.clone();
            let right = step(&mut after, event);
            match ground(table, event, right) {
                Some(number) => return Err(number),
                None => right?,
            }
            *table = after;
            Ok(())
        };
        assert!(found(steps(machine)) > 0, "{name}");
    }
    // No ground 17 at all, in each way of sending.
    for (way, name) in WAYS {
        let machine = |table: &mut Table, event: &Event| {
            let Some(need) = need(table, event).filter(|need| need.way == way) else {
                return step(table, event);
            };
            let sent = count_of(&table.traffic.sent, need.from, need.to);
            if sent < MAX_COUNT || !table.in_range() {
                return step(table, event);
            }
            // As if one less were sent; the table after it is out of range.
            let mut other = table.clone();
            *count_mut(&mut other.traffic.sent, need.from, need.to) -= 1;
            advance(&mut other, event)?;
            *count_mut(&mut other.traffic.sent, need.from, need.to) += 1;
            *table = other;
            Ok(())
        };
        assert!(found(steps(machine)) > 0, "{name}");
    }
}

/// What a machine does not see of the counts of a table: it changes them before the event. What it changed is
/// put back after it.
type Blind = fn(&mut Table);

/// Machines that forget a rule of the range, or part of it, are found in tables.
#[test]
fn forgotten_rules_are_found() {
    fn clear(table: &mut Table, what: fn(usize, usize, usize) -> bool) {
        let n = usize::from(table.n);
        let Traffic { sent, delivered, lost } = &mut table.traffic;
        for (a, b) in (0..16).flat_map(|a| (0..16).map(move |b| (a, b))) {
            if what(n, a, b) {
                (sent[a][b], delivered[a][b], lost[a][b]) = (0, 0, 0);
            }
        }
    }
    /// Makes the sum hold where it is off, if the counts stay at most so many.
    fn mend(table: &mut Table, mends: impl Fn([u32; 3], u32) -> Option<[u32; 3]>) {
        let waiting = table.waiting();
        for (a, b) in pairs(table.n.min(16)) {
            let Traffic { sent, delivered, lost } = &table.traffic;
            let counts = [sent, delivered, lost].map(|counts| count_of(counts, a, b));
            if let Some(counts) = mends(counts, count_of(&waiting, a, b)) {
                set(table, (a, b), counts);
            }
        }
    }
    let blinds: [(&str, Blind); 10] = [
        ("the diagonal", |table| clear(table, |n, a, b| a == b && a < n)),
        ("rows above n", |table| clear(table, |n, a, b| a >= n && b < n)),
        ("columns above n", |table| clear(table, |n, a, b| a < n && b >= n)),
        ("rows and columns above n", |table| clear(table, |n, a, b| a >= n && b >= n)),
        ("too many sent", |table| {
            mend(table, |[sent, delivered, lost], waiting| {
                let sum = delivered.checked_add(lost)?.checked_add(waiting)?;
                (sent > sum && sent <= MAX_COUNT).then_some([sum, delivered, lost])
            })
        }),
        ("too few sent", |table| {
            mend(table, |[sent, delivered, lost], waiting| {
                let sum = delivered.checked_add(lost)?.checked_add(waiting)?;
                (sent < sum && sum <= MAX_COUNT).then_some([sum, delivered, lost])
            })
        }),
        ("what waits", |table| {
            mend(table, |[sent, delivered, lost], waiting| {
                let sum = delivered.checked_add(lost)?;
                (sent == sum && sum + waiting <= MAX_COUNT).then_some([
                    sum + waiting,
                    delivered,
                    lost,
                ])
            })
        }),
        ("sent above its end", |table| {
            mend(table, |[sent, delivered, lost], waiting| {
                let sum = delivered.checked_add(lost)?.checked_add(waiting)?;
                (sent == sum && sent > MAX_COUNT && delivered.max(lost) <= MAX_COUNT)
                    .then_some([waiting, 0, 0])
            })
        }),
        ("all above their ends", |table| {
            mend(table, |[sent, delivered, lost], waiting| {
                let sum = delivered.checked_add(lost)?.checked_add(waiting)?;
                (sent == sum && sent > MAX_COUNT).then_some([waiting, 0, 0])
            })
        }),
        ("the sum modulo 2^32", |table| {
            mend(table, |[sent, delivered, lost], waiting| {
                let sum = delivered.wrapping_add(lost).wrapping_add(waiting);
                (sent == sum && sent <= MAX_COUNT).then_some([waiting, 0, 0])
            })
        }),
    ];
    for (name, blind) in blinds {
        let machine = |table: &mut Table, event: &Event| {
            let mut seen = table.clone();
            blind(&mut seen);
            if table.in_range() || !seen.in_range() {
                return step(table, event);
            }
            advance(&mut seen, event)?;
            *table = seen;
            Ok(())
        };
        assert!(found(steps(machine)) > 0, "{name}");
    }
}

/// Libraries that print other totals are found by a short list.
#[test]
fn wrong_totals_are_found() {
    /// Takes the lines of the totals, with the number of messages, and gives others.
    type Last = fn(u64, [u64; 3]) -> String;
    fn text_by(last: Last, list: &[u8]) -> String {
        let text = String::from_utf8(run_list(list)).unwrap();
        let Some(at) = text.find("messages ") else { return text };
        let number = |line: &str| line.split(' ').nth(1).unwrap().parse().unwrap();
        let numbers: Vec<u64> = text[at..].lines().map(number).collect();
        format!("{}{}", &text[..at], last(numbers[0], [numbers[1], numbers[2], numbers[3]]))
    }
    fn lines(waiting: u64, [sent, delivered, lost]: [u64; 3]) -> String {
        format!("messages {waiting}\nsent {sent}\ndelivered {delivered}\nlost {lost}\n")
    }
    let list = write_list(2, TOWER, &[Recover(1), Recover(2), Check(2), Deliver(2, 1), Lose(1, 2)]);
    let difference = |last: Last| list_difference(&texts(|list| text_by(last, list)), &list);
    assert_eq!(difference(lines), None);
    let wrong: [Last; 6] = [
        |waiting, _| format!("messages {waiting}\n"),
        |waiting, [sent, delivered, lost]| lines(waiting, [sent, delivered + lost, 0]),
        |waiting, [sent, delivered, lost]| lines(waiting, [sent, lost + 1, delivered]),
        |waiting, [_, delivered, lost]| lines(waiting, [delivered, delivered, lost]),
        |waiting, totals| lines(waiting, totals).replace("sent", "Sent"),
        |waiting, totals| format!("{}\n", lines(waiting, totals)),
    ];
    for (k, wrong) in wrong.into_iter().enumerate() {
        assert!(difference(wrong).is_some(), "{k}");
    }
}

/// A difference in the counts is told with the pair alone.
#[test]
fn differences_are_told() {
    let machine = |table: &mut Table, event: &Event| {
        step(table, event)?;
        if let Lose(a, b) = *event {
            *count_mut(&mut table.traffic.lost, a, b) -= 1;
        }
        Ok(())
    };
    let mut numbers = Numbers::new(5);
    let mut table = in_range(&mut numbers);
    while table.messages.len() < 20 || table.n < 4 {
        table = in_range(&mut numbers);
    }
    let m = table.messages[9];
    let library = steps(machine);
    let events = [Lose(m.sender, m.receiver)];
    assert!(walk_difference(&library, &table, &events, None, None).is_some());
    let words = peer::compare::tell_walk(&library, &table, &events, None);
    let lines = |start: &str| words.lines().filter(|line| line.starts_with(start)).count();
    assert_eq!((lines("message "), lines("event lose ")), (1, 1), "{words}");
    // Before the event, and after it on both sides.
    let (a, b) = (m.sender, m.receiver);
    assert!(words.contains(&format!("\ncounts {a} {b} 1 0 0\nevent ")), "{words}");
    assert_eq!(lines("counts "), 3, "{words}");
}
