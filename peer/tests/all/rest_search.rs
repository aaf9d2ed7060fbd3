//! The search for many quiet events: what it finds is accepted, and is no more than there is.

use peer::drive::run;
use peer::machine::*;
use peer::numbers::Numbers;
use peer::rest::every::{every, form, table_of};
use peer::rest::potential::{is_quiet, potential, suited};
use peer::rest::search::{grow, nested, patient, search, Found};
use std::time::{Duration, Instant};

/// The table before the quiet events of what was found, which must all be accepted, and none be after them.
fn judge(found: &Found) -> Table {
    let mut table = Table::start(found.n, found.limits);
    for event in &found.before {
        let _ = advance(&mut table, event);
    }
    let start = table.clone();
    for event in &found.quiet {
        assert!(is_quiet(event));
        assert_eq!(advance(&mut table, event), Ok(()));
    }
    assert!(found.quiet.len() as u64 <= potential(&start));
    start
}

/// With few messages all tables of 2 nodes are looked at. From a table prepared by hand a longest row is grown, and no longer
/// one; nor does the search find one, however long it takes.
#[test]
fn no_more_than_there_is() {
    let later = Instant::now() + Duration::from_secs(3600);
    for (messages, longest) in [(2, 23), (3, 25), (4, 27)] {
        assert_eq!(every(2, messages, 100_000).unwrap().longest, longest);
        let limits = Limits { messages, ..TOWER };
        let fill = usize::from(messages - 2);
        let before = nested(2, limits, &[2, 1], fill, &mut Numbers::new(1));
        let mut table = Table::start(2, limits);
        for event in &before {
            let _ = advance(&mut table, event);
        }
        let quiet = grow(&table, 200, later, &mut Numbers::new(1));
        assert_eq!(quiet.len(), usize::from(longest));
        judge(&Found { n: 2, limits, before, quiet });
        let found = search(2, limits, Duration::from_millis(100), 1);
        judge(&found);
        assert!(found.quiet.len() <= usize::from(longest));
    }
    // A run alone never has a quiet event, and with too many tables there is no answer.
    assert_eq!(every(1, 3, 100).unwrap().longest, 0);
    assert_eq!(every(2, 2, 1000), None);
}

/// By hand: each node keeps as members all that come behind it in the order, and asks; the row by hand leaves nothing.
#[test]
fn by_hand() {
    for (n, limits) in [(2, STAND), (4, STAND), (4, TOWER), (16, TOWER)] {
        let order: Vec<u8> = (1..=n).rev().collect();
        let fill = usize::from(limits.messages - n);
        let before = nested(n, limits, &order, fill, &mut Numbers::new(1));
        let mut table = Table::start(n, limits);
        for event in &before {
            assert_eq!(step(&mut table, event), Ok(()), "{event:?}");
        }
        for i in 1..=n {
            let node = table.node(i);
            assert_eq!(node.members, only(i) - 1);
            assert!(matches!(node.activity, Activity::Asking { .. }));
        }
        assert_eq!((table.messages.len(), suited(&table)), (usize::from(limits.messages), Ok(())));
        let order: Vec<u8> = (1..=n).collect();
        let quiet = patient(&table, &order);
        // 25 for each pair, one for each node, two for each message but the asks; but for the last few.
        let pairs = usize::from(n) * (usize::from(n) - 1) / 2;
        let about = 25 * pairs + usize::from(n) + 2 * fill;
        assert!((about - 10..=about).contains(&quiet.len()), "{n}: {} {about}", quiet.len());
        judge(&Found { n, limits, before, quiet });
    }
}

/// Along random runs a table and the one of its form go on alike, and have the same potential.
#[test]
fn tables_of_a_form_go_on_alike() {
    let mut numbers = Numbers::new(3);
    for k in 0..300 {
        let n = [2, 2, 3, 4][k % 4];
        let limits = Limits { messages: numbers.between(1, 8) as u8, ..TOWER };
        let mut table = Table::start(n, limits);
        for event in run(n, limits, 150, &mut numbers) {
            let short = form(&table);
            let mut alike = table_of(&short, n, limits);
            assert_eq!((form(&alike), potential(&alike)), (short, potential(&table)));
            assert_eq!(advance(&mut alike, &event), advance(&mut table, &event), "{event:?}");
            assert_eq!(form(&alike), form(&table), "{event:?}");
        }
    }
}
