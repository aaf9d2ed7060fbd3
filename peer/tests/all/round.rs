//! T-09 of document 02, "Round of the cable": the driver by hand, with 02's words, for n = 1, 2, 3 and 16.

use peer::machine::*;
use peer::numbers::Numbers;
use peer::round::driver::*;
use peer::traffic_tables::{count_waiting, set_sent};
use Body::*;
use Event::*;

/// A table of n nodes that have each recovered once, so that each is Normal and its own coordinator.
fn recovered(n: u8) -> Table {
    let mut table = Table::start(n, if n > 4 { TOWER } else { STAND });
    for i in 1..=n {
        step(&mut table, &Recover(i)).unwrap();
    }
    table
}

/// The same with messages that wait, as sent.
fn with(n: u8, messages: &[Message]) -> Table {
    let mut table = recovered(n);
    table.messages = messages.to_vec();
    count_waiting(&mut table);
    assert!(table.in_range());
    table
}

fn ask(sender: u8, receiver: u8, call: u32) -> Message {
    Message { sender, receiver, call, body: AreYouCoordinator }
}

/// The table after an event.
fn after(table: &Table, event: Event) -> Table {
    let mut table = table.clone();
    assert_eq!(step(&mut table, &event), Ok(()));
    table
}

/// What a turn answers, and the table that it leaves.
fn turned(table: &Table, place: Place) -> (Result<(Place, Done), u8>, Table) {
    let mut table = table.clone();
    (turn(&mut table, place), table)
}

/// The places of so many turns.
fn places(n: u8, mut place: Place, turns: usize) -> Vec<Place> {
    let mut table = recovered(n);
    let mut places = Vec::new();
    for _ in 0..turns {
        places.push(place);
        (place, _) = turn(&mut table, place).unwrap();
    }
    assert_eq!(table, recovered(n));
    places
}

/// "It goes round the ordered pairs (1,2), (1,3) and so on to (n,n−1), and then from the start."
#[test]
fn the_order_of_the_round() {
    assert_eq!(places(2, (1, 2), 5), [(1, 2), (2, 1), (1, 2), (2, 1), (1, 2)]);
    let three = [(1, 2), (1, 3), (2, 1), (2, 3), (3, 1), (3, 2), (1, 2), (1, 3)];
    assert_eq!(places(3, (1, 2), 8), three);
    assert_eq!(places(3, (2, 3), 5), three[3..]);
    let sixteen = places(16, (1, 2), 241);
    assert_eq!(sixteen[..4], [(1, 2), (1, 3), (1, 4), (1, 5)]);
    assert_eq!(sixteen[14..17], [(1, 16), (2, 1), (2, 3)]);
    assert_eq!(sixteen[127..132], [(9, 8), (9, 10), (9, 11), (9, 12), (9, 13)]);
    assert_eq!(sixteen[238..], [(16, 14), (16, 15), (1, 2)]);
    let mut once = sixteen[..240].to_vec();
    assert!(once.is_sorted());
    once.dedup();
    assert_eq!(once.len(), 240);
    assert!(once.iter().all(|(a, b)| a != b && (1..=16).contains(a) && (1..=16).contains(b)));
}

/// "with no message it does nothing": messages of other pairs wait, of the other way too.
#[test]
fn no_message_of_the_pair() {
    for n in [2, 3, 16] {
        for table in [recovered(n), with(n, &[ask(2, 1, 1)])] {
            let next = if n == 2 { (2, 1) } else { (1, 3) };
            assert_eq!(turned(&table, (1, 2)), (Ok((next, Done::Nothing)), table));
        }
    }
}

/// "with a Down receiver it loses the oldest", and the younger ones wait on.
#[test]
fn a_down_receiver() {
    for n in [2, 3, 16] {
        let table = with(n, &[ask(2, 1, 5), ask(1, 2, 3), ask(1, 2, 4)]);
        let table = after(&table, Crash(2));
        let (answer, left) = turned(&table, (1, 2));
        assert_eq!(answer.unwrap().1, Done::Lost);
        assert_eq!(left, after(&table, Lose(1, 2)));
        assert_eq!(left.messages, [ask(2, 1, 5), ask(1, 2, 4)]);
        assert_eq!((left.traffic.lost[0][1], left.traffic.delivered[0][1]), (1, 0));
        // A sender that is Down is no matter.
        let (answer, left) = turned(&table, (2, 1));
        assert_eq!(answer.unwrap().1, Done::Delivered);
        assert_eq!(left, after(&table, Deliver(2, 1)));
    }
}

/// "else it delivers it"
#[test]
fn a_delivery() {
    for n in [2, 3, 16] {
        let table = with(n, &[ask(2, 1, 5), ask(1, 2, 3), ask(1, 2, 4)]);
        let (answer, left) = turned(&table, (1, 2));
        assert_eq!(answer.unwrap().1, Done::Delivered);
        assert_eq!(left, after(&table, Deliver(1, 2)));
        let reply = Message { sender: 2, receiver: 1, call: 3, body: Reply { yes: true } };
        assert_eq!(left.messages, [ask(2, 1, 5), ask(1, 2, 4), reply]);
        assert_eq!((left.traffic.lost[0][1], left.traffic.delivered[0][1]), (0, 1));
    }
}

/// "A delivery that meets 12, 13 or 17 becomes a loss." It is counted as lost alone, and nothing else changes.
#[test]
fn a_delivery_that_becomes_a_loss() {
    for n in [2, 3, 16] {
        let reply = Message { sender: 1, receiver: 2, call: 7, body: Reply { yes: false } };
        // 2 contacts its coordinator, which says no.
        let mut no_counter = with(n, &[reply]);
        let node = &mut no_counter.nodes[1];
        (node.last_call, node.activity) = (7, Activity::Contacting);
        let recovers = no_counter.clone();
        no_counter.nodes[1].counter = MAX_COUNTER;
        // 2 would call Accept on the new coordinator.
        let invitation = Invitation { group: group_number(1, 1) };
        let mut no_call = with(n, &[Message { body: invitation, ..reply }]);
        no_call.nodes[1].last_call = MAX_CALL;
        // 2 would reply.
        let mut no_count = with(n, &[ask(1, 2, 7)]);
        set_sent(&mut no_count, (2, 1), MAX_COUNT, &mut Numbers::new(1));
        for (table, number) in [(no_counter, 12), (no_call, 13), (no_count, 17)] {
            assert_eq!(step(&mut table.clone(), &Deliver(1, 2)), Err(number));
            let (answer, left) = turned(&table, (1, 2));
            assert_eq!(answer.unwrap().1, Done::Lost, "{number}");
            assert_eq!(left, after(&table, Lose(1, 2)));
            assert_eq!((left.nodes, left.messages.len()), (table.nodes, 0));
        }
        let (answer, left) = turned(&recovers, (1, 2));
        assert_eq!((answer.unwrap().1, left.node(2).counter), (Done::Delivered, 2));
    }
}

/// 14 is met by no delivery: "a delivered one is already out".
#[test]
fn a_full_queue() {
    for n in [2, 3, 16] {
        let most = usize::from(recovered(n).limits.messages);
        let table = with(n, &vec![ask(1, 2, 1); most]);
        let (answer, left) = turned(&table, (1, 2));
        assert_eq!((answer.unwrap().1, left.messages.len()), (Done::Delivered, most));
        assert_eq!(step(&mut left.clone(), &Check(1)), Err(14));
    }
}

/// "With n = 1 a turn does nothing", at any place, and the place stays.
#[test]
fn one_node() {
    for limits in [TOWER, STAND] {
        let start = Table::start(1, limits);
        for table in [after(&start, Recover(1)), start] {
            for place in [(1, 2), (2, 1), (1, 1), (0, 0), (0, 1), (1, 0), (16, 3), (255, 255)] {
                assert_eq!(turned(&table, place), (Ok((place, Done::Nothing)), table.clone()));
            }
        }
    }
}

/// "else a place in the round that is no such pair meets 7"
#[test]
fn no_pair() {
    for n in [2, 3, 16] {
        let table = with(n, &[ask(1, 2, 1)]);
        let over = n + 1;
        let places = [(0, 1), (1, 0), (over, 1), (1, over), (1, 1), (n, n), (0, 0), (over, over)];
        for place in places.into_iter().chain([(255, 1), (1, 255), (255, 255), (17, 1)]) {
            assert_eq!(turned(&table, place), (Err(7), table.clone()), "{n} {place:?}");
        }
        let all = (0..=over).flat_map(|a| (0..=over).map(move |b| (a, b)));
        assert_eq!(
            all.filter(|&place| turned(&table, place).0.is_ok()).count(),
            usize::from(n) * (usize::from(n) - 1)
        );
    }
}

/// A table that is not in range meets 1, whatever the place is, and with n = 1 too.
#[test]
fn not_in_range() {
    for n in [1, 2, 3, 16] {
        let mut table = recovered(n);
        table.nodes[0].counter = MAX_COUNTER + 1;
        for place in [(1, 2), (1, 1), (0, 0), (255, 255)] {
            assert_eq!(turned(&table, place), (Err(1), table.clone()));
        }
    }
    for n in [0, 17] {
        assert_eq!(turned(&Table { n, ..recovered(2) }, (1, 2)).0, Err(1));
    }
}

/// "a message with k older ones of its own pair is no longer waiting after (k + 1) × n × (n − 1) turns": from the
/// pair behind its own it goes in the last of them.
#[test]
fn the_bound_is_met() {
    for n in [2, 3, 16] {
        for pair in [(1, 2), (n, n - 1), (2, 1), (1, n)] {
            for k in 0..4 {
                let mut table = with(n, &[1, 2, 3, 4].map(|call| ask(pair.0, pair.1, call)));
                let mut place = next(n, pair);
                let mut turns = 0;
                let followed = table.messages[k];
                while table.messages.contains(&followed) {
                    (place, _) = turn(&mut table, place).unwrap();
                    turns += 1;
                }
                assert_eq!(turns, (k + 1) * usize::from(n) * (usize::from(n) - 1));
            }
        }
    }
}
