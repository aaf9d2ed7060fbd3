//! A turn of T-09 behind the library's boundary: what the function answers and what it leaves in the buffer, by
//! this program's own driver and by the proved library where it is linked.

use peer::machine::*;
use peer::numbers::Numbers;
use peer::proved::*;
use peer::round::bytes::{free, written, TURN_BYTES};
use peer::round::driver::{turn, Place};
use peer::round::tables::{any_place, in_another_form, no_pair, not_in_range, to_turn};
use peer::traffic_tables::count_waiting;

/// A turn into a buffer of so many bytes, each of them 7: the answer, and what is there after it.
fn call(library: &dyn Library, table: &[u8], (a, b): Place, room: usize) -> (u8, Vec<u8>) {
    let mut out = vec![7; room];
    (library.turn(table, a, b, &mut out), out)
}

/// A check of this program's own driver, and of the proved library.
fn both(check: impl Fn(&dyn Library)) {
    check(&Own);
    if let Ok(proved) = Proved::linked() {
        check(&proved);
    }
}

fn bytes_of(table: &Table) -> TableBytes {
    let mut bytes = [0; TABLE_BYTES];
    table_to_bytes(table, &mut bytes);
    bytes
}

/// Three nodes that have recovered, and a question from 1 to 3.
fn asked() -> Table {
    let mut table = Table::start(3, STAND);
    for i in 1..=3 {
        step(&mut table, &Event::Recover(i)).unwrap();
    }
    let body = Body::AreYouCoordinator;
    table.messages.push(Message { sender: 1, receiver: 3, call: 1, body });
    count_waiting(&mut table);
    table
}

/// The table after it, the next place, and what was done; and nothing behind these.
#[test]
fn every_byte_is_where_it_should_be() {
    assert_eq!(TURN_BYTES, 4439);
    let table = asked();
    let mut down = table.clone();
    step(&mut down, &Event::Crash(3)).unwrap();
    both(|library| {
        for (before, place, event, behind) in [
            (&table, (1, 2), None, [1, 3, 0]),
            (&table, (1, 3), Some(Event::Deliver(1, 3)), [2, 1, 1]),
            (&down, (1, 3), Some(Event::Lose(1, 3)), [2, 1, 2]),
            (&table, (3, 2), None, [1, 2, 0]),
        ] {
            let (answer, out) = call(library, &bytes_of(before), place, 4500);
            let mut after = before.clone();
            if let Some(event) = event {
                step(&mut after, &event).unwrap();
            }
            assert_eq!(answer, 0);
            let bytes = out.first_chunk().unwrap();
            assert!(same_table(bytes, &bytes_of(&after)), "{place:?}");
            assert_eq!(out[4436..4439], behind);
            assert_eq!(out[4439..], [7; 61]);
            let (a, b, done) = (behind[0], behind[1], behind[2]);
            assert_eq!(written(&out), Some((bytes, (a, b), done)));
        }
    });
    assert_eq!(written(&[0; 4438]), None);
}

/// What is free of a turn: behind the three nodes and behind the message, and what this kind does not carry.
#[test]
fn what_is_free() {
    let mut out = [0; TURN_BYTES];
    assert_eq!(Own.turn(&bytes_of(&asked()), 1, 2, &mut out), 0);
    assert_eq!(free(&out), [88..465, 479..1361, 472..479]);
    assert_eq!(free(&[]), []);
}

/// "255 stands only for a buffer that is too short, which is looked at first, and is left as it was"
#[test]
fn too_short_a_buffer() {
    let good = bytes_of(&asked());
    both(|library| {
        for room in (0..TURN_BYTES).step_by(37).chain([4436, 4437, 4438]) {
            for (table, place) in
                [(&good[..], (1, 3)), (&[], (1, 3)), (&good, (0, 0)), (&[0], (0, 0))]
            {
                assert_eq!(call(library, table, place, room), (TOO_SHORT, vec![7; room]));
            }
        }
    });
}

/// 1 comes before 7, and before n = 1, at which any place passes; and the buffer stays as it was.
#[test]
fn refusals() {
    let good = bytes_of(&asked());
    let alone = bytes_of(&Table::start(1, TOWER));
    let (mut bad, mut bad_alone) = (good, alone);
    // A status of 1 is Election, and no Down node is not idle.
    (bad[0], bad_alone[1]) = (5, 1);
    both(|library| {
        for (place, number) in [((0, 1), 7), ((1, 4), 7), ((2, 2), 7), ((1, 3), 0)] {
            let (answer, out) = call(library, &good, place, 4439);
            assert_eq!(answer, number, "{place:?}");
            assert_eq!(out == [7; 4439], number != 0);
            assert_eq!(call(library, &bad, place, 4439), (1, vec![7; 4439]));
            assert_eq!(call(library, &bad_alone, place, 4439), (1, vec![7; 4439]));
            let (answer, out) = call(library, &alone, place, 4439);
            assert_eq!(answer, 0);
            assert_eq!(out[4436..], [place.0, place.1, 0]);
            assert!(same_table(out.first_chunk().unwrap(), &alone));
        }
        // What is cut off is read as zeros, and so are the limits.
        for length in [0, 1, 30, 1362, 4434, 4435] {
            assert_eq!(call(library, &good[..length], (1, 3), 4439), (1, vec![7; 4439]));
        }
        let longer = [&good[..], &[9; 40]].concat();
        assert_eq!(call(library, &longer, (1, 3), 4439), call(library, &good, (1, 3), 4439));
    });
}

/// Random tables in other forms of their bytes, at pairs and at other places, in range or not.
#[test]
fn other_forms() {
    both(|library| {
        let mut numbers = Numbers::new(1);
        let mut answers = [0; 8];
        for _ in 0..4000 {
            let table = match numbers.one_in(4) {
                true => not_in_range(&mut numbers),
                false => to_turn(&mut numbers).0,
            };
            let place = match numbers.one_in(4) {
                true => no_pair(table.n, &mut numbers),
                false => any_place(table.n.clamp(1, 16), &mut numbers),
            };
            let form = in_another_form(&bytes_of(&table), &mut numbers);
            let (answer, out) = call(library, &form, place, TURN_BYTES);
            let mut after = table_from_bytes(&bytes_of(&table));
            match turn(&mut after, place) {
                Ok((next, done)) => {
                    let (bytes, place, number) = written(&out).unwrap();
                    assert!(same_table(bytes, &bytes_of(&after)));
                    assert_eq!((answer, place, number), (0, next, done as u8));
                }
                Err(number) => assert_eq!((answer, &out), (number, &vec![7; TURN_BYTES])),
            }
            answers[usize::from(answer)] += 1;
        }
        assert!(answers[0] > 1500 && answers[1] > 500 && answers[7] > 400, "{answers:?}");
    });
}
