//! The Bully machine behind the library's boundary: a table in bytes and back, what the function answers and
//! what it leaves in the buffer, by this program's own machine and by the proved library where it is linked.

use peer::bully::bytes::*;
use peer::bully::machine::*;
use peer::bully::runs::any_event;
use peer::bully::tables::{break_rule, in_another_form, in_range, rule_names, to_step};
use peer::machine::Status;
use peer::numbers::Numbers;
use peer::proved::{Library, Own, Proved, TOO_SHORT};
use std::collections::HashSet;

/// A call into a buffer of so many bytes, each of them 7: the answer, and what is there after it.
fn call(library: &dyn Library, table: &[u8], field: &[u8], room: usize) -> (u8, Vec<u8>) {
    let mut out = vec![7; room];
    (library.bully_step(table, field, &mut out), out)
}

/// A check of this program's own machine, and of the proved library.
fn both(check: impl Fn(&dyn Library)) {
    check(&Own);
    if let Ok(proved) = Proved::linked() {
        check(&proved);
    }
}

const RECOVER_1: [u8; 4] = [0x11, 0, 1, 1];

#[test]
fn every_byte_is_where_it_should_be() {
    assert_eq!(TABLE_BYTES, 193);
    let mut table = Table::start(2);
    *table.node_mut(2) = Node {
        runs: true,
        status: Status::Reorganization,
        coordinator: 2,
        task: 0x0304,
        halter: 5,
        up: 0x0607,
        place: Place::Handing { now: 8, still: 0x090a },
    };
    let bytes = table_to_bytes(&table);
    assert_eq!(bytes[..13], [2, 0, 0, 0, 0, 0, 0, 0, 0, 0, 0, 0, 0]);
    assert_eq!(bytes[13..25], [1, 2, 2, 3, 4, 5, 6, 7, 5, 8, 9, 10]);
    assert_eq!(bytes[25..], [0; 168]);
    assert_eq!(table_from_bytes(&bytes), table);
    assert_eq!(free(&bytes), 25..193);
    assert_eq!(free(&[16; 193]), 193..193);
    assert_eq!(free(&[]), 0..0);
}

/// Place, node and still; and another form of them, with other bytes in what the place does not have.
#[test]
fn every_place_has_its_bytes() {
    let places = [
        (Place::Idle, [0, 0, 0, 0], [248, 9, 9, 9]),
        (Place::Asking(3), [1, 3, 0, 0], [249, 3, 9, 9]),
        (Place::Halting(3), [2, 3, 0, 0], [10, 3, 9, 9]),
        (Place::Announcing { now: 3, still: 0x0102 }, [3, 3, 1, 2], [251, 3, 1, 2]),
        (Place::Point, [4, 0, 0, 0], [12, 9, 9, 9]),
        (Place::Handing { now: 3, still: 0x0102 }, [5, 3, 1, 2], [13, 3, 1, 2]),
        (Place::Checking(3), [6, 3, 0, 0], [254, 3, 9, 9]),
        (Place::Contacting, [7, 0, 0, 0], [255, 9, 9, 9]),
    ];
    for (place, expected, other) in places {
        let mut table = Table::start(1);
        table.node_mut(1).place = place;
        let mut bytes = table_to_bytes(&table);
        assert_eq!(bytes[9..13], expected);
        assert_eq!(table_from_bytes(&bytes), table);
        bytes[9..13].copy_from_slice(&other);
        assert_eq!(table_from_bytes(&bytes), table);
    }
}

#[test]
fn runs_and_status_are_read_by_their_remainders() {
    for byte in 0..=255 {
        let mut bytes = table_to_bytes(&Table::start(1));
        (bytes[1], bytes[2]) = (byte, byte);
        let table = table_from_bytes(&bytes);
        assert_eq!(table.node(1).runs, byte % 2 == 1);
        assert_eq!(table.node(1).status as u8, byte % 4);
    }
}

#[test]
fn events_are_fields() {
    let mut numbers = Numbers::new(1);
    for _ in 0..2000 {
        let event = any_event(16, &mut numbers);
        assert_eq!(first_event(&event_to_field(&event)), Ok(event));
    }
    assert_eq!(event_to_field(&Event::GoOn(3)), [0x19, 0, 1, 3]);
    assert_eq!(event_to_field(&Event::Finish(3, 0x0102)), [0x16, 0, 3, 3, 1, 2]);
}

/// 3: "only 1 or 2 bytes left, or fewer contents than its length says"; 4: "unknown tag", also one of an event
/// of document 01 that is none here; 5: "length wrong for the tag". They come before 1.
#[test]
fn no_field() {
    let cases: [(&[u8], u8); 24] = [
        (&[], 3),
        (&[0x19], 3),
        (&[0xff, 0], 3),
        (&[0x19, 0, 1], 3),
        (&[0x16, 0, 3, 1, 0], 3),
        (&[0xff, 0, 1], 3),
        (&[0x19, 1, 1, 5], 3),
        (&[0x00, 0, 1, 1], 4),
        (&[0x01, 0, 1, 1], 4),
        (&[0x02, 0, 1, 1], 4),
        (&[0x0f, 0, 1, 1], 4),
        (&[0x14, 0, 1, 1], 4),
        (&[0x15, 0, 1, 1], 4),
        (&[0x17, 0, 2, 1, 2], 4),
        (&[0x18, 0, 1, 1], 4),
        (&[0x1a, 0, 1, 1], 4),
        (&[0xff, 0, 0], 4),
        (&[0x10, 0, 0], 5),
        (&[0x11, 0, 2, 1, 1], 5),
        (&[0x12, 0, 3, 1, 1, 1], 5),
        (&[0x13, 0, 0, 1], 5),
        (&[0x19, 0, 2, 1, 1], 5),
        (&[0x16, 0, 1, 1], 5),
        (&[0x16, 0, 4, 1, 0, 100, 0], 5),
    ];
    both(|library| {
        for (field, number) in cases {
            for n in [0, 3, 17] {
                let (answer, out) = call(library, &[n], field, 200);
                assert_eq!(answer, number, "{field:02x?}");
                assert_eq!(out, [7; 200]);
            }
        }
        assert_eq!(call(library, &[0], &RECOVER_1, 193), (1, vec![7; 193]));
    });
}

/// "255 stands only for a buffer that is too short, which is looked at first, and is left as it was"
#[test]
fn too_short_a_buffer() {
    both(|library| {
        for room in 0..193 {
            for (n, field) in [(2, &RECOVER_1[..]), (0, &RECOVER_1), (2, &[]), (2, &[0xff, 0, 0])] {
                assert_eq!(call(library, &[n], field, room), (TOO_SHORT, vec![7; room]));
            }
        }
    });
}

/// Bytes behind the first field, behind the table and behind the buffer's table.
#[test]
fn bytes_behind() {
    let longer = |bytes: &[u8]| [bytes, &[0xff; 50]].concat();
    both(|library| {
        let table = table_to_bytes(&Table::start(2));
        let (answer, plain) = call(library, &table, &RECOVER_1, 193);
        assert_eq!((answer, &plain[..13]), (0, &[2, 1, 0, 0, 0, 0, 0, 0, 0, 1, 2, 0, 0][..]));
        assert_eq!(plain[13..25], [0; 12]);
        let (answer, out) = call(library, &longer(&table), &longer(&RECOVER_1), 300);
        assert_eq!((answer, &out[..25]), (0, &plain[..25]));
        assert_eq!(out[193..], [7; 107]);
        // Cut: zeros are read, of nodes that do not run.
        assert_eq!(call(library, &[2], &RECOVER_1, 193).1[..25], plain[..25]);
        assert_eq!(call(library, &[], &RECOVER_1, 193), (1, vec![7; 193]));
    });
}

/// A table in another form of its bytes gets the same answer, and leaves the same table.
#[test]
fn other_forms() {
    both(|library| {
        let mut numbers = Numbers::new(2);
        let (mut shorter, mut longer, mut accepted) = (0, 0, 0);
        for _ in 0..20_000 {
            let (table, event) = to_step(&mut numbers);
            let bytes = table_to_bytes(&table);
            let form = in_another_form(&bytes, &mut numbers);
            shorter += u32::from(form.len() < TABLE_BYTES);
            longer += u32::from(form.len() > TABLE_BYTES);
            let field = event_to_field(&event);
            let (answer, out) = call(library, &form, &field, TABLE_BYTES);
            let mut expected = table;
            assert_eq!(answer, step(&mut expected, &event).err().unwrap_or(0));
            if answer == 0 {
                let part = ..free(&bytes).start;
                assert_eq!(out[part], table_to_bytes(&expected)[part]);
                accepted += 1;
            } else {
                assert_eq!(out, [7; TABLE_BYTES]);
            }
        }
        assert!(shorter > 1000 && longer > 1000 && accepted > 10_000);
    });
}

/// Every rule of the range, broken by itself, is refused 1, and nothing else is.
#[test]
fn rules_of_the_range() {
    both(|library| {
        let mut numbers = Numbers::new(3);
        let mut broken = HashSet::new();
        for _ in 0..20_000 {
            let mut table = in_range(&mut numbers);
            let field = event_to_field(&any_event(table.n, &mut numbers));
            assert_ne!(call(library, &table_to_bytes(&table), &field, TABLE_BYTES).0, 1);
            let i = numbers.between(1, u32::from(table.n)) as u8;
            if let Some(rule) = break_rule(&mut table, i, &mut numbers) {
                broken.insert(rule);
                let (answer, out) = call(library, &table_to_bytes(&table), &field, TABLE_BYTES);
                assert_eq!((answer, out), (1, vec![7; TABLE_BYTES]), "{rule}: {table:?}");
            }
        }
        assert_eq!(broken, rule_names().collect());
    });
}
