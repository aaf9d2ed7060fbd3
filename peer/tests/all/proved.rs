//! A table in bytes and back, and this program's own machine behind the library's boundary.

use peer::list::{first_event, write_event};
use peer::machine::*;
use peer::numbers::Numbers;
use peer::proved::*;
use peer::tables::{in_range, scramble, spoil};

fn bytes_of(table: &Table) -> TableBytes {
    let mut bytes = [0; TABLE_BYTES];
    table_to_bytes(table, &mut bytes);
    bytes
}

#[test]
fn a_table_has_4436_bytes() {
    assert_eq!(TABLE_BYTES, 4436);
    assert_eq!((COUNTS_AT, LIMITS_AT), (1362, 4434));
}

/// One table byte by byte.
#[test]
fn every_place_is_where_it_should_be() {
    let mut table = Table::start(3, Limits { nodes: 0x61, messages: 0x62 });
    table.nodes[1] = Node {
        status: Status::Normal,
        counter: 0x0001_0203,
        group: 0x0405_0607,
        coordinator: 8,
        task: 0x090a,
        members: 0x0b0c,
        last_call: 0x0d0e_0f10,
        activity: Activity::Forwarding { rest: 0x1112, now: 0x13, caller: 0x14, call: 0x1516_1718 },
    };
    table.messages.push(Message {
        sender: 1,
        receiver: 2,
        call: 0x2122_2324,
        body: Body::Ready { group: 0x2526_2728, task: 0x292a },
    });
    table.messages.push(Message {
        sender: 3,
        receiver: 1,
        call: 1,
        body: Body::Reply { yes: true },
    });
    *count_mut(&mut table.traffic.sent, 1, 2) = 0x3132_3334;
    *count_mut(&mut table.traffic.sent, 16, 16) = 0x3536_3738;
    *count_mut(&mut table.traffic.delivered, 2, 1) = 0x4142_4344;
    *count_mut(&mut table.traffic.lost, 1, 1) = 0x5152_5354;
    *count_mut(&mut table.traffic.lost, 3, 16) = 0x5556_5758;
    let bytes = bytes_of(&table);
    assert_eq!(bytes[0], 3);
    assert_eq!(bytes[1..30], [0; 29]);
    let node = [
        3, 0, 1, 2, 3, 4, 5, 6, 7, 8, 9, 10, 11, 12, 13, 14, 15,
        16, // up to the last call number
        7, 0x11, 0x12, 0, 0, 0x13, 0x14, 0x15, 0x16, 0x17, 0x18,
    ];
    assert_eq!(bytes[30..59], node);
    assert_eq!(bytes[59..465], [0; 406]);
    let ready = [1, 2, 5, 0x21, 0x22, 0x23, 0x24, 0x25, 0x26, 0x27, 0x28, 0x29, 0x2a, 0];
    assert_eq!(bytes[465..479], ready);
    assert_eq!(bytes[479..493], [3, 1, 6, 0, 0, 0, 1, 0, 0, 0, 0, 0, 0, 1]);
    assert_eq!(bytes[493..1361], [0; 868]);
    assert_eq!(bytes[1361], 2);
    // Row by sender: place (a - 1) x 16 + (b - 1) of each.
    let counts = [
        (1362 + 4, [0x31, 0x32, 0x33, 0x34]),
        (1362 + 4 * 255, [0x35, 0x36, 0x37, 0x38]),
        (2386 + 4 * 16, [0x41, 0x42, 0x43, 0x44]),
        (3410, [0x51, 0x52, 0x53, 0x54]),
        (3410 + 4 * 47, [0x55, 0x56, 0x57, 0x58]),
    ];
    let mut expected = [0; 3072];
    for (place, count) in counts {
        expected[place - 1362..][..4].copy_from_slice(&count);
    }
    assert_eq!(bytes[1362..4434], expected);
    assert_eq!(bytes[4434..], [0x61, 0x62]);
    assert_eq!(table_from_bytes(&bytes), table);
}

/// Where each activity keeps what it has: tag, set, former, node, caller, call.
#[test]
fn every_activity_has_its_bytes() {
    use Activity::*;
    let cases = [
        (Idle, [0, 0, 0, 0, 0, 0, 0, 0, 0, 0, 0]),
        (Asking { asked: 3, found: 0x0102 }, [1, 1, 2, 0, 0, 3, 0, 0, 0, 0, 0]),
        (Waiting { ticks: 15, found: 0x0102 }, [2, 1, 2, 0, 0, 15, 0, 0, 0, 0, 0]),
        (Inviting { found: 0x0102, former: 0x0304, now: 5 }, [3, 1, 2, 3, 4, 5, 0, 0, 0, 0, 0]),
        (Collecting, [4, 0, 0, 0, 0, 0, 0, 0, 0, 0, 0]),
        (Handing { rest: 0x0102, now: 3 }, [5, 1, 2, 0, 0, 3, 0, 0, 0, 0, 0]),
        (Contacting, [6, 0, 0, 0, 0, 0, 0, 0, 0, 0, 0]),
        (
            Forwarding { rest: 0x0102, now: 3, caller: 4, call: 0x0506_0708 },
            [7, 1, 2, 0, 0, 3, 4, 5, 6, 7, 8],
        ),
        (Accepting { caller: 4, call: 0x0506_0708 }, [8, 0, 0, 0, 0, 0, 4, 5, 6, 7, 8]),
    ];
    for (activity, expected) in cases {
        let mut table = Table::start(1, TOWER);
        table.nodes[0].activity = activity;
        let bytes = bytes_of(&table);
        assert_eq!(bytes[19..30], expected, "{activity:?}");
        assert_eq!(table_from_bytes(&bytes), table);
    }
}

#[test]
fn status_and_activity_are_read_by_their_remainders() {
    let mut bytes = bytes_of(&Table::start(1, TOWER));
    bytes[1] = 7;
    bytes[19] = 255;
    let node = table_from_bytes(&bytes).nodes[0];
    assert_eq!(node.status, Status::Normal);
    assert_eq!(node.activity, Activity::Inviting { found: 0, former: 0, now: 0 });
}

/// Random tables come back the same, in range or not.
#[test]
fn tables_come_back() {
    let mut numbers = Numbers::new(1);
    let (mut inside, mut outside) = (0, 0);
    for k in 0..30_000 {
        let mut table = in_range(&mut numbers);
        assert!(table.in_range());
        match k % 3 {
            1 => spoil(&mut table, &mut numbers),
            2 => table = scramble(&table, &mut numbers),
            _ => {}
        }
        *(if table.in_range() { &mut inside } else { &mut outside }) += 1;
        let mut bytes = bytes_of(&table);
        let same = table_from_bytes(&bytes);
        assert_eq!(same.in_range(), table.in_range());
        if table.messages.len() <= MAX_MESSAGES && (1..=MAX_NODES).contains(&table.n) {
            assert_eq!(same, table);
        }
        // What is no part of the table is not read.
        let plain = bytes;
        fill_unused(&mut bytes, &mut numbers);
        assert!(same_table(&plain, &bytes));
        assert_eq!(table_from_bytes(&bytes), same);
    }
    assert!(inside > 10_000 && outside > 10_000, "{inside} {outside}");
}

#[test]
fn what_is_part_of_a_table_is_compared() {
    let mut numbers = Numbers::new(2);
    let mut table = in_range(&mut numbers);
    while table.messages.len() < 20 || table.n == MAX_NODES {
        table = in_range(&mut numbers);
    }
    let bytes = bytes_of(&table);
    let n = usize::from(table.n);
    let waiting = table.messages.len();
    for place in 0..TABLE_BYTES {
        let mut other = bytes;
        other[place] ^= 1;
        // What each kind carries behind its call number: group, task, yes.
        let carried = |at: usize| {
            let kind = bytes[465 + at / 14 * 14 + 2];
            !matches!((kind, at % 14), (1, 7..) | (2..=4, 11..) | (5, 13) | (6, 7..=12))
        };
        let part = place < 1 + 29 * n
            || (465..465 + 14 * waiting).contains(&place) && carried(place - 465)
            || place >= 1361;
        assert_eq!(same_table(&bytes, &other), !part, "{place}");
    }
}

#[test]
fn own_machine_behind_the_boundary() {
    let mut numbers = Numbers::new(3);
    for _ in 0..20_000 {
        let mut table = in_range(&mut numbers);
        let bytes = bytes_of(&table);
        let event = peer::drive::any_event(table.n, &mut numbers);
        let mut field = Vec::new();
        write_event(&mut field, &event);
        assert_eq!(first_event(&field), Ok(event));
        let mut out = [0; TABLE_BYTES];
        let answer = Own.step(&bytes, &field, &mut out);
        assert_eq!(answer, step(&mut table, &event).err().unwrap_or(0));
        assert_eq!(out, if answer == 0 { bytes_of(&table) } else { [0; TABLE_BYTES] });
    }
}

/// "fewer bytes free than the line has": the lines before it stand, and nothing of it.
#[test]
fn lines_that_fit() {
    let text = b"cabinets 1\n1 0 0 0 0 0 0\nmessages 0\nsent 0\ndelivered 0\nlost 0\n";
    for (free, written) in [
        (0, 0),
        (10, 0),
        (11, 11),
        (12, 11),
        (24, 11),
        (25, 25),
        (35, 25),
        (36, 36),
        (42, 36),
        (43, 43),
        (54, 43),
        (55, 55),
        (61, 55),
        (62, 62),
        (99, 62),
    ] {
        assert_eq!(fitting(text, free), written, "{free}");
    }
    let mut out = [7; 30];
    assert_eq!(Own.print(&[1, 0, 1, 1], &mut out), None);
    assert_eq!(&out[..25], &text[..25]);
    assert_eq!(out[25..], [7; 5]);
}

#[test]
fn n_and_waiting_out_of_range_come_back() {
    let mut table = Table::start(17, TOWER);
    table.messages =
        vec![Message { sender: 1, receiver: 2, call: 1, body: Body::AreYouCoordinator }; 65];
    let bytes = bytes_of(&table);
    assert_eq!((bytes[0], bytes[1361]), (17, 65));
    let same = table_from_bytes(&bytes);
    assert_eq!((same.n, same.messages.len()), (17, 65));
    assert_eq!(same.messages[..64], table.messages[..64]);
    let mut out = [0; TABLE_BYTES];
    assert_eq!(Own.step(&bytes, &[0x10, 0, 1, 1], &mut out), 1);
    assert_eq!(out, [0; TABLE_BYTES]);
}
