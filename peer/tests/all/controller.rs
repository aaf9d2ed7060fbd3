//! The controller of T-11 on cases made by hand: document 01's named cases, two grounds at once, K10's story by
//! controllers that are given nothing but their own records, and the bytes at the boundary; the last by the proved
//! library too, where it is linked.

use peer::controller::bytes::SHARE_BYTES;
use peer::controller::message::{decode, encode};
use peer::controller::records::record_bytes;
use peer::controller::share::Cabinet;
use peer::machine::*;
use peer::proved::{Library, Own, Proved};
use Event::*;

fn cabinet(n: u8, own: u8, record: Node) -> Cabinet {
    Cabinet { n, own, record }
}

/// In a group that this node formed, with this status and activity.
fn in_group(status: Status, counter: u32, coordinator: u8, activity: Activity) -> Node {
    let group = group_number(counter, coordinator);
    Node { status, counter, group, coordinator, activity, last_call: 5, ..Node::START }
}

/// The record and the message that came out.
fn done(share: Result<Share, u8>) -> (Node, Option<Message>) {
    let Share { node, sent, .. } = share.unwrap();
    (node, sent)
}

fn refused(share: Result<Share, u8>) -> u8 {
    share.unwrap_err()
}

fn reply(sender: u8, receiver: u8, call: u32, yes: bool) -> Message {
    Message { sender, receiver, call, body: Body::Reply { yes } }
}

#[test]
fn k2_and_k3_a_recovery() {
    let (record, sent) = done(cabinet(2, 1, Node::START).event(&Recover(1)));
    let expected = Node {
        status: Status::Normal,
        counter: 1,
        group: 16,
        coordinator: 1,
        task: 1,
        ..Node::START
    };
    assert_eq!((record, sent), (expected, None));
    assert_eq!(refused(cabinet(2, 1, record).event(&Recover(1))), 9);
}

#[test]
fn k5_the_last_group() {
    let record = Node { counter: 1_048_574, ..Node::START };
    let (record, _) = done(cabinet(16, 16, record).event(&Recover(16)));
    assert_eq!((record.group, record.counter), (16_777_215, 1_048_575));
    let (record, _) = done(cabinet(16, 16, record).event(&Crash(16)));
    assert_eq!(refused(cabinet(16, 16, record).event(&Recover(16))), 12);
}

/// T-10: 200 passes with any members, 100 with more than half alone.
#[test]
fn k6_a_finish() {
    let alone = in_group(Status::Election, 2, 2, Activity::Collecting);
    let of = |n, record| cabinet(n, 2, record);
    assert_eq!(refused(of(2, alone).event(&Finish(2, 99))), 8);
    assert_eq!(refused(of(2, alone).event(&Finish(2, 100))), 19);
    let (record, sent) = done(of(2, alone).event(&Finish(2, 200)));
    let normal = Node { status: Status::Normal, task: 200, activity: Activity::Idle, ..alone };
    assert_eq!((record, sent), (normal, None));
    let with_one = Node { members: only(1), ..alone };
    assert_eq!(refused(of(4, with_one).event(&Finish(2, 100))), 19);
    let (record, sent) = done(of(3, with_one).event(&Finish(2, 100)));
    assert_eq!(record.activity, Activity::Handing { rest: 0, now: 1 });
    assert_eq!((record.status, record.task, record.last_call), (Status::Reorganization, 100, 6));
    let body = Body::Ready { group: 33, task: 100 };
    assert_eq!(sent, Some(Message { sender: 2, receiver: 1, call: 6, body }));
}

/// Cabinet 1 of 3 found 3, and merges at the second tick.
#[test]
fn k7_two_ticks() {
    let asking = Activity::Asking { asked: 3, found: 0 };
    let record = in_group(Status::Normal, 1, 1, asking);
    let (record, sent) = done(cabinet(3, 1, record).message(&encode(&reply(3, 1, 5, true))));
    assert_eq!((record.activity, sent), (Activity::Waiting { ticks: 2, found: only(3) }, None));
    let (record, sent) = done(cabinet(3, 1, record).event(&Tick(1)));
    assert_eq!((record.activity, sent), (Activity::Waiting { ticks: 1, found: only(3) }, None));
    let (record, sent) = done(cabinet(3, 1, record).event(&Tick(1)));
    assert_eq!(record.activity, Activity::Inviting { found: 0, former: 0, now: 3 });
    assert_eq!((record.status, record.group), (Status::Election, 32));
    let body = Body::Invitation { group: 32 };
    assert_eq!(sent, Some(Message { sender: 1, receiver: 3, call: 6, body }));
}

#[test]
fn k8_an_invitation_in_election() {
    for activity in [Activity::Idle, Activity::Collecting, Activity::Contacting] {
        let record = in_group(Status::Election, 3, 1, activity);
        let body = Body::Invitation { group: group_number(9, 2) };
        let m = Message { sender: 2, receiver: 1, call: 77, body };
        let after = done(cabinet(2, 1, record).message(&encode(&m)));
        assert_eq!(after, (record, Some(reply(1, 2, 77, true))));
    }
}

#[test]
fn k9_an_older_reply() {
    let asking = Activity::Asking { asked: 2, found: 0 };
    let record = in_group(Status::Normal, 3, 1, asking);
    for call in [1, 4, 6] {
        let after = done(cabinet(3, 1, record).message(&encode(&reply(2, 1, call, true))));
        assert_eq!(after, (record, None), "{call}");
    }
    // With the number of the open call it goes on, whoever sends it.
    for sender in [2, 3] {
        let after = done(cabinet(3, 1, record).message(&encode(&reply(sender, 1, 5, true))));
        assert_eq!(after.0.activity, Activity::Asking { asked: 3, found: only(2) });
        assert_eq!(after.1.map(|m| (m.receiver, m.call)), Some((3, 6)));
    }
}

#[test]
fn k12_an_acceptance_in_reorganization() {
    let activity = Activity::Handing { rest: 0, now: 2 };
    let record = Node { task: 100, ..in_group(Status::Reorganization, 3, 1, activity) };
    let body = Body::Accept { group: record.group };
    let m = Message { sender: 3, receiver: 1, call: 8, body };
    let after = done(cabinet(3, 1, record).message(&encode(&m)));
    assert_eq!(after, (record, Some(reply(1, 3, 8, true))));
    // In Election the sender joins.
    let record = in_group(Status::Election, 3, 1, Activity::Collecting);
    let (after, _) = done(cabinet(3, 1, record).message(&encode(&m)));
    assert_eq!(after, Node { members: only(3), ..record });
}

/// Any n up to 16, whatever limits a table has.
#[test]
fn any_number_of_cabinets() {
    for n in 1..=16 {
        for own in 1..=n {
            assert!(cabinet(n, own, Node::START).event(&Recover(own)).is_ok());
        }
        assert_eq!(refused(cabinet(n, n + 1, Node::START).event(&Recover(n))), 1);
        assert_eq!(refused(cabinet(n, 0, Node::START).event(&Recover(n))), 1);
    }
    for n in [0, 17, 255] {
        assert_eq!(refused(cabinet(n, 1, Node::START).event(&Recover(1))), 1);
        assert_eq!(refused(cabinet(n, 1, Node::START).message(&[])), 1);
    }
}

/// The first of "1 7 8 20 21 9 10 18 19 12 13" that applies.
#[test]
fn two_grounds_at_once() {
    let down = Node::START;
    let wrong = Node { counter: MAX_COUNTER + 1, ..down };
    let idle = in_group(Status::Normal, 1, 1, Activity::Idle);
    let member = in_group(Status::Normal, 1, 2, Activity::Idle);
    let at_end = Node { last_call: MAX_CALL, ..idle };
    let waiting = Activity::Waiting { ticks: 1, found: only(2) };
    let merging = in_group(Status::Normal, MAX_COUNTER, 1, waiting);
    let collecting = in_group(Status::Election, 1, 1, Activity::Collecting);
    for (record, event, number) in [
        (wrong, Recover(5), 1),
        (wrong, Finish(1, 5), 1),
        (wrong, Recover(2), 1),
        (down, Finish(5, 5), 7),
        (down, Crash(0), 7),
        // "a bad task in an event for another cabinet gives 8"
        (idle, Finish(2, 5), 8),
        (down, Finish(1, 5), 8),
        (idle, Finish(1, 99), 8),
        // "another cabinet's event at a Down one gives 21"
        (down, Crash(2), 21),
        (idle, Tick(2), 21),
        (Node { counter: MAX_COUNTER, ..down }, Recover(2), 21),
        (down, Check(1), 9),
        (down, Expire(1), 9),
        (Node { counter: MAX_COUNTER, ..idle }, Recover(1), 9),
        (Node { activity: Activity::Contacting, ..member }, Check(1), 10),
        (idle, Finish(1, 100), 10),
        (Node { activity: Activity::Contacting, ..at_end }, Check(1), 10),
        (Node { last_call: MAX_CALL, ..member }, Check(1), 18),
        (Node { members: only(2), last_call: MAX_CALL, ..collecting }, Finish(1, 100), 19),
        (Node { last_call: MAX_CALL, ..merging }, Tick(1), 12),
        (Node { counter: 7, last_call: MAX_CALL, ..merging }, Tick(1), 13),
        (at_end, Check(1), 13),
    ] {
        assert_eq!(refused(cabinet(4, 1, record).event(&event)), number, "{event:?} {record:?}");
    }
    let right = encode(&reply(2, 1, 5, true));
    let elsewhere = encode(&reply(2, 3, 5, true));
    let full = Node { counter: MAX_COUNTER, last_call: MAX_CALL, ..idle };
    for (own, record, message, number) in [
        (1, wrong, &right[1..], 1),
        (1, wrong, &elsewhere, 1),
        // "a malformed message gives 20 before 21"
        (1, idle, &elsewhere[..16], 20),
        (1, down, &right[..16], 20),
        (1, down, &elsewhere, 21),
        (1, down, &right, 9),
        (
            1,
            Node { activity: Activity::Contacting, ..full },
            &encode(&reply(2, 1, MAX_CALL, false)),
            12,
        ),
        (
            1,
            Node { activity: Activity::Asking { asked: 2, found: 0 }, ..at_end },
            &encode(&reply(2, 1, MAX_CALL, false)),
            13,
        ),
        (4, down, &encode(&reply(2, 4, 1, true)), 9),
    ] {
        assert_eq!(refused(cabinet(4, own, record).message(message)), number, "{message:02x?}");
    }
    // It merges with what it found, and needs a group and a call.
    let asked = Activity::Asking { asked: 3, found: only(1) };
    let last = in_group(Status::Normal, MAX_COUNTER, 4, asked);
    let last = Node { last_call: MAX_CALL, ..last };
    let m = encode(&reply(3, 4, MAX_CALL, true));
    assert_eq!(refused(cabinet(4, 4, last).message(&m)), 12);
    assert_eq!(refused(cabinet(4, 4, Node { counter: 1, ..last }).message(&m)), 13);
}

/// Numbers of a message that are out of range for n, and the same sender and receiver.
#[test]
fn messages_out_of_range() {
    let record = in_group(Status::Normal, 1, 1, Activity::Idle);
    let right =
        Message { sender: 2, receiver: 1, call: 1, body: Body::Ready { group: 17, task: 100 } };
    let answer = |m: Message| cabinet(3, 1, record).message(&encode(&m)).err();
    assert_eq!(answer(right), None);
    let ready = |group, task| Message { body: Body::Ready { group, task }, ..right };
    for wrong in [
        Message { sender: 0, ..right },
        Message { sender: 1, ..right },
        Message { sender: 4, ..right },
        Message { receiver: 0, ..right },
        Message { receiver: 2, ..right },
        Message { receiver: 4, ..right },
        Message { call: 0, ..right },
        Message { call: 16_777_216, ..right },
        ready(0, 100),
        ready(15, 100),
        ready(19, 100),
        ready(16_777_216, 100),
        ready(17, 99),
        ready(17, 0),
    ] {
        assert_eq!(answer(wrong), Some(20), "{wrong:?}");
    }
    assert_eq!(answer(Message { receiver: 3, ..right }), Some(21));
    for right in [
        Message { sender: 3, ..right },
        Message { call: 16_777_215, ..right },
        ready(18, 100),
        ready(16_777_202, 65_535),
    ] {
        assert_eq!(answer(right), None, "{right:?}");
    }
}

/// Controllers that know nothing but their own records, and one queue of messages in bytes.
struct Tower {
    records: Vec<Node>,
    queue: Vec<Vec<u8>>,
}

impl Tower {
    fn start(n: usize) -> Tower {
        Tower { records: vec![Node::START; n], queue: Vec::new() }
    }

    fn cabinet(&self, own: u8) -> Cabinet {
        cabinet(self.records.len() as u8, own, self.records[usize::from(own) - 1])
    }

    fn take(&mut self, own: u8, share: Result<Share, u8>) -> u8 {
        match share {
            Ok(Share { node, sent, .. }) => {
                self.records[usize::from(own) - 1] = node;
                self.queue.extend(sent.iter().map(encode));
                0
            }
            Err(number) => number,
        }
    }

    fn event(&mut self, own: u8, event: Event) -> u8 {
        let share = self.cabinet(own).event(&event);
        self.take(own, share)
    }

    /// The place of the oldest from a to b.
    fn oldest(&self, a: u8, b: u8) -> usize {
        let is = |bytes: &Vec<u8>| decode(bytes).is_some_and(|m| (m.sender, m.receiver) == (a, b));
        self.queue.iter().position(is).expect("a message waits")
    }

    fn deliver(&mut self, a: u8, b: u8) -> u8 {
        let place = self.oldest(a, b);
        let share = self.cabinet(b).message(&self.queue[place]);
        if share.is_ok() {
            self.queue.remove(place);
        }
        self.take(b, share)
    }
}

/// As the listing has a cabinet: status, coordinator, group, task, counter, count of members.
fn line(x: &Node) -> (u8, u8, u32, u16, u32, u32) {
    (x.status as u8, x.coordinator, x.group, x.task, x.counter, x.members.count_ones())
}

const NORMAL: (u8, u8, u32, u16, u32, u32) = (3, 2, 33, 100, 1, 0);

#[test]
fn k10_by_two_controllers() {
    let mut tower = Tower::start(2);
    for (own, event) in [(1, Recover(1)), (2, Recover(2)), (2, Check(2))] {
        assert_eq!(tower.event(own, event), 0);
    }
    for _ in 0..3 {
        assert_eq!((tower.deliver(2, 1), tower.deliver(1, 2)), (0, 0));
    }
    assert_eq!(tower.event(2, Finish(2, 100)), 0);
    assert_eq!((tower.deliver(2, 1), tower.deliver(1, 2)), (0, 0));
    assert_eq!(line(&tower.records[0]), NORMAL);
    assert_eq!(line(&tower.records[1]), (3, 2, 33, 100, 2, 1));
    assert!(tower.queue.is_empty());
}

/// The third cabinet stays Down: what it is asked is lost, and the call is given up.
#[test]
fn k10_by_three_controllers() {
    let mut tower = Tower::start(3);
    for (own, event) in [(1, Recover(1)), (2, Recover(2)), (2, Check(2))] {
        assert_eq!(tower.event(own, event), 0);
    }
    assert_eq!((tower.deliver(2, 1), tower.deliver(1, 2)), (0, 0));
    // It is Down, and no other is asked.
    assert_eq!(tower.deliver(2, 3), 9);
    assert_eq!(tower.event(1, Expire(2)), 21);
    let lost = tower.oldest(2, 3);
    tower.queue.remove(lost);
    assert_eq!(tower.event(2, Expire(2)), 0);
    for _ in 0..2 {
        assert_eq!((tower.deliver(2, 1), tower.deliver(1, 2)), (0, 0));
    }
    assert_eq!(tower.event(2, Finish(2, 100)), 0);
    assert_eq!((tower.deliver(2, 1), tower.deliver(1, 2)), (0, 0));
    assert_eq!(line(&tower.records[0]), NORMAL);
    assert_eq!(line(&tower.records[1]), (3, 2, 33, 100, 2, 1));
    assert_eq!(tower.records[2], Node::START);
    assert!(tower.queue.is_empty());
}

/// A check of this program's own controller, and of the proved library.
fn both(check: impl Fn(&dyn Library)) {
    check(&Own);
    if let Ok(proved) = Proved::linked() {
        check(&proved);
    }
}

/// A call into a buffer of so many bytes, each of them 7: the answer, and what is there after it.
fn event(library: &dyn Library, record: &[u8], field: &[u8], room: usize) -> (u8, Vec<u8>) {
    let mut out = vec![7; room];
    (library.controller_event(3, 1, record, field, &mut out), out)
}

/// The record after, the length of the message and the message; and nothing behind 55.
#[test]
fn every_byte_is_where_it_should_be() {
    assert_eq!(SHARE_BYTES, 55);
    let record = in_group(Status::Normal, 0x0fabcd, 1, Activity::Idle);
    both(|library| {
        let bytes = record_bytes(&record);
        let (answer, out) = event(library, &bytes, &[0x12, 0, 1, 1], 60);
        assert_eq!(answer, 0);
        let expected = [
            // Normal, counter, group, coordinator, task, members, last call
            &[3, 0, 0x0f, 0xab, 0xcd, 0, 0xfa, 0xbc, 0xd0, 1, 0, 0, 0, 0, 0, 0, 0, 6][..],
            // asking 2
            &[1, 0, 0, 0, 0, 2, 0, 0, 0, 0, 0],
            // AreYouCoordinator, from 1 to 2
            &[13, 0x20, 0, 3, 1, 2, 1, 0x21, 0, 4, 0, 0, 0, 6],
        ]
        .concat();
        assert_eq!(out[..43], expected);
        assert_eq!(out[55..], [7; 5]);
        // Nothing is sent.
        let (answer, out) = event(library, &bytes, &[0x10, 0, 1, 1], 55);
        assert_eq!((answer, out[0], out[29]), (0, 0, 0));
        assert_eq!(out[1..29], bytes[1..]);
        // The same record in another form, longer, and with bytes behind the field.
        let mut other = [&bytes[..], &[9; 10]].concat();
        (other[0], other[18], other[20], other[28]) = (7, 9, 200, 200);
        let again = event(library, &other, &[0x10, 0, 1, 1, 9, 9], 55);
        assert_eq!((again.0, &again.1[..30]), (0, &out[..30]));
        // Down with nothing else is no bytes at all.
        let (answer, out) = event(library, &[], &[0x11, 0, 1, 1], 55);
        assert_eq!((answer, &out[..12]), (0, &[3, 0, 0, 0, 1, 0, 0, 0, 16, 1, 0, 1][..]));
    });
}

/// Too short first, then the field, then the range; and the buffer stays as it was.
#[test]
fn what_is_looked_at_first() {
    let wrong = record_bytes(&Node { counter: MAX_COUNTER + 1, ..Node::START });
    let down = record_bytes(&Node::START);
    let recover: &[u8] = &[0x11, 0, 1, 1];
    both(|library| {
        for room in 0..55 {
            for field in [recover, &[], &[0x17, 0, 2, 1, 2]] {
                assert_eq!(event(library, &wrong, field, room), (255, vec![7; room]));
                assert_eq!(event(library, &down, field, room), (255, vec![7; room]));
            }
        }
        for (field, number) in [
            (&[][..], 3),
            (&[0x11], 3),
            (&[0x11, 0], 3),
            (&[0x11, 0, 1], 3),
            (&[0x17, 0, 2, 1], 3),
            (&[0x17, 0, 2, 2, 1], 4),
            (&[0x18, 0, 2, 2, 1], 4),
            // No event here, whatever its length.
            (&[0x17, 0, 1, 2], 4),
            (&[0x18, 0, 0], 4),
            (&[0x01, 0, 1, 3], 4),
            (&[0x02, 0, 1, 3], 4),
            (&[0x00, 0, 1, 3], 4),
            (&[0x19, 0, 1, 1], 4),
            (&[0x20, 0, 3, 1, 2, 1], 4),
            (&[0x11, 0, 0], 5),
            (&[0x11, 0, 2, 1, 1], 5),
            (&[0x16, 0, 1, 1], 5),
            (&[0x16, 0, 2, 1, 1], 5),
        ] {
            for record in [&wrong, &down] {
                assert_eq!(event(library, record, field, 60), (number, vec![7; 60]), "{field:?}");
            }
        }
        assert_eq!(event(library, &wrong, recover, 60), (1, vec![7; 60]));
        assert_eq!(event(library, &down, recover, 60).0, 0);
    });
}

/// An incoming message in bytes: what comes out, and what is refused.
#[test]
fn messages_at_the_boundary() {
    let record = in_group(Status::Normal, 2, 1, Activity::Collecting);
    let asks = [0x20, 0, 3, 3, 1, 1, 0x21, 0, 4, 0, 0x12, 0x34, 0x56];
    let yes = [0x20, 0, 3, 1, 3, 6, 0x21, 0, 4, 0, 0x12, 0x34, 0x56, 0x24, 0, 1, 1];
    let bytes = record_bytes(&record);
    both(|library| {
        let message = |own: u8, record: &[u8], message: &[u8], room: usize| {
            let mut out = vec![7; room];
            (library.controller_message(3, own, record, message, &mut out), out)
        };
        let (answer, out) = message(1, &bytes, &asks, 60);
        assert_eq!((answer, &out[..29], out[29], &out[30..47]), (0, &bytes[..], 17, &yes[..]));
        assert_eq!(out[55..], [7; 5]);
        // A reply to no call is dropped.
        let (answer, out) = message(3, &[3, 0, 0, 0, 1, 0, 0, 0, 16, 1], &yes, 55);
        assert_eq!((answer, out[0], out[8], out[29]), (0, 3, 16, 0));
        for room in 0..55 {
            assert_eq!(message(1, &bytes, &asks, room), (255, vec![7; room]));
            assert_eq!(message(9, &bytes, &[], room), (255, vec![7; room]));
        }
        for (own, record, bytes, number) in [
            (4, &bytes[..], &[][..], 1),
            (1, &[5], &asks, 1),
            (1, &bytes, &[], 20),
            (1, &bytes, &asks[..12], 20),
            (1, &bytes, &[&asks[..], &[0]].concat(), 20),
            (2, &[], &asks[..12], 20),
            (2, &[], &asks, 21),
            (1, &[], &asks, 9),
        ] {
            assert_eq!(message(own, record, bytes, 56), (number, vec![7; 56]), "{bytes:02x?}");
        }
    });
}
