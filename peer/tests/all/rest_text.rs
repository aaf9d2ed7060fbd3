//! The text of `rest` for lists by hand, the program, and the reading of texts.

use crate::programs::{cannot_read, cannot_write, prints_text};
use peer::list::{write_list, MAX_LIST};
use peer::machine::*;
use peer::print::run_list;
use peer::rest::reading::read;
use peer::rest::text::rest;
use Event::*;

fn text(list: &[u8]) -> String {
    String::from_utf8(rest(list)).unwrap()
}

/// The text of a list of the tower's, and of the stand's, which is the same.
fn both(n: u8, events: &[Event]) -> String {
    let texts = [TOWER, STAND].map(|limits| text(&write_list(n, limits, events)));
    assert_eq!(texts[0], texts[1]);
    texts[0].clone()
}

/// "if the whole list or the first field failed, that line is all that is printed" (document 01)
#[test]
fn refused_lists() {
    assert_eq!(text(&[]), "stopped 0 3\n");
    assert_eq!(text(&[0x01, 0]), "stopped 0 3\n");
    assert_eq!(text(&[0x10, 0, 1, 1]), "stopped 0 4\n");
    assert_eq!(text(&[0x01, 0, 2, 1, 1]), "stopped 0 5\n");
    assert_eq!(text(&[0x01, 0, 1, 17]), "stopped 0 6\n");
    assert_eq!(text(&[0x02, 0, 1, 5]), "stopped 0 6\n");
    assert_eq!(text(&vec![0; MAX_LIST + 1]), "stopped 0 2\n");
}

#[test]
fn no_turns() {
    let alone = "cabinets 1\nturns 0\n1 3 1 16 1 1 0\nmessages 0\nsent 0\ndelivered 0\nlost 0\n";
    assert_eq!(both(1, &[Recover(1)]), alone);
    // A check alone has no effect.
    assert_eq!(both(1, &[Recover(1), Check(1)]), alone);
    let none = "cabinets 1\nturns 0\n1 0 0 0 0 0 0\nmessages 0\nsent 0\ndelivered 0\nlost 0\n";
    assert_eq!(both(1, &[]), none);
}

/// Node 2 asks 1. The pair (1,2) comes first, so that each message goes in the turn behind the one that sent it: the
/// question, its answer, the invitation, the acceptance, its reply, and the reply to the invitation.
#[test]
fn a_group_forms() {
    let printed = "cabinets 2\nturns 7\n1 2 2 33 1 1 0\n2 1 2 33 2 2 1\n\
                   messages 0\nsent 6\ndelivered 6\nlost 0\n";
    assert_eq!(both(2, &[Recover(1), Recover(2), Check(2)]), printed);
}

/// What waits to a Down node is lost; node 2 goes on asking.
#[test]
fn a_down_receiver() {
    let printed = "cabinets 2\nturns 2\n1 0 0 0 0 0 0\n2 3 2 17 2 1 0\n\
                   messages 0\nsent 1\ndelivered 0\nlost 1\n";
    assert_eq!(both(2, &[Recover(2), Check(2)]), printed);
}

/// Two questions of one pair wait, of which the older is given up: its answer is dropped. By the other node 1 finds 2,
/// and waits. The events are 1 to 6.
#[test]
fn two_of_a_pair() {
    let events = [Recover(1), Recover(2), Recover(1), Check(1), Expire(1), Check(1)];
    let printed = "cabinets 2\nrefused 3 9\nturns 4\n1 3 1 16 1 1 0\n2 3 2 17 2 1 0\n\
                   messages 0\nsent 4\ndelivered 4\nlost 0\n";
    assert_eq!(both(2, &events), printed);
}

/// Three nodes, of which 3 asks 1 and then 2. The round is (1,2) (1,3) (2,1) (2,3) (3,1) (3,2). The question to 1 goes in
/// turn 5, its answer in turn 8, the question to 2 in turn 12, its answer in turn 16; then 3 merges and invites 2 in
/// turn 18, which accepts in 22, is answered in 24, and replies in 28; then 1, in 29, 32, 35 and 38, and 3 collects.
#[test]
fn more_than_a_round() {
    let events = [Recover(1), Recover(2), Recover(3), Check(3)];
    let printed = "cabinets 3\nturns 38\n1 2 3 34 1 1 0\n2 2 3 34 2 1 0\n3 1 3 34 3 2 2\n\
                   messages 0\nsent 12\ndelivered 12\nlost 0\n";
    assert_eq!(both(3, &events), printed);
}

/// After a list that stopped the turns are made on the table so far. Its fields are at 0, 4, 8, 12, 16 and 20.
#[test]
fn a_stopped_list() {
    let mut list = write_list(2, TOWER, &[Recover(1), Recover(1), Recover(2), Check(1)]);
    let printed = |stop: &str| {
        format!(
            "cabinets 2\nrefused 2 9\n{stop}turns 2\n1 3 1 16 1 1 0\n2 3 2 17 2 1 0\n\
             messages 0\nsent 2\ndelivered 2\nlost 0\n"
        )
    };
    assert_eq!(text(&list), printed(""));
    list.extend([0x19, 0, 0, 0x10, 0, 1, 2]);
    assert_eq!(text(&list), printed("stopped 20 4\n"));
    list[20..].copy_from_slice(&[0x10, 0, 4, 1, 1, 1, 1]);
    assert_eq!(text(&list), printed("stopped 20 5\n"));
    list.pop();
    assert_eq!(text(&list), printed("stopped 20 3\n"));
}

/// Where no message waits after a list, the text is that of the bench program with one line more.
#[test]
fn as_the_bench_program() {
    let events = [
        Recover(1),
        Recover(2),
        Check(2),
        Deliver(2, 1),
        Deliver(1, 2),
        Deliver(2, 1),
        Deliver(1, 2),
        Deliver(2, 1),
        Deliver(1, 2),
        Finish(2, 100),
        Deliver(2, 1),
        Deliver(1, 2),
    ];
    let list = write_list(2, TOWER, &events);
    let bench = String::from_utf8(run_list(&list)).unwrap();
    assert_eq!(text(&list), bench.replace("cabinets 2\n", "cabinets 2\nturns 0\n"));
}

/// A text is read by itself, and whatever else stands there is told.
#[test]
fn other_texts_are_told() {
    let events = [Recover(1), Recover(1), Recover(2), Recover(3), Check(3)];
    let mut list = write_list(3, STAND, &events);
    list.push(0x10);
    let right = text(&list);
    let seen = read(&list, right.as_bytes()).unwrap();
    assert_eq!((seen.turns, seen.delivered.len(), seen.lost, seen.sent), (38, 12, 0, 11));
    assert_eq!((seen.refused, seen.stop.map(|stop| stop.number)), (vec![9], Some(3)));
    assert!(seen.by_a_list);
    let others = [
        ("turns 38", "turns 37", "1 messages wait after 37 turns"),
        ("turns 38", "turns 39", "no message waits before turn 39"),
        ("turns 38", "turns 038", "no line `turns k`"),
        ("turns 38", "turns  38", "no line `turns k`"),
        ("turns 38\n", "", "no line `turns k`"),
        ("turns 38", "turns 0", "1 messages wait after 0 turns"),
        ("messages 0", "messages 1", "its table is"),
        ("3 1 3 34 3 2 2", "3 1 3 34 3 2 1", "its table is"),
        ("lost 0\n", "lost 0", "its table is"),
        ("lost 0\n", "lost 0\n\n", "its table is"),
        ("refused 2 9\n", "", "it does not begin"),
        ("stopped 24 3\n", "", "it does not begin"),
        ("cabinets 3\n", "", "it does not begin"),
    ];
    for (from, to, words) in others {
        assert!(right.contains(from), "{from}: {right}");
        let told = read(&list, right.replace(from, to).as_bytes()).unwrap_err();
        assert!(told.contains(words), "{to}: {told}");
    }
    assert!(read(&[], b"stopped 0 3\n").is_ok());
    assert!(read(&[], b"stopped 0 3\nturns 0\n").is_err());
}

/// The program prints the text, and says where it can't.
#[test]
fn the_program() {
    let program = env!("CARGO_BIN_EXE_rest");
    let list = write_list(2, TOWER, &[Recover(1), Recover(2), Check(2)]);
    let mut long = list.clone();
    long.resize(MAX_LIST, 0);
    for list in [&list[..], &[], &[0x02, 0, 1, 5], &long, &[&long[..], &[0]].concat()] {
        prints_text(program, list, &rest(list));
    }
    cannot_read(program);
    cannot_write(program, &[[0, 0], [1, 0]]);
}
