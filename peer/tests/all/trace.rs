//! The trace of lists by hand, its pieces, the bench program's text read off it, and the program.

use crate::common::{invited_twice, LATE, NODES};
use crate::programs::{cannot_read, cannot_write, prints_text};
use peer::list::{write_list, MAX_LIST};
use peer::machine::*;
use peer::print::run_list;
use peer::proved::{Library, Own};
use peer::trace::reading::{bench_text, judge, read};
use peer::trace::text::trace;
use peer::trace::words::{activity_words, message_words};
use std::path::PathBuf;
use Event::*;

fn text(list: &[u8]) -> String {
    String::from_utf8(trace(list).text).unwrap()
}

/// The lists of the repository.
fn lists() -> Vec<(String, Vec<u8>)> {
    let folder = |name| PathBuf::from(env!("CARGO_MANIFEST_DIR")).join("..").join(name);
    peer::vectors::read_named_lists(&[folder("tests/lists"), folder("examples")]).unwrap()
}

/// The list of one of them.
fn list_of(name: &str) -> Vec<u8> {
    let (_, list) = lists().into_iter().find(|(one, _)| *one == format!("list {name}")).unwrap();
    list
}

/// Case K10 of document 01.
#[test]
fn k10() {
    let printed = "\
cabinets 2
1 recover 1 accepted
  1 3 1 16 1 1 0 idle
2 recover 2 accepted
  2 3 2 17 2 1 0 idle
3 check 2 accepted
  2 3 2 17 2 1 0 asking 1 found none
  sent 2 -> 1 AreYouCoordinator call 1
4 deliver 2 1 accepted
  taken 2 -> 1 AreYouCoordinator call 1
  sent 1 -> 2 reply yes call 1
5 deliver 1 2 accepted
  2 1 2 33 2 2 0 inviting 1 found none former none
  taken 1 -> 2 reply yes call 1
  sent 2 -> 1 Invitation group 33 call 2
6 deliver 2 1 accepted
  1 1 2 33 1 1 0 accepting caller 2 call 2
  taken 2 -> 1 Invitation group 33 call 2
  sent 1 -> 2 Accept group 33 call 1
7 deliver 1 2 accepted
  2 1 2 33 2 2 1 inviting 1 found none former none
  taken 1 -> 2 Accept group 33 call 1
  sent 2 -> 1 reply yes call 1
8 deliver 2 1 accepted
  1 2 2 33 1 1 0 idle
  taken 2 -> 1 reply yes call 1
  sent 1 -> 2 reply yes call 2
9 deliver 1 2 accepted
  2 1 2 33 2 2 1 collecting
  taken 1 -> 2 reply yes call 2
10 finish 2 100 accepted
  2 2 2 33 100 2 1 handing 1 still none
  sent 2 -> 1 Ready group 33 task 100 call 3
11 deliver 2 1 accepted
  1 3 2 33 100 1 0 idle
  taken 2 -> 1 Ready group 33 task 100 call 3
  sent 1 -> 2 reply yes call 3
12 deliver 1 2 accepted
  2 3 2 33 100 2 1 idle
  taken 1 -> 2 reply yes call 3
1 3 2 33 100 1 0
2 3 2 33 100 2 1
messages 0
sent 8
delivered 8
lost 0
";
    assert_eq!(text(&list_of("k10")), printed);
    // The stand's first line is the same.
    assert_eq!(text(&list_of("stand-k10")), printed);
}

/// "recover 1" (document 01, K2, K3, K4) and a finish of a node that is none.
#[test]
fn refused_events() {
    let events = [Recover(1), Recover(1), Finish(255, 65_535), Crash(1), Check(1), Lose(1, 1)];
    let printed = "\
cabinets 1
1 recover 1 accepted
  1 3 1 16 1 1 0 idle
2 recover 1 refused 9
3 finish 255 65535 refused 7
4 crash 1 accepted
  1 0 1 16 1 1 0 idle
5 check 1 refused 9
6 lose 1 1 refused 7
1 0 1 16 1 1 0
messages 0
sent 0
delivered 0
lost 0
";
    for limits in [TOWER, STAND] {
        assert_eq!(text(&write_list(1, limits, &events)), printed);
    }
}

/// Accepted events after which no record has changed: a check of one node, a timeout at its own coordinator, a lost
/// message, and a reply that is dropped.
#[test]
fn nothing_changes() {
    let events = [Recover(1), Check(1), Timeout(1)];
    let printed = text(&write_list(1, TOWER, &events));
    assert!(printed.contains("\n2 check 1 accepted\n3 timeout 1 accepted\n1 3 1 16 1 1 0\n"));
    let events = [
        Recover(1),
        Recover(2),
        Check(1),
        Expire(1),
        Check(1),
        Deliver(1, 2),
        Deliver(2, 1),
        Lose(1, 2),
    ];
    let printed = text(&write_list(2, STAND, &events));
    let end = "\
7 deliver 2 1 accepted
  taken 2 -> 1 reply yes call 1
8 lose 1 2 accepted
  taken 1 -> 2 AreYouCoordinator call 2
1 3 1 16 1 1 0
2 3 2 17 2 1 0
messages 0
sent 3
delivered 2
lost 1
";
    assert!(printed.ends_with(end), "{printed}");
}

/// T-03's story: the forwarded invitation comes late, gets a plain reply and changes nothing else.
#[test]
fn t03() {
    let events = [invited_twice(true), vec![LATE]].concat();
    let printed = text(&write_list(NODES, TOWER, &events));
    let forwarded = "\
  2 1 3 34 250 2 1 forwarding 1 still none caller 3 call 3
  taken 3 -> 2 Invitation group 34 call 3
  sent 2 -> 1 Invitation group 34 call 5
";
    assert!(printed.contains(forwarded), "{printed}");
    assert!(printed.contains("  3 1 3 34 3 2 0 inviting 2 found 1 former none\n"), "{printed}");
    let late = "\
deliver 2 1 accepted
  taken 2 -> 1 Invitation group 34 call 5
  sent 1 -> 2 reply yes call 5
1 3 3 34 300 1 0
2 3 3 34 300 2 1
3 3 3 34 300 2 2
messages 1
";
    assert!(printed.contains(&format!("\n{} {late}", events.len())), "{printed}");
}

/// A list of the stand: the thirteenth message has no room.
#[test]
fn a_stand_list() {
    let printed = text(&list_of("stand-filled"));
    assert!(printed.starts_with("cabinets "), "{printed}");
    assert!(printed.contains(" refused 14\n"), "{printed}");
    assert_eq!(bench_text(printed.as_bytes()), run_list(&list_of("stand-filled")));
    let tower = [&[0x01], &list_of("stand-filled")[1..]].concat();
    assert!(!text(&tower).contains(" refused 14\n"));
}

/// Where a list stopped stands before the table, and is no piece of its own.
#[test]
fn a_stopped_list() {
    let mut list = write_list(1, TOWER, &[Recover(1)]);
    list.extend([0x19, 0, 0, 0x10, 0, 1, 1]);
    let lines = ["cabinets 1\n", "1 recover 1 accepted\n  1 3 1 16 1 1 0 idle\n"];
    let rest = "1 3 1 16 1 1 0\nmessages 0\nsent 0\ndelivered 0\nlost 0\n";
    let printed = |stop: &str| [lines[0], lines[1], stop, rest].concat();
    assert_eq!(text(&list), printed("stopped 8 4\n"));
    let first_two = lines[0].len() + lines[1].len();
    let whole = printed("stopped 8 4\n").len();
    assert_eq!(trace(&list).ends, [lines[0].len(), first_two, whole]);
    list[8..].copy_from_slice(&[0x10, 0, 4, 1, 1, 1, 1]);
    assert_eq!(text(&list), printed("stopped 8 5\n"));
    list.pop();
    assert_eq!(text(&list), printed("stopped 8 3\n"));
    // With no events there are two pieces.
    let none = trace(&[0x02, 0, 1, 1, 0x10]);
    let printed =
        "cabinets 1\nstopped 4 3\n1 0 0 0 0 0 0\nmessages 0\nsent 0\ndelivered 0\nlost 0\n";
    assert_eq!((none.text, none.ends), (printed.as_bytes().to_vec(), vec![11, printed.len()]));
}

/// Where the whole list or the first field fails, that line is all.
#[test]
fn refused_lists() {
    assert_eq!(text(&[]), "stopped 0 3\n");
    assert_eq!(text(&[0x10, 0, 1, 1]), "stopped 0 4\n");
    assert_eq!(text(&[0x01, 0, 2, 1, 1]), "stopped 0 5\n");
    assert_eq!(text(&[0x02, 0, 1, 5]), "stopped 0 6\n");
    assert_eq!(text(&vec![0; MAX_LIST + 1]), "stopped 0 2\n");
    assert_eq!(trace(&[]).ends, [12]);
}

/// The words of each activity and of each message.
#[test]
fn words() {
    use Activity::*;
    let activities = [
        (Idle, "idle"),
        (Asking { asked: 3, found: 0 }, "asking 3 found none"),
        (Asking { asked: 16, found: 0b11 }, "asking 16 found 1 2"),
        (Waiting { ticks: 15, found: 1 << 15 }, "waiting ticks 15 found 16"),
        (Inviting { found: 0b101, former: 0, now: 4 }, "inviting 4 found 1 3 former none"),
        (Inviting { found: 0, former: 0b1010, now: 1 }, "inviting 1 found none former 2 4"),
        (Collecting, "collecting"),
        (Handing { rest: 1 << 9, now: 11 }, "handing 11 still 10"),
        (Contacting, "contacting"),
        (
            Forwarding { rest: 0b110, now: 4, caller: 5, call: 16_777_215 },
            "forwarding 4 still 2 3 caller 5 call 16777215",
        ),
        (Accepting { caller: 12, call: 1 }, "accepting caller 12 call 1"),
    ];
    for (activity, words) in activities {
        assert_eq!(activity_words(&activity), words);
    }
    let group = 33;
    let messages = [
        (Body::AreYouCoordinator, "2 -> 16 AreYouCoordinator call 7"),
        (Body::AreYouThere { group }, "2 -> 16 AreYouThere group 33 call 7"),
        (Body::Invitation { group }, "2 -> 16 Invitation group 33 call 7"),
        (Body::Accept { group }, "2 -> 16 Accept group 33 call 7"),
        (Body::Ready { group, task: 65_535 }, "2 -> 16 Ready group 33 task 65535 call 7"),
        (Body::Reply { yes: true }, "2 -> 16 reply yes call 7"),
        (Body::Reply { yes: false }, "2 -> 16 reply no call 7"),
    ];
    for (body, words) in messages {
        assert_eq!(message_words(&Message { sender: 2, receiver: 16, call: 7, body }), words);
    }
}

/// The bench program's text is read off the trace of each list, and each trace holds together.
#[test]
fn the_text_read_off() {
    let lists = lists();
    assert!(lists.len() > 100);
    for (name, list) in lists {
        let trace = text(&list);
        assert_eq!(bench_text(trace.as_bytes()), run_list(&list), "{name}");
        assert_eq!(judge(&trace, &read(&trace).unwrap()), Ok(()), "{name}");
    }
}

/// What is read off any bytes.
#[test]
fn lines_read_off() {
    let read_off = |text: &str| String::from_utf8(bench_text(text.as_bytes())).unwrap();
    assert_eq!(read_off(""), "");
    assert_eq!(read_off("cabinets 2\n"), "cabinets 2\n");
    assert_eq!(read_off("1 tick 1 accepted\n  1 3 1 16 1 1 0 idle\n"), "");
    assert_eq!(read_off("12 finish 1 100 refused 19\n"), "refused 12 19\n");
    assert_eq!(read_off("stopped 4 3\nmessages 0\n\n 1\n"), "stopped 4 3\nmessages 0\n\n");
}

/// A trace that does not hold together is told.
#[test]
fn other_traces_are_told() {
    let events = [Recover(1), Recover(2), Check(2), Lose(2, 1), Lose(2, 1), Expire(2)];
    let right = text(&write_list(2, TOWER, &events));
    let judged =
        |trace: &str| read(trace).map_err(String::from).and_then(|told| judge(trace, &told));
    assert_eq!(judged(&right), Ok(()));
    let others = [
        ("5 lose", "6 lose", "event 5 has another number"),
        ("5 lose 2 1 refused 11\n", "", "event 5 has another number"),
        ("  1 3 1 16 1 1 0 idle\n", "", "another table"),
        ("  2 3 2 17 2 1 0 idle\n", "  1 3 2 17 2 1 0 idle\n", "another node, or the same"),
        ("17 2 1 0 asking 1 found none", "17 2 1 0 idle", "another node, or the same"),
        ("  sent 2 -> 1", "  sent 1 -> 2", "another node sends"),
        ("  sent 2 -> 1 AreYouCoordinator call 1\n", "", "another message is taken out"),
        ("  taken 2 -> 1 AreYouCoordinator call 1\n", "", "a message is taken out, or none"),
        ("  taken 2 -> 1 AreYou", "  taken 2 -> 1 Areyou", "another message is taken out"),
        ("refused 11\n", "refused 11\n  1 3 1 16 1 1 0 idle\n", "though it is refused"),
        ("messages 0", "messages 1", "another table"),
        ("lost 1", "lost 0", "another table"),
        ("accepted\n  sent", "accept\n  sent", ""),
        ("6 expire 2 accepted", "6 expire 2 allowed", "without an answer"),
        ("cabinets 2\n", "cabinets 2\n  idle\n", "below no event"),
        ("cabinets 2\n", "cabinet 2\n", "no first line"),
    ];
    for (from, to, words) in others {
        let other = right.replacen(from, to, 1);
        match judged(&other) {
            Ok(()) => assert_eq!(other, right, "{from}"),
            Err(told) => assert!(told.contains(words), "{from}: {told}"),
        }
    }
}

/// In a buffer that is too short stand the pieces that fit, and all else is as it was.
#[test]
fn pieces() {
    let list = list_of("k10");
    let whole = trace(&list);
    assert_eq!(whole.ends.len(), 14);
    for room in 0..=whole.text.len() + 1 {
        let mut out = vec![0xaa; room];
        let length = Own.trace(&list, &mut out);
        let written = whole.ends.iter().copied().filter(|&end| end <= room).max().unwrap_or(0);
        assert_eq!(length, (room >= whole.text.len()).then_some(whole.text.len()));
        assert_eq!(out[..written], whole.text[..written]);
        assert!(out[written..].iter().all(|&byte| byte == 0xaa));
    }
}

/// The program.
#[test]
fn the_program() {
    let program = env!("CARGO_BIN_EXE_trace");
    for name in ["k10", "empty", "stand-k10", "over", "cut"] {
        let list = list_of(name);
        prints_text(program, &list, &trace(&list).text);
    }
    cannot_read(program);
    cannot_write(program, &[[1, 0]]);
}
