//! Lists as text, both ways: by hand, at the limits, back again, behind the library's boundary, and the programs.

use crate::programs::{cannot_read, cannot_write, prints_text};
use peer::list::{read_list, write_list, MAX_LIST};
use peer::list_text::list_of_text::{list_or_line, MAX_TEXT};
use peer::list_text::reading::{judge_told, list_of, read_told};
use peer::list_text::text_of_list::text_of_list;
use peer::list_text::texts::any_text;
use peer::machine::*;
use peer::numbers::Numbers;
use peer::proved::{Library, Own};
use peer::two_bytes::process::{ran, Input};
use std::path::Path;
use Event::*;

const FIRST_WORD: &str = "cabinets or stand";
const BYTE: &str = "a number from 0 to 255";
const TASK: &str = "a number from 0 to 65535";
const EVENT: &str =
    "an event: crash, recover, check, timeout, tick, expire, finish, deliver or lose";
const SEPARATOR: &str = "a comma or the end of the line";
const END_OF_LIST: &str = "the end of the text before this event: a list has at most 65536 bytes";
const END_OF_TEXT: &str = "the end of the text: a text has at most 1048576 bytes";

fn text(list: &[u8]) -> String {
    String::from_utf8(text_of_list(list)).unwrap()
}

/// The text gives this list, by both readings.
fn reads(text: &str, list: &[u8]) {
    assert_eq!(list_or_line(text.as_bytes()).as_deref(), Ok(list), "{text:?}");
    assert_eq!(list_of(text.as_bytes()).as_deref(), Some(list), "{text:?}");
}

/// This is told of the text.
fn told(text: &[u8], line: usize, column: usize, expected: &str) {
    let right = format!("line {line}, column {column}: expected {expected}\n");
    let line = list_or_line(text).map_err(|line| String::from_utf8(line).unwrap());
    assert_eq!(line, Err(right.clone()), "{}", text[..text.len().min(200)].escape_ascii());
    assert_eq!(judge_told(text, right.as_bytes()), Ok(()));
}

const ALL: [Event; 9] = [
    Crash(1),
    Recover(0),
    Check(255),
    Timeout(17),
    Tick(16),
    Expire(10),
    Finish(3, 5),
    Deliver(2, 1),
    Lose(100, 100),
];

const ALL_LINES: &str =
    "crash 1\nrecover 0\ncheck 255\ntimeout 17\ntick 16\nexpire 10\nfinish 3 5\n\
                         deliver 2 1\nlose 100 100\n";

#[test]
fn refused_lists() {
    assert_eq!(text(&[]), "stopped 0 3\n");
    assert_eq!(text(&[0x01, 0]), "stopped 0 3\n");
    assert_eq!(text(&[0x01, 0, 1]), "stopped 0 3\n");
    assert_eq!(text(&[0x10, 0, 1, 1]), "stopped 0 4\n");
    assert_eq!(text(&[0x02, 0, 2, 1, 1]), "stopped 0 5\n");
    assert_eq!(text(&[0x01, 0, 1, 0]), "stopped 0 6\n");
    assert_eq!(text(&[0x01, 0, 1, 17]), "stopped 0 6\n");
    assert_eq!(text(&[0x02, 0, 1, 5]), "stopped 0 6\n");
    assert_eq!(text(&vec![0; MAX_LIST + 1]), "stopped 0 2\n");
}

/// Events that the machine would refuse are printed like others.
#[test]
fn lists_in_lines() {
    assert_eq!(text(&[0x01, 0, 1, 16]), "cabinets 16\n");
    assert_eq!(text(&[0x02, 0, 1, 4]), "stand 4\n");
    assert_eq!(text(&write_list(2, TOWER, &ALL)), format!("cabinets 2\n{ALL_LINES}"));
    assert_eq!(text(&write_list(2, STAND, &ALL)), format!("stand 2\n{ALL_LINES}"));
    let tasks = [0, 99, 1000, 65_535].map(|task| Finish(1, task));
    let lines = "cabinets 1\nfinish 1 0\nfinish 1 99\nfinish 1 1000\nfinish 1 65535\n";
    assert_eq!(text(&write_list(1, TOWER, &tasks)), lines);
}

/// "A damaged list is shown up to the damage, with `stopped b r`."
#[test]
fn damaged_lists() {
    let list = write_list(2, TOWER, &[Recover(1), Finish(2, 100), Deliver(1, 2)]);
    let stops = [
        (5, "cabinets 2\nstopped 4 3\n"),
        (7, "cabinets 2\nstopped 4 3\n"),
        (8, "cabinets 2\nrecover 1\n"),
        (13, "cabinets 2\nrecover 1\nstopped 8 3\n"),
        (14, "cabinets 2\nrecover 1\nfinish 2 100\n"),
        (18, "cabinets 2\nrecover 1\nfinish 2 100\nstopped 14 3\n"),
    ];
    for (length, lines) in stops {
        assert_eq!(text(&list[..length]), lines);
    }
    let changed = |place: usize, byte: u8| {
        let mut list = list.clone();
        list[place] = byte;
        text(&list)
    };
    assert_eq!(changed(8, 0x19), "cabinets 2\nrecover 1\nstopped 8 4\n");
    assert_eq!(changed(8, 0x01), "cabinets 2\nrecover 1\nstopped 8 4\n");
    assert_eq!(changed(10, 4), "cabinets 2\nrecover 1\nstopped 8 5\n");
    assert_eq!(changed(9, 1), "cabinets 2\nrecover 1\nstopped 8 3\n");
}

/// A line of `short_lists` with its n before it, and every other way to part what stands in a text.
#[test]
fn right_texts() {
    let list = write_list(2, TOWER, &[Recover(1), Finish(2, 100), Deliver(2, 1)]);
    for text in [
        "cabinets 2, recover 1, finish 2 100, deliver 2 1",
        "cabinets 2\nrecover 1, finish 2 100, deliver 2 1",
        "cabinets 2\nrecover 1\nfinish 2 100\ndeliver 2 1\n",
        "cabinets 2,recover 1,finish 2 100,deliver 2 1",
        "cabinets 2 , recover 1\t,finish 2 100\r,\tdeliver 2 1\r",
        "cabinets 2\r\nrecover 1\r\nfinish 2 100\r\ndeliver 2 1\r\n",
        "\n \n\t\n# a list\n  cabinets\t \r2\n\n\nrecover  1 # up\n#,\n  finish 2\t100,deliver 2 1\n\n ",
        "#\n##\n#x\ncabinets 2#n\nrecover 1#,deliver 1 2\nfinish 2 100 #\n#\ndeliver 2 1#",
        "cabinets 002, recover 01, finish 2 00000000000000000000000100, deliver 2 0000001",
    ] {
        reads(text, &list);
    }
    for text in ["stand 3", "stand 3\n", " stand 3 ", "stand 3#", "\nstand 000003 # and nothing\n"]
    {
        reads(text, &[0x02, 0, 1, 3]);
    }
    let lines = ALL_LINES.trim_end();
    reads(&format!("cabinets 9\n{lines}"), &write_list(9, TOWER, &ALL));
    reads(&format!("cabinets 9, {}", lines.replace('\n', ", ")), &write_list(9, TOWER, &ALL));
    // "Numbers out of 01's ranges are written as they are, as far as their bytes can hold them."
    reads("cabinets 0", &[0x01, 0, 1, 0]);
    reads("stand 255", &[0x02, 0, 1, 255]);
    reads("cabinets 1, finish 255 65535", &[0x01, 0, 1, 1, 0x16, 0, 3, 255, 255, 255]);
}

#[test]
fn wrong_texts() {
    let one_line: [(&str, usize, &str); 61] = [
        ("", 1, FIRST_WORD),
        ("  ", 3, FIRST_WORD),
        ("# cabinets 1", 13, FIRST_WORD),
        (",cabinets 1", 1, FIRST_WORD),
        ("Cabinets 1", 1, FIRST_WORD),
        ("cabinet 1", 1, FIRST_WORD),
        ("cabinets1", 1, FIRST_WORD),
        ("\tstands 1", 2, FIRST_WORD),
        ("recover 1", 1, FIRST_WORD),
        ("1", 1, FIRST_WORD),
        ("cabinets", 9, BYTE),
        ("cabinets ", 10, BYTE),
        ("cabinets # 1", 10, BYTE),
        ("cabinets#1", 9, BYTE),
        ("cabinets,1", 9, BYTE),
        ("cabinets \t ,1", 12, BYTE),
        ("cabinets two", 10, BYTE),
        ("cabinets 256", 10, BYTE),
        ("cabinets 0256", 10, BYTE),
        ("cabinets -1", 10, BYTE),
        ("cabinets +1", 10, BYTE),
        ("cabinets 1x", 10, BYTE),
        ("cabinets 1.", 10, BYTE),
        ("cabinets 4294967296", 10, BYTE),
        ("cabinets 18446744073709551617", 10, BYTE),
        ("cabinets 1 2", 12, SEPARATOR),
        ("cabinets 1 recover 1", 12, SEPARATOR),
        ("cabinets 1 \t\x0b", 13, SEPARATOR),
        ("cabinets 1; recover 1", 10, BYTE),
        ("cabinets 1 ; recover 1", 12, SEPARATOR),
        ("cabinets 1,", 12, EVENT),
        ("cabinets 1, ", 13, EVENT),
        ("cabinets 1,,", 12, EVENT),
        ("cabinets 1, , crash 1", 13, EVENT),
        ("cabinets 1, #", 13, EVENT),
        ("cabinets 1, 2", 13, EVENT),
        ("cabinets 1, stand 1", 13, EVENT),
        ("cabinets 1, crash1", 13, EVENT),
        ("cabinets 1, CRASH 1", 13, EVENT),
        ("cabinets 1, Crash 1", 13, EVENT),
        ("cabinets 1, cras 1", 13, EVENT),
        ("cabinets 1, crash\0 1", 13, EVENT),
        ("cabinets 1, stopped 4 3", 13, EVENT),
        ("cabinets 1, lists 3", 13, EVENT),
        ("cabinets 1, crash", 18, BYTE),
        ("cabinets 1, crash,", 18, BYTE),
        ("cabinets 1, crash #", 19, BYTE),
        ("cabinets 1, crash 256", 19, BYTE),
        ("cabinets 1, crash 1 1", 21, SEPARATOR),
        ("cabinets 1, crash 1\tcrash 1", 21, SEPARATOR),
        ("cabinets 1, crash 1,crash", 26, BYTE),
        ("cabinets 1, finish 1", 21, TASK),
        ("cabinets 1, finish 1, 100", 21, TASK),
        ("cabinets 1, finish 1 65536", 22, TASK),
        ("cabinets 1, finish 1 100.", 22, TASK),
        ("cabinets 1, finish 256 65536", 20, BYTE),
        ("cabinets 1, finish 1 100 1", 26, SEPARATOR),
        ("cabinets 1, deliver 1", 22, BYTE),
        ("cabinets 1, deliver 1 #2", 23, BYTE),
        ("cabinets 1, lose 1 256", 20, BYTE),
        ("cabinets 1, lose 1 2 3", 22, SEPARATOR),
    ];
    for (text, column, expected) in one_line {
        told(text.as_bytes(), 1, column, expected);
    }
    let lines: [(&str, usize, usize, &str); 16] = [
        ("\n", 2, 1, FIRST_WORD),
        ("\n\n# cabinets 1\n ", 4, 2, FIRST_WORD),
        ("# no\n,", 2, 1, FIRST_WORD),
        ("cabinets\n1", 1, 9, BYTE),
        ("\ncabinets \r\n 1", 2, 11, BYTE),
        ("cabinets 1,\ncrash 1", 1, 12, EVENT),
        ("cabinets 1, # crash\ncrash 1", 1, 13, EVENT),
        ("cabinets 1\n, crash 1", 2, 1, EVENT),
        ("cabinets 1 #\n\n\t,", 3, 2, EVENT),
        ("cabinets 1\ncabinets 1", 2, 1, EVENT),
        ("cabinets 1\ncrash\n1", 2, 6, BYTE),
        ("cabinets 1\nfinish 1\n100", 2, 9, TASK),
        ("cabinets 1\ncrash 1 # one\r\n  crash 2 3\n", 3, 11, SEPARATOR),
        ("cabinets 1\r\nrecover 1\r\nstopped 8 3\r\n", 3, 1, EVENT),
        ("cabinets 1\n\n\n\n\n\n\n\n\nx", 10, 1, EVENT),
        ("cabinets 1\n# \u{e9}\n\u{e9}", 3, 1, EVENT),
    ];
    for (text, line, column, expected) in lines {
        told(text.as_bytes(), line, column, expected);
    }
    // Bytes are counted, and any byte may stand in a comment.
    told(b"# \xff\xfe\x00\n\xc3\xa9 \xff", 2, 1, FIRST_WORD);
    told(b"cabinets 1 \xc3\xa9", 1, 12, SEPARATOR);
    told(b"cabinets \xb2", 1, 10, BYTE);
}

/// The event that would make a list longer is not taken.
#[test]
fn lists_at_their_limit() {
    // 16,383 fields of four bytes.
    let events = vec![Tick(1); (MAX_LIST - 4) / 4];
    let list = write_list(1, TOWER, &events);
    assert_eq!(list.len(), MAX_LIST);
    let text = text(&list);
    reads(&text, &list);
    reads(&format!("{text} # and nothing else\n\n"), &list);
    // Behind the event that is not taken; the last that is stands in line 16,384, `tick 1`.
    told(format!("{text}tick 1").as_bytes(), 16_385, 7, END_OF_LIST);
    told(format!("{text}\n# more\n lose 1 1 x").as_bytes(), 16_387, 10, END_OF_LIST);
    told(format!("{}  , tick 1\nx", text.trim_end()).as_bytes(), 16_384, 17, END_OF_LIST);
    // What is wrong with that event itself comes before.
    told(format!("{text}tick").as_bytes(), 16_385, 5, BYTE);
    told(format!("{text}tick 256").as_bytes(), 16_385, 6, BYTE);
    told(format!("{text}finish 1 70000").as_bytes(), 16_385, 10, TASK);
    told(format!("{text}ticks").as_bytes(), 16_385, 1, EVENT);
    // With five bytes left a delivery fits, and a finish does not.
    let left = MAX_LIST - 5;
    let mut events = vec![Tick(1); (left - 4 - 5) / 4];
    events.push(Lose(1, 2));
    let list = write_list(1, STAND, &events[..]);
    let fitting = 65_531 - list.len();
    assert!(fitting < 4);
    let text = String::from_utf8(text_of_list(&list)).unwrap();
    let lines = events.len() + 1;
    reads(&format!("{text}deliver 3 4"), &[&list[..], &[0x17, 0, 2, 3, 4]].concat());
    assert_eq!(list.len() + 5 + fitting, MAX_LIST);
    let more = format!("{text}deliver 3 4, finish 1 100");
    told(more.as_bytes(), lines + 1, 26, END_OF_LIST);
}

#[test]
fn texts_at_their_limit() {
    let of_length = |length: usize, pad: u8, end: &str| {
        let mut text = b"stand 2".to_vec();
        text.resize(length - end.len(), pad);
        text.extend(end.bytes());
        text
    };
    let list = write_list(2, STAND, &[Crash(2)]);
    for (pad, end) in
        [(b'\n', "crash 2"), (b' ', ",crash 2"), (b'\r', "\ncrash 2"), (b'\t', "#\ncrash 2")]
    {
        let text = of_length(MAX_TEXT, pad, end);
        assert_eq!(list_or_line(&text).as_deref(), Ok(&list[..]));
    }
    let zeros = [b"stand ", &of_length(MAX_TEXT - 6, b'0', "2")[7..]].concat();
    assert_eq!(list_or_line(&zeros).as_deref(), Ok(&[0x02, 0, 1, 2][..]));
    told(&of_length(MAX_TEXT, b'\n', ","), 1_048_569, 1, EVENT);
    told(&of_length(MAX_TEXT, b' ', "x"), 1, MAX_TEXT, SEPARATOR);
    // The length comes first of all.
    for length in [MAX_TEXT + 1, MAX_TEXT + 2, 2 * MAX_TEXT] {
        told(&of_length(length, b' ', ""), 1, MAX_TEXT + 1, END_OF_TEXT);
        told(&of_length(length, b',', ""), 1, MAX_TEXT + 1, END_OF_TEXT);
        told(&vec![b'\n'; length], MAX_TEXT + 1, 1, END_OF_TEXT);
    }
}

/// The longest text that a list has. A deliver prints 16 bytes for 5, which is the most for each byte; a finish in place of
/// one leaves one byte over, for the last line.
#[test]
fn the_longest_text() {
    let mut events = vec![Deliver(255, 254); 13_105];
    events.push(Finish(255, 65_535));
    let mut list = write_list(16, TOWER, &events);
    list.push(0x17);
    assert_eq!(list.len(), MAX_LIST);
    let text = text(&list);
    assert!(text.starts_with("cabinets 16\ndeliver 255 254\n"));
    assert!(text.ends_with("deliver 255 254\nfinish 255 65535\nstopped 65535 3\n"));
    assert_eq!(text.len(), 209_725);
}

/// What is printed for a list that is read to its end gives it back; a text that is accepted gives a list that is read.
#[test]
fn there_and_back() {
    let numbers = &mut Numbers::new(1);
    let mut right = 0;
    for k in 0..20_000 {
        let given = any_text(k, numbers);
        let Ok(list) = list_or_line(&given) else {
            continue;
        };
        match read_list(&list) {
            Ok(read) => {
                right += 1;
                assert_eq!(read.stop, None);
                assert_eq!(list_or_line(&text_of_list(&list)), Ok(list));
            }
            Err(stop) => assert_eq!((stop.offset, stop.number), (0, 6)),
        }
    }
    assert!(right > 1000);
}

/// Another line, column or thing is told of no text.
#[test]
fn another_line_is_wrong() {
    let text = b"cabinets 2\nrecover 1, crash x\ntick 1";
    assert_eq!(
        read_told(text, b"line 2, column 18: expected a number from 0 to 255\n").unwrap().0,
        28
    );
    for line in [
        "line 2, column 18: expected a number from 0 to 65535\n",
        "line 2, column 18: expected a comma or the end of the line\n",
        "line 2, column 17: expected a number from 0 to 255\n",
        "line 2, column 19: expected a number from 0 to 255\n",
        "line 2, column 12: expected cabinets or stand\n",
        "line 1, column 18: expected a number from 0 to 255\n",
        "line 3, column 1: expected a number from 0 to 255\n",
        "line 2, column 018: expected a number from 0 to 255\n",
        "line 2, column 18: expected a number from 0 to 255",
        "line 2, column 18: expected a number\n",
        "line 2, column 18, expected a number from 0 to 255\n",
    ] {
        assert!(judge_told(text, line.as_bytes()).is_err(), "{line}");
    }
    // Nothing is wrong there, or a blank stands there.
    let line =
        |column: usize, expected: &str| format!("line 1, column {column}: expected {expected}\n");
    assert!(judge_told(b"cabinets 1", line(10, BYTE).as_bytes()).is_err());
    assert!(judge_told(b"cabinets  x", line(10, BYTE).as_bytes()).is_err());
    assert!(judge_told(b"cabinets  x", line(11, BYTE).as_bytes()).is_ok());
    assert!(judge_told(b"cabinets 1", line(11, END_OF_TEXT).as_bytes()).is_err());
    assert!(judge_told(b"cabinets 1, tick 1", line(11, END_OF_LIST).as_bytes()).is_err());
}

/// Buffers of every length up to a little more than is written.
#[test]
fn own_functions_behind_the_boundary() {
    let list = write_list(2, STAND, &[Recover(1), Lose(2, 1)]);
    let text = b"stand 2\nrecover 1\nlose 2 1\n";
    for room in 0..text.len() + 5 {
        let mut out = vec![7; room];
        let fits = room >= text.len();
        assert_eq!(Own.text_of_list(&list, &mut out), fits.then_some(text.len()));
        let lines = [27, 18, 8, 0].into_iter().find(|&length| length <= room).unwrap();
        assert_eq!(out[..lines], text[..lines]);
        assert!(out[lines..].iter().all(|&byte| byte == 7));
    }
    let line = b"line 1, column 7: expected a number from 0 to 255\n";
    for (text, bad) in [(&text[..], false), (b"stand x", true)] {
        let written = if bad { &line[..] } else { &list };
        let answer = if bad { Err(line.len()) } else { Ok(list.len()) };
        for room in 0..written.len() + 5 {
            let mut out = vec![7; room];
            let fits = room >= written.len();
            assert_eq!(Own.list_of_text(text, &mut out), fits.then_some(answer));
            let length = if fits { written.len() } else { 0 };
            assert_eq!(out[..length], written[..length]);
            assert!(out[length..].iter().all(|&byte| byte == 7));
        }
    }
}

#[test]
fn the_programs() {
    let program = env!("CARGO_BIN_EXE_text-of-list");
    let list = write_list(2, TOWER, &ALL);
    let mut long = list.clone();
    long.resize(MAX_LIST, 0);
    for list in [&list[..], &[], &[0x02, 0, 1, 5], &long, &[&long[..], &[0]].concat()] {
        prints_text(program, list, &text_of_list(list));
    }
    cannot_read(program);
    cannot_write(program, &[[0, 0], [1, 0]]);

    let program = env!("CARGO_BIN_EXE_list-of-text");
    let text = text_of_list(&list);
    prints_text(program, &text, &list);
    prints_text(program, b"stand 3", &[0x02, 0, 1, 3]);
    cannot_read(program);
    let long = vec![b' '; MAX_TEXT + 1];
    for text in [&b""[..], b"stand 3,", b"cabinets 2\nrecover 1 1\n", &long] {
        let output = ran(Path::new(program), &Input::whole(text.to_vec())).unwrap();
        assert!(output.stdout.is_empty());
        assert_eq!(list_or_line(text), Err(output.stderr));
    }
}
