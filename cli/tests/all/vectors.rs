//! Over all vectors: what the command prints on standard output is byte for byte what the proved
//! programs print.

use crate::process::{nevraspu, output_of, program, root, status, told};
use std::fs;
use std::path::PathBuf;

/// Subcommands that print something of a list, and their programs.
const PAIRS: [(&str, &str); 4] =
    [("run", "bench"), ("trace", "trace"), ("text", "text_of_list"), ("rest", "rest")];

/// All lists in bytes among the vectors and the examples.
fn lists() -> Vec<PathBuf> {
    let folders = ["tests/lists", "examples"].map(|folder| root().join(folder));
    let files = folders.iter().flat_map(|folder| fs::read_dir(folder).expect("a folder"));
    let mut lists: Vec<PathBuf> = files
        .map(|file| file.expect("a file").path())
        .filter(|path| path.extension().is_some_and(|end| end == "list"))
        .collect();
    lists.sort();
    lists
}

fn printed_by(name: &str, input: &[u8]) -> Vec<u8> {
    output_of(program(name), input).stdout
}

/// Whether a text of the programs says that its list stopped.
fn stops(text: &[u8]) -> bool {
    text.split(|byte| *byte == b'\n').any(|line| line.starts_with(b"stopped "))
}

/// The command on one list, in bytes and as text, from a file and from standard input.
fn compare(path: &PathBuf) {
    let name = path.to_str().expect("a name");
    let bytes = fs::read(path).expect("a list");
    let text = printed_by("text_of_list", &bytes);
    let bad = stops(&text);
    let expected = i32::from(bad);
    for (subcommand, named) in PAIRS {
        let printed = printed_by(named, &bytes);
        assert_eq!(stops(&printed), bad, "{named} on {name}");
        let mut ways = vec![
            output_of(nevraspu(&[subcommand, name]), b""),
            output_of(nevraspu(&[subcommand]), &bytes),
            output_of(nevraspu(&[subcommand, "--bytes", "-"]), &bytes),
        ];
        if !bad {
            ways.push(output_of(nevraspu(&[subcommand]), &text));
        }
        for way in ways {
            assert!(way.stdout == printed, "{subcommand} on {name} prints something else");
            assert_eq!(status(&way), expected, "{subcommand} on {name}");
            assert_eq!(way.stderr.is_empty(), !bad, "{subcommand} on {name}: {}", told(&way));
        }
    }
    shows(name, &printed_by("trace", &bytes), expected);
    if bad {
        let list = output_of(nevraspu(&["list", name]), b"");
        assert_eq!((status(&list), list.stdout), (1, vec![]), "list on {name}");
        // A text that says `stopped` is no list.
        let back = output_of(nevraspu(&["list", "--text"]), &text);
        assert_eq!((status(&back), back.stdout), (1, vec![]), "list on the text of {name}");
    } else {
        assert!(printed_by("list_of_text", &text) == bytes, "list_of_text on the text of {name}");
        for input in [&bytes, &text] {
            let list = output_of(nevraspu(&["list"]), input);
            assert!(list.stdout == bytes, "list on {name} prints something else");
            assert_eq!(status(&list), 0, "list on {name}");
        }
    }
}

/// The page has the trace in it as the proved program prints it, and finds no fault in it; nor does the
/// picture.
fn shows(name: &str, trace: &[u8], expected: i32) {
    let trace = std::str::from_utf8(trace).expect("text");
    let shown = |arguments: &[&str]| {
        let output = output_of(nevraspu(arguments), b"");
        assert_eq!(status(&output), expected, "{arguments:?}");
        let text = String::from_utf8(output.stdout).expect("text");
        assert!(!text.contains("Fault in the trace"), "{arguments:?}");
        text
    };
    assert!(shown(&["show", name]).contains(trace), "the page of {name} has another trace");
    assert!(shown(&["show", "--svg", name]).starts_with("<svg "), "the picture of {name}");
}

/// Texts that stand for lists which the machine refuses: the list is written all the same.
#[test]
fn lists_of_texts_as_they_are() {
    for text in ["cabinets 17", "cabinets 0, recover 1", "stand 5", "cabinets 2, crash 255"] {
        let list = output_of(nevraspu(&["list"]), text.as_bytes());
        assert_eq!(list.stdout, printed_by("list_of_text", text.as_bytes()), "{text}");
        assert_eq!((status(&list), told(&list).as_str()), (0, ""), "{text}");
        assert!(!list.stdout.is_empty(), "{text}");
    }
}

/// Every second of the lists from this one on: the tests run beside each other.
fn compare_from(first: usize) {
    let lists = lists();
    assert!(lists.len() >= 100, "only {} lists", lists.len());
    lists.iter().skip(first).step_by(2).for_each(compare);
}

#[test]
fn lists_at_even_places() {
    compare_from(0);
}

#[test]
fn lists_at_odd_places() {
    compare_from(1);
}

/// For every two numbers in and just outside the ranges.
fn two_numbers(subcommand: &str, named: &str, lengths: u8) {
    for (n, length) in (0..=4).flat_map(|n| (0..=lengths).map(move |length| (n, length))) {
        let printed = printed_by(named, &[n, length]);
        let answer = output_of(nevraspu(&[subcommand, &n.to_string(), &length.to_string()]), b"");
        assert!(answer.stdout == printed, "{subcommand} {n} {length} prints something else");
        let bad = stops(&printed);
        assert_eq!(bad, !(1..=3).contains(&n) || length == lengths, "{subcommand} {n} {length}");
        assert_eq!(status(&answer), i32::from(bad), "{subcommand} {n} {length}");
        assert_eq!(answer.stderr.is_empty(), !bad, "{subcommand} {n} {length}: {}", told(&answer));
    }
}

#[test]
fn short_lists() {
    two_numbers("short-lists", "short_lists", 8);
}

#[test]
fn transition_systems() {
    two_numbers("aldebaran", "aldebaran", 5);
}
