//! The reader of the Aldebaran form: texts that keep to its rules, each rule broken by itself and the
//! place that is told, defects and facts of small systems, and the program read-aut.

use peer::aut::{read, Defect, Edge, Facts, System, LONGEST_LABEL};
use std::fs;
use std::io::Write;
use std::path::PathBuf;
use std::process::{Command, Stdio};

/// A cycle of 0, 1 and 10, with the other states hanging off 0.
const GOOD: &str = r#"des (0, 12, 11)
(0, "a, b (c) 1", 1)
(1, "!#[]~", 10)
(10, "x", 0)
(0, "s 2", 2)
(0, "s 3", 3)
(0, "s 4", 4)
(0, "s 5", 5)
(0, "s 6", 6)
(0, "s 7", 7)
(0, "s 8", 8)
(0, "s 9", 9)
(9, " ", 9)
"#;

fn edge(source: u64, label: &str, target: u64) -> Edge {
    Edge { source, label: label.to_string(), target }
}

/// The system of a text that keeps to the rules.
fn system(text: &str) -> System {
    read(text.as_bytes()).unwrap_or_else(|fault| panic!("{fault}\n{text}"))
}

/// The good text with one place changed.
fn changed(old: &str, new: &str) -> String {
    assert_eq!(GOOD.matches(old).count(), 1, "{old}");
    GOOD.replace(old, new)
}

/// The place and the words of a fault.
fn fault(text: impl AsRef<[u8]>) -> (usize, Option<usize>, String) {
    let text = text.as_ref();
    match read(text) {
        Ok(system) => panic!("{} was read as {system:?}", String::from_utf8_lossy(text)),
        Err(fault) => {
            (fault.line, fault.column, format!("{}, found {}", fault.expected, fault.found))
        }
    }
}

fn assert_fault(text: impl AsRef<[u8]>, line: usize, column: usize, words: &str) {
    let shown = String::from_utf8_lossy(text.as_ref()).into_owned();
    assert_eq!(fault(text), (line, Some(column), words.to_string()), "{shown}");
}

#[test]
fn good_texts_are_read() {
    assert_eq!(system("des (0, 0, 1)\n"), System { states: 1, edges: vec![] });
    assert_eq!(
        system("des (0, 1, 1)\n(0, \"i\", 0)\n"),
        System { states: 1, edges: vec![edge(0, "i", 0)] }
    );
    let good = system(GOOD);
    assert_eq!(good.states, 11);
    assert_eq!(good.edges.len(), 12);
    assert_eq!(
        good.edges[..4],
        [edge(0, "a, b (c) 1", 1), edge(1, "!#[]~", 10), edge(10, "x", 0), edge(0, "s 2", 2)]
    );
    assert_eq!(good.edges[11], edge(9, " ", 9));
    assert_eq!(good.defect(), None);

    // Each printable character but the double quote.
    let all: String = (' '..='~').filter(|&c| c != '"').collect();
    assert_eq!(all.len(), 94);
    let text = format!("des (0, 1, 1)\n(0, \"{all}\", 0)\n");
    assert_eq!(system(&text).edges, [edge(0, &all, 0)]);
}

/// Marked with ^ are all the places where a space may be put in; and each space after a comma may go.
#[test]
fn spaces_are_taken_after_a_comma() {
    let marked = "des (0,^ ^2,^^12)\n(0,^ ^\"^a^,^ ^(^\",^ ^1)\n(10,^^\"^b^\",^^11)\n";
    let text = marked.replace('^', "");
    let read_of_text = system(&text);
    let mut before = 0;
    let mut allowed = Vec::new();
    for c in marked.chars() {
        if c == '^' {
            allowed.push(before);
        } else {
            before += 1;
        }
    }
    let taken: Vec<usize> = (0..=text.len())
        .filter(|&at| read(format!("{} {}", &text[..at], &text[at..]).as_bytes()).is_ok())
        .collect();
    allowed.dedup();
    assert_eq!(taken, allowed);

    for (old, new) in [("(0, 2", "(0,2"), ("(0, \"", "(0,\""), ("\", 1)", "\",1)")] {
        assert_eq!(text.matches(old).count(), 1, "{old}");
        assert_eq!(system(&text.replace(old, new)), read_of_text, "{new}");
        assert_eq!(system(&text.replace(old, &old.replace(' ', "    "))), read_of_text, "{old}");
    }
}

#[test]
fn the_descriptor_is_as_asked_for() {
    for (first, column, words) in [
        ("Des (0, 12, 11)", 1, "`des (`, found `D`"),
        ("dex (0, 12, 11)", 3, "`des (`, found `x`"),
        ("(0, 12, 11)", 1, "`des (`, found `(`"),
        (" des (0, 12, 11)", 1, "`des (`, found ` `"),
        ("des(0, 12, 11)", 4, "`des (`, found `(`"),
        ("des  (0, 12, 11)", 5, "`des (`, found ` `"),
        ("des ( 0, 12, 11)", 6, "the initial state, 0, found ` `"),
        ("des (1, 12, 11)", 6, "the initial state, 0, found `1`"),
        ("des (, 12, 11)", 6, "the initial state, 0, found `,`"),
        ("des (0 , 12, 11)", 7, "`,`, found ` `"),
        ("des (0 12, 11)", 7, "`,`, found ` `"),
        ("des (0, 12 , 11)", 11, "`,`, found ` `"),
        ("des (0, 12; 11)", 11, "`,`, found `;`"),
        ("des (0, 12, 11 )", 15, "`)`, found ` `"),
        ("des (0, 12, 11", 15, "`)`, found the end of the line"),
        ("des (0, 12)", 11, "`,`, found `)`"),
        ("des (0, 12, 11, 1)", 15, "`)`, found `,`"),
        ("des (0, 12, 11) ", 16, "a newline, found ` `"),
        ("des (0, 12, 11))", 16, "a newline, found `)`"),
    ] {
        assert_fault(changed("des (0, 12, 11)", first), 1, column, words);
    }
    let states = "the number of states, from 1 to 18446744073709551615";
    assert_fault("des (0, 0, 0)\n", 1, 12, &format!("{states}, found `0`"));
    assert_fault("", 1, 1, "`des (`, found the end of the text");
}

#[test]
fn edges_are_as_asked_for() {
    for (third, column, words) in [
        ("[1, \"!#[]~\", 10)", 1, "`(`, found `[`"),
        (" (1, \"!#[]~\", 10)", 1, "`(`, found ` `"),
        ("( 1, \"!#[]~\", 10)", 2, "the source state, from 0 to 10, found ` `"),
        ("(, \"!#[]~\", 10)", 2, "the source state, from 0 to 10, found `,`"),
        ("(1 , \"!#[]~\", 10)", 3, "`,`, found ` `"),
        ("(1 \"!#[]~\", 10)", 3, "`,`, found ` `"),
        ("(1, \"!#[]~\" , 10)", 12, "`,`, found ` `"),
        ("(1, \"!#[]~\" 10)", 12, "`,`, found ` `"),
        ("(1, \"!#[]~\", )", 14, "the target state, from 0 to 10, found `)`"),
        ("(1, \"!#[]~\")", 12, "`,`, found `)`"),
        ("(1, \"!#[]~\", 10 )", 16, "`)`, found ` `"),
        ("(1, \"!#[]~\", 10, 1)", 16, "`)`, found `,`"),
        ("(1, \"!#[]~\", 10", 16, "`)`, found the end of the line"),
        ("(1, \"!#[]~\", 10]", 16, "`)`, found `]`"),
        ("(1, \"!#[]~\", 10) ", 17, "a newline, found ` `"),
        ("(1, \"!#[]~\", 10)(1, \"y\", 10)", 17, "a newline, found `(`"),
        ("(1, 10, \"!#[]~\")", 5, "`\"`, found `1`"),
        // States that there are not.
        ("(11, \"!#[]~\", 10)", 2, "the source state, from 0 to 10, found `11`"),
        ("(1, \"!#[]~\", 11)", 14, "the target state, from 0 to 10, found `11`"),
        // A state is not a name.
        ("(a, \"!#[]~\", 10)", 2, "the source state, from 0 to 10, found `a`"),
        ("(1, \"!#[]~\", \"10\")", 14, "the target state, from 0 to 10, found `\"`"),
    ] {
        assert_fault(changed("(1, \"!#[]~\", 10)", third), 3, column, words);
    }
}

#[test]
fn labels_are_quoted_and_hold_no_quote() {
    let character = "a printable character of a label";
    for (label, column, words) in [
        ("x", 6, "`\"`, found `x`".to_string()),
        ("'x'", 6, "`\"`, found `'`".to_string()),
        ("x\"", 6, "`\"`, found `x`".to_string()),
        ("", 6, "`\"`, found `,`".to_string()),
        ("\"\"", 7, format!("{character}, found `\"`")),
        ("\"x\"y\"", 9, "`,`, found `y`".to_string()),
        ("\"x\"\"y\"", 9, "`,`, found `\"`".to_string()),
        // A backslash takes nothing from the quote after it.
        ("\"x\\\"y\"", 10, "`,`, found `y`".to_string()),
        ("\"x", 12, format!("{character}, or `\"`, found the end of the line")),
        ("\"\n", 7, format!("{character}, found the end of the line")),
        ("\"x\ny\"", 8, format!("{character}, or `\"`, found the end of the line")),
        ("\"x\ty\"", 8, format!("{character}, or `\"`, found the byte 0x09")),
        ("\"\ty\"", 7, format!("{character}, found the byte 0x09")),
        ("\"xé\"", 8, format!("{character}, or `\"`, found the byte 0xC3")),
    ] {
        assert_fault(changed("\"x\"", label), 4, column, &words);
    }
}

#[test]
fn labels_have_at_most_5000_characters() {
    assert_eq!(LONGEST_LABEL, 5_000);
    let longest = "x".repeat(5_000);
    let text = changed("\"x\"", &format!("\"{longest}\""));
    assert_eq!(system(&text).edges[2], edge(10, &longest, 0));
    let words = "`\"` after 5000 characters of a label, found `x`";
    assert_fault(changed("\"x\"", &format!("\"{longest}x\"")), 4, 5_007, words);
}

#[test]
fn numbers_are_plain_and_fit_64_bits() {
    let transitions = "the number of transitions, from 0 to 18446744073709551615";
    let states = "the number of states, from 1 to 18446744073709551615";
    for (first, column, words) in [
        ("00, 12, 11", 6, "the initial state without a leading zero, found `00`".to_string()),
        ("+0, 12, 11", 6, "the initial state, 0, found `+`".to_string()),
        ("-0, 12, 11", 6, "the initial state, 0, found `-`".to_string()),
        ("0, 012, 11", 9, "the number of transitions without a leading zero, found `012`".into()),
        ("0, +12, 11", 9, format!("{transitions}, found `+`")),
        ("0, -12, 11", 9, format!("{transitions}, found `-`")),
        ("0, 0xC, 11", 10, "`,`, found `x`".to_string()),
        ("0, 1e1, 11", 10, "`,`, found `e`".to_string()),
        ("0, 12.0, 11", 11, "`,`, found `.`".to_string()),
        ("0, 12, 011", 13, "the number of states without a leading zero, found `011`".to_string()),
        ("0, 12, +11", 13, format!("{states}, found `+`")),
        ("0, 18446744073709551616, 11", 9, format!("{transitions}, found `18446744073709551616`")),
        ("0, 12, 18446744073709551616", 13, format!("{states}, found `18446744073709551616`")),
        // 1 beyond 65 and beyond 128 bits.
        ("0, 12, 36893488147419103233", 13, format!("{states}, found `36893488147419103233`")),
        (
            "0, 12, 340282366920938463463374607431768211457",
            13,
            format!("{states}, found `340282366920938463463374607431768211457`"),
        ),
    ] {
        assert_fault(changed("0, 12, 11", first), 1, column, &words);
    }
    for (old, new, line, column, words) in [
        ("(10, ", "(010, ", 4, 2, "the source state without a leading zero, found `010`"),
        ("(10, ", "(+10, ", 4, 2, "the source state, from 0 to 10, found `+`"),
        ("(10, ", "(-1, ", 4, 2, "the source state, from 0 to 10, found `-`"),
        (" 10)", " 010)", 3, 14, "the target state without a leading zero, found `010`"),
        (" 10)", " +10)", 3, 14, "the target state, from 0 to 10, found `+`"),
        (
            " 10)",
            " 18446744073709551626)",
            3,
            14,
            "the target state, from 0 to 10, found `18446744073709551626`",
        ),
    ] {
        assert_fault(changed(old, new), line, column, words);
    }

    // The largest numbers are read, without making place for them.
    let most = "18446744073709551615";
    assert_eq!(system(&format!("des (0, 0, {most})\n")).states, u64::MAX);
    let text = format!("des (0, 1, {most})\n(18446744073709551614, \"a\", 18446744073709551614)\n");
    assert_eq!(system(&text).edges, [edge(u64::MAX - 1, "a", u64::MAX - 1)]);
    assert_fault(
        text.replace("614)", "615)"),
        2,
        29,
        "the target state, from 0 to 18446744073709551614, found `18446744073709551615`",
    );
    assert_eq!(
        fault(format!("des (0, {most}, 1)\n")),
        (2, None, format!("edge 1 of {most}, found the end of the text"))
    );
}

#[test]
fn there_are_as_many_edges_as_announced() {
    let more = "the end of the text, the transitions being 11, found `(`";
    assert_fault(changed("0, 12, 11", "0, 11, 11"), 13, 1, more);
    assert_eq!(
        fault(changed("0, 12, 11", "0, 13, 11")),
        (14, None, "edge 13 of 13, found the end of the text".to_string())
    );
    assert_eq!(
        fault(changed("(0, \"s 4\", 4)\n", "")),
        (13, None, "edge 12 of 12, found the end of the text".to_string())
    );
    assert_fault(
        "des (0, 0, 1)\n(0, \"a\", 0)\n",
        2,
        1,
        "the end of the text, the transitions being 0, found `(`",
    );
}

#[test]
fn there_is_nothing_but_descriptor_and_edges() {
    // Empty lines and comments, in front, between and behind.
    for empty in ["\n", "# x\n", "(* x *)\n", "-- x\n", " \n"] {
        let first = empty.chars().next().unwrap();
        let found = match first {
            '\n' => "the end of the line".to_string(),
            c => format!("`{c}`"),
        };
        let front = format!("`des (`, found {found}");
        assert_fault(format!("{empty}{GOOD}"), 1, 1, &front);
        let behind = format!("the end of the text, the transitions being 12, found {found}");
        assert_fault(format!("{GOOD}{empty}"), 14, 1, &behind);
        let between = changed("(10, \"x\"", &format!("{empty}(10, \"x\""));
        if first == '(' {
            let words = "the source state, from 0 to 10, found `*`";
            assert_fault(between, 4, 2, words);
        } else {
            assert_fault(between, 4, 1, &format!("`(`, found {found}"));
        }
    }
    assert_fault(
        format!("{GOOD}\0"),
        14,
        1,
        "the end of the text, the transitions being 12, found the byte 0x00",
    );
    // A second descriptor, and a second text.
    assert_fault(
        format!("{GOOD}{GOOD}"),
        14,
        1,
        "the end of the text, the transitions being 12, found `d`",
    );
    assert_fault(changed("(10, \"x\"", "des (0, 12, 11)\n(10, \"x\""), 4, 1, "`(`, found `d`");
}

/// Each byte of the text made each byte that is not printable: the fault is in that very place.
#[test]
fn bytes_are_printable_ascii() {
    let unprintable = |byte: &u8| !(0x20..0x7F).contains(byte);
    let (mut line, mut column) = (1, 1);
    for (at, old) in GOOD.bytes().enumerate() {
        for byte in (0..=u8::MAX).filter(unprintable).filter(|&byte| byte != old) {
            let mut text = GOOD.as_bytes().to_vec();
            text[at] = byte;
            let (found_line, found_column, words) = fault(&text);
            assert_eq!((found_line, found_column), (line, Some(column)), "{words}");
            if byte != b'\n' {
                assert!(words.ends_with(&format!("found the byte 0x{byte:02X}")), "{words}");
            }
        }
        (line, column) = if old == b'\n' { (line + 1, 1) } else { (line, column + 1) };
    }
    assert_eq!((line, column), (14, 1));

    let carriage_returns = GOOD.replace('\n', "\r\n");
    assert_fault(carriage_returns, 1, 16, "a newline, found the byte 0x0D");
    assert_fault(GOOD.replace('\n', "\r"), 1, 16, "a newline, found the byte 0x0D");
    assert_fault(changed("(10, \"x\"", "(10,\t\"x\""), 4, 5, "`\"`, found the byte 0x09");
    assert_fault(format!("\u{FEFF}{GOOD}"), 1, 1, "`des (`, found the byte 0xEF");
}

/// Each beginning of the text is a fault at its end, and so the last line needs its newline.
#[test]
fn a_text_is_whole() {
    let (mut line, mut column) = (1, 1);
    for (length, next) in GOOD.bytes().enumerate() {
        let (found_line, found_column, words) = fault(&GOOD[..length]);
        // After a whole line it is the edges that are missing.
        let expected_column = if line > 1 && column == 1 { None } else { Some(column) };
        assert_eq!((found_line, found_column), (line, expected_column), "{length}: {words}");
        assert!(words.ends_with(", found the end of the text"), "{length}: {words}");
        (line, column) = if next == b'\n' { (line + 1, 1) } else { (line, column + 1) };
    }
    assert_eq!(read(GOOD.as_bytes()).map(|system| system.edges.len()), Ok(12));
    let newline = "a newline, found the end of the text";
    assert_fault(GOOD.trim_end_matches('\n'), 13, 12, newline);
    assert_fault("des (0, 0, 1)", 1, 14, newline);
}

/// The first fault of several is told.
#[test]
fn faults_are_told_in_the_order_of_the_text() {
    let text = changed("(10, \"x\", 0)\n(0, \"s 2\", 2)", "(10, x, 11)\n(0 \"s 2\", 2)");
    assert_fault(&text, 4, 6, "`\"`, found `x`");
    assert_fault(text.replace("(10, x, 11)", "(10, \"x\", 0)"), 5, 3, "`,`, found ` `");
    let fault = read(text.as_bytes()).unwrap_err();
    assert_eq!(fault.to_string(), "line 4, column 6: expected `\"`, found `x`");
    let fault = read(b"des (0, 2, 1)\n(0, \"a\", 0)\n").unwrap_err();
    assert_eq!(fault.to_string(), "line 3: expected edge 2 of 2, found the end of the text");
}

#[test]
fn repeated_edges_are_found() {
    let text = "des (0, 5, 2)\n(0, \"a\", 1)\n(0, \"b\", 1)\n(1, \"b\", 1)\n(0, \"b\", 0)\n(1, \"a\", 1)\n";
    // Edges that differ from each other in source, label or target alone.
    assert_eq!((system(text).repeated(), system(text).defect()), (None, None));
    for (old, new, repeated) in [
        ("(1, \"a\", 1)", "(0, \"a\", 1)", (0, 4)),
        ("(0, \"b\", 0)", "(0, \"b\", 1)", (1, 3)),
        ("(1, \"b\", 1)", "(0,\"b\",1)", (1, 2)),
    ] {
        let system = system(&text.replace(old, new));
        assert_eq!(system.repeated(), Some(repeated), "{new}");
        let (first, again) = (repeated.0 + 2, repeated.1 + 2);
        assert_eq!(system.defect(), Some(Defect::Repeated { first, again }), "{new}");
    }
    // Of two repetitions the first in the text, and of three edges the first two.
    let text = "des (0, 6, 1)\n(0, \"a\", 0)\n(0, \"b\", 0)\n(0, \"c\", 0)\n(0, \"b\", 0)\n\
                (0, \"b\", 0)\n(0, \"a\", 0)\n";
    assert_eq!(system(text).repeated(), Some((1, 3)));
    let defect = system(text).defect().unwrap();
    assert_eq!(defect.to_string(), "line 5: the edge of line 3 again");
    // Labels differ by a space and by a letter's case.
    let text = "des (0, 3, 1)\n(0, \"a\", 0)\n(0, \"a \", 0)\n(0, \"A\", 0)\n";
    assert_eq!(system(text).defect(), None);
}

#[test]
fn unreached_states_are_found() {
    for (text, unreached) in [
        ("des (0, 0, 1)\n", None),
        ("des (0, 0, 2)\n", Some(1)),
        ("des (0, 0, 18446744073709551615)\n", Some(1)),
        ("des (0, 1, 1)\n(0, \"a\", 0)\n", None),
        ("des (0, 1, 2)\n(0, \"a\", 1)\n", None),
        // Against the edge's direction nothing is reached.
        ("des (0, 1, 2)\n(1, \"a\", 0)\n", Some(1)),
        ("des (0, 1, 3)\n(0, \"a\", 2)\n", Some(1)),
        ("des (0, 1, 3)\n(0, \"a\", 1)\n", Some(2)),
        // Edges may come before those that lead to their source.
        ("des (0, 3, 4)\n(3, \"a\", 1)\n(2, \"a\", 3)\n(0, \"a\", 2)\n", None),
        // Two cycles, and one of them is not joined to the other.
        (
            "des (0, 4, 4)\n(0, \"a\", 1)\n(1, \"a\", 0)\n(2, \"a\", 3)\n(3, \"a\", 2)\n",
            Some(2),
        ),
        (
            "des (0, 5, 4)\n(0, \"a\", 1)\n(1, \"a\", 0)\n(2, \"a\", 3)\n(3, \"a\", 2)\n(1, \"b\", 3)\n",
            None,
        ),
    ] {
        let system = system(text);
        assert_eq!(system.unreached(), unreached, "{text}");
        assert_eq!(system.defect(), unreached.map(Defect::Unreached), "{text}");
    }
    assert_eq!(Defect::Unreached(7).to_string(), "state 7 is not reached from the initial state");
    // With both defects the edge is told, since it has a line.
    let both = system("des (0, 2, 2)\n(0, \"a\", 0)\n(0, \"a\", 0)\n");
    assert_eq!(both.unreached(), Some(1));
    assert_eq!(both.defect(), Some(Defect::Repeated { first: 2, again: 3 }));
}

/// The facts in words, the first number being that of the states.
#[test]
fn facts_are_those_found_by_hand() {
    for (states, edges, words) in [
        (1, vec![], "labels 0, deterministic, deadlocks 1, depth 0, tree"),
        (1, vec![(0, "a", 0)], "labels 1, deterministic, deadlocks 0, depth 0, not a tree"),
        (2, vec![(0, "a", 1)], "labels 1, deterministic, deadlocks 1, depth 1, tree"),
        // A tree of two levels.
        (
            5,
            vec![(0, "a", 1), (0, "b", 2), (1, "c", 3), (1, "d", 4)],
            "labels 4, deterministic, deadlocks 3, depth 2, tree",
        ),
        // The same with a label at two sources, and at one.
        (
            5,
            vec![(0, "a", 1), (0, "b", 2), (1, "a", 3), (1, "b", 4)],
            "labels 2, deterministic, deadlocks 3, depth 2, tree",
        ),
        (
            5,
            vec![(0, "a", 1), (0, "b", 2), (1, "c", 3), (1, "c", 4)],
            "labels 3, nondeterministic, deadlocks 3, depth 2, tree",
        ),
        // A tree whose states are not numbered from the root down.
        (
            4,
            vec![(3, "a", 1), (2, "a", 3), (0, "a", 2)],
            "labels 1, deterministic, deadlocks 1, depth 3, tree",
        ),
        // Two ways to one state: by two edges, and by two paths.
        (
            2,
            vec![(0, "a", 1), (0, "b", 1)],
            "labels 2, deterministic, deadlocks 1, depth 1, not a tree",
        ),
        (
            4,
            vec![(0, "a", 1), (0, "b", 2), (1, "b", 3), (2, "a", 3)],
            "labels 2, deterministic, deadlocks 1, depth 2, not a tree",
        ),
        // A shortcut to the end of a chain, so that its middle is furthest.
        (
            5,
            vec![(0, "a", 1), (1, "a", 2), (2, "a", 3), (3, "a", 4), (0, "b", 4)],
            "labels 2, deterministic, deadlocks 1, depth 3, not a tree",
        ),
        // A short and a long path to the last state, with the long one through either side.
        (
            5,
            vec![(0, "a", 1), (0, "b", 2), (1, "a", 4), (2, "a", 3), (3, "a", 4)],
            "labels 2, deterministic, deadlocks 1, depth 2, not a tree",
        ),
        (
            5,
            vec![(0, "a", 1), (0, "b", 2), (2, "a", 4), (1, "a", 3), (3, "a", 4)],
            "labels 2, deterministic, deadlocks 1, depth 2, not a tree",
        ),
        // Cycles: through the initial state, behind it, and of one state.
        (
            3,
            vec![(0, "a", 1), (1, "a", 2), (2, "a", 0)],
            "labels 1, deterministic, deadlocks 0, depth 2, not a tree",
        ),
        (
            4,
            vec![(0, "a", 1), (1, "a", 2), (2, "a", 3), (3, "a", 1)],
            "labels 1, deterministic, deadlocks 0, depth 3, not a tree",
        ),
        (
            3,
            vec![(0, "a", 1), (1, "a", 1), (1, "a", 2)],
            "labels 1, nondeterministic, deadlocks 1, depth 2, not a tree",
        ),
        // Unreached states: none is a tree, the depth is that of the others, deadlocks are of all.
        (
            3,
            vec![(0, "a", 1), (2, "b", 2)],
            "labels 2, deterministic, deadlocks 1, depth 1, not a tree",
        ),
        (
            4,
            vec![(1, "a", 2), (2, "a", 3)],
            "labels 1, deterministic, deadlocks 2, depth 0, not a tree",
        ),
        (
            u64::MAX,
            vec![(0, "a", u64::MAX - 1)],
            "labels 1, deterministic, deadlocks 18446744073709551614, depth 1, not a tree",
        ),
    ] {
        let lines: String = edges
            .iter()
            .map(|(from, label, to)| format!("({from}, \"{label}\", {to})\n"))
            .collect();
        let text = format!("des (0, {}, {states})\n{lines}", edges.len());
        let expected = format!("states {states}, transitions {}, {words}", edges.len());
        assert_eq!(system(&text).facts().to_string(), expected, "{text}");
    }
    let facts = Facts {
        states: 11,
        transitions: 12,
        labels: 12,
        deterministic: true,
        deadlocks: 7,
        depth: 2,
        tree: false,
    };
    assert_eq!(system(GOOD).facts(), facts);
}

/// A chain of a hundred thousand states, its edges from its end to its start.
#[test]
fn large_systems_are_read() {
    let last = 100_000;
    let mut text = format!("des (0, {last}, {})\n", last + 1);
    for state in (0..last).rev() {
        text.push_str(&format!("({state}, \"step {}\", {})\n", state % 3, state + 1));
    }
    let system = system(&text);
    assert_eq!(system.defect(), None);
    assert_eq!(
        system.facts().to_string(),
        "states 100001, transitions 100000, labels 3, deterministic, deadlocks 1, depth 100000, tree"
    );
    assert_fault(
        text.replace("(0, \"step 0\", 1)", "(0, step 0, 1)"),
        100_001,
        5,
        "`\"`, found `s`",
    );
}

/// A folder of its own, removed at the end.
struct Folder(PathBuf);

impl Folder {
    fn new() -> Folder {
        let path = std::env::temp_dir().join(format!("read-aut-{}", std::process::id()));
        fs::create_dir_all(&path).unwrap();
        Folder(path)
    }
}

impl Drop for Folder {
    fn drop(&mut self) {
        let _ = fs::remove_dir_all(&self.0);
    }
}

/// Runs read-aut in the folder: its status, standard output and standard error.
fn run(folder: &Folder, arguments: &[&str], input: &str) -> (Option<i32>, String, String) {
    let mut child = Command::new(env!("CARGO_BIN_EXE_read-aut"))
        .args(arguments)
        .current_dir(&folder.0)
        .stdin(Stdio::piped())
        .stdout(Stdio::piped())
        .stderr(Stdio::piped())
        .spawn()
        .unwrap();
    // The program may end without reading its input.
    let _ = child.stdin.take().unwrap().write_all(input.as_bytes());
    let output = child.wait_with_output().unwrap();
    let text = |bytes| String::from_utf8(bytes).unwrap();
    (output.status.code(), text(output.stdout), text(output.stderr))
}

#[test]
fn the_program_tells_facts_and_faults() {
    let folder = Folder::new();
    let tree = "des (0, 1, 2)\n(0, \"a\", 1)\n";
    for (name, text) in [
        ("tree.aut", tree),
        ("syntax.aut", "des (0, 1, 2)\n(0, a, 1)\n"),
        ("missing.aut", "des (0, 1, 1)\n"),
        ("unreached.aut", "des (0, 0, 2)\n"),
        ("repeated.aut", "des (0, 2, 1)\n(0, \"a\", 0)\n(0, \"a\", 0)\n"),
    ] {
        fs::write(folder.0.join(name), text).unwrap();
    }
    let facts = "states 2, transitions 1, labels 1, deterministic, deadlocks 1, depth 1, tree";
    let loop_text = "des (0, 1, 1)\n(0, \"a\", 0)\n";
    let loop_facts =
        "states 1, transitions 1, labels 1, deterministic, deadlocks 0, depth 0, not a tree";
    let syntax = "syntax.aut: line 2, column 5: expected `\"`, found `a`\n";
    let none = "none.aut: No such file or directory (os error 2)\n";

    let passed = |lines: &[&str]| format!("{}{} passed, 0 failed\n", lines.concat(), lines.len());
    let tree_line = format!("tree.aut: {facts}\n");
    let input_line = format!("standard input: {loop_facts}\n");
    for (arguments, lines) in [
        (vec!["tree.aut"], vec![&*tree_line]),
        (vec!["tree.aut", "tree.aut"], vec![&*tree_line, &*tree_line]),
        (vec![], vec![&*input_line]),
        (vec!["-"], vec![&*input_line]),
        (vec!["tree.aut", "-"], vec![&*tree_line, &*input_line]),
    ] {
        let told = run(&folder, &arguments, loop_text);
        assert_eq!(told, (Some(0), passed(&lines), String::new()), "{arguments:?}");
    }

    for (arguments, status, output, errors) in [
        (vec!["syntax.aut"], 1, "0 passed, 1 failed\n".to_string(), syntax.to_string()),
        (
            vec!["missing.aut"],
            1,
            "0 passed, 1 failed\n".to_string(),
            "missing.aut: line 2: expected edge 1 of 1, found the end of the text\n".to_string(),
        ),
        (
            vec!["unreached.aut"],
            1,
            "0 passed, 1 failed\n".to_string(),
            "unreached.aut: state 1 is not reached from the initial state\n".to_string(),
        ),
        (
            vec!["repeated.aut"],
            1,
            "0 passed, 1 failed\n".to_string(),
            "repeated.aut: line 3: the edge of line 2 again\n".to_string(),
        ),
        (
            vec!["syntax.aut", "tree.aut", "syntax.aut"],
            1,
            format!("{tree_line}1 passed, 2 failed\n"),
            syntax.repeat(2),
        ),
        (vec!["none.aut"], 2, "0 passed, 1 failed\n".to_string(), none.to_string()),
        // What follows a file that can't be read is read all the same, and does not change the status.
        (
            vec!["none.aut", "syntax.aut", "tree.aut"],
            2,
            format!("{tree_line}1 passed, 2 failed\n"),
            format!("{none}{syntax}"),
        ),
        (
            vec!["syntax.aut", "none.aut"],
            2,
            "0 passed, 2 failed\n".to_string(),
            format!("{syntax}{none}"),
        ),
    ] {
        let told = run(&folder, &arguments, loop_text);
        assert_eq!(told, (Some(status), output, errors), "{arguments:?}");
    }
    assert_eq!(
        run(&folder, &[], "des (0, 0, 1)"),
        (
            Some(1),
            "0 passed, 1 failed\n".to_string(),
            "standard input: line 1, column 14: expected a newline, found the end of the text\n"
                .to_string()
        )
    );
    // A folder can't be read.
    assert_eq!(run(&folder, &["."], "").0, Some(2));
}
