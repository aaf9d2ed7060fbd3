//! The exit statuses, and what is told on standard error.

use crate::process::{nevraspu, output_of, status, told};

/// The command with this input is answered by this status, tells this, and prints this.
fn expect(arguments: &[&str], input: &[u8], ends: i32, tells: &str, prints: &str) {
    let output = output_of(nevraspu(arguments), input);
    assert_eq!(status(&output), ends, "{arguments:?}: {}", told(&output));
    assert_eq!(told(&output), tells, "{arguments:?}");
    assert_eq!(String::from_utf8_lossy(&output.stdout), prints, "{arguments:?}");
}

#[test]
fn a_bad_text_has_a_line_and_a_column() {
    let text = b"cabinets 2\nrecover x\n";
    let tells = "nevraspu: standard input: line 2, column 9: expected a number from 0 to 255\n";
    for subcommand in ["run", "trace", "text", "list", "rest", "show"] {
        expect(&[subcommand], text, 1, tells, "");
    }
    let tells = "nevraspu: standard input: line 1, column 1: expected cabinets or stand\n";
    expect(&["run"], b"hello", 1, tells, "");
    expect(&["list", "--text"], b"", 1, tells, "");
    expect(&["run", "--text"], &[1, 0, 1, 2], 1, tells, "");
}

#[test]
fn a_bad_list_has_a_refusal_and_its_ground() {
    let tells =
        "nevraspu: standard input: stopped at byte 4, refusal 5: length wrong for the tag\n";
    expect(&["text"], &[1, 0, 1, 2, 0x11, 0, 2, 1, 1], 1, tells, "cabinets 2\nstopped 4 5\n");
    expect(&["list"], &[1, 0, 1, 2, 0x11, 0, 2, 1, 1], 1, tells, "");
    let tells = "nevraspu: standard input: stopped at byte 0, refusal 3: only 1 or 2 bytes left, \
                 or fewer contents than its length says; an empty list too\n";
    expect(&["run"], b"", 1, tells, "stopped 0 3\n");
    let tells =
        "nevraspu: standard input: stopped at byte 0, refusal 4: unknown tag, 0x01 or 0x02 \
                 not first, or another tag first\n";
    expect(&["run", "--bytes"], b"c\x00\x01\x02", 1, tells, "stopped 0 4\n");
}

#[test]
fn a_refused_event_is_no_bad_input() {
    let prints = "cabinets 2\nrefused 1 9\n1 0 0 0 0 0 0\n2 0 0 0 0 0 0\nmessages 0\nsent 0\n\
                  delivered 0\nlost 0\n";
    expect(&["run"], b"cabinets 2, crash 1", 0, "", prints);
    // out of 01's ranges: refusing it is the machine's job
    let prints = prints.replace("refused 1 9", "refused 1 7");
    expect(&["run"], b"cabinets 2, crash 17", 0, "", &prints);
}

#[test]
fn numbers_out_of_their_ranges() {
    let tells = "nevraspu: N and LENGTH: stopped at byte 0, refusal 16: not exactly two bytes, or \
                 one outside its range: n from 1 to 3, a length from 0 to 7\n";
    expect(&["short-lists", "4", "1"], b"", 1, tells, "stopped 0 16\n");
    let tells =
        "nevraspu: N and L: stopped at byte 0, refusal 22: input not exactly the two bytes \
                 n and L, n outside 1 to 3 or L outside 0 to 4\n";
    expect(&["aldebaran", "3", "5"], b"", 1, tells, "stopped 0 22\n");
}

#[test]
fn wrong_usage() {
    let tells = |why: &str| format!("nevraspu: {why}\nTry: nevraspu --help\n");
    expect(&[], b"", 2, &tells("a subcommand is missing"), "");
    expect(&["play"], b"", 2, &tells("there is no subcommand play"), "");
    expect(&["run", "a", "b"], b"", 2, &tells("run takes the name of one file"), "");
    expect(&["run", "--svg"], b"", 2, &tells("run has no option --svg"), "");
    let why = "short-lists takes N and LENGTH, numbers from 0 to 255";
    expect(&["short-lists", "3"], b"", 2, &tells(why), "");
    expect(&["short-lists", "3", "256"], b"", 2, &tells(why), "");
    let why = "aldebaran takes N and L, numbers from 0 to 255";
    expect(&["aldebaran", "3", "four"], b"", 2, &tells(why), "");
}
