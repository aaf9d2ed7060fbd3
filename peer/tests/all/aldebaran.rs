//! T-12's texts: the vectors' sums and texts, that their states are the lists of T-01, that the text read by itself
//! has nothing wrong and any other text has, the inputs that are refused, and the program where it can't read or write.

use crate::programs::{cannot_read, cannot_write, prints_texts, refuses_wrong_inputs};
use peer::aldebaran::{states, text, REFUSAL};
use peer::aldebaran_reading::read;
use peer::sha256::sha256;
use peer::short;
use peer::two_bytes::ALDEBARAN;
use peer::vectors::read_sums;
use std::path::PathBuf;

#[test]
fn first_texts() {
    for n in 1..=3 {
        assert_eq!(text(n, 0), "des (0, 0, 1)\n");
    }
    assert_eq!(text(1, 1), "des (0, 1, 2)\n(0, \"RECOVER 1\", 1)\n");
    assert_eq!(
        text(2, 1),
        "des (0, 2, 3)\n\
         (0, \"RECOVER 1\", 1)\n\
         (0, \"RECOVER 2\", 2)\n"
    );
    assert_eq!(
        text(1, 2),
        "des (0, 4, 5)\n\
         (0, \"RECOVER 1\", 1)\n\
         (1, \"CRASH 1\", 2)\n\
         (1, \"CHECK 1\", 3)\n\
         (1, \"TIMEOUT 1\", 4)\n"
    );
}

fn vectors() -> PathBuf {
    PathBuf::from(env!("CARGO_MANIFEST_DIR")).join("../tests/aldebaran")
}

fn vector(name: &str) -> String {
    std::fs::read_to_string(vectors().join(name)).unwrap()
}

#[test]
fn sums_of_the_vectors() {
    let sums = read_sums(&vector("sums.txt")).unwrap();
    assert!(sums.iter().map(|sum| (sum.n, sum.length)).eq(ALDEBARAN.inputs()));
    assert_eq!(sums.len(), 15);
    for sum in sums {
        let text = text(sum.n, sum.length);
        assert_eq!(states(sum.n, sum.length).len() as u64, sum.count);
        assert_eq!(text.lines().count() as u64, sum.count);
        assert_eq!(text.len() as u64, sum.bytes);
        assert_eq!(sha256(text.as_bytes()), sum.sha256);
    }
}

#[test]
fn texts_of_the_vectors() {
    let mut texts = 0;
    for (n, length) in ALDEBARAN.inputs() {
        let name = format!("{n}-{length}.aut");
        if vectors().join(&name).exists() {
            texts += 1;
            assert_eq!(text(n, length), vector(&name));
            assert_eq!(read(n, length, vector(&name).as_bytes()), Ok(()));
        }
    }
    assert_eq!(texts, 10);
}

/// The lists of a text's states in T-01's words, in the order of the states, by the lines of the text alone.
fn lists(text: &str) -> Vec<String> {
    let mut lists = vec![String::new()];
    for line in text.lines().skip(1) {
        let parts: Vec<&str> = line[1..line.len() - 1].split(", ").collect();
        let [a, label, b] = parts.as_slice() else { panic!("{line}") };
        assert_eq!(*b, lists.len().to_string());
        let event = label.trim_matches('"').to_lowercase();
        let shorter = &lists[a.parse::<usize>().unwrap()];
        lists.push(if shorter.is_empty() { event } else { format!("{shorter}, {event}") });
    }
    lists
}

/// "a state for each accepted list of length 0 to L, numbered from 0 by length and then by T-01's order", against the
/// texts of T-01.
#[test]
fn states_are_the_lists_of_short_lists() {
    for (n, length) in ALDEBARAN.inputs() {
        let mut expected = Vec::new();
        for length in 0..=length {
            let mut text = Vec::new();
            short::print(&[n, length], &mut text).unwrap();
            let text = String::from_utf8(text).unwrap();
            let lists = text.lines().filter(|line| !line.starts_with("lists "));
            expected.extend(lists.map(str::to_string));
        }
        assert_eq!(lists(&text(n, length)), expected);
    }
}

/// All lines but the first are the same in the text of a greater length, and come first there.
#[test]
fn a_longer_text_begins_with_the_shorter() {
    let lines = |n, length| text(n, length).split_once('\n').unwrap().1.to_string();
    for n in 1..=3 {
        for length in 0..4 {
            assert!(lines(n, length + 1).starts_with(&lines(n, length)));
            assert!(lines(n, length + 1).len() > lines(n, length).len());
        }
    }
}

#[test]
fn nothing_is_wrong_with_the_texts() {
    for (n, length) in ALDEBARAN.inputs() {
        assert_eq!(read(n, length, text(n, length).as_bytes()), Ok(()));
    }
}

/// Only the texts of length 0 are the same for each n.
#[test]
fn something_is_wrong_with_the_texts_of_other_inputs() {
    for (n, length) in ALDEBARAN.inputs() {
        for (other_n, other_length) in ALDEBARAN.inputs() {
            let same = (n, length) == (other_n, other_length) || length.max(other_length) == 0;
            assert_eq!(read(n, length, text(other_n, other_length).as_bytes()).is_ok(), same);
        }
    }
}

/// Whatever byte of a text is another, is missing or is there twice, it is found.
#[test]
fn every_byte_matters() {
    for (n, length) in [(1, 4), (2, 3), (3, 2)] {
        let text = text(n, length).into_bytes();
        let wrong = |other: &[u8]| {
            assert!(other == text || read(n, length, other).is_err(), "{}", other.escape_ascii());
        };
        for k in 0..text.len() {
            for byte in [text[k] ^ 1, text[k] ^ 2, text[k] ^ 0x20, b'0', b'1', b' ', b'\n', 0xff] {
                wrong(&[&text[..k], &[byte], &text[k + 1..]].concat());
            }
            wrong(&[&text[..k], &text[k + 1..]].concat());
            wrong(&[&text[..k], &[text[k]], &text[k..]].concat());
            wrong(&text[..k]);
        }
    }
}

/// Whatever line of a text is missing, is there twice or changes places with another, it is found.
#[test]
fn every_line_matters() {
    for (n, length) in [(1, 4), (2, 3), (3, 2)] {
        let text = text(n, length);
        let lines: Vec<&str> = text.split_inclusive('\n').collect();
        let wrong = |lines: &[&str]| {
            assert!(read(n, length, lines.concat().as_bytes()).is_err(), "{}", lines.concat());
        };
        for k in 0..lines.len() {
            wrong(&[&lines[..k], &lines[k + 1..]].concat());
            wrong(&[&lines[..k], &[lines[k]], &lines[k..]].concat());
            for j in 0..k {
                let mut lines = lines.clone();
                lines.swap(j, k);
                wrong(&lines);
            }
        }
    }
}

#[test]
fn wrong_inputs() {
    assert_eq!(REFUSAL, b"stopped 0 22\n");
    refuses_wrong_inputs(&ALDEBARAN, &vector("wrong-inputs.txt"));
}

const PROGRAM: &str = env!("CARGO_BIN_EXE_aldebaran");

#[test]
fn the_program_prints_the_text() {
    let inputs: [&[u8]; 9] =
        [&[2, 3], &[3, 0], &[3, 4], &[], &[1], &[0, 0], &[4, 1], &[1, 5], &[3, 4, 10]];
    prints_texts(PROGRAM, &ALDEBARAN, &inputs);
}

#[test]
fn input_that_cannot_be_read() {
    cannot_read(PROGRAM);
}

#[test]
fn text_that_cannot_be_written() {
    cannot_write(PROGRAM, &[[1, 0], [3, 4]]);
}
