//! The vectors' tables: the limits and counts lines are read and written, and lines that are not in form are
//! not; and the vectors of this stage on this program's own machine.

use peer::history::check_run;
use peer::list::{read_list, FIRST_TAGS};
use peer::machine::*;
use peer::numbers::Numbers;
use peer::print::run_list;
use peer::tables::{in_range, scramble};
use peer::traffic_tables::give_counts;
use peer::vectors::{read_lists, read_steps, table_text};
use std::path::{Path, PathBuf};

fn case(counts: &str) -> String {
    format!(
        "case 1\nn 2\nlimits 16 64\ncabinet 1 0 0 0 0 0 0 0 idle\n\
         cabinet 2 0 0 0 0 0 0 0 idle\n{counts}event crash 1\nanswer refused 9\nend\n"
    )
}

/// A pair without a line has counts of 0. After a refusal the counts are as they were.
#[test]
fn counts_are_read() {
    let text = case("counts 1 2 7 4 3\ncounts 16 16 4294967295 0 1\n");
    let [case] = &read_steps(&text).unwrap()[..] else {
        panic!("one case");
    };
    let mut expected = Traffic::START;
    (expected.sent[0][1], expected.delivered[0][1], expected.lost[0][1]) = (7, 4, 3);
    (expected.sent[15][15], expected.lost[15][15]) = (u32::MAX, 1);
    assert_eq!(case.table.traffic, expected);
    assert_eq!(case.after, case.table);
    let text = "case 1\nn 1\nlimits 4 12\ncabinet 1 0 0 0 0 0 0 0 idle\ncounts 1 2 1 1 0\nevent recover 1\n\
                answer accepted\ncabinet 1 3 1 16 1 1 0 0 idle\ncounts 2 1 2 0 2\nend\n";
    let case = &read_steps(text).unwrap()[0];
    assert_eq!((case.table.traffic.sent[0][1], case.table.traffic.sent[1][0]), (1, 0));
    assert_eq!((case.after.traffic.sent[0][1], case.after.traffic.sent[1][0]), (0, 2));
    // "n and limits stay"
    assert_eq!((case.table.n, case.table.limits), (1, STAND));
    assert_eq!((case.after.n, case.after.limits), (1, STAND));
}

#[test]
fn counts_that_are_not_in_form() {
    for counts in [
        "counts 0 1 1 1 0",
        "counts 1 0 1 1 0",
        "counts 17 1 1 1 0",
        "counts 1 17 1 1 0",
        "counts 1 2 1 1",
        "counts 1 2 1 1 0 0",
        "counts 1 2 4294967296 0 0",
        "counts 1 2 -1 0 0",
    ] {
        let words = read_steps(&case(&format!("{counts}\n"))).unwrap_err();
        assert_eq!(words, format!("line 6: {counts}"));
    }
}

/// A case has its limits once, before the event, whatever they are.
#[test]
fn limits_are_read() {
    let text = case("");
    for (words, limits) in [
        ("limits 16 64", TOWER),
        ("limits 4 12", STAND),
        ("limits 0 255", Limits { nodes: 0, messages: 255 }),
    ] {
        let text = text.replace("limits 16 64", words);
        let case = &read_steps(&text).unwrap()[0];
        assert_eq!((case.table.limits, case.after.limits), (limits, limits));
    }
    for wrong in [
        "limits 16",
        "limits 16 64 0",
        "limits 256 64",
        "limits 16 256",
        "limits 4 12\nlimits 4 12",
    ] {
        let text = text.replace("limits 16 64", wrong);
        let line = 3 + wrong.lines().count() - 1;
        let words = format!("line {line}: {}", wrong.lines().last().unwrap());
        assert_eq!(read_steps(&text).unwrap_err(), words);
    }
    // A case without them is none, and behind the event or the answer they have no place.
    let without = text.replace("limits 16 64\n", "");
    assert_eq!(read_steps(&without).unwrap_err(), "line 7: end");
    for line in ["event crash 1\n", "answer refused 9\n"] {
        let later = without.replace(line, &format!("{line}limits 16 64\n"));
        assert!(read_steps(&later).unwrap_err().ends_with("limits 16 64"));
    }
}

/// Random tables, in range or not, come back from their lines.
#[test]
fn tables_come_back_from_their_lines() {
    let mut numbers = Numbers::new(1);
    for k in 0..3000 {
        let mut table = in_range(&mut numbers);
        give_counts(&mut table, &mut numbers);
        if k % 2 == 0 {
            table = scramble(&table, &mut numbers);
            table.n = table.n.min(MAX_NODES);
        }
        let lines = table_text(&table);
        let text = format!("case 1\nn {}\n{lines}event crash 1\nanswer refused 1\nend\n", table.n);
        assert_eq!(read_steps(&text).unwrap()[0].table, table);
    }
}

fn tests_folder() -> PathBuf {
    Path::new(env!("CARGO_MANIFEST_DIR")).join("../tests")
}

/// The lists of the vectors: what is printed, and demand 3, for the tower and for the stand.
#[test]
fn lists_of_the_vectors() {
    let cases = read_lists(&tests_folder().join("lists")).unwrap();
    assert_eq!(cases.len(), 121);
    let mut read = [0; 2];
    for case in &cases {
        assert_eq!(Some(run_list(&case.list)), case.text, "{}", case.name);
        if let Ok(list) = read_list(&case.list) {
            let rig = FIRST_TAGS.iter().position(|&(_, limits)| limits == list.limits);
            read[rig.unwrap()] += 1;
            check_run(list.n, list.limits, &list.events).unwrap();
        }
    }
    assert!(read.iter().all(|&count| count > 30), "{read:?}");
}

/// The single steps of the vectors, on tables of both, and on some whose limits are no allowed pair.
#[test]
fn steps_of_the_vectors() {
    let text = std::fs::read_to_string(tests_folder().join("steps.txt")).unwrap();
    let cases = read_steps(&text).unwrap();
    assert_eq!(cases.len(), 800);
    let mut met = [0; 3];
    for case in &cases {
        let mut table = case.table.clone();
        assert_eq!(step(&mut table, &case.event), case.answer, "{}", case.number);
        assert_eq!(table, case.after, "{}", case.number);
        match case.table.limits {
            TOWER => met[0] += 1,
            STAND => met[1] += 1,
            _ => {
                met[2] += 1;
                assert_eq!(case.answer, Err(1));
            }
        }
    }
    assert_eq!(met, [521, 273, 6]);
}
