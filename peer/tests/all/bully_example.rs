//! The example run of the Bully machine: the text of docs/bully-example.txt, and that it shows what it should.

use peer::bully::claims::broken_claim;
use peer::bully::example::{example, NODES, RUN};
use peer::bully::machine::{step, Event, Node, Place, Table};
use peer::bully::words::call_words;
use peer::machine::Status::{self, Down, Election, Normal, Reorganization};
use peer::proved::{Own, Proved};
use std::path::Path;

#[test]
fn the_text_is_that_of_the_file() {
    let file = Path::new(env!("CARGO_MANIFEST_DIR")).join("../docs/bully-example.txt");
    let text = std::fs::read_to_string(file).unwrap();
    assert_eq!(example(&Own), text);
    if let Ok(proved) = Proved::linked() {
        assert_eq!(example(&proved), text);
    }
    assert!(text.lines().all(|line| line.len() <= 110 && line == line.trim_end()));
}

/// Each place is stood at, the tasks are those of the reorganizations, and two events are refused.
#[test]
fn the_run_shows_each_place() {
    let mut table = Table::start(NODES);
    let mut places = Vec::new();
    let mut refused = Vec::new();
    let mut all_normal = Vec::new();
    for event in RUN.iter().flat_map(|&(_, events)| events) {
        if let Err(number) = step(&mut table, event) {
            refused.push((*event, number));
        }
        assert_eq!(broken_claim(&table), None);
        places.extend(table.nodes.map(|node| node.place));
        let mut up = table.nodes.iter().filter(|node| node.runs);
        if up.clone().all(|node| (node.status, node.place) == (Normal, Place::Idle)) {
            all_normal.push((up.clone().count(), up.next().unwrap().task));
        }
    }
    assert_eq!(refused, [(Event::Finish(3, 300), 10), (Event::Timeout(3), 9)]);
    all_normal.dedup();
    assert_eq!(all_normal, [(1, 150), (3, 100), (2, 100), (1, 210)]);
    for place in [
        Place::Asking(3),
        Place::Halting(2),
        Place::Announcing { now: 2, still: 1 },
        Place::Point,
        Place::Handing { now: 2, still: 1 },
        Place::Checking(2),
        Place::Contacting,
    ] {
        assert!(places.contains(&place), "{place}");
    }
}

/// What the headings say of each stretch: the calls in it, and status and coordinator of the three after it.
#[test]
fn the_headings_are_true() {
    type Stretch = (&'static [&'static str], [(Status, u8); NODES as usize]);
    let told: [Stretch; RUN.len()] = [
        (
            &["AreYouThere 2: no answer", "AreYouThere 3: no answer"],
            [(Normal, 1), (Down, 0), (Down, 0)],
        ),
        (&["AreYouThere 3: answered"], [(Normal, 1), (Down, 0), (Election, 0)]),
        (
            &[
                "Halt 2: done",
                "Halt 1: done",
                "NewCoordinator 2: taken",
                "NewCoordinator 1: taken",
                "Ready 2: taken",
                "Ready 1: taken",
            ],
            [(Normal, 3), (Normal, 3), (Normal, 3)],
        ),
        (&[], [(Normal, 3), (Normal, 3), (Normal, 3)]),
        (&["AreYouThere 3: answered"], [(Normal, 3), (Normal, 3), (Normal, 3)]),
        (
            &["AreYouNormal 1: no answer", "AreYouNormal 2: yes"],
            [(Down, 3), (Normal, 3), (Normal, 3)],
        ),
        (&["AreYouNormal 1: no"], [(Down, 3), (Normal, 3), (Down, 3)]),
        (
            &[
                "AreYouThere 3: no answer",
                "AreYouThere 3: no answer",
                "Halt 1: done",
                "NewCoordinator 1: taken",
            ],
            [(Reorganization, 2), (Reorganization, 2), (Down, 3)],
        ),
        (
            &["Ready 1: no answer", "AreYouThere 3: no answer", "Halt 1: no answer"],
            [(Down, 2), (Normal, 2), (Down, 3)],
        ),
        (&[], [(Down, 2), (Normal, 2), (Down, 3)]),
    ];
    let text = example(&Own);
    let mut parts = text.split("== ").skip(1);
    let mut table = Table::start(NODES);
    for ((heading, events), (calls, after)) in RUN.iter().zip(told) {
        let mut made = Vec::new();
        for event in *events {
            let before = table;
            let answer = step(&mut table, event);
            if matches!(event, Event::GoOn(_)) {
                assert_eq!(answer, Ok(()));
                made.extend(call_words(&before, &table, event.node()));
            }
        }
        assert_eq!(made, calls, "{heading}");
        let now = [1, 2, 3].map(|i| (table.node(i).status, table.node(i).coordinator));
        assert_eq!(now, after, "{heading}");
        // Each call stands in the text under its heading, in the same order.
        let mut part = parts.next().unwrap().strip_prefix(heading).unwrap();
        for call in calls {
            part = part.split_once(&format!("   {call} ")).unwrap().1;
        }
    }
    assert!(parts.next().is_none());
}

/// A check of a member is the one event that is accepted and changes nothing.
#[test]
fn what_changes_nothing_says_so() {
    let text = example(&Own);
    let lines: Vec<&str> = text.lines().collect();
    let at: Vec<usize> =
        (0..lines.len()).filter(|&k| lines[k].contains("accepted, nothing changed")).collect();
    assert_eq!(at.len(), 1);
    assert!(lines[at[0] - 1].starts_with("16 check 1 "));
}

/// What became of a call that the run does not have: ignored ones, and a contact of coordinator 0.
#[test]
fn calls_in_words() {
    let node = |i: u8, place: Place, status: Status| {
        let mut table = Table::start(NODES);
        *table.node_mut(i) = Node { runs: true, status, place, ..Node::START };
        table.node_mut(1).runs = true;
        table
    };
    let words = |before: Table, i: u8| {
        let mut after = before;
        step(&mut after, &Event::GoOn(i)).unwrap();
        call_words(&before, &after, i).unwrap()
    };
    let announcing = Place::Announcing { now: 1, still: 0 };
    assert_eq!(words(node(2, announcing, Reorganization), 2), "NewCoordinator 1: ignored");
    let handing = Place::Handing { now: 1, still: 0 };
    assert_eq!(words(node(2, handing, Reorganization), 2), "Ready 1: ignored");
    assert_eq!(words(node(2, Place::Contacting, Normal), 2), "AreYouThere 0: no answer");
    let table = node(2, Place::Point, Reorganization);
    assert_eq!(call_words(&table, &table, 2), None);
    assert_eq!(call_words(&table, &table, 1), None);
}
