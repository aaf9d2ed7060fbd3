//! An example run of three cabinets on one sound cable, as a text table that shows each record after each
//! event.

use crate::bully::bytes::{
    event_to_field, table_from_bytes, table_to_bytes, TableBytes, TABLE_BYTES,
};
use crate::bully::machine::Event::{self, Check, Crash, Finish, GoOn, Recover, Timeout};
use crate::bully::machine::Table;
use crate::bully::words::{call_words, record_words};
use crate::proved::Library;
use std::fmt::Write;

pub const NODES: u8 = 3;

/// The run: stretches of events, each with what it is about.
pub const RUN: [(&str, &[Event]); 10] = [
    (
        "Cabinet 1 recovers alone, finds nobody there and is elected.",
        &[Recover(1), GoOn(1), GoOn(1), Finish(1, 150)],
    ),
    (
        "Cabinets 2 and 3 recover. 2 asks 3, is answered and gives up.",
        &[Recover(2), Recover(3), GoOn(2)],
    ),
    (
        "Cabinet 3 has nobody above it to ask. It bullies 2 and 1: halts both, is elected and \
         hands them its task.",
        &[GoOn(3), GoOn(3), GoOn(3), GoOn(3), Finish(3, 100), GoOn(3), GoOn(3)],
    ),
    (
        "Cabinet 3 has left the reorganization point: a second finish is refused.",
        &[Finish(3, 300)],
    ),
    (
        "A member's check has no effect. A member's timeout comes to nothing: 3, its coordinator, \
         answers.",
        &[Check(1), Timeout(1), GoOn(1)],
    ),
    (
        "Cabinet 1 crashes. The check of 3, the coordinator, finds the others Normal or off, and \
         ends.",
        &[Crash(1), Check(3), GoOn(3), GoOn(3)],
    ),
    (
        "Cabinet 1 recovers. The next check of 3 is answered no, and 3 begins an election; then 3 \
         crashes.",
        &[Recover(1), Check(3), GoOn(3), Crash(3)],
    ),
    (
        "Cabinet 2 misses 3, its coordinator, and takes over. It halts 1, which was about to ask it.",
        &[Timeout(2), GoOn(2), GoOn(2), GoOn(2), GoOn(2), Finish(2, 200)],
    ),
    (
        "Cabinet 1 crashes before it is handed the task. 2 begins the election anew and is elected \
         alone.",
        &[Crash(1), GoOn(2), GoOn(2), GoOn(2), Finish(2, 210)],
    ),
    ("Cabinet 3 does not run: its timeout is refused.", &[Timeout(3)]),
];

const HEAD: &str = "\
The Bully Algorithm: an example run of three cabinets. Each event stands with its answer, the call that it
made, if any, and the records that it leaves; * marks a record that it changed. 0 is none.

place: the call that is still to be made, by the cabinet's next go on. One that does not run never answers.
   asking 2                 AreYouThere: is 2, a higher one, there? If it answers, the asking one gives up
   halting 1                Halt: 1, a lower one, is to stop what it does and wait for its new coordinator
   announcing 2, still {1}  NewCoordinator: 2 is told its new coordinator; still: those called after 2
   reorganization point     no call: those in Up have been told; a finish sets the task
   handing 2, still {1}     Ready: 2 is handed the task. No answer here or to NewCoordinator: election anew
   checking 1               AreYouNormal: a coordinator's check asks 1; if 1 says no, an election begins
   contacting               AreYouThere, to the coordinator, after a timeout; no answer: an election begins
Up: those that it halted in its last election. last halter: who halted it last, itself in its own election.
status: Down: off, or recovered and not yet halted. Election: halted. Reorganization: has a new coordinator.
   Normal: at work on its task. A crash changes runs, status and place alone.
refused 9: the cabinet does not run. refused 10: it is not at the place that the event needs: idle for check
   and timeout, a call for go on, the reorganization point for finish.

                                                                       last
event                    cabinet  runs status         coordinator task halter Up     place
";

/// The run by a library.
pub fn example(library: &impl Library) -> String {
    let mut text = HEAD.to_string();
    let mut bytes = table_to_bytes(&Table::start(NODES));
    let start = table_from_bytes(&bytes);
    write_records(&mut text, ["all Down", "", ""], &start, &start);
    let mut number = 0;
    for (heading, events) in RUN {
        writeln!(text, "== {heading}\n").expect("a String takes it");
        for event in events {
            number += 1;
            let before = table_from_bytes(&bytes);
            let mut out: TableBytes = [0; TABLE_BYTES];
            let refusal = library.bully_step(&bytes, &event_to_field(event), &mut out);
            if refusal == 0 {
                bytes = out;
            }
            let after = table_from_bytes(&bytes);
            let answer = match refusal {
                0 if before == after => "accepted, nothing changed".to_string(),
                0 => "accepted".to_string(),
                _ => format!("refused {refusal}"),
            };
            let call = match *event {
                GoOn(i) if refusal == 0 => call_words(&before, &after, i).unwrap_or_default(),
                _ => String::new(),
            };
            let words =
                [&format!("{number:>2} {event}"), &format!("   {answer}"), &format!("   {call}")];
            write_records(&mut text, words.map(String::as_str), &before, &after);
        }
    }
    text
}

/// A line for each node, with these words before them.
fn write_records(text: &mut String, words: [&str; NODES as usize], before: &Table, after: &Table) {
    for (i, words) in (1..=NODES).zip(words) {
        let changed = if before.node(i) == after.node(i) { ' ' } else { '*' };
        let [runs, status, coordinator, task, halter, up, place] = record_words(after.node(i));
        writeln!(
            text,
            "{words:<28} {changed} {i}  {runs:<5}{status:<15}{coordinator:<12}{task:<5}{halter:<7}\
             {up:<7}{place}"
        )
        .expect("a String takes it");
    }
    text.push('\n');
}
