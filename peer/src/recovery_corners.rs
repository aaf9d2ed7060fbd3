//! Counts what the compared calls for the records of a recovery met, and judges them by their bytes. What
//! T-04 of document 02 says of these records is written out here, apart from the machine.

use crate::corners::{add, Count, Source};
use crate::machine::{Status, ASSIGNMENTS, MAX_COUNTER, MAX_NODES};
use crate::proved::{record, table_from_bytes, TableBytes, NODE_BYTES, RECORDS_BYTES, TOO_SHORT};

/// What a call met: which nodes, how many bytes were lent, which of the fields that the recovery sets change
/// or have their value already, and the grounds, each by itself and with a later one.
const MET: [&str; 37] = [
    "recovery accepted",
    "recovery accepted, n = 1",
    "recovery accepted, node 1",
    "recovery accepted, node 16",
    "recovery accepted, 232 bytes",
    "recovery accepted, more bytes",
    "recovery accepted, every field changes",
    // Which no run has: the group is a new one.
    "recovery accepted, group as before",
    "recovery accepted, coordinator as before",
    "recovery accepted, members as before",
    "recovery accepted, task as before",
    // No run here is so long.
    "recovery accepted, last counter",
    "recovery accepted, last counter, every field changes",
    "recovery accepted, last counter, group as before",
    "recovery accepted, last counter, coordinator as before",
    "recovery accepted, last counter, members as before",
    "recovery accepted, last counter, task as before",
    "recovery accepted, first counter",
    "recovery refused 1",
    "recovery refused 1, 7 too",
    "recovery refused 1, 9 too",
    "recovery refused 1, 12 too",
    "recovery refused 7, number 0",
    "recovery refused 7, number over n, up to 16",
    "recovery refused 7, number over 16",
    "recovery refused 9, Election",
    "recovery refused 9, Reorganization",
    "recovery refused 9, Normal",
    "recovery refused 9, 12 too",
    "recovery refused 12",
    "recovery answered 255",
    "recovery answered 255, 1 too",
    "recovery answered 255, 7 too",
    "recovery answered 255, 9 too",
    "recovery answered 255, 12 too",
    "recovery answered 255, no bytes",
    "recovery answered 255, 231 bytes",
];

/// What no call shows. The first eight are T-04's "each sets that field alone in the one before".
const WRONG: [&str; 11] = [
    "recovery, record 1 does not set Election alone",
    "recovery, record 2 does not set the counter alone",
    "recovery, record 3 does not set the group alone",
    "recovery, record 4 does not set the coordinator alone",
    "recovery, record 5 does not set the members alone",
    "recovery, record 6 does not set Reorganization alone",
    "recovery, record 7 does not set the task alone",
    "recovery, record 8 does not set Normal alone",
    "recovery, record 8 is not the one that recover leaves",
    "recovery, another answer than that of recover",
    "recovery, another answer than by the grounds",
];

/// Where the fields stand in a record.
const STATUS: usize = 0;
const COUNTER: usize = 1;
const GROUP: usize = 5;
const COORDINATOR: usize = 9;
const TASK: usize = 10;
const MEMBERS: usize = 12;

/// A call for the records of the recovery of a node, and the step recover on the same table.
pub struct Call<'a> {
    pub table: &'a TableBytes,
    pub node: u8,
    pub answer: u8,
    /// The lent buffer after the call.
    pub out: &'a [u8],
    pub step_answer: u8,
    /// The lent buffer after the step.
    pub step_out: &'a [u8],
}

/// The counts, each for runs and for tables.
#[derive(Clone, Debug)]
pub struct RecoveryCorners {
    met: [Count; MET.len()],
    wrong: [Count; WRONG.len()],
}

impl Default for RecoveryCorners {
    fn default() -> RecoveryCorners {
        RecoveryCorners { met: [[0; 2]; MET.len()], wrong: [[0; 2]; WRONG.len()] }
    }
}

impl RecoveryCorners {
    /// Counts a call with what followed.
    pub fn count(&mut self, source: Source, call: &Call) {
        let grounds = Grounds::of(call);
        add(&mut self.met, source as usize, met(call, &grounds));
        add(&mut self.wrong, source as usize, wrong(call, &grounds));
    }

    /// Every corner, with its counts.
    pub fn corners(&self) -> impl Iterator<Item = (&'static str, Count)> {
        MET.into_iter().zip(self.met)
    }

    /// What was met though the papers have no place for it, with its counts.
    pub fn wrong(&self) -> impl Iterator<Item = (&'static str, Count)> {
        WRONG.into_iter().zip(self.wrong)
    }
}

/// The grounds of document 01 that apply to recover, whether or not one of them comes first.
struct Grounds {
    too_short: bool,
    /// 1
    not_in_range: bool,
    /// 7
    no_node: bool,
    /// 9: the status of a node that is not Down.
    up: Option<Status>,
    /// 12
    no_counter: bool,
    n: u8,
}

impl Grounds {
    fn of(call: &Call) -> Grounds {
        let table = table_from_bytes(call.table);
        let there = (1..=table.n.min(MAX_NODES)).contains(&call.node);
        let node = there.then(|| table.node(call.node));
        Grounds {
            too_short: call.out.len() < RECORDS_BYTES,
            not_in_range: !table.in_range(),
            no_node: !(1..=table.n).contains(&call.node),
            up: node.map(|node| node.status).filter(|&status| status != Status::Down),
            no_counter: node.is_some_and(|node| node.counter >= MAX_COUNTER),
            n: table.n,
        }
    }

    /// The answer by the first that applies.
    fn answer(&self) -> u8 {
        match self {
            Grounds { too_short: true, .. } => TOO_SHORT,
            Grounds { not_in_range: true, .. } => 1,
            Grounds { no_node: true, .. } => 7,
            Grounds { up: Some(_), .. } => 9,
            Grounds { no_counter: true, .. } => 12,
            _ => 0,
        }
    }
}

/// The assignments of node i's recovery in the paper's order: where the field stands, and its value.
fn assignments(before: &[u8], i: u8) -> [(usize, Vec<u8>); ASSIGNMENTS] {
    let counter = counter(before).wrapping_add(1);
    let group = counter.wrapping_mul(16).wrapping_add(u32::from(i)).wrapping_sub(1);
    [
        (STATUS, vec![1]),
        (COUNTER, counter.to_be_bytes().to_vec()),
        (GROUP, group.to_be_bytes().to_vec()),
        (COORDINATOR, vec![i]),
        (MEMBERS, vec![0, 0]),
        (STATUS, vec![2]),
        (TASK, vec![0, i]),
        (STATUS, vec![3]),
    ]
}

fn counter(record: &[u8]) -> u32 {
    u32::from_be_bytes(record[COUNTER..GROUP].try_into().expect("four bytes"))
}

/// Which of `MET` a call meets.
fn met(call: &Call, grounds: &Grounds) -> [bool; MET.len()] {
    let (i, room) = (call.node, call.out.len());
    let Grounds { not_in_range, no_node, up, no_counter, n, .. } = *grounds;
    let accepted = call.answer == 0 && grounds.answer() == 0;
    let (mut last, mut first) = (false, false);
    // Whether every one of group, coordinator, members and task changes, and which of them does not.
    let mut fields = [false; 5];
    if accepted {
        let before = record(call.table, i);
        let assigned = assignments(before, i);
        let same = [2, 3, 4, 6].map(|k: usize| before[assigned[k].0..].starts_with(&assigned[k].1));
        fields[0] = same == [false; 4];
        fields[1..].copy_from_slice(&same);
        last = counter(before) == MAX_COUNTER - 1;
        first = counter(before) == 0;
    }
    let [every, group, coordinator, members, task] = fields;
    let refused = |number: u8| call.answer == number && grounds.answer() == number;
    let (one, seven, nine, short) = (refused(1), refused(7), refused(9), refused(TOO_SHORT));
    let other = no_node || up.is_some() || no_counter;
    [
        accepted,
        accepted && n == 1,
        accepted && i == 1,
        accepted && i == MAX_NODES,
        accepted && room == RECORDS_BYTES,
        accepted && room > RECORDS_BYTES,
        every,
        group,
        coordinator,
        members,
        task,
        last,
        last && every,
        last && group,
        last && coordinator,
        last && members,
        last && task,
        first,
        one && !other,
        one && no_node,
        one && up.is_some(),
        one && no_counter,
        seven && i == 0,
        seven && (1..=MAX_NODES).contains(&i),
        seven && i > MAX_NODES,
        nine && up == Some(Status::Election),
        nine && up == Some(Status::Reorganization),
        nine && up == Some(Status::Normal),
        nine && no_counter,
        refused(12),
        short && !not_in_range && !other,
        short && not_in_range,
        short && no_node,
        short && up.is_some(),
        short && no_counter,
        short && room == 0,
        short && room == RECORDS_BYTES - 1,
    ]
}

/// Which of `WRONG` a call shows.
fn wrong(call: &Call, grounds: &Grounds) -> [bool; WRONG.len()] {
    let mut wrong = [false; WRONG.len()];
    let records = call.out.chunks_exact(NODE_BYTES);
    if call.answer == 0 && !grounds.too_short && !grounds.no_node && call.node <= MAX_NODES {
        let mut before = record(call.table, call.node);
        let assigned = assignments(before, call.node);
        for (k, (now, (at, value))) in records.zip(assigned).enumerate() {
            let mut one_set = before.to_vec();
            one_set[at..at + value.len()].copy_from_slice(&value);
            wrong[k] = now != one_set;
            before = now;
        }
        let left = call.step_out.first_chunk().filter(|_| call.step_answer == 0);
        wrong[8] = left.is_none_or(|left| record(left, call.node) != before);
    }
    wrong[9] = call.answer != if grounds.too_short { TOO_SHORT } else { call.step_answer };
    wrong[10] = call.answer != grounds.answer();
    wrong
}
