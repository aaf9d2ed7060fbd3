//! Counts what the compared finishes met, and judges them. What document 01 with T-10 of document 02 says of a
//! finish, and what it leaves, is written out here, apart from the machine.

use crate::check_corners::{call_grounds, first_ground, node_of, printed, PRINTED};
use crate::corners::{add, Count, Source, ACTIVITIES};
use crate::limit_corners::{rig, RIGS, THE_TOWER};
use crate::machine::{
    only, Activity, Body, Event, Message, Node, Set, Status, Table, MAX_CALL, MAX_NODES,
};
use crate::proved::tag;

/// The tasks that are told apart: "Tasks 100 to 199 are full peals". The first three are.
const TASKS: [&str; 6] =
    ["task 100", "task 101 to 198", "task 199", "task 200", "task 201 to 65,534", "task 65,535"];

/// How twice the members plus two stand to n. At most n they are no more than half, which is the first three.
const SIDES: [&str; 6] = [
    "less than n - 1",
    "n - 1",
    "n",
    // The smallest majority of an odd n, and of an even one.
    "n + 1",
    "n + 2",
    "more than n + 2",
];

/// What a finish meets with each n of a rig at both sides of the edge. One node is always a majority.
const EDGE: [&str; 3] = [
    "one too few, a full peal refused 19",
    "just enough, a full peal accepted",
    "one too few, another task accepted",
];

/// What a minority's full peal meets later if it is not refused 19, where there is a member to be handed it.
const LATER: [&str; 5] =
    ["13 too", "tower, 14 too", "stand, 14 too", "17 too", "13, 14 and 17 too"];

/// Who meets 13, 14 and 17 at the end of a finish.
const ENDS: [&str; 2] = ["a full peal by a majority", "another task by a minority"];

/// The place of collecting among the activities.
const COLLECTING: usize = 4;

/// What else a finish meets. "By the count of" members is: it would be no majority if those did not count.
const MET: [&str; 35] = [
    "finish refused 8, task 99, a minority collects",
    "finish refused 8, a lower task, a minority collects",
    "finish refused 8, task 99, a majority collects",
    "finish refused 9, a full peal, a minority",
    "finish refused 9, a full peal, a majority",
    "finish refused 9, another task, a minority",
    "finish refused 7, a full peal, number 0",
    "finish refused 7, a full peal, number over n, up to 16",
    "finish refused 7, a full peal, number over 16",
    // Which no run has: every table of a run is in range.
    "finish refused 1, a full peal, a minority collects",
    "finish refused 1, a full peal, a majority collects",
    "finish refused 10, a full peal, a majority",
    // Nothing to hand, so that no later ground applies.
    "finish refused 19, no members",
    "finish refused 19, no members, no call number left",
    "finish refused 19, no members, as many wait as may",
    // Which no run has: there a collecting node is in Election and its own coordinator.
    "finish refused 19, not its own coordinator",
    "finish refused 19, not in Election",
    "finish refused 19, not a full peal before",
    "finish accepted, another task, a minority, a full peal before",
    "finish refused 19, more than half of those that are up",
    "finish refused 19, more than half are in its group",
    "finish accepted, a full peal, all members up and in its group",
    "finish accepted, a full peal, by the count of members that are Down",
    "finish accepted, a full peal, by the count of members in other groups",
    "finish accepted, a full peal, n = 1, no call number left",
    "run in the tower, finish refused 19",
    "run on the stand, finish refused 19",
    "run in the tower, a full peal accepted",
    "run on the stand, a full peal accepted",
    "run, a full peal accepted, by the count of members that are Down",
    "run, a full peal accepted, by the count of members in other groups",
    // "nothing is said about two coordinators that both counted it"
    "run, a full peal accepted, and another's that has counted the same member",
    "run, refused 19, the next event the same node's finish with task 200, accepted",
    "run, refused 19, then another task in the same group, accepted",
    "run, refused 19, then one more joins, a full peal accepted",
];

/// What no finish shows.
const WRONG: [&str; 6] = [
    "finish, another answer than by the grounds",
    "finish, a full peal accepted by no more than half",
    "finish, refused, and the table changes",
    "finish, accepted, and not the task and Ready to the highest member alone",
    "list, finish printed otherwise than by the grounds",
    "list, 19 printed for another event",
];

/// What is remembered of a table for the finish that follows.
pub struct FinishBefore {
    table: Table,
    i: u8,
    task: u16,
}

impl FinishBefore {
    pub fn of(table: &Table, event: &Event) -> Option<FinishBefore> {
        match *event {
            Event::Finish(i, task) => Some(FinishBefore { table: table.clone(), i, task }),
            _ => None,
        }
    }
}

/// The nodes of a set, from the highest down.
fn each(set: Set) -> impl Iterator<Item = u8> {
    (1..=MAX_NODES).rev().filter(move |&j| set & only(j) != 0)
}

/// How many a node and some others are together.
fn together(others: Set) -> u32 {
    1 + each(others).count() as u32
}

/// "more than half of n"
fn more_than_half(count: u32, n: u8) -> bool {
    2 * count > u32::from(n)
}

/// "Tasks 100 to 199 are full peals"
fn is_full_peal(task: u16) -> bool {
    (100..200).contains(&task)
}

/// The grounds that apply to a finish of node i, whether or not one of them comes first.
struct Grounds {
    /// 1
    not_in_range: bool,
    /// 7
    no_node: bool,
    /// 8
    low_task: bool,
    /// 9
    down: bool,
    /// 10
    not_collecting: bool,
    /// 19, by both of its reasons.
    full_peal: bool,
    minority: bool,
    /// 13, 14 and 17, if there is a member to be handed the task.
    ends: [bool; 3],
}

impl Grounds {
    fn of(table: &Table, i: u8, task: u16) -> Grounds {
        let node = node_of(table, i);
        let is = |holds: fn(&Node) -> bool| node.is_some_and(holds);
        let first_member = node.and_then(|node| each(node.members).next());
        Grounds {
            not_in_range: !table.in_range(),
            no_node: node.is_none(),
            low_task: task < 100,
            down: is(|node| node.status == Status::Down),
            not_collecting: is(|node| node.activity != Activity::Collecting),
            full_peal: is_full_peal(task),
            minority: node.is_some_and(|node| !more_than_half(together(node.members), table.n)),
            ends: call_grounds(table, i, first_member),
        }
    }

    /// "A finish with such a task passes only if the coordinator and its members together are more than half
    /// of n."
    fn turned_away(&self) -> bool {
        self.full_peal && self.minority
    }

    /// The number of the first that applies.
    fn first(&self) -> Option<u8> {
        let [no_call, full, no_more] = self.ends;
        first_ground(&[
            (1, self.not_in_range),
            (7, self.no_node),
            (8, self.low_task),
            (9, self.down),
            (10, self.not_collecting),
            (19, self.turned_away()),
            (13, no_call),
            (14, full),
            (17, no_more),
        ])
    }
}

/// Whether node i has the task and is Normal, or, with members, hands it to the highest of them, and nothing
/// else has changed in nodes and messages.
fn finished(before: &FinishBefore, after: &Table) -> bool {
    let &FinishBefore { ref table, i, task } = before;
    let Some(&node) = node_of(table, i) else {
        return false;
    };
    let mut sent = Vec::new();
    let finished = match each(node.members).next() {
        None => Node { status: Status::Normal, task, activity: Activity::Idle, ..node },
        Some(now) => {
            let call = node.last_call.wrapping_add(1);
            let body = Body::Ready { group: node.group, task };
            sent.push(Message { sender: i, receiver: now, call, body });
            let activity = Activity::Handing { rest: node.members & !only(now), now };
            Node { status: Status::Reorganization, task, last_call: call, activity, ..node }
        }
    };
    let mut nodes = table.nodes;
    nodes[usize::from(i) - 1] = finished;
    after.nodes == nodes && after.messages == [&table.messages[..], &sent].concat()
}

/// The counts, each for runs and for tables.
#[derive(Clone, Debug)]
pub struct MajorityCorners {
    /// Not refused before 19, nor 13, 14 or 17, by `TASKS` and `SIDES`.
    sides: [[Count; SIDES.len()]; TASKS.len()],
    /// By rig, n and `EDGE`.
    edges: [[[Count; EDGE.len()]; MAX_NODES as usize]; RIGS.len()],
    /// Refused 10, a full peal by a minority, by activity.
    busy: [Count; ACTIVITIES.len()],
    /// Refused 19.
    later: [Count; LATER.len()],
    /// Refused 13, 14 and 17.
    ends: [[Count; 3]; ENDS.len()],
    met: [Count; MET.len()],
    printed: [Count; PRINTED.len()],
    wrong: [Count; WRONG.len()],
    /// Of the run that goes on: the group in which each node was refused 19, and who was in the event before.
    refused: [Option<u32>; MAX_NODES as usize],
    last: Option<u8>,
}

impl Default for MajorityCorners {
    fn default() -> MajorityCorners {
        MajorityCorners {
            sides: [[[0; 2]; SIDES.len()]; TASKS.len()],
            edges: [[[[0; 2]; EDGE.len()]; MAX_NODES as usize]; RIGS.len()],
            busy: [[0; 2]; ACTIVITIES.len()],
            later: [[0; 2]; LATER.len()],
            ends: [[[0; 2]; 3]; ENDS.len()],
            met: [[0; 2]; MET.len()],
            printed: [[0; 2]; PRINTED.len()],
            wrong: [[0; 2]; WRONG.len()],
            refused: [None; MAX_NODES as usize],
            last: None,
        }
    }
}

impl MajorityCorners {
    /// The events that follow are those of another run, or begin on another table.
    pub fn begin(&mut self) {
        (self.refused, self.last) = ([None; MAX_NODES as usize], None);
    }

    /// Counts an event, if it is a finish, with what followed.
    pub fn count(
        &mut self,
        source: Source,
        before: Option<&FinishBefore>,
        answer: Result<(), u8>,
        after: &Table,
    ) {
        if let Some(before) = before {
            self.finish(source, before, answer, after);
        }
        self.last = before.filter(|_| answer == Err(19)).map(|before| before.i);
    }

    fn finish(
        &mut self,
        source: Source,
        before: &FinishBefore,
        answer: Result<(), u8>,
        after: &Table,
    ) {
        let &FinishBefore { ref table, i, task } = before;
        let grounds = Grounds::of(table, i, task);
        let mut wrong = [false; WRONG.len()];
        wrong[0] = answer.err() != grounds.first();
        wrong[1] = answer.is_ok() && grounds.turned_away();
        match answer {
            Err(_) => wrong[2] = after != table,
            Ok(()) => wrong[3] = !finished(before, after),
        }
        add(&mut self.wrong, source as usize, wrong);
        if wrong[0] {
            return;
        }
        let met = self.met(source, before, answer, &grounds);
        let source = source as usize;
        add(&mut self.met, source, met);
        let (Some(node), Some(rig)) = (node_of(table, i), rig(table.limits)) else {
            return;
        };
        let [no_call, full, no_more] = grounds.ends;
        match answer {
            Ok(()) | Err(19) => {
                let count = together(node.members);
                self.sides[task_place(task)][side(count, table.n)][source] += 1;
                let too_few = 2 * count <= u32::from(table.n);
                let edge = [
                    answer.is_err() && more_than_half(count + 1, table.n),
                    answer.is_ok() && grounds.full_peal && 2 * (count - 1) <= u32::from(table.n),
                    answer.is_ok() && too_few && more_than_half(count + 1, table.n),
                ];
                add(&mut self.edges[rig][usize::from(table.n) - 1], source, edge);
            }
            Err(10) if grounds.turned_away() => {
                self.busy[usize::from(tag(&node.activity))][source] += 1;
            }
            Err(number @ (13 | 14 | 17)) => {
                let who = [grounds.full_peal, !grounds.full_peal && grounds.minority];
                for (counts, is) in self.ends.iter_mut().zip(who) {
                    add(counts, source, [13, 14, 17].map(|end| is && end == number));
                }
            }
            _ => {}
        }
        if answer == Err(19) {
            let tower = rig == THE_TOWER;
            let all = no_call && full && no_more;
            let later = [no_call, full && tower, full && !tower, no_more, all];
            add(&mut self.later, source, later);
        }
    }

    /// Which of `MET` a finish meets, whose answer is that of the grounds.
    fn met(
        &mut self,
        source: Source,
        before: &FinishBefore,
        answer: Result<(), u8>,
        grounds: &Grounds,
    ) -> [bool; MET.len()] {
        let &FinishBefore { ref table, i, task } = before;
        let n = table.n;
        let node = node_of(table, i).copied().unwrap_or(Node::START);
        let &Grounds { full_peal, minority, .. } = grounds;
        let refused = |number: u8| answer == Err(number);
        let accepted = answer.is_ok();
        let peal = accepted && full_peal;
        let other = accepted && !full_peal && minority;
        // The grounds that would be met if the table were in range.
        let collects = !grounds.no_node && !grounds.down && !grounds.not_collecting;
        let alone = refused(19) && node.members == 0;
        let as_many_wait = table.messages.len() == usize::from(table.limits.messages);
        let of_all = |holds: &dyn Fn(u8) -> bool| -> Set {
            (1..=n.min(MAX_NODES)).filter(|&j| holds(j)).map(only).sum()
        };
        let up = of_all(&|j| table.node(j).status != Status::Down);
        let in_group = of_all(&|j| table.node(j).group == node.group);
        let enough = |members: Set| more_than_half(together(members), n);
        let by_down = peal && !enough(node.members & up);
        let by_others = peal && !enough(node.members & (in_group | !up));
        let others_up = up & !only(i.clamp(1, MAX_NODES));
        let run = source == Source::Run;
        let stand = rig(table.limits) != Some(THE_TOWER);
        let counted_it = (1..=n.min(MAX_NODES)).any(|k| {
            let other = table.node(k);
            k != i
                && other.coordinator == k
                && matches!(other.status, Status::Reorganization | Status::Normal)
                && is_full_peal(other.task)
                && other.members & node.members != 0
        });
        // Whether it was refused 19 in the same group before.
        let refused_before =
            accepted && self.refused[usize::from(i) - 1].take() == Some(node.group);
        if refused(19) {
            self.refused[usize::from(i) - 1] = Some(node.group);
        }
        let next = self.last == Some(i);
        [
            refused(8) && task == 99 && collects && minority,
            refused(8) && task < 99 && collects && minority,
            refused(8) && task == 99 && collects && !minority,
            refused(9) && full_peal && minority,
            refused(9) && full_peal && !minority,
            refused(9) && !full_peal && minority,
            refused(7) && full_peal && i == 0,
            refused(7) && full_peal && (1..=MAX_NODES).contains(&i),
            refused(7) && full_peal && i > MAX_NODES,
            refused(1) && full_peal && collects && minority,
            refused(1) && full_peal && collects && !minority,
            refused(10) && full_peal && !minority,
            alone,
            alone && node.last_call == MAX_CALL,
            alone && as_many_wait,
            refused(19) && node.coordinator != i,
            refused(19) && node.status != Status::Election,
            refused(19) && !is_full_peal(node.task),
            other && is_full_peal(node.task),
            refused(19) && 2 * together(node.members) > up.count_ones(),
            refused(19) && enough(in_group & others_up),
            peal && node.members & !(up & in_group) == 0,
            by_down,
            by_others,
            peal && n == 1 && node.last_call == MAX_CALL,
            run && !stand && refused(19),
            run && stand && refused(19),
            run && !stand && peal,
            run && stand && peal,
            run && by_down,
            run && by_others,
            run && peal && counted_it,
            run && next && refused_before && task == 200 && other,
            run && refused_before && other,
            run && refused_before && peal,
        ]
    }

    /// Judges an event of a list by the number that is printed for it, if one is.
    pub fn printed_event(&mut self, table: &Table, event: &Event, number: Option<u8>) {
        let mut wrong = [false; WRONG.len()];
        match *event {
            Event::Finish(i, task) => wrong[4] = Grounds::of(table, i, task).first() != number,
            _ => wrong[5] = number == Some(19),
        }
        add(&mut self.wrong, Source::Run as usize, wrong);
    }

    /// Counts a list by the numbers that are printed for its events.
    pub fn printed(&mut self, refused: &[Option<u8>], stopped: bool) {
        add(&mut self.printed, Source::Run as usize, printed(refused, stopped, 19));
    }

    /// Every corner, with its counts.
    pub fn corners(&self) -> Vec<(String, Count)> {
        let mut corners = Vec::new();
        for (k, (task, counts)) in TASKS.iter().zip(&self.sides).enumerate() {
            for (s, (side, &count)) in SIDES.iter().zip(counts).enumerate() {
                let answer = if k < 3 && s < 3 { "refused 19" } else { "accepted" };
                corners.push((format!("finish {answer}, {task}, 2m + 2 is {side}"), count));
            }
        }
        for (rig, counts) in RIGS.iter().zip(&self.edges) {
            for (n, counts) in (1..=rig.nodes).zip(counts) {
                for (edge, &count) in EDGE.iter().zip(counts) {
                    if n > 1 || edge.starts_with("just enough") {
                        corners.push((format!("finish, {}, n = {n}, {edge}", rig.name), count));
                    }
                }
            }
        }
        for (k, (activity, &count)) in ACTIVITIES.iter().zip(&self.busy).enumerate() {
            if k != COLLECTING {
                corners.push((format!("finish refused 10, {activity}, 19 too"), count));
            }
        }
        for (later, &count) in LATER.iter().zip(&self.later) {
            corners.push((format!("finish refused 19, {later}"), count));
        }
        for (who, counts) in ENDS.iter().zip(&self.ends) {
            for (number, &count) in [13, 14, 17].iter().zip(counts) {
                corners.push((format!("finish refused {number}, {who}"), count));
            }
        }
        let printed = PRINTED.map(|place| format!("list, finish refused 19 {place}"));
        corners.extend(MET.map(String::from).into_iter().zip(self.met));
        corners.extend(printed.into_iter().zip(self.printed));
        corners
    }

    /// What was met though the papers have no place for it, with its counts.
    pub fn wrong(&self) -> impl Iterator<Item = (&'static str, Count)> {
        WRONG.into_iter().zip(self.wrong)
    }
}

/// The place in `TASKS` of a task that a finish can have.
fn task_place(task: u16) -> usize {
    match task {
        ..=100 => 0,
        101..=198 => 1,
        199 => 2,
        200 => 3,
        201..=65_534 => 4,
        65_535 => 5,
    }
}

/// The place in `SIDES` of so many nodes together, of n.
fn side(count: u32, n: u8) -> usize {
    match 2 * i64::from(count) - i64::from(n) {
        ..-1 => 0,
        -1 => 1,
        0 => 2,
        1 => 3,
        2 => 4,
        3.. => 5,
    }
}
