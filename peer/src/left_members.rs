//! Rows of events for random runs in which a coordinator has too few members for a full peal, gets one more, and
//! counts members that have left it since (T-10).

use crate::drive::{full_peal, member, other_task, Run};
use crate::machine::{only, Activity, Event, Set};
use crate::numbers::Numbers;
use crate::rows::Row;

/// A node has one member too few: it collects as many others as are just enough, the last of them late, and its full
/// peal is refused. There must be two nodes or more.
pub fn too_few_members(run: &mut Run, numbers: &mut Numbers) {
    LeftMembers::of(run, numbers).too_few();
}

/// The same, and then mostly the late one joins, members leave, and the full peal is accepted. Where there are three
/// nodes or more, those that leave may be members of another, whose full peal is accepted too.
pub fn left_members(run: &mut Run, numbers: &mut Numbers) {
    let mut row = LeftMembers::of(run, numbers);
    row.too_few();
    row.leave();
}

struct LeftMembers<'a> {
    row: Row<'a>,
    first: u8,
    second: Option<u8>,
    members: Vec<u8>,
    /// The last of the members that is invited, which is the lowest.
    late: u8,
}

impl LeftMembers<'_> {
    fn of<'a>(run: &'a mut Run, numbers: &'a mut Numbers) -> LeftMembers<'a> {
        let n = run.table.n;
        let mut left: Set = u16::MAX >> (16 - n);
        let mut one = || {
            let i = member(left, numbers);
            left &= !only(i);
            i
        };
        let (first, second) = (one(), (n > 2).then(&mut one));
        let members: Vec<u8> = (0..n / 2).map(|_| one()).collect();
        let late = members.iter().copied().min().expect("two nodes or more");
        LeftMembers { row: Row { run, numbers }, first, second, members, late }
    }

    /// The acceptance of the late one waits when the call to it is given up.
    fn too_few(&mut self) {
        self.begin(self.first);
        self.collect(self.first, Some(self.late));
        self.row.run.go(Event::Expire(self.first));
        // Now and then it is tried again.
        for _ in 0..self.row.numbers.of(&[1, 1, 1, 2]) {
            self.full_peal(self.first);
        }
    }

    fn leave(&mut self) {
        match self.row.numbers.below(8) {
            0..=2 => {
                let task = other_task(self.row.numbers);
                return self.row.run.go(Event::Finish(self.first, task));
            }
            _ => self.row.run.go(Event::Deliver(self.late, self.first)),
        }
        let mut finishing = vec![self.first];
        match (self.second, self.row.numbers.below(4)) {
            (_, 0) => {}
            (_, 1) | (None, _) => {
                let place = self.row.numbers.place(self.members.len());
                self.row.run.go(Event::Crash(self.members[place]));
            }
            (Some(second), _) => {
                self.begin(second);
                self.collect(second, None);
                finishing.insert(self.row.numbers.place(2), second);
            }
        }
        for j in finishing {
            self.full_peal(j);
        }
    }

    /// Node j and the members begin anew.
    fn begin(&mut self, j: u8) {
        let nodes = [&self.members[..], &[j]].concat();
        self.row.begin(&nodes);
    }

    /// Node j gets the members, up to the acceptance of the late one, if one is.
    fn collect(&mut self, j: u8, late: Option<u8>) {
        let among = self.members.iter().fold(only(j), |set, &i| set | only(i));
        self.row.run.go(Event::Check(j));
        self.row.settle(among, |table| {
            let accepts = |i: u8| matches!(table.node(i).activity, Activity::Accepting { .. });
            table.node(j).activity == Activity::Collecting || late.is_some_and(accepts)
        });
    }

    fn full_peal(&mut self, j: u8) {
        let task = full_peal(self.row.numbers);
        self.row.run.go(Event::Finish(j, task));
    }
}
