//! Rows of events for random runs in which a forwarded invitation is slow; T-03's story is one of them.

use crate::drive::{fill, member, Run};
use crate::machine::{only, Activity, Event, Set, Status, Table};
use crate::numbers::Numbers;
use crate::rows::{forwarded, oldest, Row};

/// Three nodes begin anew. One of them, the former coordinator, gets node i as a member, and then forwards
/// to it an invitation of the third's, or of i's own. That one is slow.
pub fn slow_invitation(run: &mut Run, numbers: &mut Numbers) {
    let n = run.table.n;
    if n < 3 {
        return;
    }
    let mut left: Set = u16::MAX >> (16 - n);
    let mut three = [0; 3].map(|_| {
        let i = member(left, numbers);
        left &= !only(i);
        i
    });
    // The third is the lowest, so that it waits when it has found the others.
    three.sort();
    if numbers.one_in(2) {
        three.swap(1, 2);
    }
    let [third, former, i] = three;
    SlowInvitation { row: Row { run, numbers }, third, former, i }.drive();
}

struct SlowInvitation<'a> {
    row: Row<'a>,
    third: u8,
    former: u8,
    i: u8,
}

impl SlowInvitation<'_> {
    fn drive(&mut self) {
        let (third, former, i) = (only(self.third), only(self.former), only(self.i));
        let all = third | former | i;
        self.row.begin(&[self.third, self.former, self.i]);
        if self.row.numbers.one_in(2) {
            // Node i gets a member too, which leaves it.
            self.row.check(self.i, third | i);
            self.row.anew(self.third);
        }
        let own = self.row.numbers.one_in(4);
        if !own {
            let k = usize::from(self.third) - 1;
            self.row.run.go(Event::Check(self.third));
            self.row
                .settle(all, |table| matches!(table.nodes[k].activity, Activity::Waiting { .. }));
        }
        self.row.check(self.former, former | i);
        if own {
            self.row.anew(self.i);
            self.row.run.go(Event::Check(self.i));
        }
        // Until node i is in that group, mostly Normal.
        let status = match self.row.numbers.below(6) {
            0 => Status::Election,
            1 => Status::Reorganization,
            _ => Status::Normal,
        };
        let late = late(self.former, self.i);
        self.row.settle(if own { former | i } else { all }, |table| late(table) == Some(status));
        match self.row.numbers.below(8) {
            0 => self.row.run.go(Event::Crash(self.i)),
            1 | 2 => self.leave(),
            3 if own => self.leave(),
            _ => {}
        }
        // The queue is full only for T-03's invitation, since it takes many events.
        let full =
            !own && late(&self.row.run.table) == Some(Status::Normal) && self.row.numbers.one_in(2);
        if full {
            self.row.settle(third | i, |_| false);
        }
        if self.row.numbers.one_in(2) {
            self.row.run.go(Event::Timeout(self.i));
        }
        if full {
            let most = self.row.most_waiting();
            fill(self.row.run, most, self.row.numbers);
        }
        self.row.run.go(Event::Deliver(self.former, self.i));
    }

    /// Node i leaves its group for one of its own, and that for a newer one of the third's.
    fn leave(&mut self) {
        let (third, i) = (only(self.third), only(self.i));
        self.row.settle(third | only(self.former) | i, |_| false);
        self.row.anew(self.i);
        self.row.check(self.third, third | i);
    }
}

/// The status of node b, where a forwarded invitation from a is the next to come and b is in its group.
fn late(a: u8, b: u8) -> impl Fn(&Table) -> Option<Status> {
    move |table| {
        let group = oldest(table, a, b).and_then(forwarded);
        let node = table.node(b);
        (group == Some(node.group)).then_some(node.status)
    }
}
