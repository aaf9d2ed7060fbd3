//! T-03's story as a run, for the tests that need it.

use peer::machine::Event::{self, *};

pub const NODES: u8 = 3;

/// The delivery that the story ends with: of the invitation that node 2, its former coordinator, forwarded
/// to node 1.
pub const LATE: Event = Deliver(2, 1);

/// The story up to that delivery, from the starting table: "A cabinet was invited by a new coordinator, and
/// the same invitation was also forwarded to it by its former coordinator. The forwarded one was slow."
/// Either node 2 gives its forwarding call up, or node 3 its call to node 2, whose call then is still open.
pub fn invited_twice(given_up: bool) -> Vec<Event> {
    let there_and_back = |a: u8, b: u8| [Deliver(a, b), Deliver(b, a)];
    let mut events = vec![Recover(1), Recover(2), Recover(3)];
    // Node 3 finds 1, and asks 2, who is slow to answer.
    events.push(Check(3));
    events.extend(there_and_back(3, 1));
    // Node 2 finds 1, and not 3; 1 joins its group, and both are Normal there.
    events.push(Check(2));
    events.extend(there_and_back(2, 1));
    events.extend([Lose(2, 3), Expire(2)]);
    events.extend(there_and_back(2, 1));
    events.extend(there_and_back(2, 1));
    events.push(Finish(2, 250));
    events.extend(there_and_back(2, 1));
    // Node 3 finds 2 too, and invites it, and 2 forwards to 1.
    events.extend(there_and_back(3, 2));
    events.push(Deliver(3, 2));
    if given_up {
        events.push(Expire(2));
        events.extend(there_and_back(2, 3));
        events.push(Deliver(2, 3));
    } else {
        events.push(Expire(3));
    }
    // Node 3 invites 1, and hands Ready to its members.
    events.extend(there_and_back(3, 1));
    events.extend(there_and_back(3, 1));
    events.push(Finish(3, 300));
    if given_up {
        events.extend(there_and_back(3, 2));
    }
    events.extend(there_and_back(3, 1));
    events
}
