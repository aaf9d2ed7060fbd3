//! The driver: the place in the round, the pair that comes next, and a turn on a table. Words in quotation marks
//! in the comments are T-09's, where no other document is named.

use crate::machine::{advance, Event, Status, Table};

/// A place in the round: a sender and a receiver.
pub type Place = (u8, u8);

/// What a turn did.
#[derive(Clone, Copy, Debug, PartialEq, Eq)]
pub enum Done {
    Nothing = 0,
    Delivered = 1,
    Lost = 2,
}

/// A turn on a table, at a place: the place of the next turn, and what was done. The error is the refusal's
/// number, and then nothing has changed.
pub fn turn(table: &mut Table, place: Place) -> Result<(Place, Done), u8> {
    if !table.in_range() {
        return Err(1);
    }
    turn_in_range(table, place)
}

/// The same on a table that is known to be in range.
pub fn turn_in_range(table: &mut Table, place: Place) -> Result<(Place, Done), u8> {
    // "With n = 1 a turn does nothing"
    if table.n == 1 {
        return Ok((place, Done::Nothing));
    }
    // "else a place in the round that is no such pair meets 7"
    let ((a, b), inside) = (place, 1..=table.n);
    if !inside.contains(&a) || !inside.contains(&b) || a == b {
        return Err(7);
    }
    let done = look_at(table, place);
    Ok((next(table.n, place), done))
}

/// "It goes round the ordered pairs (1,2), (1,3) and so on to (n,n−1), and then from the start." There must be two
/// nodes or more.
pub fn next(n: u8, (a, b): Place) -> Place {
    // No node is its own receiver.
    let receiver = if b + 1 == a { b + 2 } else { b + 1 };
    if receiver <= n {
        (a, receiver)
    } else if a < n {
        (a + 1, 1)
    } else {
        (1, 2)
    }
}

/// "Each turn looks at one pair".
fn look_at(table: &mut Table, (a, b): Place) -> Done {
    // "with no message it does nothing"
    if !table.messages.iter().any(|m| (m.sender, m.receiver) == (a, b)) {
        return Done::Nothing;
    }
    // "with a Down receiver it loses the oldest"
    if table.node(b).status == Status::Down {
        return lose(table, (a, b));
    }
    // "else it delivers it. A delivery that meets 12, 13 or 17 becomes a loss."
    match advance(table, &Event::Deliver(a, b)) {
        Ok(()) => Done::Delivered,
        Err(12 | 13 | 17) => lose(table, (a, b)),
        // No other ground is left: the receiver is not Down, a message waits, and of as many as may wait
        // "a delivered one is already out" (document 01).
        Err(number) => unreachable!("a delivery that meets {number}"),
    }
}

fn lose(table: &mut Table, (a, b): Place) -> Done {
    advance(table, &Event::Lose(a, b)).expect("a message of the pair waits");
    Done::Lost
}
