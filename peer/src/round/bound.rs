//! The bound of T-09, checked on the tables that a schedule leaves, which may come from any implementation: "a
//! message with k older ones of its own pair is no longer waiting after (k + 1) × n × (n − 1) turns".

use crate::machine::{Message, Table};
use crate::round::driver::Place;

/// What a turn or an event of a schedule did, as far as it counts for the bound.
#[derive(Clone, Copy, Debug, PartialEq, Eq)]
pub struct Happened {
    /// Whether it was a turn.
    pub turn: bool,
    /// The pair out of which it took a message, by a deliver or lose that was accepted.
    pub taken: Option<Place>,
    /// Whether that message was lost.
    pub lost: bool,
}

/// A waiting message that is followed. It is known by its pair and by how many older ones of that pair wait.
#[derive(Clone, Copy, Debug, PartialEq, Eq)]
struct Followed {
    message: Message,
    /// When it was first looked at, and now.
    k: usize,
    older: usize,
    /// Whether one of those was equal to it when it was first looked at.
    equal: bool,
    /// The turns since then.
    turns: u64,
}

/// A followed message that waits no longer.
#[derive(Clone, Copy, Debug, PartialEq, Eq)]
pub struct Gone {
    pub k: usize,
    pub equal: bool,
    /// How it went.
    pub by: Happened,
    /// The turns that it waited, and those that it may.
    pub turns: u64,
    pub allowed: u64,
}

/// The messages that are followed in a schedule of n nodes.
#[derive(Clone, Debug)]
pub struct Following {
    n: u8,
    followed: Vec<Followed>,
}

/// The pair of a message.
pub fn pair_of(m: &Message) -> Place {
    (m.sender, m.receiver)
}

/// The waiting messages of a pair, from the oldest on.
pub fn line(table: &Table, pair: Place) -> Vec<Message> {
    table.messages.iter().filter(|m| pair_of(m) == pair).copied().collect()
}

/// "(k + 1) × n × (n − 1)"
pub fn allowed(k: usize, n: u8) -> u64 {
    (k as u64 + 1) * u64::from(n) * (u64::from(n) - 1)
}

impl Following {
    pub fn new(n: u8) -> Following {
        Following { n, followed: Vec::new() }
    }

    /// How many are followed.
    pub fn count(&self) -> usize {
        self.followed.len()
    }

    /// Follows the message at this place of the table's queue from now on.
    pub fn follow(&mut self, table: &Table, at: usize) {
        let message = table.messages[at];
        let pair = pair_of(&message);
        let older: Vec<&Message> =
            table.messages[..at].iter().filter(|m| pair_of(m) == pair).collect();
        let (k, equal) = (older.len(), older.contains(&&message));
        self.followed.push(Followed { message, k, older: k, equal, turns: 0 });
    }

    /// Looks at the table after a turn or an event, and gives those that went. The error says in words what does
    /// not hold: as long as a message waits it is the same, and stands behind as many older ones of its pair as
    /// before, or one fewer where one of the pair was taken out; and it does not wait longer than it may.
    pub fn after(
        &mut self,
        before: &Table,
        happened: &Happened,
        after: &Table,
    ) -> Result<Vec<Gone>, String> {
        let mut gone = Vec::new();
        for one in std::mem::take(&mut self.followed) {
            let pair = pair_of(&one.message);
            let words = |what: String| {
                let (a, b) = pair;
                Err(format!("the message from {a} to {b} with {} older ones {what}", one.k))
            };
            let (was, is) = (line(before, pair), line(after, pair));
            let taken = happened.taken == Some(pair);
            let left = was.len().saturating_sub(usize::from(taken));
            // A delivery to b sends nothing from a to b; another event may send one.
            let most = if taken { left } else { left + 1 };
            if !(left..=most).contains(&is.len()) {
                let (was, is) = (was.len(), is.len());
                return words(format!("stood in a line of {was} of its pair, now of {is}"));
            }
            let turns = one.turns + u64::from(happened.turn);
            let allowed = allowed(one.k, self.n);
            if taken && one.older == 0 {
                let (k, equal, by) = (one.k, one.equal, *happened);
                gone.push(Gone { k, equal, by, turns, allowed });
                continue;
            }
            let older = one.older - usize::from(taken);
            if is.get(older) != Some(&one.message) {
                return words(format!("does not stand behind {older} of its pair any more"));
            }
            if turns >= allowed {
                return words(format!("still waits after {turns} turns"));
            }
            self.followed.push(Followed { older, turns, ..one });
        }
        Ok(gone)
    }
}
