//! The refusals, by the numbers of 01 and 02, each with its ground in the papers' words.

use std::error::Error;
use std::fmt;

/// Why something was refused: the numbers are those of 01 and 02.
#[derive(Clone, Copy, Debug, PartialEq, Eq, Hash, PartialOrd, Ord)]
#[repr(u8)]
pub enum Refusal {
    /// 1, a table, or a controller's n, own number or record.
    NotInRange = 1,
    /// 2, a whole list.
    ListTooLong = 2,
    /// 3, a field.
    CutShort = 3,
    /// 4, a field.
    WrongTag = 4,
    /// 5, a field.
    WrongLength = 5,
    /// 6, a list's first field.
    WrongCount = 6,
    /// 7, an event's numbers.
    WrongNumber = 7,
    /// 8, an event's numbers.
    WrongTask = 8,
    /// 9, the state.
    WrongStatus = 9,
    /// 10, the state.
    WrongActivity = 10,
    /// 11, the state.
    NoMessage = 11,
    /// 12, an end of a range.
    CounterAtEnd = 12,
    /// 13, an end of a range.
    CallsAtEnd = 13,
    /// 14, an end of a range.
    QueueFull = 14,
    /// 15, a printed line.
    NoRoom = 15,
    /// 16, the input of the short lists (T-01).
    WrongShortLists = 16,
    /// 17, an end of a range (T-05).
    SentAtEnd = 17,
    /// 18, the state (T-06).
    NotCoordinator = 18,
    /// 19, the state (T-10).
    NoMajority = 19,
    /// 20, a message on the cable (T-11).
    WrongMessage = 20,
    /// 21, a message or an event at a controller (T-11).
    OtherCabinet = 21,
    /// 22, the input of the transition system (T-12).
    WrongSystem = 22,
}

use Refusal::*;

/// All of them, in the order of their numbers, with their grounds.
const GROUNDS: [(Refusal, &str); 22] = [
    (NotInRange, "not in range"),
    (ListTooLong, "over 65,536 bytes"),
    (CutShort, "only 1 or 2 bytes left, or fewer contents than its length says; an empty list too"),
    (WrongTag, "unknown tag, 0x01 or 0x02 not first, or another tag first"),
    (WrongLength, "length wrong for the tag"),
    (WrongCount, "n outside 1 to 16, on the stand outside 1 to 4"),
    (WrongNumber, "cabinet outside 1 to n, or sender equals receiver"),
    (WrongTask, "finish task outside 100 to 65,535"),
    (
        WrongStatus,
        "recover: not Down; all others but lose: cabinet (for deliver, the receiver) Down",
    ),
    (
        WrongActivity,
        "check, timeout: not idle; tick: not waiting; expire: no open call; finish: not collecting",
    ),
    (NoMessage, "deliver, lose: no message from a to b"),
    (CounterAtEnd, "a new group is needed, counter 1,048,575"),
    (CallsAtEnd, "a call is needed, last call number 16,777,215"),
    (QueueFull, "a message is needed, 64 wait, on the stand 12 (a delivered one is already out)"),
    (NoRoom, "fewer bytes free than the line has, or offset past the end"),
    (
        WrongShortLists,
        "not exactly two bytes, or one outside its range: n from 1 to 3, a length from 0 to 7",
    ),
    (SentAtEnd, "a message must be sent and its pair's sent count is 33,554,430"),
    (NotCoordinator, "check at a cabinet that is not Normal or not its own coordinator"),
    (NoMajority, "finish with task 100 to 199 when twice the members plus two is at most n"),
    (
        WrongMessage,
        "a message's bytes are not of that form, hold a number out of range or have the same \
         sender and receiver",
    ),
    (OtherCabinet, "the message or the event is for another cabinet"),
    (WrongSystem, "input not exactly the two bytes n and L, n outside 1 to 3 or L outside 0 to 4"),
];

impl Refusal {
    /// The refusal with this number.
    ///
    /// ```
    /// use nevraspu::Refusal;
    /// assert_eq!(Refusal::from_number(11), Some(Refusal::NoMessage));
    /// assert_eq!(Refusal::from_number(0), None);
    /// assert_eq!(Refusal::from_number(23), None);
    /// ```
    pub fn from_number(number: u8) -> Option<Refusal> {
        let (refusal, _) = GROUNDS.get(usize::from(number).checked_sub(1)?)?;
        Some(*refusal)
    }

    /// Its number in 01 or 02.
    pub fn number(self) -> u8 {
        self as u8
    }

    /// Its ground in the papers' words.
    ///
    /// ```
    /// use nevraspu::Refusal;
    /// assert_eq!(Refusal::NoMessage.ground(), "deliver, lose: no message from a to b");
    /// ```
    pub fn ground(self) -> &'static str {
        GROUNDS[usize::from(self.number()) - 1].1
    }
}

/// As in `refusal 11: deliver, lose: no message from a to b`.
impl fmt::Display for Refusal {
    fn fmt(&self, f: &mut fmt::Formatter) -> fmt::Result {
        write!(f, "refusal {}: {}", self.number(), self.ground())
    }
}

impl Error for Refusal {}

#[cfg(test)]
mod tests {
    use super::*;

    #[test]
    fn each_stands_at_its_number() {
        for (place, (refusal, _)) in GROUNDS.iter().enumerate() {
            assert_eq!(usize::from(refusal.number()), place + 1);
        }
    }
}
