//! The nine events of a list, and their fields.

use crate::calls;
use std::fmt;

/// An event of a list. Any numbers may stand in it: it is the library that refuses the wrong ones.
///
/// Its text is the library's, as in a list as text:
///
/// ```
/// use nevraspu::Event;
///
/// let event = Event::Finish { cabinet: 2, task: 100 };
/// assert_eq!(event.field(), [0x16, 0, 3, 2, 0, 100]);
/// assert_eq!(event.to_string(), "finish 2 100");
/// assert_eq!(Event::Lose { sender: 1, receiver: 255 }.to_string(), "lose 1 255");
/// ```
#[derive(Clone, Copy, Debug, PartialEq, Eq, Hash)]
pub enum Event {
    /// The power of this cabinet is cut.
    Crash(u8),
    /// The power of this cabinet is back.
    Recover(u8),
    /// This coordinator looks for others.
    Check(u8),
    /// This cabinet has not heard of its coordinator for too long.
    Timeout(u8),
    /// A tick of this cabinet's waiting.
    Tick(u8),
    /// The open call of this cabinet is given up.
    Expire(u8),
    /// This cabinet has collected its members, and gives them the task.
    #[allow(missing_docs)]
    Finish { cabinet: u8, task: u16 },
    /// The oldest message from one cabinet to another arrives.
    #[allow(missing_docs)]
    Deliver { sender: u8, receiver: u8 },
    /// The oldest message from one cabinet to another is lost.
    #[allow(missing_docs)]
    Lose { sender: u8, receiver: u8 },
}

impl Event {
    /// Its field in a list: tag, length of the contents in two bytes, contents.
    pub fn field(self) -> Vec<u8> {
        match self {
            Event::Crash(i) => field(0x10, &[i]),
            Event::Recover(i) => field(0x11, &[i]),
            Event::Check(i) => field(0x12, &[i]),
            Event::Timeout(i) => field(0x13, &[i]),
            Event::Tick(i) => field(0x14, &[i]),
            Event::Expire(i) => field(0x15, &[i]),
            Event::Finish { cabinet, task } => {
                let [high, low] = task.to_be_bytes();
                field(0x16, &[cabinet, high, low])
            }
            Event::Deliver { sender, receiver } => field(0x17, &[sender, receiver]),
            Event::Lose { sender, receiver } => field(0x18, &[sender, receiver]),
        }
    }
}

/// A field of few contents.
pub(crate) fn field(tag: u8, contents: &[u8]) -> Vec<u8> {
    [&[tag, 0, contents.len() as u8], contents].concat()
}

impl fmt::Display for Event {
    fn fmt(&self, f: &mut fmt::Formatter) -> fmt::Result {
        // The library's text of a list with this event alone: a first line, and the event's.
        let list = [field(0x01, &[1]), self.field()].concat();
        let mut text = [0; 64];
        let length = calls::text_of_list(&list, &mut text).expect("two short lines have room");
        let text = std::str::from_utf8(&text[..length]).expect("the library writes ASCII");
        f.pad(text.lines().nth(1).expect("the event's line"))
    }
}
