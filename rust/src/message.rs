//! The messages that wait in a table.

use crate::bytes::Reader;

/// A waiting message.
#[derive(Clone, Copy, Debug, PartialEq, Eq, Hash)]
pub struct Message {
    /// Who sent it.
    pub sender: u8,
    /// Whom it is for.
    pub receiver: u8,
    /// The number of the call; in a reply, of the call that it answers.
    pub call: u32,
    /// What it says.
    pub body: Body,
}

/// What a message says: its kind, and what this kind carries.
#[derive(Clone, Copy, Debug, PartialEq, Eq, Hash)]
#[allow(missing_docs)]
pub enum Body {
    /// Kind 1, a check.
    AreYouCoordinator,
    /// Kind 2, to one's coordinator.
    AreYouThere { group: u32 },
    /// Kind 3, into a new group.
    Invitation { group: u32 },
    /// Kind 4, to the new coordinator.
    Accept { group: u32 },
    /// Kind 5, the task of the group.
    Ready { group: u32, task: u16 },
    /// Kind 6, the answer to a call.
    Reply { yes: bool },
    /// Another kind, which no table in range has.
    Unknown { kind: u8 },
}

impl Message {
    /// How many bytes a message has in a table.
    pub(crate) const SIZE: usize = 14;

    /// Sender 1, receiver 1, kind 1, call 4, group 4, task 2, yes 1. What the kind does not carry
    /// is not looked at; yes is read by its lowest bit, as the library reads it.
    pub(crate) fn from_bytes(bytes: &[u8; Message::SIZE]) -> Message {
        let mut reader = Reader(bytes);
        let (sender, receiver, kind) = (reader.one(), reader.one(), reader.one());
        let (call, group, task) = (reader.four(), reader.four(), reader.two());
        let yes = reader.one() % 2 == 1;
        let body = match kind {
            1 => Body::AreYouCoordinator,
            2 => Body::AreYouThere { group },
            3 => Body::Invitation { group },
            4 => Body::Accept { group },
            5 => Body::Ready { group, task },
            6 => Body::Reply { yes },
            kind => Body::Unknown { kind },
        };
        Message { sender, receiver, call, body }
    }
}

#[cfg(test)]
mod tests {
    use super::*;

    #[test]
    fn each_kind_carries_its_own() {
        let body = |kind| {
            let bytes = [1, 2, kind, 0, 0, 0, 3, 0, 0, 0, 33, 0, 100, 1];
            let message = Message::from_bytes(&bytes);
            assert_eq!((message.sender, message.receiver, message.call), (1, 2, 3));
            message.body
        };
        let group = 33;
        assert_eq!(body(0), Body::Unknown { kind: 0 });
        assert_eq!(body(1), Body::AreYouCoordinator);
        assert_eq!(body(2), Body::AreYouThere { group });
        assert_eq!(body(3), Body::Invitation { group });
        assert_eq!(body(4), Body::Accept { group });
        assert_eq!(body(5), Body::Ready { group, task: 100 });
        assert_eq!(body(6), Body::Reply { yes: true });
        assert_eq!(body(7), Body::Unknown { kind: 7 });
    }
}
