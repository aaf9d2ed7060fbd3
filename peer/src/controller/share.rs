//! The controller: one cabinet's share. "It takes n, its own number, its own record and one event other than deliver
//! and lose or one incoming message, and gives the new record and at most one outgoing message." What the node does
//! by itself is `machine::act`, which has no table: the machine over the whole table goes through the same function
//! and adds the queue. Words in quotation marks in the comments are T-11's.

use crate::controller::message::decode;
use crate::machine::{act, acting_node, check_state, Event, Message, Node, Share, MAX_NODES};

/// "The result depends on nothing but those four things." The fourth is the event or the message.
#[derive(Clone, Copy, Debug, PartialEq, Eq)]
pub struct Cabinet {
    pub n: u8,
    pub own: u8,
    pub record: Node,
}

impl Cabinet {
    /// "An n or own number out of range, or a record not in range for that n, meets 1."
    fn check_range(&self) -> Result<(), u8> {
        let Cabinet { n, own, record } = self;
        let inside = (1..=MAX_NODES).contains(n) && (1..=*n).contains(own);
        if inside && record.in_range(*n, *own) {
            Ok(())
        } else {
            Err(1)
        }
    }

    /// Ground 21: "it or the event is for another cabinet".
    fn check_own(&self, i: u8) -> Result<(), u8> {
        if i == self.own {
            Ok(())
        } else {
            Err(21)
        }
    }

    /// One event. The error is the refusal's number.
    pub fn event(&self, event: &Event) -> Result<Share, u8> {
        self.check_range()?;
        let i = acting_node(self.n, event)?;
        self.check_own(i)?;
        check_state(self.n, i, &self.record, event)?;
        act(self.n, i, &self.record, event, None)
    }

    /// One incoming message, in bytes. Ground 20: "a message's bytes are not of that form, hold a number out of
    /// range or have the same sender and receiver".
    pub fn message(&self, bytes: &[u8]) -> Result<Share, u8> {
        self.check_range()?;
        let m: Message = decode(bytes).filter(|m| m.in_range(self.n)).ok_or(20)?;
        self.check_own(m.receiver)?;
        let delivery = Event::Deliver(m.sender, m.receiver);
        check_state(self.n, self.own, &self.record, &delivery)?;
        act(self.n, self.own, &self.record, &delivery, Some(&m))
    }
}
