//! One cabinet's controller (02, T-11): its own record, and nothing of the others.

use crate::{answered, calls, Event, Record, Refusal};

/// The controller of one cabinet. It is told of one event or one message at a time, and gives
/// itself after it and at most one message to send.
///
/// Three of them, each in its cabinet; cabinet 3 asks cabinet 1 whether it coordinates:
///
/// ```
/// use nevraspu::{Activity, Controller, Event, Outcome, Refusal};
///
/// let mut tower = [1, 2, 3].map(|own| Controller::new(3, own));
/// for (controller, own) in tower.iter_mut().zip(1..) {
///     let Outcome { controller: after, message } = controller.event(Event::Recover(own))?;
///     assert_eq!(message, None);
///     *controller = after;
/// }
///
/// let Outcome { controller, message } = tower[2].event(Event::Check(3))?;
/// tower[2] = controller;
/// let asks = message.unwrap();
/// assert_eq!((asks.sender(), asks.receiver(), asks.kind()), (3, 1, 1));
///
/// // Cabinet 2 does not take it, cabinet 1 does, and replies.
/// assert_eq!(tower[1].message(asks.as_bytes()), Err(Refusal::OtherCabinet));
/// let Outcome { controller, message } = tower[0].message(asks.as_bytes())?;
/// tower[0] = controller;
/// let reply = message.unwrap();
/// assert_eq!(reply.as_bytes(), [0x20, 0, 3, 1, 3, 6, 0x21, 0, 4, 0, 0, 0, 1, 0x24, 0, 1, 1]);
///
/// // It was yes: cabinet 3 has found 1, and asks 2.
/// let Outcome { controller, message } = tower[2].message(reply.as_bytes())?;
/// let Activity::Asking { asked: 2, found } = controller.record.activity else { panic!() };
/// assert!(found.contains(1));
/// assert_eq!(message.unwrap().receiver(), 2);
///
/// assert_eq!(tower[2].message(b"?"), Err(Refusal::WrongMessage));
/// # Ok::<(), Refusal>(())
/// ```
///
/// Whoever runs them has to do four things, which `include/nevraspu.h` says at length: keep the
/// controller of the last [`Outcome`], over a power cut too; keep it and the message together, or
/// neither, where the message can't be sent; take a delivered message out of the queue only where
/// it was accepted; and of the messages from one cabinet to another deliver the oldest.
#[derive(Clone, Copy, Debug, PartialEq, Eq, Hash)]
pub struct Controller {
    /// How many cabinets there are.
    pub n: u8,
    /// The cabinet's own number.
    pub own: u8,
    /// Its record.
    pub record: Record,
}

/// What a controller gives for an event or a message that is accepted.
#[derive(Clone, Debug, PartialEq, Eq, Hash)]
pub struct Outcome {
    /// The controller after it.
    pub controller: Controller,
    /// The message to send, if there is one.
    pub message: Option<CableMessage>,
}

/// The bytes of a message as it crosses the cable.
#[derive(Clone, Debug, PartialEq, Eq, Hash)]
pub struct CableMessage(Vec<u8>);

impl CableMessage {
    /// Its bytes.
    pub fn as_bytes(&self) -> &[u8] {
        &self.0
    }

    /// Who sends it.
    pub fn sender(&self) -> u8 {
        self.0[3]
    }

    /// Whom it is for.
    pub fn receiver(&self) -> u8 {
        self.0[4]
    }

    /// Its kind, 1 to 6, as [`Body`](crate::Body) numbers them.
    pub fn kind(&self) -> u8 {
        self.0[5]
    }
}

/// The longest message on the cable.
const MESSAGE_MOST: usize = 25;

/// What the library writes: the record, the length of the message, the message.
type Out = [u8; Record::SIZE + 1 + MESSAGE_MOST];

impl Controller {
    /// The controller of cabinet `own` of n at the start.
    pub fn new(n: u8, own: u8) -> Controller {
        Controller { n, own, record: Record::default() }
    }

    /// What comes of an event of this cabinet, any but deliver and lose.
    pub fn event(&self, event: Event) -> Result<Outcome, Refusal> {
        let record = self.record.to_bytes();
        self.outcome(|out| calls::controller_event(self.n, self.own, &record, &event.field(), out))
    }

    /// What comes of a message that has reached this cabinet.
    pub fn message(&self, message: &[u8]) -> Result<Outcome, Refusal> {
        let record = self.record.to_bytes();
        self.outcome(|out| calls::controller_message(self.n, self.own, &record, message, out))
    }

    fn outcome(&self, call: impl FnOnce(&mut [u8]) -> u8) -> Result<Outcome, Refusal> {
        let mut out: Out = [0; Record::SIZE + 1 + MESSAGE_MOST];
        answered(call(&mut out))?;
        let (record, behind) = out.split_first_chunk().expect("a record");
        let (&length, message) = behind.split_first().expect("a length");
        let message = &message[..usize::from(length)];
        Ok(Outcome {
            controller: Controller { record: Record::from_bytes(record), ..*self },
            message: (!message.is_empty()).then(|| CableMessage(message.to_vec())),
        })
    }
}
