//! The record of a cabinet: its status, its numbers and what it is doing.

use crate::bytes::{joined, Reader};
use crate::Cabinets;

/// The record of a cabinet. Its [`Default`] is the record at the start: Down, idle, all else 0.
///
/// ```
/// use nevraspu::{Activity, Event, Record, Status, Table};
///
/// let table = Table::tower(2);
/// assert_eq!(table.record(1), Some(Record::default()));
///
/// // 01's case K2: the first group of cabinet 1 is 16, and its solo task is 1.
/// let table = table.step(Event::Recover(1)).unwrap();
/// let record = table.record(1).unwrap();
/// assert_eq!(record.status, Status::Normal);
/// assert_eq!((record.group, record.coordinator, record.task), (16, 1, 1));
/// assert_eq!(record.activity, Activity::Idle);
/// assert_eq!(Record::from_bytes(&record.to_bytes()), record);
/// ```
#[derive(Clone, Copy, Debug, Default, PartialEq, Eq, Hash)]
pub struct Record {
    /// What it is.
    pub status: Status,
    /// How many groups it has formed.
    pub counter: u32,
    /// The group that it is in, 0 for none.
    pub group: u32,
    /// The coordinator of this group, 0 for none.
    pub coordinator: u8,
    /// The number of its playing table, 0 for none.
    pub task: u16,
    /// The members that it coordinates, itself never among them.
    pub members: Cabinets,
    /// The number of its last call.
    pub last_call: u32,
    /// What it is doing.
    pub activity: Activity,
}

/// The status of a cabinet.
#[derive(Clone, Copy, Debug, Default, PartialEq, Eq, Hash)]
pub enum Status {
    /// It has no power.
    #[default]
    Down = 0,
    /// It is in a new group, or forms one.
    Election = 1,
    /// Its group has a coordinator, and the task is being given out.
    Reorganization = 2,
    /// It is at work on its task.
    Normal = 3,
}

impl Status {
    /// The status of a byte, which is read by its remainder, as the library does.
    pub(crate) fn from_byte(byte: u8) -> Status {
        match byte % 4 {
            0 => Status::Down,
            1 => Status::Election,
            2 => Status::Reorganization,
            _ => Status::Normal,
        }
    }
}

/// What a cabinet is doing, with what it needs to go on.
#[derive(Clone, Copy, Debug, Default, PartialEq, Eq, Hash)]
pub enum Activity {
    /// Nothing.
    #[default]
    Idle,
    /// A check: it asks each other cabinet whether it coordinates.
    Asking {
        /// The one asked now.
        asked: u8,
        /// Those that said yes.
        found: Cabinets,
    },
    /// It has found others, and leaves time to the higher ones among them.
    Waiting {
        /// How many ticks are left.
        ticks: u8,
        /// Those that said yes.
        found: Cabinets,
    },
    /// It invites others into its new group.
    Inviting {
        /// The one invited now.
        now: u8,
        /// Of those found, the ones still to be invited.
        found: Cabinets,
        /// Of its former members, the ones still to be invited.
        former: Cabinets,
    },
    /// All are invited; it collects its members until it is told to finish.
    Collecting,
    /// It hands the task to its members.
    Handing {
        /// The one handed it now.
        now: u8,
        /// Those still to be handed it.
        still: Cabinets,
    },
    /// It asks its coordinator whether it is there.
    Contacting,
    /// It forwards an invitation to its former members.
    Forwarding {
        /// The one that it is forwarded to now.
        now: u8,
        /// Those that it is still to be forwarded to.
        still: Cabinets,
        /// Who invited it.
        caller: u8,
        /// The number of that call.
        call: u32,
    },
    /// It tells its new coordinator that it accepts.
    Accepting {
        /// Who invited it.
        caller: u8,
        /// The number of that call.
        call: u32,
    },
}

impl Record {
    /// How many bytes a record has.
    pub const SIZE: usize = 29;

    /// The record of these bytes, whatever they are: a status and an activity out of their ranges
    /// are read by their remainders, as the library reads them, and what an activity does not have
    /// is not looked at.
    pub fn from_bytes(bytes: &[u8; Record::SIZE]) -> Record {
        let mut reader = Reader(bytes);
        Record {
            status: Status::from_byte(reader.one()),
            counter: reader.four(),
            group: reader.four(),
            coordinator: reader.one(),
            task: reader.two(),
            members: Cabinets::from_bits(reader.two()),
            last_call: reader.four(),
            activity: Activity::read(&mut reader),
        }
    }

    /// Its bytes.
    pub fn to_bytes(&self) -> [u8; Record::SIZE] {
        joined(&[
            &[self.status as u8],
            &self.counter.to_be_bytes(),
            &self.group.to_be_bytes(),
            &[self.coordinator],
            &self.task.to_be_bytes(),
            &self.members.bits().to_be_bytes(),
            &self.last_call.to_be_bytes(),
            &self.activity.to_bytes(),
        ])
    }
}

impl Activity {
    /// Number 1, set 2, second set 2, cabinet or ticks 1, caller 1, the caller's call 4.
    fn read(reader: &mut Reader) -> Activity {
        let number = reader.one() % 9;
        let set = Cabinets::from_bits(reader.two());
        let former = Cabinets::from_bits(reader.two());
        let now = reader.one();
        let caller = reader.one();
        let call = reader.four();
        match number {
            0 => Activity::Idle,
            1 => Activity::Asking { asked: now, found: set },
            2 => Activity::Waiting { ticks: now, found: set },
            3 => Activity::Inviting { now, found: set, former },
            4 => Activity::Collecting,
            5 => Activity::Handing { now, still: set },
            6 => Activity::Contacting,
            7 => Activity::Forwarding { now, still: set, caller, call },
            _ => Activity::Accepting { caller, call },
        }
    }

    /// What it does not have is 0.
    fn to_bytes(self) -> [u8; 11] {
        let none = Cabinets::default();
        let (number, set, former, now, caller, call) = match self {
            Activity::Idle => (0, none, none, 0, 0, 0),
            Activity::Asking { asked, found } => (1, found, none, asked, 0, 0),
            Activity::Waiting { ticks, found } => (2, found, none, ticks, 0, 0),
            Activity::Inviting { now, found, former } => (3, found, former, now, 0, 0),
            Activity::Collecting => (4, none, none, 0, 0, 0),
            Activity::Handing { now, still } => (5, still, none, now, 0, 0),
            Activity::Contacting => (6, none, none, 0, 0, 0),
            Activity::Forwarding { now, still, caller, call } => {
                (7, still, none, now, caller, call)
            }
            Activity::Accepting { caller, call } => (8, none, none, 0, caller, call),
        };
        joined(&[
            &[number],
            &set.bits().to_be_bytes(),
            &former.bits().to_be_bytes(),
            &[now, caller],
            &u32::to_be_bytes(call),
        ])
    }
}

#[cfg(test)]
mod tests {
    use super::*;

    #[test]
    fn every_activity_is_read_back() {
        let set = Cabinets::from_bits(0x8001);
        let other = Cabinets::from_bits(0x0102);
        let activities = [
            Activity::Idle,
            Activity::Asking { asked: 2, found: set },
            Activity::Waiting { ticks: 15, found: set },
            Activity::Inviting { now: 3, found: set, former: other },
            Activity::Collecting,
            Activity::Handing { now: 4, still: set },
            Activity::Contacting,
            Activity::Forwarding { now: 5, still: set, caller: 6, call: 0x0102_0304 },
            Activity::Accepting { caller: 7, call: u32::MAX },
        ];
        for (number, activity) in activities.into_iter().enumerate() {
            let record = Record {
                status: Status::Election,
                counter: 0x0001_0203,
                group: 0x0405_0607,
                coordinator: 8,
                task: 0x090A,
                members: other,
                last_call: 0x0B0C_0D0E,
                activity,
            };
            let bytes = record.to_bytes();
            assert_eq!(bytes[..18], [1, 0, 1, 2, 3, 4, 5, 6, 7, 8, 9, 10, 1, 2, 11, 12, 13, 14]);
            assert_eq!(usize::from(bytes[18]), number);
            assert_eq!(Record::from_bytes(&bytes), record);
        }
    }
}
