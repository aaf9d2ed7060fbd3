//! The Bully machine (02, T-07), for small towers whose cabinets share one sound cable: its own
//! table and events. There are no messages: a call is done and answered within an event.

use crate::bytes::Reader;
use crate::event::field;
use crate::{answered, calls, Cabinets, Refusal, Status};
use std::fmt;

/// An event of the Bully machine. Any numbers may stand in it.
#[derive(Clone, Copy, Debug, PartialEq, Eq, Hash)]
pub enum Event {
    /// This cabinet stops running.
    Crash(u8),
    /// This cabinet runs again.
    Recover(u8),
    /// This coordinator asks the others whether they are Normal.
    Check(u8),
    /// This cabinet has not heard of its coordinator for too long.
    Timeout(u8),
    /// This cabinet makes its next call.
    GoOn(u8),
    /// This cabinet is elected, and gives out the task.
    #[allow(missing_docs)]
    Finish { cabinet: u8, task: u16 },
}

impl Event {
    /// Its field: tag, length of the contents in two bytes, contents.
    pub fn field(self) -> Vec<u8> {
        match self {
            Event::Crash(i) => field(0x10, &[i]),
            Event::Recover(i) => field(0x11, &[i]),
            Event::Check(i) => field(0x12, &[i]),
            Event::Timeout(i) => field(0x13, &[i]),
            Event::GoOn(i) => field(0x19, &[i]),
            Event::Finish { cabinet, task } => {
                let [high, low] = task.to_be_bytes();
                field(0x16, &[cabinet, high, low])
            }
        }
    }
}

/// How many records every table has.
const RECORDS: usize = 16;

/// The table of the Bully machine, in the library's bytes.
///
/// Of three cabinets the first recovers alone, finds nobody above it and is elected:
///
/// ```
/// use nevraspu::bully::{Event, Place, Table};
/// use nevraspu::{Refusal, Status};
///
/// let table = Table::start(3).step(Event::Recover(1))?;
/// let record = table.record(1).unwrap();
/// assert!(record.runs);
/// assert_eq!((record.status, record.place), (Status::Down, Place::Asking(2)));
///
/// let table = table.step(Event::GoOn(1))?.step(Event::GoOn(1))?;
/// assert_eq!(table.record(1).unwrap().place, Place::ReorganizationPoint);
///
/// let table = table.step(Event::Finish { cabinet: 1, task: 150 })?;
/// let record = table.record(1).unwrap();
/// assert_eq!((record.status, record.coordinator, record.task), (Status::Normal, 1, 150));
///
/// // It has no call to make.
/// assert_eq!(table.step(Event::GoOn(1)), Err(Refusal::WrongActivity));
/// # Ok::<(), Refusal>(())
/// ```
#[derive(Clone, PartialEq, Eq, Hash)]
pub struct Table([u8; Table::SIZE]);

/// The record of a cabinet.
#[derive(Clone, Copy, Debug, Default, PartialEq, Eq, Hash)]
pub struct Record {
    /// Whether it runs.
    pub runs: bool,
    /// Its status; after a recovery it is Down until the halting step, though the cabinet runs.
    pub status: Status,
    /// Its coordinator, 0 for none.
    pub coordinator: u8,
    /// Its task, 0 for none.
    pub task: u16,
    /// Who halted it last, 0 for none.
    pub halter: u8,
    /// The set Up: those that it halted in its last election.
    pub up: Cabinets,
    /// Its place in its procedure.
    pub place: Place,
}

/// The place of a cabinet in its procedure: the call that its next go on makes.
#[derive(Clone, Copy, Debug, Default, PartialEq, Eq, Hash)]
pub enum Place {
    /// No call.
    #[default]
    Idle,
    /// Whether this higher one is there.
    Asking(u8),
    /// This lower one is to stop what it does.
    Halting(u8),
    /// One of Up is told its new coordinator.
    Announcing {
        /// The one told next.
        now: u8,
        /// Those told after it.
        still: Cabinets,
    },
    /// No call: all are told, and finish sets the task.
    ReorganizationPoint,
    /// One of Up is handed the task.
    Handing {
        /// The one handed it next.
        now: u8,
        /// Those handed it after that.
        still: Cabinets,
    },
    /// Whether this one is Normal.
    Checking(u8),
    /// Whether the coordinator is there.
    Contacting,
}

impl Record {
    /// How many bytes a record has.
    const SIZE: usize = 12;

    /// Runs 1, status 1, coordinator 1, task 2, last halter 1, Up 2, place 1, cabinet 1, still 2.
    /// Runs is the lowest bit, and status and place are read by their remainders, as the library
    /// reads them; what a place does not have is not looked at.
    fn from_bytes(bytes: &[u8; Record::SIZE]) -> Record {
        let mut reader = Reader(bytes);
        Record {
            runs: reader.one() % 2 == 1,
            status: Status::from_byte(reader.one()),
            coordinator: reader.one(),
            task: reader.two(),
            halter: reader.one(),
            up: Cabinets::from_bits(reader.two()),
            place: {
                let number = reader.one() % 8;
                let now = reader.one();
                let still = Cabinets::from_bits(reader.two());
                match number {
                    0 => Place::Idle,
                    1 => Place::Asking(now),
                    2 => Place::Halting(now),
                    3 => Place::Announcing { now, still },
                    4 => Place::ReorganizationPoint,
                    5 => Place::Handing { now, still },
                    6 => Place::Checking(now),
                    _ => Place::Contacting,
                }
            },
        }
    }
}

impl Table {
    /// How many bytes a table has.
    pub const SIZE: usize = 1 + RECORDS * Record::SIZE;

    /// The starting table of n cabinets, for n from 1 to 16. With another n every event is refused.
    pub fn start(n: u8) -> Table {
        let mut bytes = [0; Table::SIZE];
        bytes[0] = n;
        Table(bytes)
    }

    /// The table of these bytes, whatever they are. On one that is not in range every event is
    /// refused.
    pub fn from_bytes(bytes: &[u8; Table::SIZE]) -> Table {
        Table(*bytes)
    }

    /// Its bytes.
    pub fn as_bytes(&self) -> &[u8; Table::SIZE] {
        &self.0
    }

    /// How many cabinets there are.
    pub fn cabinets(&self) -> u8 {
        self.0[0]
    }

    /// The record of a cabinet; None where it is no cabinet of this table.
    pub fn record(&self, cabinet: u8) -> Option<Record> {
        let place = usize::from(cabinet).checked_sub(1)?;
        let there = cabinet <= self.cabinets() && place < RECORDS;
        there.then(|| {
            let bytes = self.0[1 + place * Record::SIZE..].first_chunk();
            Record::from_bytes(bytes.expect("a table has 16 records"))
        })
    }

    /// The table after an event.
    pub fn step(&self, event: Event) -> Result<Table, Refusal> {
        let mut after = [0; Table::SIZE];
        answered(calls::bully_step(self.as_bytes(), &event.field(), &mut after))?;
        Ok(Table(after))
    }
}

/// Its records.
impl fmt::Debug for Table {
    fn fmt(&self, f: &mut fmt::Formatter) -> fmt::Result {
        let records = (1..=self.cabinets()).map_while(|cabinet| self.record(cabinet));
        f.debug_tuple("Table").field(&records.collect::<Vec<Record>>()).finish()
    }
}

#[cfg(test)]
mod tests {
    use super::*;

    #[test]
    fn each_part_of_a_record_is_read() {
        let place = |number| {
            let bytes = [1, 2, 3, 0, 150, 4, 0, 5, number, 6, 0x80, 1];
            let record = Record::from_bytes(&bytes);
            assert!(record.runs);
            assert_eq!(record.status, Status::Reorganization);
            assert_eq!((record.coordinator, record.task, record.halter), (3, 150, 4));
            assert_eq!(record.up, Cabinets::from_bits(5));
            record.place
        };
        let still = Cabinets::from_bits(0x8001);
        assert_eq!(place(0), Place::Idle);
        assert_eq!(place(1), Place::Asking(6));
        assert_eq!(place(2), Place::Halting(6));
        assert_eq!(place(3), Place::Announcing { now: 6, still });
        assert_eq!(place(4), Place::ReorganizationPoint);
        assert_eq!(place(5), Place::Handing { now: 6, still });
        assert_eq!(place(6), Place::Checking(6));
        assert_eq!(place(7), Place::Contacting);
    }

    #[test]
    fn the_second_announcing_and_handing() {
        // Three cabinets; the third bullies the others.
        let mut table = Table::start(3);
        let mut step = |event| {
            table = table.step(event).expect("accepted");
            table.record(3).expect("cabinet 3").place
        };
        step(Event::Recover(1));
        step(Event::Recover(2));
        assert_eq!(step(Event::Recover(3)), Place::Halting(2));
        assert_eq!(step(Event::GoOn(3)), Place::Halting(1));
        let still = Cabinets::from_bits(1);
        assert_eq!(step(Event::GoOn(3)), Place::Announcing { now: 2, still });
        step(Event::GoOn(3));
        assert_eq!(step(Event::GoOn(3)), Place::ReorganizationPoint);
        let finish = Event::Finish { cabinet: 3, task: 65_535 };
        assert_eq!(step(finish), Place::Handing { now: 2, still });
        assert_eq!(step(Event::Crash(3)), Place::Idle);
        assert_eq!(table.record(3).map(|record| record.task), Some(65_535));
        assert_eq!(table.record(4), None);
        assert_eq!(table.record(0), None);
    }
}
