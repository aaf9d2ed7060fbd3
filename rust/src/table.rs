//! The table of all cabinets and waiting messages, and what the library makes of it.

use crate::bytes::Reader;
use crate::{answered, calls, Event, Message, Pair, Record, Refusal};
use std::fmt;

/// How many records, and how many places for messages, every table has.
const RECORDS: usize = 16;
const MESSAGES: usize = 64;
/// Where the parts of a table are.
const RECORDS_AT: usize = 1;
const MESSAGES_AT: usize = RECORDS_AT + RECORDS * Record::SIZE;
const WAITING_AT: usize = MESSAGES_AT + MESSAGES * Message::SIZE;
const COUNTS_AT: usize = WAITING_AT + 1;
/// The counts of all pairs, for each of sent, delivered and lost.
const COUNTS_SIZE: usize = RECORDS * RECORDS * 4;
const LIMITS_AT: usize = COUNTS_AT + 3 * COUNTS_SIZE;

/// The table of the tower or of the practice stand, in the library's bytes.
///
/// 01's case K10, two cabinets that come together:
///
/// ```
/// use nevraspu::{Event, Refusal, Status, Table};
///
/// let deliver = |sender, receiver| Event::Deliver { sender, receiver };
/// let mut table = Table::tower(2);
/// for event in [
///     Event::Recover(1),
///     Event::Recover(2),
///     Event::Check(2), // it asks cabinet 1
///     deliver(2, 1),
///     deliver(1, 2), // it has found 1, and invites it
///     deliver(2, 1),
///     deliver(1, 2), // 1 has accepted
///     deliver(2, 1),
///     deliver(1, 2),
///     Event::Finish { cabinet: 2, task: 100 },
///     deliver(2, 1),
///     deliver(1, 2),
/// ] {
///     table = table.step(event)?;
/// }
/// for cabinet in 1..=table.cabinets() {
///     let record = table.record(cabinet).unwrap();
///     assert_eq!(record.status, Status::Normal);
///     assert_eq!((record.coordinator, record.group, record.task), (2, 33, 100));
/// }
/// assert!(table.record(2).unwrap().members.contains(1));
///
/// // What is refused changes nothing: there is no message left.
/// assert_eq!(table.step(deliver(1, 2)), Err(Refusal::NoMessage));
/// # Ok::<(), Refusal>(())
/// ```
#[derive(Clone, PartialEq, Eq, Hash)]
pub struct Table(Box<[u8; Table::SIZE]>);

/// How many messages of a pair were sent, delivered and lost.
#[derive(Clone, Copy, Debug, Default, PartialEq, Eq, Hash)]
#[allow(missing_docs)]
pub struct Counts {
    pub sent: u32,
    pub delivered: u32,
    pub lost: u32,
}

/// What a turn of the round has done.
#[derive(Clone, Debug, PartialEq, Eq)]
pub struct Turn {
    /// The table after it.
    pub table: Table,
    /// The place of the next turn.
    pub next: Pair,
    /// What was done.
    pub done: Done,
}

/// What a turn did with the oldest message of its pair.
#[derive(Clone, Copy, Debug, PartialEq, Eq, Hash)]
pub enum Done {
    /// There was none.
    Nothing,
    /// It was delivered.
    Delivered,
    /// It was lost.
    Lost,
}

impl Table {
    /// How many bytes a table has.
    pub const SIZE: usize = LIMITS_AT + 2;

    /// The starting table of n cabinets in the tower, for n from 1 to 16. With another n every
    /// event is refused.
    ///
    /// ```
    /// use nevraspu::{Event, Refusal, Table};
    /// assert_eq!(Table::tower(17).step(Event::Recover(1)), Err(Refusal::NotInRange));
    /// ```
    pub fn tower(n: u8) -> Table {
        Table::start(n, 16, 64)
    }

    /// The starting table of n cabinets on the practice stand, for n from 1 to 4: at most 12
    /// messages wait. With another n every event is refused.
    pub fn stand(n: u8) -> Table {
        Table::start(n, 4, 12)
    }

    fn start(n: u8, most_cabinets: u8, most_messages: u8) -> Table {
        let mut bytes = Box::new([0; Table::SIZE]);
        bytes[0] = n;
        bytes[LIMITS_AT..].copy_from_slice(&[most_cabinets, most_messages]);
        Table(bytes)
    }

    /// The table of these bytes, whatever they are. On one that is not in range every event is
    /// refused.
    pub fn from_bytes(bytes: &[u8; Table::SIZE]) -> Table {
        Table(Box::new(*bytes))
    }

    /// Its bytes.
    pub fn as_bytes(&self) -> &[u8; Table::SIZE] {
        &self.0
    }

    /// How many cabinets there are.
    pub fn cabinets(&self) -> u8 {
        self.0[0]
    }

    /// How many cabinets there may be: 16, on the stand 4.
    pub fn most_cabinets(&self) -> u8 {
        self.0[LIMITS_AT]
    }

    /// How many messages may wait: 64, on the stand 12.
    pub fn most_messages(&self) -> u8 {
        self.0[LIMITS_AT + 1]
    }

    /// The record of a cabinet; None where it is no cabinet of this table.
    pub fn record(&self, cabinet: u8) -> Option<Record> {
        let place = usize::from(cabinet).checked_sub(1)?;
        let there = cabinet <= self.cabinets() && place < RECORDS;
        there.then(|| {
            let bytes = self.0[RECORDS_AT + place * Record::SIZE..].first_chunk();
            Record::from_bytes(bytes.expect("a table has 16 records"))
        })
    }

    /// The waiting messages, in the order sent.
    ///
    /// ```
    /// use nevraspu::{Body, Event, Message, Pair, Table};
    ///
    /// let mut table = Table::stand(2);
    /// for event in [Event::Recover(1), Event::Recover(2), Event::Check(2)] {
    ///     table = table.step(event).unwrap();
    /// }
    /// let asks = Message { sender: 2, receiver: 1, call: 1, body: Body::AreYouCoordinator };
    /// assert_eq!(table.messages(), [asks]);
    /// assert_eq!(table.counts(Pair::new(2, 1)).unwrap().sent, 1);
    /// ```
    pub fn messages(&self) -> Vec<Message> {
        let places = self.0[MESSAGES_AT..WAITING_AT].chunks_exact(Message::SIZE);
        places
            .take(usize::from(self.0[WAITING_AT]))
            .map(|place| Message::from_bytes(place.try_into().expect("a message's place")))
            .collect()
    }

    /// How many messages of a pair were sent, delivered and lost; None where it is no pair of two
    /// cabinets of this table.
    pub fn counts(&self, pair: Pair) -> Option<Counts> {
        let Pair { sender, receiver } = pair;
        let cabinets = 1..=self.cabinets().min(RECORDS as u8);
        if sender == receiver || !cabinets.contains(&sender) || !cabinets.contains(&receiver) {
            return None;
        }
        let place = usize::from(sender - 1) * RECORDS + usize::from(receiver - 1);
        let count = |k: usize| Reader(&self.0[COUNTS_AT + k * COUNTS_SIZE + place * 4..]).four();
        Some(Counts { sent: count(0), delivered: count(1), lost: count(2) })
    }

    /// The table after an event.
    pub fn step(&self, event: Event) -> Result<Table, Refusal> {
        let mut after = Box::new([0; Table::SIZE]);
        answered(calls::step(self.as_bytes(), &event.field(), after.as_mut_slice()))?;
        Ok(Table(after))
    }

    /// The eight records of a cabinet's recovery, one after each assignment of Garcia-Molina's
    /// paper: Election, counter, group, coordinator, members, Reorganization, task, Normal. It is
    /// refused as the event recover is.
    ///
    /// ```
    /// use nevraspu::{Event, Refusal, Status, Table};
    ///
    /// let table = Table::tower(3);
    /// let records = table.recovery(2)?;
    /// let of_each = records.map(|record| (record.status, record.counter, record.group, record.task));
    /// assert_eq!(of_each, [
    ///     (Status::Election, 0, 0, 0),
    ///     (Status::Election, 1, 0, 0),
    ///     (Status::Election, 1, 17, 0),
    ///     (Status::Election, 1, 17, 0), // coordinator 2
    ///     (Status::Election, 1, 17, 0), // no members
    ///     (Status::Reorganization, 1, 17, 0),
    ///     (Status::Reorganization, 1, 17, 2),
    ///     (Status::Normal, 1, 17, 2),
    /// ]);
    /// let recovered = table.step(Event::Recover(2))?;
    /// assert_eq!(recovered.record(2), Some(records[7]));
    /// assert_eq!(recovered.recovery(2), Err(Refusal::WrongStatus));
    /// # Ok::<(), Refusal>(())
    /// ```
    pub fn recovery(&self, cabinet: u8) -> Result<[Record; 8], Refusal> {
        let mut out = [0; 8 * Record::SIZE];
        answered(calls::recovery(self.as_bytes(), cabinet, &mut out))?;
        let record = |k: usize| out[k * Record::SIZE..].first_chunk().expect("eight records");
        Ok(std::array::from_fn(|k| Record::from_bytes(record(k))))
    }

    /// A turn of the driver, which goes round the pairs of cabinets and delivers, or loses, the
    /// oldest message of each. Any pair is answered; a round goes on at the place that the last
    /// turn left.
    ///
    /// ```
    /// use nevraspu::{Done, Event, Pair, Refusal, Table};
    ///
    /// let mut table = Table::tower(3);
    /// for event in [Event::Recover(1), Event::Recover(3), Event::Check(3)] {
    ///     table = table.step(event)?;
    /// }
    /// // 3 asks 1 whether it coordinates; there is nothing yet from 1 to 2.
    /// let turn = table.turn(Pair::new(1, 2))?;
    /// assert_eq!((turn.done, turn.next), (Done::Nothing, Pair::new(1, 3)));
    /// let turn = turn.table.turn(Pair::new(3, 1))?;
    /// assert_eq!((turn.done, turn.next), (Done::Delivered, Pair::new(3, 2)));
    /// // 1 has replied; then 3 asks 2, which is Down.
    /// let turn = turn.table.turn(Pair::new(1, 3))?;
    /// let turn = turn.table.turn(Pair::new(3, 2))?;
    /// assert_eq!((turn.done, turn.next), (Done::Lost, Pair::new(1, 2)));
    /// assert_eq!(table.turn(Pair::new(3, 3)), Err(Refusal::WrongNumber));
    /// # Ok::<(), Refusal>(())
    /// ```
    pub fn turn(&self, at: Pair) -> Result<Turn, Refusal> {
        let mut out = [0; Table::SIZE + 3];
        answered(calls::turn(self.as_bytes(), at.sender, at.receiver, &mut out))?;
        let (table, behind) = out.split_first_chunk().expect("a table");
        let done = match behind[2] {
            0 => Done::Nothing,
            1 => Done::Delivered,
            _ => Done::Lost,
        };
        Ok(Turn { table: Table::from_bytes(table), next: Pair::new(behind[0], behind[1]), done })
    }
}

/// Its cabinets and messages; the counts are left out.
impl fmt::Debug for Table {
    fn fmt(&self, f: &mut fmt::Formatter) -> fmt::Result {
        let records = (1..=self.cabinets()).map_while(|cabinet| self.record(cabinet));
        f.debug_struct("Table")
            .field("records", &records.collect::<Vec<Record>>())
            .field("messages", &self.messages())
            .finish_non_exhaustive()
    }
}
