//! "From any table in range, running n of these over one message queue answers as the whole table does, event by
//! event, apart from lose, deliver with nothing waiting, and grounds 14 and 17, which belong to the queue" (T-11). A
//! library's n controllers are run over one queue of messages in bytes, beside the library's own step on the whole
//! table. What belongs to the queue is decided here, from the papers.

use crate::compare::{event_words, Difference, Lent};
use crate::controller::bytes::{written, SHARE_BYTES};
use crate::controller::compare::{call, Made};
use crate::controller::corners::Corners;
use crate::controller::message::{decode, encode};
use crate::controller::reading::{Given, Input};
use crate::controller::records::{in_another_form, record_bytes};
use crate::corners::{acting, Source};
use crate::history::Checker;
use crate::list::write_event;
use crate::machine::{
    count_mut, count_of, Event, Limits, Status, Table, Traffic, MAX_COUNT, MAX_NODES,
};
use crate::numbers::Numbers;
use crate::proved::{
    node_from_bytes, record, status_from_byte, table_from_bytes, table_to_bytes, Library,
    TableBytes, NODE_BYTES, TABLE_BYTES,
};
use crate::shortest::shortest;
use crate::vectors::table_text;

/// How many bytes behind what is written are looked at.
const BEHIND: usize = 8;

/// Events one after another, with where they begin.
#[derive(Clone, Debug)]
pub struct Walk {
    /// A run is from the starting table.
    pub source: Source,
    pub start: Table,
    pub events: Vec<Event>,
    /// A seed: then each record is given in another form of its bytes.
    pub noise: Option<u64>,
}

/// n cabinets and what is on its way between them.
struct Cable<'a, L> {
    library: &'a L,
    source: Source,
    n: u8,
    limits: Limits,
    /// Each cabinet's record, of which its controller is given nothing but its own.
    records: Vec<[u8; NODE_BYTES]>,
    /// The waiting messages in the order sent, each with its pair, which the cable knows by its ends.
    messages: Vec<((u8, u8), Vec<u8>)>,
    traffic: Traffic,
    noise: bool,
    numbers: Numbers,
    lent: Lent,
}

impl<'a, L: Library> Cable<'a, L> {
    fn new(library: &'a L, walk: &Walk) -> Cable<'a, L> {
        let start = &walk.start;
        let mut numbers = Numbers::new(walk.noise.unwrap_or(0));
        Cable {
            library,
            source: walk.source,
            n: start.n,
            limits: start.limits,
            records: (1..=start.n).map(|i| record_bytes(start.node(i))).collect(),
            messages: start.messages.iter().map(|m| ((m.sender, m.receiver), encode(m))).collect(),
            traffic: start.traffic.clone(),
            noise: walk.noise.is_some(),
            lent: Lent::new(SHARE_BYTES + BEHIND, &mut numbers),
            numbers,
        }
    }

    /// Gives an event or a message to the controller of a cabinet.
    fn give(&mut self, own: u8, input: Input, corners: &mut Corners) -> Result<u8, String> {
        let record = &self.records[usize::from(own) - 1];
        let record = match self.noise {
            true => in_another_form(record, &mut self.numbers),
            false => record.to_vec(),
        };
        let given = Given { n: self.n, own, record, input };
        let lent = &mut self.lent;
        lent.renew(&mut self.numbers);
        call(self.library, self.source, &given, Made::default(), lent, corners)
            .map_err(|words| format!("the controller of {own}: {words}"))
    }

    /// Takes what an accepted call wrote, and puts its message behind the others, if there is one and the queue has
    /// room: without the delivered one, if there was one.
    fn take(&mut self, own: u8, delivered: Option<usize>) -> Result<u8, String> {
        let (record, message) = written(&self.lent.now).ok_or("nothing is written")?;
        let sent = match message {
            [] => None,
            [_, _, _, sender, receiver, ..] => Some(((*sender, *receiver), message.to_vec())),
            _ => return Err("the message has no receiver".to_string()),
        };
        if let Some(((a, b), _)) = sent {
            let inside = 1..=self.n;
            if a != own || !inside.contains(&b) || b == own {
                return Err(format!("{own} sends a message from {a} to {b}"));
            }
            // "a message is needed, 64 wait (a delivered one is already out)", or 12 on the stand
            let waiting = self.messages.len() - usize::from(delivered.is_some());
            if waiting >= usize::from(self.limits.messages) {
                return Ok(14);
            }
            // "a message must be sent and its pair's sent count is 33,554,430"
            if count_of(&self.traffic.sent, a, b) == MAX_COUNT {
                return Ok(17);
            }
            *count_mut(&mut self.traffic.sent, a, b) += 1;
        }
        self.records[usize::from(own) - 1] = *record;
        if let Some(place) = delivered {
            let ((a, b), _) = self.messages.remove(place);
            *count_mut(&mut self.traffic.delivered, a, b) += 1;
        }
        self.messages.extend(sent);
        Ok(0)
    }

    fn event(&mut self, event: &Event, corners: &mut Corners) -> Result<u8, String> {
        let answer = match *event {
            Event::Deliver(a, b) => self.deliver(a, b, corners)?,
            Event::Lose(a, b) => self.lose(a, b),
            _ => {
                let mut field = Vec::with_capacity(8);
                write_event(&mut field, event);
                self.elsewhere(event, &field, corners)?;
                // An event of no cabinet reaches any.
                let inside = (1..=self.n).contains(&acting(event));
                let any = self.numbers.between(1, u32::from(self.n)) as u8;
                let own = if inside { acting(event) } else { any };
                match self.give(own, Input::Field(field), corners)? {
                    0 => self.take(own, None)?,
                    number => number,
                }
            }
        };
        corners.queue_event(self.source, self.limits, event, answer);
        Ok(answer)
    }

    /// Now and then the event reaches another controller too, which refuses it.
    fn elsewhere(
        &mut self,
        event: &Event,
        field: &[u8],
        corners: &mut Corners,
    ) -> Result<(), String> {
        let own = self.numbers.between(1, u32::from(self.n)) as u8;
        if own == acting(event) || !self.numbers.one_in(4) {
            return Ok(());
        }
        match self.give(own, Input::Field(field.to_vec()), corners)? {
            7 | 8 | 21 => {
                corners.elsewhere(self.source);
                Ok(())
            }
            number => Err(format!("the controller of {own} answers {number}")),
        }
    }

    fn is_pair(&self, a: u8, b: u8) -> bool {
        let inside = 1..=self.n;
        inside.contains(&a) && inside.contains(&b) && a != b
    }

    /// The place of the oldest of a pair.
    fn oldest(&self, a: u8, b: u8) -> Option<usize> {
        self.messages.iter().position(|(pair, _)| *pair == (a, b))
    }

    /// The oldest of the pair goes to its receiver's controller.
    fn deliver(&mut self, a: u8, b: u8, corners: &mut Corners) -> Result<u8, String> {
        if !self.is_pair(a, b) {
            return Ok(7);
        }
        let Some(place) = self.oldest(a, b) else {
            // With nothing waiting no controller is asked; 9 stands before 11.
            let down = status_from_byte(self.records[usize::from(b) - 1][0]) == Status::Down;
            if down {
                corners.nothing_for_down(self.source);
            }
            return Ok(if down { 9 } else { 11 });
        };
        let message = self.messages[place].1.clone();
        match self.give(b, Input::Message(message), corners)? {
            0 => self.take(b, Some(place)),
            number => Ok(number),
        }
    }

    fn lose(&mut self, a: u8, b: u8) -> u8 {
        if !self.is_pair(a, b) {
            return 7;
        }
        match self.oldest(a, b) {
            None => 11,
            Some(place) => {
                self.messages.remove(place);
                *count_mut(&mut self.traffic.lost, a, b) += 1;
                0
            }
        }
    }

    /// The table that the cabinets and the cable are together.
    fn table(&self) -> Option<Table> {
        let mut table = Table::start(self.n, self.limits);
        for (node, record) in table.nodes.iter_mut().zip(&self.records) {
            *node = node_from_bytes(record);
        }
        for (_, bytes) in &self.messages {
            table.messages.push(decode(bytes)?);
        }
        table.traffic = self.traffic.clone();
        Some(table)
    }

    /// What is not as in the whole table.
    fn differs(&self, whole: &TableBytes) -> Option<String> {
        for i in 1..=self.n.min(MAX_NODES) {
            if self.records[usize::from(i) - 1] != record(whole, i) {
                return Some(format!("the record of {i} is another than the whole table's"));
            }
        }
        let whole = table_from_bytes(whole);
        let waiting: Vec<Vec<u8>> = whole.messages.iter().map(encode).collect();
        if !self.messages.iter().map(|(_, bytes)| bytes).eq(&waiting) {
            return Some("other messages wait than in the whole table".to_string());
        }
        (self.traffic != whole.traffic)
            .then(|| "the counts are others than the whole table's".to_string())
    }
}

/// Each event at its cabinet's controller and on the whole table, through the library. The answers must be the same,
/// and after each event the records, the waiting messages and the counts. In a run demand 3 is checked on them.
pub fn walk_difference(
    library: &impl Library,
    walk: &Walk,
    corners: &mut Corners,
) -> Option<Difference> {
    let mut cable = Cable::new(library, walk);
    let mut whole: TableBytes = [0; TABLE_BYTES];
    table_to_bytes(&walk.start, &mut whole);
    let mut out: TableBytes = [0; TABLE_BYTES];
    let run = walk.source == Source::Run;
    let mut checker = run.then(|| Checker::new(walk.start.n, walk.start.limits));
    for (k, event) in walk.events.iter().enumerate() {
        let events = k + 1;
        let fault = |words: String| {
            let words = format!("event {events}, {}: {words}", event_words(event));
            Some(Difference { events, words })
        };
        let mut field = Vec::with_capacity(8);
        write_event(&mut field, event);
        let by_table = library.step(&whole, &field, &mut out);
        if by_table == 0 {
            whole = out;
        }
        let answer = match cable.event(event, corners) {
            Ok(answer) => answer,
            Err(words) => return fault(words),
        };
        if answer != by_table {
            return fault(format!("answered {answer}, by the whole table {by_table}"));
        }
        if let Some(words) = cable.differs(&whole) {
            return fault(words);
        }
        if let Some(checker) = &mut checker {
            let Some(table) = cable.table() else {
                return fault("a waiting message is none".to_string());
            };
            match checker.check(event, &table) {
                Err(words) => return fault(words),
                Ok(entry) if entry.answer.err().unwrap_or(0) != answer => {
                    return fault(format!("answered {answer}, by the history {:?}", entry.answer));
                }
                Ok(_) => {}
            }
        }
    }
    None
}

/// A difference in words, with as few of the events as still show one.
pub fn tell_walk(library: &impl Library, walk: &Walk) -> String {
    let found = |events: &[Event]| {
        let walk = Walk { events: events.to_vec(), ..walk.clone() };
        walk_difference(library, &walk, &mut Corners::default())
    };
    let mut events = walk.events.clone();
    if let Some(found) = found(&events) {
        events.truncate(found.events);
    }
    let events = shortest(events, |events| found(events).is_some());
    let names: Vec<String> = events.iter().map(event_words).collect();
    format!(
        "n controllers over one queue, from a table, n {}:\n{}{}\n{}",
        walk.start.n,
        table_text(&walk.start),
        names.join(", "),
        found(&events).map(|found| found.words).unwrap_or_default()
    )
}
