//! Counts what the compared calls of controllers met, and judges them: each must be answered and leave its buffer as
//! `reading.rs` says, which reads the papers apart from the controller, and as the damage that was done demands.

use crate::compare::Lent;
use crate::controller::bytes::{written, SHARE_BYTES};
use crate::controller::damage::{damages_of, Damage, FORMS, IN_RANGE_FROM, NUMBERS};
use crate::controller::reading::{
    of_kind, read, read_message, Given, Input, Reading, ACCEPT, ARE_YOU_COORDINATOR, ARE_YOU_THERE,
    CHECK, CRASH, EXPIRE, FINISH, INVITATION, NO_FIELD, NO_KIND, ORDER, READY, RECOVER, REPLY,
    TICK, TIMEOUT, WHATS,
};
use crate::controller::records::{record_bytes, rule_names};
use crate::corners::{event_name, Source, ACTIVITIES, EVENTS};
use crate::list::first_field;
use crate::machine::{Body, Event, Limits, Message, MAX_NODES, STAND};
use crate::proved::{tag, NODE_BYTES, TOO_SHORT};
use crate::tally::Where::{self, Both, Either, Tables};
use crate::tally::{Book, Tally};

/// What is met.
#[derive(Clone, Copy, Debug, PartialEq, Eq, Hash)]
enum Corner {
    /// What was given, by its place in `WHATS`, and the ground.
    Refused(usize, u8),
    /// The ground that was given, and another that applies too.
    TwoGrounds(usize, u8, u8),
    /// With the activity's number.
    Accepted(usize, u8),
    /// With what went out, by its place in `SENT`.
    Sent(usize, usize),
    Nodes(u8),
    Own(u8),
    /// A message of this kind with this damage, where its bytes were looked at.
    Damaged(u8, Damage),
    /// The place of a rule of the range.
    Broken(usize),
    /// The buffer is too short, and this ground applies too: for an event or for a message.
    TooShort(&'static str, u8),
    /// Of an event or a message, and how its bytes, the record's or the buffer's are.
    Form(&'static str, &'static str),
    /// An event of n controllers over one queue.
    Queue(&'static str),
    QueueRefused(u8),
}
use Corner::*;

/// What goes out: nothing, or a kind; a reply that says no stands last.
const SENT: [&str; 8] = [
    "nothing",
    "AreYouCoordinator",
    "AreYouThere",
    "Invitation",
    "Accept",
    "Ready",
    "reply, yes",
    "reply, no",
];

const EVENT: &str = "event";
const MESSAGE: &str = "message";

/// How records and buffers are, for an event and for a message.
const FOR_BOTH: [&str; 8] = [
    "the record cut short",
    "the record longer",
    "the record in other bytes of the same",
    "55 bytes lent",
    "more bytes lent",
    "answered 255, no byte",
    "answered 255, 54 bytes",
    "answered 255, fewer bytes",
];

/// How fields are.
const FIELDS: [&str; 12] = [
    "bytes behind it",
    "no bytes",
    "1 or 2 bytes",
    "fewer contents than its length",
    "deliver",
    "deliver of another length",
    "lose",
    "lose of another length",
    "0x01",
    "0x02",
    "an unknown tag",
    "a length wrong for its tag",
];

/// The grounds that can be met by what is given, in their order.
fn grounds_of(what: usize) -> &'static [u8] {
    match what {
        CRASH => &[1, 7, 21, 9],
        RECOVER => &[1, 7, 21, 9, 12],
        CHECK => &[1, 7, 21, 9, 10, 18, 13],
        TIMEOUT => &[1, 7, 21, 9, 10, 13],
        TICK | EXPIRE => &[1, 7, 21, 9, 10, 12, 13],
        FINISH => &[1, 7, 8, 21, 9, 10, 19, 13],
        NO_FIELD => &[3, 4, 5],
        NO_KIND => &[1, 20],
        INVITATION => &[1, 20, 21, 9, 13],
        REPLY => &[1, 20, 21, 9, 12, 13],
        _ => &[1, 20, 21, 9],
    }
}

/// Those of them that can apply together: the first is given.
fn two_grounds_of(what: usize) -> Vec<(u8, u8)> {
    if what == NO_FIELD {
        return vec![(3, 1), (4, 1), (5, 1)];
    }
    if what == NO_KIND {
        return vec![(1, 20), (1, 21), (1, 9), (20, 21), (20, 9)];
    }
    let grounds = grounds_of(what);
    let mut two = Vec::new();
    for (k, &first) in grounds.iter().enumerate() {
        two.extend(grounds[k + 1..].iter().map(|&later| (first, later)));
    }
    two.retain(|&two| match two {
        // A Down one is idle.
        (9, 10) => ![CHECK, TIMEOUT].contains(&what),
        // A full peal's task is none that is refused by 8.
        (8, 19) => false,
        _ => true,
    });
    two
}

/// The activities at which it can be accepted, by their numbers.
fn activities_of(what: usize) -> &'static [u8] {
    match what {
        // A Down one is idle.
        RECOVER | CHECK | TIMEOUT => &[0],
        TICK => &[2],
        EXPIRE => &[1, 3, 5, 6, 7, 8],
        FINISH => &[4],
        NO_FIELD | NO_KIND => &[],
        _ => &[0, 1, 2, 3, 4, 5, 6, 7, 8],
    }
}

/// What can go out, by its places in `SENT`.
fn sent_of(what: usize) -> &'static [usize] {
    match what {
        CRASH | RECOVER => &[0],
        CHECK => &[0, 1],
        TIMEOUT => &[0, 2],
        TICK => &[0, 3],
        EXPIRE => &[0, 1, 3, 4],
        FINISH => &[0, 5],
        ARE_YOU_COORDINATOR | ARE_YOU_THERE => &[6, 7],
        INVITATION => &[3, 4, 6],
        ACCEPT | READY => &[6],
        REPLY => &[0, 1, 3, 4, 5, 6],
        _ => &[],
    }
}

/// Every corner that the papers make possible.
fn possible() -> Vec<(Corner, Where)> {
    let mut corners = Vec::new();
    for what in 0..WHATS.len() {
        corners.extend(grounds_of(what).iter().map(|&number| Refused(what, number)));
        let two = two_grounds_of(what);
        corners.extend(two.iter().map(|&(first, later)| TwoGrounds(what, first, later)));
        corners.extend(activities_of(what).iter().map(|&activity| Accepted(what, activity)));
        corners.extend(sent_of(what).iter().map(|&sent| Sent(what, sent)));
    }
    corners.extend((1..=MAX_NODES).flat_map(|number| [Nodes(number), Own(number)]));
    for kind in 1..=6 {
        corners.extend(damages_of(kind).iter().map(|&damage| Damaged(kind, damage)));
    }
    corners.extend((0..rule_names().count()).map(Broken));
    corners.extend([1, 3, 4, 5, 7, 8, 21, 9, 10, 18, 19, 12, 13].map(|n| TooShort(EVENT, n)));
    corners.extend([1, 20, 21, 9, 12, 13].map(|number| TooShort(MESSAGE, number)));
    corners.extend(FOR_BOTH.iter().flat_map(|&how| [Form(EVENT, how), Form(MESSAGE, how)]));
    corners.extend(FIELDS.map(|how| Form(EVENT, how)));
    let mut corners: Vec<(Corner, Where)> =
        corners.into_iter().map(|corner| (corner, Either)).collect();
    corners.extend(EVENTS.map(|name| (Queue(name), Both)));
    corners.extend(QUEUE.map(|name| (Queue(name), Either)));
    corners.extend(["tower", "stand"].map(|rig| (Queue(rig), Both)));
    corners.extend([7, 8, 9, 10, 11, 14, 18, 19].map(|number| (QueueRefused(number), Both)));
    // No run here is so long; and T-05: "From the starting table no event ever meets the new ground" 17.
    corners.extend([12, 13, 17].map(|number| (QueueRefused(number), Tables)));
    corners
}

/// What else n controllers over one queue meet.
const QUEUE: [&str; 2] = ["nothing waiting, the receiver Down", "refused by another controller"];

/// A call of a controller.
pub struct Call<'a> {
    pub given: &'a Given,
    /// The kind of the message and what was done to its bytes, if something was.
    pub damage: Option<(u8, Damage)>,
    /// The rule that was broken in the numbers or the record, if one was.
    pub broken: Option<usize>,
    pub answer: u8,
    /// The lent buffer after the call.
    pub lent: &'a Lent,
}

/// How often each corner was met, in runs and on tables.
#[derive(Clone, Debug)]
pub struct Corners(Tally<Corner>);

impl Default for Corners {
    fn default() -> Corners {
        Corners(Tally::new(possible, words))
    }
}

impl Corners {
    fn add(&mut self, source: Source, corner: Corner) {
        self.0.add(source, corner);
    }

    /// Counts a call with what followed. The error says in words what must not follow.
    pub fn call(&mut self, source: Source, call: &Call) -> Result<(), String> {
        let Call { given, answer, lent, .. } = *call;
        let room = lent.now.len();
        let reading = read(given, room);
        if answer != reading.answer {
            return Err(format!("answered {answer}, by the grounds {}", reading.answer));
        }
        judge_construction(call, reading.answer)?;
        let (kept, how) = if answer == 0 { (SHARE_BYTES, "accepted") } else { (0, "refused") };
        if let Some(place) = lent.changed(kept) {
            return Err(format!("{how}, and byte {place} of the buffer has changed"));
        }
        let function = if matches!(given.input, Input::Field(_)) { EVENT } else { MESSAGE };
        self.grounds(source, function, room, &reading);
        if let (Some(rule), 1) = (call.broken, answer) {
            self.add(source, Broken(rule));
        }
        if let (Some((kind, damage)), true) = (call.damage, ![1, TOO_SHORT].contains(&answer)) {
            self.add(source, Damaged(kind, damage));
        }
        if let (Input::Field(field), 3..=5) = (&given.input, answer) {
            self.add(source, Form(EVENT, no_field(field, answer)));
        }
        let Some((after, sent)) = &reading.after else {
            return Ok(());
        };
        judge_share(given.n, lent, &record_bytes(after), sent.as_ref())?;
        let what = reading.what;
        self.add(source, Accepted(what, tag(&reading.before.activity)));
        self.add(source, Sent(what, sent_place(sent.as_ref())));
        self.add(source, Nodes(given.n));
        self.add(source, Own(given.own));
        self.forms(source, function, given, room);
        Ok(())
    }

    /// Counts the ground that was given, and those that apply too.
    fn grounds(&mut self, source: Source, function: &'static str, room: usize, reading: &Reading) {
        let Reading { what, answer, applies, .. } = *reading;
        let later = || {
            let applying = ORDER.iter().zip(applies).filter(|(_, applies)| *applies);
            applying.map(|(number, _)| *number).skip(1)
        };
        match answer {
            0 => {}
            TOO_SHORT => {
                let fewer = match room {
                    0 => FOR_BOTH[5],
                    54 => FOR_BOTH[6],
                    _ => FOR_BOTH[7],
                };
                self.add(source, Form(function, fewer));
                for number in later() {
                    self.add(source, TooShort(function, number));
                }
            }
            number => {
                self.add(source, Refused(what, number));
                for later in later() {
                    self.add(source, TwoGrounds(what, number, later));
                }
            }
        }
    }

    /// Counts by the forms of what an accepted call was given.
    fn forms(&mut self, source: Source, function: &'static str, given: &Given, room: usize) {
        let record = &given.record;
        let at = |place: usize| record.get(place).copied().unwrap_or(0);
        let behind = match &given.input {
            Input::Field(field) => field.get(2).is_some_and(|&l| field.len() > usize::from(l) + 3),
            Input::Message(_) => false,
        };
        let met = [
            (record.len() < NODE_BYTES, FOR_BOTH[0]),
            (record.len() > NODE_BYTES, FOR_BOTH[1]),
            (at(0) > 3 || at(18) > 8, FOR_BOTH[2]),
            (room == SHARE_BYTES, FOR_BOTH[3]),
            (room > SHARE_BYTES, FOR_BOTH[4]),
            (behind, FIELDS[0]),
        ];
        for (_, how) in met.into_iter().filter(|(is, _)| *is) {
            self.add(source, Form(function, how));
        }
    }

    /// Counts an event of n controllers over one queue.
    pub fn queue_event(&mut self, source: Source, limits: Limits, event: &Event, answer: u8) {
        if answer != 0 {
            return self.add(source, QueueRefused(answer));
        }
        self.add(source, Queue(event_name(event)));
        self.add(source, Queue(if limits == STAND { "stand" } else { "tower" }));
    }

    /// Counts a delivery of nothing to a Down one.
    pub fn nothing_for_down(&mut self, source: Source) {
        self.add(source, Queue(QUEUE[0]));
    }

    /// Counts an event that another controller than its own refused.
    pub fn elsewhere(&mut self, source: Source) {
        self.add(source, Queue(QUEUE[1]));
    }

    /// What was met, as a fuzzer tells it.
    pub fn book(&self) -> &dyn Book {
        &self.0
    }
}

/// What the way in which a call was made says of its answer: a broken rule is 1, what is not of the form or a number
/// out of range is 20, and one at the end of its range is not.
fn judge_construction(call: &Call, answer: u8) -> Result<(), String> {
    // The field is looked at before the range.
    if call.broken.is_some() && ![1, 3, 4, 5, TOO_SHORT].contains(&answer) {
        return Err(format!("answered {answer}, and a rule of the range is broken"));
    }
    if [1, TOO_SHORT].contains(&answer) {
        return Ok(());
    }
    let refused = match call.damage {
        None | Some((_, Damage::Changed(_))) => return Ok(()),
        Some((_, Damage::Cut(_) | Damage::Form(_))) => true,
        Some((_, Damage::Number(number))) => {
            let number = usize::from(number);
            // The same number may stand there the other way round.
            if NUMBERS[number].0.ends_with("low byte first") {
                return Ok(());
            }
            number < IN_RANGE_FROM
        }
    };
    if refused == (answer == 20) {
        Ok(())
    } else {
        Err(format!("answered {answer} to {:?}", call.damage))
    }
}

/// What an accepted call must have written: the record, and the outgoing message or a length of 0.
fn judge_share(n: u8, lent: &Lent, record: &[u8], sent: Option<&Message>) -> Result<(), String> {
    let (now, message) = written(&lent.now).ok_or("the message does not fit there")?;
    if now != record {
        return Err(format!("the record after is {now:02x?}, by the papers {record:02x?}"));
    }
    // Of one message there is one form.
    if sent.copied() != read_message(n, message) || sent.is_none() != message.is_empty() {
        return Err(format!("the message is {message:02x?}, by the papers {sent:?}"));
    }
    Ok(())
}

/// The place of an outgoing message in `SENT`.
fn sent_place(sent: Option<&Message>) -> usize {
    match sent.map(|m| m.body) {
        None => 0,
        Some(Body::Reply { yes: false }) => 7,
        Some(body) => usize::from(body.kind()),
    }
}

/// How bytes are no field of an event.
fn no_field(field: &[u8], answer: u8) -> &'static str {
    let (tag, contents) = match first_field(field) {
        Ok(field) => (field.tag, field.contents.len()),
        Err(_) => (0, 0),
    };
    match (answer, tag, contents) {
        (3, ..) if field.is_empty() => FIELDS[1],
        (3, ..) if field.len() < 3 => FIELDS[2],
        (3, ..) => FIELDS[3],
        (4, 0x17, 2) => FIELDS[4],
        (4, 0x17, _) => FIELDS[5],
        (4, 0x18, 2) => FIELDS[6],
        (4, 0x18, _) => FIELDS[7],
        (4, 0x01, _) => FIELDS[8],
        (4, 0x02, _) => FIELDS[9],
        (4, ..) => FIELDS[10],
        _ => FIELDS[11],
    }
}

/// A corner's words.
fn words(corner: &Corner) -> String {
    match *corner {
        Refused(what, number) => format!("{}, refused {number}", WHATS[what]),
        TwoGrounds(what, first, later) => {
            format!("{}, refused {first}, {later} too", WHATS[what])
        }
        Accepted(what, activity) => {
            format!("{}, accepted, {}", WHATS[what], ACTIVITIES[usize::from(activity)])
        }
        Sent(what, sent) => format!("{}, sends {}", WHATS[what], SENT[sent]),
        Nodes(n) => format!("n = {n}"),
        Own(own) => format!("own number {own}"),
        Damaged(kind, damage) => {
            let what = WHATS[of_kind(kind)];
            match damage {
                Damage::Changed(place) => format!("{what}, byte {place} changed"),
                Damage::Cut(length) => format!("{what}, cut to {length} bytes"),
                Damage::Form(form) => format!("{what}, {}", FORMS[usize::from(form)]),
                Damage::Number(number) => format!("{what}, {}", NUMBERS[usize::from(number)].0),
            }
        }
        Broken(rule) => {
            format!("range broken, {}", rule_names().nth(rule).unwrap_or_default())
        }
        TooShort(function, number) => format!("{function}, answered 255, {number} too"),
        Form(function, how) => format!("{function}, {how}"),
        Queue(what) => format!("queue, {what}"),
        QueueRefused(number) => format!("queue, refused {number}"),
    }
}
