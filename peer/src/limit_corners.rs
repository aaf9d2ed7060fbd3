//! Counts what the compared events, recoveries and lists met of the two limits, and judges them. What T-08 of
//! document 02 says of the limits is written out here, apart from the machine: "Our practice stand has four
//! cabinets and memory for 12 waiting messages. The tower keeps 16 and 64."

use crate::corners::{add, before_ends, Count, Source};
use crate::machine::{Event, Limits, Table};
use crate::proved::table_from_bytes;
use crate::recovery_corners::Call;
use crate::traffic_corners::{need, TrafficBefore, Way, WAYS};

/// The two rigs that there are: each with its first tag, its most nodes and its most waiting messages.
pub struct Rig {
    pub name: &'static str,
    tag: u8,
    pub nodes: u8,
    messages: usize,
}

pub const RIGS: [Rig; 2] = [
    Rig { name: "tower", tag: 0x01, nodes: 16, messages: 64 },
    Rig { name: "stand", tag: 0x02, nodes: 4, messages: 12 },
];
pub const THE_TOWER: usize = 0;
pub const THE_STAND: usize = 1;

/// Which rig has these limits. T-08: "no other pair is allowed".
pub fn rig(limits: Limits) -> Option<usize> {
    let Limits { nodes, messages } = limits;
    RIGS.iter().position(|rig| (rig.nodes, rig.messages) == (nodes, usize::from(messages)))
}

/// What an event that must send a message meets, with each way. "a delivered one is already out": then so
/// many wait as before the delivery, with the delivered one.
const SIDES: [&str; 14] = [
    "stand, 11 wait, accepted",
    // No deliveries.
    "stand, 12 wait, refused 14",
    "stand, 12 wait, refused 14, 17 too",
    "stand, 12 wait, refused 13, 14 too",
    "stand, 12 wait, refused 12, 14 too",
    // Deliveries.
    "stand, 12 wait, accepted",
    "stand, 12 wait, refused 17",
    "stand, 12 wait, refused 13",
    "stand, 12 wait, refused 12",
    "tower, 12 wait, accepted",
    "tower, 13 wait, accepted",
    "tower, 63 wait, accepted",
    // No deliveries.
    "tower, 64 wait, refused 14",
    // Deliveries.
    "tower, 64 wait, accepted",
];

/// Whether a way can meet it.
fn possible(way: Way, side: usize) -> bool {
    match side {
        1 | 2 | 12 => !way.delivers(),
        3 => !way.delivers() && way.calls(),
        4 => !way.delivers() && way.forms(),
        5 | 6 | 13 => way.delivers(),
        7 => way.delivers() && way.calls(),
        8 => way.delivers() && way.forms(),
        _ => true,
    }
}

/// What else an event meets.
const MET: [&str; 19] = [
    "stand, accepted, n = 1",
    "stand, accepted, n = 2",
    "stand, accepted, n = 3",
    "stand, accepted, n = 4",
    "tower, accepted, n = 4",
    "tower, accepted, n = 5",
    "tower, accepted, n = 16",
    // They come before the limits of messages.
    "stand, refused 18, 12 wait",
    "stand, refused 19, 12 wait",
    // All ends of ranges at once.
    "stand, refused 12, and 13, 14 and 17 too",
    "stand, refused 13, and 14 and 17 too",
    // What sends nothing is no matter of the limit.
    "stand, accepted, 12 wait, nothing to send",
    // In runs alone, which come to the limits by themselves.
    "run on the stand, the 12th message",
    "run on the stand, 12 wait, refused 14",
    "run on the stand, 12 wait, a delivery sends",
    "run on the stand, 12 wait, one is lost",
    "run in the tower, n up to 4, the 13th message",
    "run in the tower, 64 wait, refused 14",
    "run in the tower, 64 wait, a delivery sends",
];

/// Pairs of limits that are not allowed.
pub const PAIRS: [(u8, u8); 18] = [
    // Of both.
    (16, 12),
    (4, 64),
    // Exchanged.
    (64, 16),
    (12, 4),
    // One of them one off.
    (15, 64),
    (17, 64),
    (16, 63),
    (16, 65),
    (3, 12),
    (5, 12),
    (4, 11),
    (4, 13),
    // As tables of 4,434 and 4,435 bytes have them.
    (0, 0),
    (16, 0),
    (4, 0),
    // And others.
    (0, 64),
    (0, 12),
    (255, 255),
];

/// Numbers of nodes that are out of range on a rig, from and to.
pub const WRONG_N: [(usize, u8, u8); 9] = [
    (THE_STAND, 0, 0),
    (THE_STAND, 5, 5),
    (THE_STAND, 6, 15),
    (THE_STAND, 16, 16),
    (THE_STAND, 17, 17),
    (THE_STAND, 18, 255),
    (THE_TOWER, 0, 0),
    (THE_TOWER, 17, 17),
    (THE_TOWER, 18, 255),
];

/// The same for waiting messages.
pub const TOO_MANY: [(usize, u8, u8); 6] = [
    (THE_STAND, 13, 13),
    (THE_STAND, 14, 63),
    (THE_STAND, 64, 64),
    (THE_STAND, 65, 255),
    (THE_TOWER, 65, 65),
    (THE_TOWER, 66, 255),
];

/// The rules of the range that are broken by the limits: `PAIRS`, any other pair, `WRONG_N`, `TOO_MANY`.
pub const BROKEN: usize = TOO_MANY_FROM + TOO_MANY.len();
pub const WRONG_N_FROM: usize = PAIRS.len() + 1;
pub const TOO_MANY_FROM: usize = WRONG_N_FROM + WRONG_N.len();

fn broken_name(which: usize) -> String {
    let range = |(rig, from, to): (usize, u8, u8)| match from == to {
        true => (RIGS[rig].name, from.to_string()),
        false => (RIGS[rig].name, format!("{from} to {to}")),
    };
    match which {
        ..WRONG_N_FROM => match PAIRS.get(which) {
            Some((nodes, messages)) => format!("limits {nodes} {messages}"),
            None => "any other limits".to_string(),
        },
        WRONG_N_FROM..TOO_MANY_FROM => {
            let (rig, n) = range(WRONG_N[which - WRONG_N_FROM]);
            format!("{rig}, n = {n}")
        }
        _ => {
            let (rig, waiting) = range(TOO_MANY[which - TOO_MANY_FROM]);
            format!("{rig}, {waiting} wait")
        }
    }
}

/// What would have been answered with the right limits; 0 is accepted.
const ELSE: [u8; 12] = [0, 7, 8, 9, 10, 11, 12, 13, 14, 17, 18, 19];

/// What a call for the records of a recovery meets.
const RECOVERED: [&str; 7] = [
    "stand, recovery accepted",
    "stand, recovery accepted, node 4",
    "stand, recovery accepted, 12 wait",
    "stand, recovery refused 7, node 5",
    "limits, recovery refused 1, no allowed pair",
    "stand, recovery refused 1, n over 4",
    "stand, recovery refused 1, more than 12 wait",
];

/// The numbers in the first field that are told apart, for both tags.
const NUMBERS: [u8; 7] = [0, 1, 4, 5, 16, 17, 255];

/// What else the first field of a list meets.
const FIRST: [&str; 7] = [
    "first field, 0x02, cut: stopped 0 3",
    "first field, 0x02, no contents: stopped 0 5",
    "first field, 0x02, two bytes or more: stopped 0 5",
    "first field, 0x00: stopped 0 4",
    "first field, 0x03: stopped 0 4",
    "first field, 0x03, length wrong: stopped 0 4",
    "first field, an event: stopped 0 4",
];

/// What a field behind the first meets that has the tag of a first one: by the first field's tag, its own,
/// and whether it is the second field or a later one.
const NOT_FIRST: [&str; 8] = [
    "0x01 first, 0x01 second: stopped 4",
    "0x01 first, 0x01 later: stopped 4",
    "0x01 first, 0x02 second: stopped 4",
    "0x01 first, 0x02 later: stopped 4",
    "0x02 first, 0x01 second: stopped 4",
    "0x02 first, 0x01 later: stopped 4",
    "0x02 first, 0x02 second: stopped 4",
    "0x02 first, 0x02 later: stopped 4",
];

/// The same field, however long it is.
const NOT_FIRST_EITHER: [&str; 4] = [
    "0x02 not first, length wrong: stopped 4",
    "0x02 not first, cut: stopped 3",
    // As the field that a step is given.
    "0x01 as an event: refused 4",
    "0x02 as an event: refused 4",
];

/// What a printed list meets.
const PRINTED: [&str; 6] = [
    "printed, stand, 12 wait, refused 14",
    "printed, stand, 12 wait, a delivery sends",
    "printed, stand, 12 wait at the end",
    "printed, tower, n up to 4, 12 wait, and one is sent",
    "printed, tower, n up to 4, more than 12 wait at the end",
    "printed, tower, 64 wait, refused 14",
];

/// What nothing shows.
const WRONG: [&str; 12] = [
    "limits, no allowed pair and not answered 1",
    "limits, n is none of 1 to the limit and not answered 1",
    "limits, more wait than the limit and not answered 1",
    "limits, changed by an event",
    "limits, 14 where fewer wait or nothing must be sent",
    "limits, no 14 where as many wait and one more must be sent",
    "limits, more wait after an event than may",
    "limits, recovery not answered 1",
    "first field, printed otherwise than by the grounds",
    "first tag not first, printed otherwise than by the grounds",
    "first tag as an event, not refused 4",
    "printed, 14 otherwise than by the limits",
];

/// What is remembered of a table for the event that follows.
pub struct LimitBefore {
    limits: Limits,
    n: u8,
    waiting: usize,
    /// Whether the event loses a message.
    loses: bool,
}

impl LimitBefore {
    pub fn of(table: &Table, event: &Event) -> LimitBefore {
        let loses = matches!(event, Event::Lose(..));
        let waiting = table.messages.len();
        LimitBefore { limits: table.limits, n: table.n, waiting, loses }
    }

    /// Which rule of the range is broken by the limits: the pair, n, how many wait.
    fn broken(&self) -> [bool; 3] {
        match rig(self.limits).map(|rig| &RIGS[rig]) {
            None => [true, false, false],
            Some(rig) => [false, !(1..=rig.nodes).contains(&self.n), self.waiting > rig.messages],
        }
    }
}

/// The counts, each for runs and for tables.
#[derive(Clone, Debug)]
pub struct LimitCorners {
    ways: [[Count; SIDES.len()]; WAYS.len()],
    met: [Count; MET.len()],
    broken: [Count; BROKEN],
    first: [Count; ELSE.len()],
    recovered: [Count; RECOVERED.len()],
    /// By rig and `NUMBERS`.
    numbers: [[Count; NUMBERS.len()]; RIGS.len()],
    first_fields: [Count; FIRST.len()],
    not_first: [Count; NOT_FIRST.len()],
    not_first_either: [Count; NOT_FIRST_EITHER.len()],
    printed: [Count; PRINTED.len()],
    wrong: [Count; WRONG.len()],
}

impl Default for LimitCorners {
    fn default() -> LimitCorners {
        LimitCorners {
            ways: [[[0; 2]; SIDES.len()]; WAYS.len()],
            met: [[0; 2]; MET.len()],
            broken: [[0; 2]; BROKEN],
            first: [[0; 2]; ELSE.len()],
            recovered: [[0; 2]; RECOVERED.len()],
            numbers: [[[0; 2]; NUMBERS.len()]; RIGS.len()],
            first_fields: [[0; 2]; FIRST.len()],
            not_first: [[0; 2]; NOT_FIRST.len()],
            not_first_either: [[0; 2]; NOT_FIRST_EITHER.len()],
            printed: [[0; 2]; PRINTED.len()],
            wrong: [[0; 2]; WRONG.len()],
        }
    }
}

impl LimitCorners {
    /// Counts an event with what followed.
    pub fn count(
        &mut self,
        source: Source,
        before: &LimitBefore,
        traffic: &TrafficBefore,
        answer: Result<(), u8>,
        after: &Table,
    ) {
        let mut wrong = [false; WRONG.len()];
        let broken = before.broken();
        for (wrong, broken) in wrong.iter_mut().zip(broken) {
            *wrong = broken && answer != Err(1);
        }
        wrong[3] = after.limits != before.limits;
        if let Some(place) = rig(before.limits).filter(|_| broken == [false; 3]) {
            let most = RIGS[place].messages;
            let delivers = traffic.need.is_some_and(|need| need.way.delivers());
            let no_room = traffic.need.is_some() && !delivers && before.waiting == most;
            wrong[4] = answer == Err(14) && !no_room;
            // The grounds that come before it.
            let earlier = before_ends(answer) || matches!(answer, Err(12 | 13));
            wrong[5] = answer != Err(14) && no_room && !earlier;
            wrong[6] = answer.is_ok() && after.messages.len() > most;
            add(&mut self.met, source as usize, met(source, place, before, traffic, answer));
            if let Some(need) = traffic.need {
                let sides = sides(place, before.waiting, answer, traffic.grounds(&need));
                add(&mut self.ways[need.way as usize], source as usize, sides);
            }
        }
        add(&mut self.wrong, source as usize, wrong);
    }

    /// Counts the answer on a table that breaks the rule at this place of `BROKEN`.
    pub fn broken(&mut self, which: usize, answer: Result<(), u8>) {
        self.broken[which][Source::Table as usize] += u64::from(answer == Err(1));
    }

    /// Counts the answer on a table whose limits are no allowed pair, and the one with the right limits.
    pub fn first(&mut self, answer: Result<(), u8>, else_answer: Result<(), u8>) {
        let place = ELSE.iter().position(|&number| number == else_answer.err().unwrap_or(0));
        if let (Some(place), Err(1)) = (place, answer) {
            self.first[place][Source::Table as usize] += 1;
        }
    }

    /// Counts a call for the records of a recovery.
    pub fn recovery(&mut self, source: Source, call: &Call) {
        let table = table_from_bytes(call.table);
        let before = LimitBefore::of(&table, &Event::Recover(call.node));
        let broken = before.broken();
        let too_short = call.answer == 255;
        let [no_pair, no_n, too_many] = broken;
        let mut wrong = [false; WRONG.len()];
        wrong[7] = broken != [false; 3] && call.answer != 1 && !too_short;
        add(&mut self.wrong, source as usize, wrong);
        let stand = rig(table.limits) == Some(THE_STAND);
        let accepted = stand && call.answer == 0;
        let refused = call.answer == 1;
        let recovered = [
            accepted,
            accepted && call.node == 4,
            accepted && before.waiting == 12,
            stand && call.answer == 7 && call.node == 5,
            refused && no_pair,
            refused && stand && no_n && table.n > 4,
            refused && stand && too_many,
        ];
        add(&mut self.recovered, source as usize, recovered);
    }

    /// Counts the fields of any list by the text that is printed: the first one, and what has its tag and is
    /// not the first. What else is wrong with a list is not looked at here.
    pub fn fields(&mut self, list: &[u8], text: &[u8]) {
        const IN_LISTS: usize = Source::Run as usize;
        if list.len() > 65_536 {
            return;
        }
        let mut wrong = [false; WRONG.len()];
        let first = field(list);
        let by_grounds = match first {
            None => Err(3),
            Some((tag, contents, _)) => match (RIGS.iter().find(|rig| rig.tag == tag), contents) {
                (None, _) => Err(4),
                (Some(rig), &[n]) if (1..=rig.nodes).contains(&n) => Ok((rig.tag, n)),
                (Some(_), [_]) => Err(6),
                (Some(_), _) => Err(5),
            },
        };
        wrong[8] = match by_grounds {
            Ok((_, n)) => !text.starts_with(format!("cabinets {n}\n").as_bytes()),
            Err(number) => text != format!("stopped 0 {number}\n").as_bytes(),
        };
        match first {
            None => self.first_fields[0][IN_LISTS] += u64::from(list.first() == Some(&0x02)),
            Some((tag, contents, _)) => {
                let rig = RIGS.iter().position(|rig| rig.tag == tag);
                let number = NUMBERS.iter().position(|n| contents == [*n]);
                if let (Some(rig), Some(number)) = (rig, number) {
                    self.numbers[rig][number][IN_LISTS] += 1;
                }
                let met = [
                    false,
                    tag == 0x02 && contents.is_empty(),
                    tag == 0x02 && contents.len() > 1,
                    tag == 0x00,
                    tag == 0x03 && contents.len() == 1,
                    tag == 0x03 && contents.len() != 1,
                    (0x10..=0x18).contains(&tag),
                ];
                add(&mut self.first_fields, IN_LISTS, met);
            }
        }
        if let Ok((first_tag, _)) = by_grounds {
            wrong[9] = !self.later_fields(first_tag, list, text);
        }
        add(&mut self.wrong, IN_LISTS, wrong);
    }

    /// Counts the first field behind the first one that has the tag of a first one, if the list does not stop
    /// before it. Whether it is printed as it must be.
    fn later_fields(&mut self, first_tag: u8, list: &[u8], text: &[u8]) -> bool {
        const IN_LISTS: usize = Source::Run as usize;
        // One byte n.
        let start = 4;
        let mut at = start;
        while at < list.len() {
            let first_tags = [0x01, 0x02].contains(&list[at]);
            let Some((tag, contents, end)) = field(&list[at..]) else {
                if !first_tags {
                    return true;
                }
                self.not_first_either[1][IN_LISTS] += u64::from(list[at] == 0x02);
                return stopped(text, at, 3);
            };
            if first_tags {
                let later = usize::from(at > start);
                let which = 4 * usize::from(first_tag == 0x02) + 2 * usize::from(tag == 0x02);
                self.not_first[which + later][IN_LISTS] += 1;
                let wrong_length = tag == 0x02 && contents.len() != 1;
                self.not_first_either[0][IN_LISTS] += u64::from(wrong_length);
                return stopped(text, at, 4);
            }
            let length = match tag {
                0x10..=0x15 => 1,
                0x16 => 3,
                0x17 | 0x18 => 2,
                _ => return true,
            };
            if contents.len() != length {
                return true;
            }
            at += end;
        }
        true
    }

    /// Counts the answer of a step to a whole field with the tag of a first one, on a table in range.
    pub fn first_tag(&mut self, given: &[u8], answer: u8) {
        const IN_TABLES: usize = Source::Table as usize;
        let Some((tag @ (0x01 | 0x02), ..)) = field(given) else {
            return;
        };
        let mut wrong = [false; WRONG.len()];
        wrong[10] = answer != 4;
        add(&mut self.wrong, IN_TABLES, wrong);
        self.not_first_either[usize::from(tag) + 1][IN_TABLES] += 1;
    }

    /// Judges an event of a list by the number that is printed for it, if one is, and counts it.
    pub fn printed_event(&mut self, table: &Table, event: &Event, number: Option<u8>) {
        const IN_LISTS: usize = Source::Run as usize;
        let Some(place) = rig(table.limits) else {
            return;
        };
        let waiting = table.messages.len();
        // Only where as many wait as may on one of the two can anything be met.
        if !RIGS.iter().any(|rig| rig.messages == waiting) && number != Some(14) {
            return;
        }
        let full = waiting == RIGS[place].messages;
        let need = need(table, event);
        let sends = need.is_some_and(|need| !need.way.delivers());
        let mut wrong = [false; WRONG.len()];
        wrong[11] = match number {
            Some(14) => !(full && sends),
            None | Some(17) => full && sends,
            Some(_) => false,
        };
        add(&mut self.wrong, IN_LISTS, wrong);
        let stand = place == THE_STAND;
        let accepted = number.is_none() && need.is_some();
        let met = [
            stand && number == Some(14),
            stand && full && accepted && !sends,
            false,
            !stand && table.n <= 4 && waiting == 12 && accepted && sends,
            false,
            !stand && number == Some(14),
        ];
        add(&mut self.printed, IN_LISTS, met);
    }

    /// Counts the table that a list leads to.
    pub fn printed(&mut self, table: &Table) {
        let (place, waiting) = (rig(table.limits), table.messages.len());
        let small_tower = place == Some(THE_TOWER) && table.n <= 4;
        let met = [
            false,
            false,
            place == Some(THE_STAND) && waiting == 12,
            false,
            small_tower && waiting > 12,
            false,
        ];
        add(&mut self.printed, Source::Run as usize, met);
    }

    /// Every corner, with its counts.
    pub fn corners(&self) -> Vec<(String, Count)> {
        let mut corners = Vec::new();
        for ((way, name), counts) in WAYS.iter().zip(&self.ways) {
            for side in (0..SIDES.len()).filter(|&side| possible(*way, side)) {
                corners.push((format!("limits, {name}: {}", SIDES[side]), counts[side]));
            }
        }
        let named = MET.iter().zip(self.met).chain(RECOVERED.iter().zip(self.recovered));
        corners.extend(named.map(|(name, count)| (name.to_string(), count)));
        for (which, &count) in self.broken.iter().enumerate() {
            corners.push((format!("limits refused 1, {}", broken_name(which)), count));
        }
        for (number, count) in ELSE.iter().zip(self.first) {
            let what =
                if *number == 0 { "else accepted".to_string() } else { format!("{number} too") };
            corners.push((format!("limits refused 1, no allowed pair, {what}"), count));
        }
        for (rig, counts) in RIGS.iter().zip(&self.numbers) {
            for (&n, &count) in NUMBERS.iter().zip(counts) {
                let passes = (1..=rig.nodes).contains(&n);
                let what = if passes { "passes" } else { "stopped 0 6" };
                let name = format!("first field, 0x0{}, {}, n = {n}: {what}", rig.tag, rig.name);
                corners.push((name, count));
            }
        }
        let named = FIRST.iter().zip(self.first_fields).chain(NOT_FIRST.iter().zip(self.not_first));
        let named = named.chain(NOT_FIRST_EITHER.iter().zip(self.not_first_either));
        let named = named.chain(PRINTED.iter().zip(self.printed));
        corners.extend(named.map(|(name, count)| (name.to_string(), count)));
        corners
    }

    /// What was met though the papers have no place for it, with its counts.
    pub fn wrong(&self) -> impl Iterator<Item = (&'static str, Count)> {
        WRONG.into_iter().zip(self.wrong)
    }
}

/// Which of `SIDES` an event meets that must send a message, where so many wait; the grounds are 12, 13, 14
/// and 17.
fn sides(
    place: usize,
    waiting: usize,
    answer: Result<(), u8>,
    grounds: [bool; 4],
) -> [bool; SIDES.len()] {
    let stand = |count: usize| place == THE_STAND && waiting == count;
    let tower = |count: usize| place == THE_TOWER && waiting == count;
    let accepted = answer.is_ok();
    let refused = |number: u8| answer == Err(number);
    let [_, _, full, no_more] = grounds;
    [
        stand(11) && accepted,
        stand(12) && refused(14) && !no_more,
        stand(12) && refused(14) && no_more,
        stand(12) && refused(13) && full,
        stand(12) && refused(12) && full,
        stand(12) && accepted,
        stand(12) && refused(17),
        stand(12) && refused(13) && !full,
        stand(12) && refused(12) && !full,
        tower(12) && accepted,
        tower(13) && accepted,
        tower(63) && accepted,
        tower(64) && refused(14),
        tower(64) && accepted,
    ]
}

/// Which of `MET` an event meets.
fn met(
    source: Source,
    place: usize,
    before: &LimitBefore,
    traffic: &TrafficBefore,
    answer: Result<(), u8>,
) -> [bool; MET.len()] {
    let &LimitBefore { n, waiting, .. } = before;
    let stand = place == THE_STAND;
    let accepted = answer.is_ok();
    let run = source == Source::Run;
    let sends = accepted && traffic.need.is_some();
    let delivers = traffic.need.is_some_and(|need| need.way.delivers());
    let grounds = traffic.need.map_or([false; 4], |need| traffic.grounds(&need));
    [
        stand && accepted && n == 1,
        stand && accepted && n == 2,
        stand && accepted && n == 3,
        stand && accepted && n == 4,
        !stand && accepted && n == 4,
        !stand && accepted && n == 5,
        !stand && accepted && n == 16,
        stand && answer == Err(18) && waiting == 12,
        stand && answer == Err(19) && waiting == 12,
        stand && answer == Err(12) && grounds == [true; 4],
        stand && answer == Err(13) && grounds == [false, true, true, true],
        stand && accepted && waiting == 12 && !sends,
        run && stand && sends && !delivers && waiting == 11,
        run && stand && answer == Err(14),
        run && stand && sends && delivers && waiting == 12,
        run && stand && accepted && before.loses && waiting == 12,
        run && !stand && n <= 4 && sends && !delivers && waiting == 12,
        run && !stand && answer == Err(14),
        run && !stand && sends && delivers && waiting == 64,
    ]
}

/// Tag and contents of the field that some bytes begin with, and how long it is. None where it is cut.
fn field(bytes: &[u8]) -> Option<(u8, &[u8], usize)> {
    let [tag, high, low, behind @ ..] = bytes else {
        return None;
    };
    let length = 256 * usize::from(*high) + usize::from(*low);
    Some((*tag, behind.get(..length)?, 3 + length))
}

/// Whether a text has the line `stopped b r`, once.
fn stopped(text: &[u8], b: usize, r: u8) -> bool {
    let text = String::from_utf8_lossy(text);
    let lines: Vec<&str> = text.lines().filter(|line| line.starts_with("stopped ")).collect();
    lines == [format!("stopped {b} {r}")]
}
