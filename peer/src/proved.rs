//! The boundary of the proved library: a table in bytes, and the library's functions, which the crate `nevraspu` has
//! behind safe ones. `Own` is this program's own machine behind the same boundary.

use crate::bully::{self, bytes::bully_step_by};
use crate::controller::{
    bytes::{event_by, message_by},
    share::Cabinet,
};
use crate::list::{first_event, read_list};
use crate::list_text::{list_of_text::list_or_line, text_of_list::text_of_list};
use crate::machine::{
    self, Activity, Body, Event, Limits, Message, Node, PairCounts, Status, Table, Traffic,
    ASSIGNMENTS, MAX_MESSAGES, MAX_NODES,
};
use crate::numbers::Numbers;
use crate::print::run_list;
use crate::rest::text::rest;
use crate::round::{self, bytes::turn_by};
use crate::short;
use crate::trace::text::trace;
use crate::two_bytes::ALDEBARAN;
use nevraspu::calls;
use std::io::{self, Write};
use std::ops::Range;

pub const NODE_BYTES: usize = 29;
pub const MESSAGE_BYTES: usize = 14;
const COUNT_BYTES: usize = 4;
pub const NODES_AT: usize = 1;
pub const MESSAGES_AT: usize = NODES_AT + MAX_NODES as usize * NODE_BYTES;
pub const WAITING_AT: usize = MESSAGES_AT + MAX_MESSAGES * MESSAGE_BYTES;
/// T-05's counts: sent, delivered, lost, 256 of each.
pub const COUNTS_AT: usize = WAITING_AT + 1;
const PAIRS_BYTES: usize = MAX_NODES as usize * MAX_NODES as usize * COUNT_BYTES;
/// T-08's limits: of nodes, of messages.
pub const LIMITS_AT: usize = COUNTS_AT + 3 * PAIRS_BYTES;
pub const TABLE_BYTES: usize = LIMITS_AT + 2;

/// A table in bytes, numbers high byte first: n, 16 nodes, 64 messages, how many of them wait, the counts
/// sent, delivered and lost, each with 16 rows of 16, a row for each sender, and the two limits.
pub type TableBytes = [u8; TABLE_BYTES];

/// The records of a recovery in bytes, each as in a table.
pub const RECORDS_BYTES: usize = ASSIGNMENTS * NODE_BYTES;

/// The answer when there is no room for the table, the records or what else is written.
pub const TOO_SHORT: u8 = 255;

/// What the library does: the proved one, this program's own, or a wrong one in the tests.
pub trait Library {
    /// Prints a list's text at the start of out and gives its length; None when it does not fit, and
    /// then the lines that fit are there. All else in out stays as it was.
    fn print(&self, list: &[u8], out: &mut [u8]) -> Option<usize>;

    /// One event, as a field of a list, on a table: zeros are read behind the end of a table that is cut
    /// short, and what is longer is not looked at. Accepted is 0, and out begins with the table after
    /// it. A refusal is its number, and out stays as it was: 1 for a table not in range, whatever the
    /// field is; then 3, 4 or 5 where the field is none; what stands behind the first field is not
    /// looked at. TOO_SHORT, which comes first, is for an out shorter than a table, and out stays as it
    /// was.
    fn step(&self, table: &[u8], field: &[u8], out: &mut [u8]) -> u8;

    /// Every event of a list by the step with the range check: how many were accepted.
    fn fold(&self, list: &[u8]) -> u32;

    /// The records of the recovery of a node, one after each assignment, on a table, which is read as in
    /// `step`. Accepted is 0, and out begins with the eight records; what stands behind them stays as it
    /// was. A refusal is the number that the step recover has, and out stays as it was. TOO_SHORT, which
    /// comes first, is for an out shorter than the records, and out stays as it was.
    fn recovery(&self, table: &[u8], node: u8, out: &mut [u8]) -> u8;

    /// One event, as a field, on a table of the Bully machine (T-07), which is read as in `step`. Accepted is
    /// 0, and out begins with the table after it; what stands behind it stays as it was. A refusal is its
    /// number, and out stays as it was: here 3, 4 or 5, where the field is none, come before 1. TOO_SHORT,
    /// which comes first, is for an out shorter than a table, and out stays as it was.
    fn bully_step(&self, table: &[u8], field: &[u8], out: &mut [u8]) -> u8;

    /// A turn of the round (T-09) at the pair of a and b, on a table, which is read as in `step`. Accepted is 0,
    /// and out begins with the table after it, the pair of the next turn, and what was done: 0 nothing, 1
    /// delivered, 2 lost; what stands behind these stays as it was. A refusal is 1 or 7, and out stays as it was.
    /// TOO_SHORT, which comes first, is for an out shorter than that, and out stays as it was.
    fn turn(&self, table: &[u8], a: u8, b: u8, out: &mut [u8]) -> u8;

    /// One event, as a field, at the controller of cabinet own of n (T-11), whose record is read as a table is in
    /// `step`. Accepted is 0, and out begins with the record after it, the length of the outgoing message, 0 for
    /// none, and its bytes; what stands behind these is free up to 55, and stays as it was from there on. A refusal
    /// is its number, and out stays as it was: 3, 4 or 5, where the field is none, deliver or lose, come before 1.
    /// TOO_SHORT, which comes first, is for an out shorter than 55, and out stays as it was.
    fn controller_event(&self, n: u8, own: u8, record: &[u8], field: &[u8], out: &mut [u8]) -> u8;

    /// The same for an incoming message, which is these bytes and nothing behind them.
    fn controller_message(
        &self,
        n: u8,
        own: u8,
        record: &[u8],
        message: &[u8],
        out: &mut [u8],
    ) -> u8;

    /// A list as text, as `print` gives its text.
    fn text_of_list(&self, list: &[u8], out: &mut [u8]) -> Option<usize>;

    /// The list of a text stands at the start of out, and its length is given; for a bad text the line that is told of
    /// it, and its length is the error. None when that does not fit. All else in out stays as it was.
    fn list_of_text(&self, text: &[u8], out: &mut [u8]) -> Option<Result<usize, usize>>;

    /// The trace of a list stands at the start of out, and its length is given; None when it does not fit, and then its
    /// pieces up to the first that does not fit are there: the first line, the lines of each event, the rest. All else
    /// in out stays as it was.
    fn trace(&self, list: &[u8], out: &mut [u8]) -> Option<usize>;
}

/// The library's functions for the texts of T-13, T-12 and T-01.
pub trait Texts {
    /// The text of a list and of the turns behind it until no message waits (T-13), as `Library::print` gives its text.
    fn rest(&self, list: &[u8], out: &mut [u8]) -> Option<usize>;

    /// T-12's text of an input stands at the start of out, and its length is given; None when it does not fit, and then
    /// out stays as it was, as all else in it always does.
    fn aldebaran(&self, input: &[u8], out: &mut [u8]) -> Option<usize>;

    /// T-01's text of an input, from one of its bytes on: as much of it as there is and as fits stands at the start of
    /// out, and how much is given. All else in out stays as it was.
    fn short_lists(&self, input: &[u8], from: u64, out: &mut [u8]) -> usize;
}

/// The proved library, by the crate `nevraspu`.
pub struct Proved;

impl Proved {
    /// It is always linked: without it the crate `nevraspu` is not built.
    pub fn linked() -> Result<Proved, String> {
        Ok(Proved)
    }
}

impl Library for Proved {
    fn print(&self, list: &[u8], out: &mut [u8]) -> Option<usize> {
        calls::print(list, out)
    }

    fn step(&self, table: &[u8], field: &[u8], out: &mut [u8]) -> u8 {
        calls::step(table, field, out)
    }

    fn fold(&self, list: &[u8]) -> u32 {
        calls::fold(list)
    }

    fn recovery(&self, table: &[u8], node: u8, out: &mut [u8]) -> u8 {
        calls::recovery(table, node, out)
    }

    fn bully_step(&self, table: &[u8], field: &[u8], out: &mut [u8]) -> u8 {
        calls::bully_step(table, field, out)
    }

    fn turn(&self, table: &[u8], a: u8, b: u8, out: &mut [u8]) -> u8 {
        calls::turn(table, a, b, out)
    }

    fn controller_event(&self, n: u8, own: u8, record: &[u8], field: &[u8], out: &mut [u8]) -> u8 {
        calls::controller_event(n, own, record, field, out)
    }

    fn controller_message(
        &self,
        n: u8,
        own: u8,
        record: &[u8],
        message: &[u8],
        out: &mut [u8],
    ) -> u8 {
        calls::controller_message(n, own, record, message, out)
    }

    fn text_of_list(&self, list: &[u8], out: &mut [u8]) -> Option<usize> {
        calls::text_of_list(list, out)
    }

    fn list_of_text(&self, text: &[u8], out: &mut [u8]) -> Option<Result<usize, usize>> {
        calls::list_of_text(text, out)
    }

    fn trace(&self, list: &[u8], out: &mut [u8]) -> Option<usize> {
        calls::trace(list, out)
    }
}

impl Texts for Proved {
    fn rest(&self, list: &[u8], out: &mut [u8]) -> Option<usize> {
        calls::rest(list, out)
    }

    fn aldebaran(&self, input: &[u8], out: &mut [u8]) -> Option<usize> {
        calls::aldebaran(input, out)
    }

    fn short_lists(&self, input: &[u8], from: u64, out: &mut [u8]) -> usize {
        calls::short_lists(input, from, out)
    }
}

/// This program's own machine behind the same boundary.
pub struct Own;

impl Library for Own {
    fn print(&self, list: &[u8], out: &mut [u8]) -> Option<usize> {
        write_fitting(&run_list(list), out)
    }

    fn step(&self, table: &[u8], field: &[u8], out: &mut [u8]) -> u8 {
        step_by(machine::step, table, field, out)
    }

    fn fold(&self, list: &[u8]) -> u32 {
        fold(list)
    }

    fn recovery(&self, table: &[u8], node: u8, out: &mut [u8]) -> u8 {
        recovery_by(machine::recovery, table, node, out)
    }

    fn bully_step(&self, table: &[u8], field: &[u8], out: &mut [u8]) -> u8 {
        bully_step_by(bully::machine::step, table, field, out)
    }

    fn turn(&self, table: &[u8], a: u8, b: u8, out: &mut [u8]) -> u8 {
        turn_by(round::driver::turn, table, (a, b), out)
    }

    fn controller_event(&self, n: u8, own: u8, record: &[u8], field: &[u8], out: &mut [u8]) -> u8 {
        event_by(Cabinet::event, (n, own), record, field, out)
    }

    fn controller_message(
        &self,
        n: u8,
        own: u8,
        record: &[u8],
        message: &[u8],
        out: &mut [u8],
    ) -> u8 {
        message_by(Cabinet::message, (n, own), record, message, out)
    }

    fn text_of_list(&self, list: &[u8], out: &mut [u8]) -> Option<usize> {
        write_fitting(&text_of_list(list), out)
    }

    fn list_of_text(&self, text: &[u8], out: &mut [u8]) -> Option<Result<usize, usize>> {
        list_of_text_by(list_or_line, text, out)
    }

    fn trace(&self, list: &[u8], out: &mut [u8]) -> Option<usize> {
        trace(list).write(out)
    }
}

impl Texts for Own {
    fn rest(&self, list: &[u8], out: &mut [u8]) -> Option<usize> {
        write_fitting(&rest(list), out)
    }

    fn aldebaran(&self, input: &[u8], out: &mut [u8]) -> Option<usize> {
        write_whole(&ALDEBARAN.text(input), out)
    }

    fn short_lists(&self, input: &[u8], from: u64, out: &mut [u8]) -> usize {
        let mut window = Window { before: from, out, written: 0 };
        // An error says that it is full.
        let _ = short::print(input, &mut window);
        window.written
    }
}

/// Takes the bytes of a text that come behind so many others, as many as there is room for.
struct Window<'a> {
    before: u64,
    out: &'a mut [u8],
    written: usize,
}

impl Write for Window<'_> {
    fn write(&mut self, text: &[u8]) -> io::Result<usize> {
        let before = self.before.min(text.len() as u64);
        self.before -= before;
        let free = &mut self.out[self.written..];
        let taken = &text[before as usize..];
        let taken = &taken[..taken.len().min(free.len())];
        free[..taken.len()].copy_from_slice(taken);
        self.written += taken.len();
        // 0 ends the text where there is no more room.
        Ok(before as usize + taken.len())
    }

    fn flush(&mut self) -> io::Result<()> {
        Ok(())
    }
}

/// Writes a text, if it fits whole, and gives its length.
pub fn write_whole(text: &[u8], out: &mut [u8]) -> Option<usize> {
    out.get_mut(..text.len())?.copy_from_slice(text);
    Some(text.len())
}

/// Writes the lines of a text that fit. Gives its length, if it fits whole.
pub fn write_fitting(text: &[u8], out: &mut [u8]) -> Option<usize> {
    let length = fitting(text, out.len());
    out[..length].copy_from_slice(&text[..length]);
    (length == text.len()).then_some(length)
}

/// The library's list of a text, or the line that is told of it, by any function that gives them.
pub fn list_of_text_by(
    list_or_line: impl Fn(&[u8]) -> Result<Vec<u8>, Vec<u8>>,
    text: &[u8],
    out: &mut [u8],
) -> Option<Result<usize, usize>> {
    let answer = list_or_line(text);
    let (Ok(bytes) | Err(bytes)) = &answer;
    write_whole(bytes, out)?;
    Some(answer.map(|list| list.len()).map_err(|line| line.len()))
}

/// The library's step by any machine, which is to answer 1 on a table that is not in range.
pub fn step_by(
    machine: impl Fn(&mut Table, &Event) -> Result<(), u8>,
    table: &[u8],
    field: &[u8],
    out: &mut [u8],
) -> u8 {
    let Some(out) = out.first_chunk_mut() else {
        return TOO_SHORT;
    };
    let mut table = table_from_slice(table);
    let answer = match first_event(field) {
        Err(_) if !table.in_range() => Err(1),
        Err(number) => Err(number),
        Ok(event) => machine(&mut table, &event),
    };
    match answer {
        Ok(()) => {
            table_to_bytes(&table, out);
            0
        }
        Err(number) => number,
    }
}

/// The library's records of a recovery by any machine.
pub fn recovery_by(
    recovery: impl Fn(&Table, u8) -> Result<[Node; ASSIGNMENTS], u8>,
    table: &[u8],
    node: u8,
    out: &mut [u8],
) -> u8 {
    let Some(out) = out.first_chunk_mut::<RECORDS_BYTES>() else {
        return TOO_SHORT;
    };
    match recovery(&table_from_slice(table), node) {
        Ok(records) => {
            for (record, place) in records.iter().zip(out.chunks_exact_mut(NODE_BYTES)) {
                node_to_bytes(record, place.try_into().expect("a record's place"));
            }
            0
        }
        Err(number) => number,
    }
}

fn table_from_slice(table: &[u8]) -> Table {
    table_from_bytes(&whole(table))
}

/// The bytes of a table of any length: zeros are read behind its end, and what is longer is not looked at.
pub fn whole<const LENGTH: usize>(table: &[u8]) -> [u8; LENGTH] {
    let mut bytes = [0; LENGTH];
    let length = table.len().min(LENGTH);
    bytes[..length].copy_from_slice(&table[..length]);
    bytes
}

/// Every event of a list by the step with the range check: how many were accepted.
pub fn fold(list: &[u8]) -> u32 {
    let Ok(list) = read_list(list) else {
        return 0;
    };
    let mut table = Table::start(list.n, list.limits);
    list.events.iter().map(|event| u32::from(machine::step(&mut table, event).is_ok())).sum()
}

/// Refusal 15: how many bytes of a text are written where so many are free. Its lines are written
/// one after another up to the first that does not fit.
pub fn fitting(text: &[u8], free: usize) -> usize {
    if text.len() <= free {
        return text.len();
    }
    text[..free].iter().rposition(|&byte| byte == b'\n').map_or(0, |place| place + 1)
}

/// Writes a table. The places that are no part of it get 0. Of more than 64 messages the first 64
/// have places, and of more than 255 the number does not fit either.
pub fn table_to_bytes(table: &Table, bytes: &mut TableBytes) {
    bytes.fill(0);
    bytes[0] = table.n;
    let n = usize::from(table.n.min(MAX_NODES));
    let nodes = bytes[NODES_AT..MESSAGES_AT].chunks_exact_mut(NODE_BYTES);
    for (node, place) in table.nodes[..n].iter().zip(nodes) {
        node_to_bytes(node, place.try_into().expect("a node's place"));
    }
    let places = bytes[MESSAGES_AT..WAITING_AT].chunks_exact_mut(MESSAGE_BYTES);
    for (message, place) in table.messages.iter().zip(places) {
        message_to_bytes(message, place.try_into().expect("a message's place"));
    }
    bytes[WAITING_AT] = table.messages.len().try_into().expect("at most 255 messages");
    traffic_to_bytes(&table.traffic, bytes);
    limits_to_bytes(table.limits, bytes);
}

/// Writes the limits of a table.
pub fn limits_to_bytes(limits: Limits, bytes: &mut TableBytes) {
    bytes[LIMITS_AT..].copy_from_slice(&[limits.nodes, limits.messages]);
}

/// Writes the counts of a table.
pub fn traffic_to_bytes(traffic: &Traffic, bytes: &mut TableBytes) {
    let parts = bytes[COUNTS_AT..LIMITS_AT].chunks_exact_mut(PAIRS_BYTES);
    for (counts, part) in [&traffic.sent, &traffic.delivered, &traffic.lost].iter().zip(parts) {
        let (places, _) = part.as_chunks_mut::<COUNT_BYTES>();
        for (count, place) in counts.as_flattened().iter().zip(places) {
            *place = count.to_be_bytes();
        }
    }
}

/// Reads a table. Nodes above n are as in the starting table. A waiting number over 64 gives so many
/// messages, of which those without a place have kind 0.
pub fn table_from_bytes(bytes: &TableBytes) -> Table {
    let limits = Limits { nodes: bytes[LIMITS_AT], messages: bytes[LIMITS_AT + 1] };
    let mut table = Table::start(bytes[0], limits);
    let n = usize::from(table.n.min(MAX_NODES));
    let nodes = bytes[NODES_AT..MESSAGES_AT].chunks_exact(NODE_BYTES);
    for (node, place) in table.nodes[..n].iter_mut().zip(nodes) {
        *node = node_from_bytes(place.try_into().expect("a node's place"));
    }
    let waiting = usize::from(bytes[WAITING_AT]);
    let places = bytes[MESSAGES_AT..WAITING_AT].chunks_exact(MESSAGE_BYTES).take(waiting);
    table.messages.extend(
        places.map(|place| message_from_bytes(place.try_into().expect("a message's place"))),
    );
    let none = Message { sender: 0, receiver: 0, call: 0, body: Body::Unknown { kind: 0 } };
    table.messages.resize(waiting, none);
    let counts =
        |k: usize| counts_from_bytes(&bytes[COUNTS_AT..][k * PAIRS_BYTES..][..PAIRS_BYTES]);
    table.traffic = Traffic { sent: counts(0), delivered: counts(1), lost: counts(2) };
    table
}

fn counts_from_bytes(bytes: &[u8]) -> PairCounts {
    let (counts, _) = bytes.as_chunks::<COUNT_BYTES>();
    let row = MAX_NODES as usize;
    std::array::from_fn(|a| std::array::from_fn(|b| u32::from_be_bytes(counts[row * a + b])))
}

/// Whether the bytes are the same in all that is part of the table. What a message's kind does not
/// carry is no part of it; every count and both limits are.
pub fn same_table(a: &TableBytes, b: &TableBytes) -> bool {
    let (nodes, messages) = parts(a);
    let message = |bytes: &[u8]| message_from_bytes(bytes.try_into().expect("a message's place"));
    let (ours, theirs) = (&a[MESSAGES_AT..messages], &b[MESSAGES_AT..messages]);
    a[0] == b[0]
        && a[WAITING_AT..] == b[WAITING_AT..]
        && a[NODES_AT..nodes] == b[NODES_AT..nodes]
        && ours
            .chunks_exact(MESSAGE_BYTES)
            .zip(theirs.chunks_exact(MESSAGE_BYTES))
            .all(|(ours, theirs)| message(ours) == message(theirs))
}

/// The places that are no part of a table: behind the nodes and the messages, and what a message's kind does not
/// carry.
pub fn unused(bytes: &TableBytes) -> Vec<Range<usize>> {
    let (nodes, messages) = parts(bytes);
    let not_carried = (MESSAGES_AT..messages).step_by(MESSAGE_BYTES).map(|at| {
        let Range { start, end } = match bytes[at + 2] {
            1 => 7..14,
            5 => 13..14,
            6 => 7..13,
            _ => 11..14,
        };
        at + start..at + end
    });
    [nodes..MESSAGES_AT, messages..WAITING_AT].into_iter().chain(not_carried).collect()
}

/// Puts random bytes into every place that is no part of the table.
pub fn fill_unused(bytes: &mut TableBytes, numbers: &mut Numbers) {
    for places in unused(bytes) {
        numbers.fill(&mut bytes[places]);
    }
}

/// The record of node i, which must be 1 to 16, in a table.
pub fn record(bytes: &TableBytes, i: u8) -> &[u8] {
    &bytes[NODES_AT..MESSAGES_AT][(usize::from(i) - 1) * NODE_BYTES..][..NODE_BYTES]
}

/// The records of a recovery, which the bytes begin with.
pub fn records_from_bytes(bytes: &[u8; RECORDS_BYTES]) -> [Node; ASSIGNMENTS] {
    let (records, _) = bytes.as_chunks();
    std::array::from_fn(|k| node_from_bytes(&records[k]))
}

/// Where the nodes and the messages of a table end.
fn parts(bytes: &TableBytes) -> (usize, usize) {
    let n = usize::from(bytes[0].min(MAX_NODES));
    let waiting = usize::from(bytes[WAITING_AT]).min(MAX_MESSAGES);
    (NODES_AT + n * NODE_BYTES, MESSAGES_AT + waiting * MESSAGE_BYTES)
}

/// status 1, counter 4, group 4, coordinator 1, task 2, members 2, last call 4, activity 11
pub fn node_to_bytes(node: &Node, bytes: &mut [u8; NODE_BYTES]) {
    bytes[0] = node.status as u8;
    bytes[1..5].copy_from_slice(&node.counter.to_be_bytes());
    bytes[5..9].copy_from_slice(&node.group.to_be_bytes());
    bytes[9] = node.coordinator;
    bytes[10..12].copy_from_slice(&node.task.to_be_bytes());
    bytes[12..14].copy_from_slice(&node.members.to_be_bytes());
    bytes[14..18].copy_from_slice(&node.last_call.to_be_bytes());
    let a = flat(node.activity);
    bytes[18] = a.tag;
    bytes[19..21].copy_from_slice(&a.set.to_be_bytes());
    bytes[21..23].copy_from_slice(&a.former.to_be_bytes());
    bytes[23] = a.node;
    bytes[24] = a.caller;
    bytes[25..29].copy_from_slice(&a.call.to_be_bytes());
}

/// Status and activity are read by their remainders. What an activity does not have is read past.
pub fn node_from_bytes(bytes: &[u8; NODE_BYTES]) -> Node {
    Node {
        status: status_from_byte(bytes[0]),
        counter: four(&bytes[1..5]),
        group: four(&bytes[5..9]),
        coordinator: bytes[9],
        task: two(&bytes[10..12]),
        members: two(&bytes[12..14]),
        last_call: four(&bytes[14..18]),
        activity: unflat(Flat {
            tag: bytes[18] % 9,
            set: two(&bytes[19..21]),
            former: two(&bytes[21..23]),
            node: bytes[23],
            caller: bytes[24],
            call: four(&bytes[25..29]),
        }),
    }
}

/// sender 1, receiver 1, kind 1, call 4, group 4, task 2, yes 1
fn message_to_bytes(message: &Message, bytes: &mut [u8; MESSAGE_BYTES]) {
    bytes[0] = message.sender;
    bytes[1] = message.receiver;
    bytes[2] = message.body.kind();
    bytes[3..7].copy_from_slice(&message.call.to_be_bytes());
    bytes[7..11].copy_from_slice(&message.body.group().unwrap_or(0).to_be_bytes());
    let (task, yes) = match message.body {
        Body::Ready { task, .. } => (task, false),
        Body::Reply { yes } => (0, yes),
        _ => (0, false),
    };
    bytes[11..13].copy_from_slice(&task.to_be_bytes());
    bytes[13] = u8::from(yes);
}

/// What the message's kind does not carry is read past. Yes or no is read by the lowest bit, as a status is by its
/// remainder.
fn message_from_bytes(bytes: &[u8; MESSAGE_BYTES]) -> Message {
    let group = four(&bytes[7..11]);
    Message {
        sender: bytes[0],
        receiver: bytes[1],
        call: four(&bytes[3..7]),
        body: match bytes[2] {
            1 => Body::AreYouCoordinator,
            2 => Body::AreYouThere { group },
            3 => Body::Invitation { group },
            4 => Body::Accept { group },
            5 => Body::Ready { group, task: two(&bytes[11..13]) },
            6 => Body::Reply { yes: bytes[13] % 2 == 1 },
            kind => Body::Unknown { kind },
        },
    }
}

/// An activity as in bytes: what it does not have is 0.
#[derive(Clone, Copy, Default)]
struct Flat {
    tag: u8,
    set: u16,
    former: u16,
    node: u8,
    caller: u8,
    call: u32,
}

fn flat(activity: Activity) -> Flat {
    let none = Flat { tag: tag(&activity), ..Flat::default() };
    match activity {
        Activity::Idle | Activity::Collecting | Activity::Contacting => none,
        Activity::Asking { asked, found } => Flat { set: found, node: asked, ..none },
        Activity::Waiting { ticks, found } => Flat { set: found, node: ticks, ..none },
        Activity::Inviting { found, former, now } => Flat { set: found, former, node: now, ..none },
        Activity::Handing { rest, now } => Flat { set: rest, node: now, ..none },
        Activity::Forwarding { rest, now, caller, call } => {
            Flat { set: rest, node: now, caller, call, ..none }
        }
        Activity::Accepting { caller, call } => Flat { caller, call, ..none },
    }
}

fn unflat(flat: Flat) -> Activity {
    let Flat { tag, set, former, node, caller, call } = flat;
    match tag {
        0 => Activity::Idle,
        1 => Activity::Asking { asked: node, found: set },
        2 => Activity::Waiting { ticks: node, found: set },
        3 => Activity::Inviting { found: set, former, now: node },
        4 => Activity::Collecting,
        5 => Activity::Handing { rest: set, now: node },
        6 => Activity::Contacting,
        7 => Activity::Forwarding { rest: set, now: node, caller, call },
        _ => Activity::Accepting { caller, call },
    }
}

/// The activity's number in bytes, 0 to 8.
pub fn tag(activity: &Activity) -> u8 {
    match activity {
        Activity::Idle => 0,
        Activity::Asking { .. } => 1,
        Activity::Waiting { .. } => 2,
        Activity::Inviting { .. } => 3,
        Activity::Collecting => 4,
        Activity::Handing { .. } => 5,
        Activity::Contacting => 6,
        Activity::Forwarding { .. } => 7,
        Activity::Accepting { .. } => 8,
    }
}

/// A status is read by its remainder.
pub fn status_from_byte(byte: u8) -> Status {
    match byte % 4 {
        0 => Status::Down,
        1 => Status::Election,
        2 => Status::Reorganization,
        _ => Status::Normal,
    }
}

pub fn two(bytes: &[u8]) -> u16 {
    u16::from_be_bytes(bytes.try_into().expect("two bytes"))
}

fn four(bytes: &[u8]) -> u32 {
    u32::from_be_bytes(bytes.try_into().expect("four bytes"))
}
