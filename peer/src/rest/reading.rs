//! A text of `rest` read by itself, without this program's own run to rest: its head by the bench program's text of the
//! same list, its number of turns by walking the pairs, and its table by the bench program's text of the list with the
//! events of these turns put behind it.

use crate::list::{read_list, write_list, List, Stop, MAX_LIST};
use crate::machine::{advance, Body, Event, Limits, Status, Table};
use crate::print::{print_table, run_list};
use crate::traffic_tables::pairs;
use crate::tuned;

/// What a text was seen to be of.
#[derive(Clone, Debug, Default)]
pub struct Seen {
    /// None where the whole list or the first field failed.
    pub of: Option<(u8, Limits)>,
    pub stop: Option<Stop>,
    /// The numbers of the refused events.
    pub refused: Vec<u8>,
    /// How many messages wait when the list ends.
    pub waiting: usize,
    pub turns: u64,
    /// The kinds of the messages that the turns delivered, and how many they lost.
    pub delivered: Vec<u8>,
    pub lost: usize,
    /// How many messages were sent in these turns: all that wait and all these were taken out.
    pub sent: usize,
    /// Whether the list with the events of the turns behind it is short enough to be a list.
    pub by_a_list: bool,
}

/// Reads a text of a list. The error says in words what is wrong with it.
pub fn read(list: &[u8], text: &[u8]) -> Result<Seen, String> {
    let bench = run_list(list);
    let list = match read_list(list) {
        Ok(list) => list,
        Err(stop) if text == bench => return Ok(Seen { stop: Some(stop), ..Seen::default() }),
        Err(_) => return Err("the list is refused, and the text is not that alone".to_string()),
    };
    let head = before_table(&bench, list.n);
    let rest = text.strip_prefix(head).ok_or("it does not begin as the bench program's text")?;
    let (turns, printed) = read_turns(rest).ok_or("no line `turns k` stands before the table")?;
    let mut table = Table::start(list.n, list.limits);
    let mut refused = Vec::new();
    for event in &list.events {
        refused.extend(advance(&mut table, event).err());
    }
    let waiting = table.messages.len();
    let walked = walk(&mut table, turns)?;
    let by_a_list = judge_table(&list, &walked.events, &table, printed)?;
    Ok(Seen {
        of: Some((list.n, list.limits)),
        stop: list.stop,
        refused,
        waiting,
        turns,
        sent: walked.events.len() - waiting,
        delivered: walked.delivered,
        lost: walked.lost,
        by_a_list,
    })
}

/// A text up to its table, which has a line for each of n nodes and four more.
fn before_table(text: &[u8], n: u8) -> &[u8] {
    let mut ends = (0..text.len()).rev().filter(|&at| text[at] == b'\n');
    let end = ends.nth(usize::from(n) + 4).map_or(0, |at| at + 1);
    &text[..end]
}

/// The line `turns k`, with no leading zeros, and what stands behind it.
fn read_turns(rest: &[u8]) -> Option<(u64, &[u8])> {
    let end = rest.iter().position(|&byte| byte == b'\n')?;
    let line = std::str::from_utf8(&rest[..end]).ok()?;
    let turns: u64 = line.strip_prefix("turns ")?.parse().ok()?;
    (line == format!("turns {turns}")).then_some((turns, &rest[end + 1..]))
}

/// What so many turns did.
struct Walked {
    events: Vec<Event>,
    delivered: Vec<u8>,
    lost: usize,
}

/// Walks the pairs for so many turns: one may come only while a message waits, and behind the last none waits. So with
/// one turn less some message waits.
fn walk(table: &mut Table, turns: u64) -> Result<Walked, String> {
    let round: Vec<(u8, u8)> = pairs(table.n).collect();
    let mut walked = Walked { events: Vec::new(), delivered: Vec::new(), lost: 0 };
    let mut at = 0;
    for turn in 1..=turns {
        if table.messages.is_empty() {
            return Err(format!("no message waits before turn {turn} of {turns}"));
        }
        let (a, b) = round[at];
        at = if at + 1 == round.len() { 0 } else { at + 1 };
        let Some(m) = table.messages.iter().find(|m| m.sender == a && m.receiver == b) else {
            continue;
        };
        // In lists no counter, call number or count is at its end.
        let event = if table.node(b).status == Status::Down {
            walked.lost += 1;
            Event::Lose(a, b)
        } else {
            walked.delivered.push(Body::kind(&m.body));
            Event::Deliver(a, b)
        };
        advance(table, &event).map_err(|number| format!("turn {turn} meets {number}"))?;
        walked.events.push(event);
    }
    match table.messages.len() {
        0 => Ok(walked),
        waiting => Err(format!("{waiting} messages wait after {turns} turns")),
    }
}

/// The printed table must be that of the walk, and be printed for the list with the events of the turns behind it,
/// where it is short enough; for that without the last of them a message must wait. Gives whether it was short enough.
fn judge_table(
    list: &List,
    turns: &[Event],
    table: &Table,
    printed: &[u8],
) -> Result<bool, String> {
    let mut right = String::new();
    print_table(&mut right, table);
    if printed != right.as_bytes() {
        let printed = String::from_utf8_lossy(printed);
        return Err(format!("its table is\n{printed}by walking the pairs\n{right}"));
    }
    if !right.contains("\nmessages 0\n") {
        return Err("messages wait in its table".to_string());
    }
    let longer = [&list.events[..], turns].concat();
    let bytes = write_list(list.n, list.limits, &longer);
    if bytes.len() > MAX_LIST {
        return Ok(false);
    }
    if !bench_text(&bytes).ends_with(printed) {
        return Err("its table is not that of the list with the turns' events".to_string());
    }
    if !turns.is_empty() {
        let text = bench_text(&write_list(list.n, list.limits, &longer[..longer.len() - 1]));
        let table = &text[before_table(&text, list.n).len()..];
        if String::from_utf8_lossy(table).contains("\nmessages 0\n") {
            return Err("no message waits with one turn less".to_string());
        }
    }
    Ok(true)
}

/// The bench program's text by the program written for speed.
fn bench_text(list: &[u8]) -> Vec<u8> {
    // A line for each event is the longest text that there is.
    let mut text = vec![0; 1000 + 5 * list.len()];
    let length = tuned::print(list, &mut text).expect("it has room");
    text.truncate(length);
    text
}
