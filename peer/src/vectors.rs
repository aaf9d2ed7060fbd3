//! Reads and writes the vectors: single events on tables (the form of steps.txt), pairs of a list and
//! its printed text (NAME.list and NAME.txt), and the sums and the wrong inputs of T-01. `calls.rs` reads
//! the calls.

use crate::machine::{
    count_mut, count_of, Activity, Body, Event, Limits, Message, Node, Status, Table, Traffic,
    MAX_NODES,
};
use std::fmt::Write;
use std::path::{Path, PathBuf};
use std::str::SplitWhitespace;

/// One event on one table, with what follows. After a refusal the table is as it was.
#[derive(Clone, Debug)]
pub struct StepCase {
    pub number: u32,
    pub table: Table,
    pub event: Event,
    pub answer: Result<(), u8>,
    pub after: Table,
}

/// A list and the text that the bench program prints for it, if that is there.
#[derive(Clone, Debug)]
pub struct ListCase {
    pub name: String,
    pub list: Vec<u8>,
    pub text: Option<Vec<u8>>,
}

/// Reads every NAME.list of a directory, and its NAME.txt if there is one, in the order of the names.
pub fn read_lists(directory: &Path) -> Result<Vec<ListCase>, String> {
    let fault = |path: &Path, e: std::io::Error| format!("{}: {e}", path.display());
    let mut cases = Vec::new();
    for entry in std::fs::read_dir(directory).map_err(|e| fault(directory, e))? {
        let path = entry.map_err(|e| fault(directory, e))?.path();
        if path.extension().is_some_and(|x| x == "list") {
            let text = path.with_extension("txt");
            cases.push(ListCase {
                name: path.file_stem().unwrap_or_default().to_string_lossy().into_owned(),
                list: std::fs::read(&path).map_err(|e| fault(&path, e))?,
                text: if text.exists() {
                    Some(std::fs::read(&text).map_err(|e| fault(&text, e))?)
                } else {
                    None
                },
            });
        }
    }
    cases.sort_by(|a, b| a.name.cmp(&b.name));
    Ok(cases)
}

/// The lists of some directories, each with its name in words.
pub fn read_named_lists(directories: &[PathBuf]) -> Result<Vec<(String, Vec<u8>)>, String> {
    let mut lists = Vec::new();
    for directory in directories {
        let cases = read_lists(directory)?;
        lists.extend(cases.into_iter().map(|case| (format!("list {}", case.name), case.list)));
    }
    Ok(lists)
}

/// A line of sums.txt: what is known of the text of an input.
#[derive(Clone, Debug)]
pub struct Sum {
    pub n: u8,
    pub length: u8,
    /// How many lists, or states in T-12.
    pub count: u64,
    pub bytes: u64,
    pub sha256: String,
}

/// Reads sums.txt, whose first line names the columns. The error names the line.
pub fn read_sums(text: &str) -> Result<Vec<Sum>, String> {
    let sum = |line: &str| {
        let w = &mut line.split_whitespace();
        let (n, length, count, bytes) = (number(w)?, number(w)?, number(w)?, number(w)?);
        let sum = Sum { n, length, count, bytes, sha256: w.next()?.to_string() };
        w.next().is_none().then_some(sum)
    };
    let lines = text.lines().skip(1);
    lines.map(|line| sum(line).ok_or(format!("sums.txt: {line}"))).collect()
}

/// An input that is refused, and the text that it prints.
#[derive(Clone, Debug)]
pub struct WrongInput {
    pub input: Vec<u8>,
    pub text: Vec<u8>,
}

/// Reads wrong-inputs.txt: an input in hex and the line that it prints. The error names the line.
pub fn read_wrong_inputs(text: &str) -> Result<Vec<WrongInput>, String> {
    let wrong_input = |line: &str| {
        let (input, printed) = line.split_once(' ')?;
        Some(WrongInput { input: read_hex(input)?, text: format!("{printed}\n").into_bytes() })
    };
    let fault = |line: &str| format!("wrong-inputs.txt: {line}");
    text.lines().map(|line| wrong_input(line).ok_or_else(|| fault(line))).collect()
}

/// Bytes in hex, in which `_N_` stands for N zero bytes; `-` is none.
pub fn read_hex(word: &str) -> Option<Vec<u8>> {
    let mut bytes = Vec::new();
    if word == "-" {
        return Some(bytes);
    }
    let parts: Vec<&str> = word.split('_').collect();
    if parts.len().is_multiple_of(2) {
        return None;
    }
    for (k, part) in parts.iter().enumerate() {
        if k % 2 == 1 {
            bytes.resize(bytes.len() + part.parse::<usize>().ok()?, 0);
            continue;
        }
        let (pairs, []) = part.as_bytes().as_chunks::<2>() else {
            return None;
        };
        for pair in pairs {
            bytes.push(u8::from_str_radix(std::str::from_utf8(pair).ok()?, 16).ok()?);
        }
    }
    Some(bytes)
}

/// The same bytes in hex; from four zero bytes on their number is written.
pub fn write_hex(bytes: &[u8]) -> String {
    if bytes.is_empty() {
        return "-".to_string();
    }
    let mut word = String::new();
    for part in bytes.chunk_by(|a, b| (*a == 0) == (*b == 0)) {
        if part[0] == 0 && part.len() >= 4 {
            write!(word, "_{}_", part.len()).expect("a String takes it");
        } else {
            part.iter().for_each(|byte| write!(word, "{byte:02x}").expect("a String takes it"));
        }
    }
    word
}

/// The parts of a case as its lines come.
struct Draft {
    number: u32,
    limits: Option<Limits>,
    table: Table,
    event: Option<Event>,
    answer: Option<Result<(), u8>>,
    after: Table,
}

/// Reads every case of a text in the form of steps.txt. The error names the line.
pub fn read_steps(text: &str) -> Result<Vec<StepCase>, String> {
    let mut cases = Vec::new();
    let mut draft = None;
    for (k, line) in text.lines().enumerate() {
        let case = read_line(line, &mut draft).ok_or(format!("line {}: {line}", k + 1))?;
        cases.extend(case);
    }
    match draft {
        None => Ok(cases),
        Some(_) => Err("the last case has no end".to_string()),
    }
}

/// Takes in one line; gives the case when the line ends one, and None when the line is not in form.
fn read_line(line: &str, draft: &mut Option<Draft>) -> Option<Option<StepCase>> {
    let mut words = line.split_whitespace();
    let Some(first) = words.next() else {
        return Some(None);
    };
    if first == "case" {
        if draft.is_some() {
            return None;
        }
        let number = number(&mut words)?;
        // What they are is not known before their lines come.
        let table = Table::start(0, Limits { nodes: 0, messages: 0 });
        let after = table.clone();
        *draft = Some(Draft { number, limits: None, table, event: None, answer: None, after });
        return Some(None);
    }
    let case = draft.as_mut()?;
    let table = if case.answer.is_none() { &mut case.table } else { &mut case.after };
    match first {
        "n" => table.n = number(&mut words)?,
        // They stand there once, before the event, which leaves them as they are.
        "limits" if case.limits.is_none() && case.event.is_none() => {
            let limits = Limits { nodes: number(&mut words)?, messages: number(&mut words)? };
            (case.limits, table.limits) = (Some(limits), limits);
        }
        "cabinet" => {
            let i: u8 = number(&mut words)?;
            *table.nodes.get_mut(usize::from(i).checked_sub(1)?)? = read_node(&mut words)?;
        }
        "message" => table.messages.push(read_message(&mut words)?),
        "counts" => read_counts(&mut words, &mut table.traffic)?,
        "event" => case.event = Some(read_event(&mut words)?),
        "answer" => {
            match words.next()? {
                "accepted" => {
                    (case.after.n, case.after.limits) = (case.table.n, case.table.limits);
                    case.answer = Some(Ok(()));
                }
                "refused" => {
                    case.after = case.table.clone();
                    case.answer = Some(Err(number(&mut words)?));
                }
                _ => return None,
            };
        }
        "end" => {
            let Draft { number, limits, table, event, answer, after } = draft.take()?;
            limits?;
            return Some(Some(StepCase { number, table, event: event?, answer: answer?, after }));
        }
        _ => return None,
    }
    if words.next().is_some() {
        return None;
    }
    Some(None)
}

/// The next word, which must be a number.
pub fn number<T: std::str::FromStr>(words: &mut SplitWhitespace) -> Option<T> {
    words.next()?.parse().ok()
}

fn read_node(w: &mut SplitWhitespace) -> Option<Node> {
    Some(Node {
        status: match w.next()? {
            "0" => Status::Down,
            "1" => Status::Election,
            "2" => Status::Reorganization,
            "3" => Status::Normal,
            _ => return None,
        },
        counter: number(w)?,
        group: number(w)?,
        coordinator: number(w)?,
        task: number(w)?,
        members: number(w)?,
        last_call: number(w)?,
        activity: match w.next()? {
            "idle" => Activity::Idle,
            "asking" => Activity::Asking { asked: number(w)?, found: number(w)? },
            "waiting" => Activity::Waiting { ticks: number(w)?, found: number(w)? },
            "inviting" => {
                Activity::Inviting { found: number(w)?, former: number(w)?, now: number(w)? }
            }
            "collecting" => Activity::Collecting,
            "handing" => Activity::Handing { rest: number(w)?, now: number(w)? },
            "contacting" => Activity::Contacting,
            "forwarding" => Activity::Forwarding {
                rest: number(w)?,
                now: number(w)?,
                caller: number(w)?,
                call: number(w)?,
            },
            "accepting" => Activity::Accepting { caller: number(w)?, call: number(w)? },
            _ => return None,
        },
    })
}

/// A field that the message's kind does not carry is read past.
fn read_message(w: &mut SplitWhitespace) -> Option<Message> {
    let (sender, receiver) = (number(w)?, number(w)?);
    let kind: u8 = number(w)?;
    let call = number(w)?;
    let (group, task, yes): (u32, u16, u8) = (number(w)?, number(w)?, number(w)?);
    let body = match kind {
        1 => Body::AreYouCoordinator,
        2 => Body::AreYouThere { group },
        3 => Body::Invitation { group },
        4 => Body::Accept { group },
        5 => Body::Ready { group, task },
        6 => Body::Reply { yes: yes != 0 },
        _ => Body::Unknown { kind },
    };
    Some(Message { sender, receiver, call, body })
}

/// `A B SENT DELIVERED LOST`
fn read_counts(w: &mut SplitWhitespace, traffic: &mut Traffic) -> Option<()> {
    let (a, b): (u8, u8) = (number(w)?, number(w)?);
    if a.min(b) < 1 || a.max(b) > MAX_NODES {
        return None;
    }
    *count_mut(&mut traffic.sent, a, b) = number(w)?;
    *count_mut(&mut traffic.delivered, a, b) = number(w)?;
    *count_mut(&mut traffic.lost, a, b) = number(w)?;
    Some(())
}

fn read_event(w: &mut SplitWhitespace) -> Option<Event> {
    Some(match w.next()? {
        "crash" => Event::Crash(number(w)?),
        "recover" => Event::Recover(number(w)?),
        "check" => Event::Check(number(w)?),
        "timeout" => Event::Timeout(number(w)?),
        "tick" => Event::Tick(number(w)?),
        "expire" => Event::Expire(number(w)?),
        "finish" => Event::Finish(number(w)?, number(w)?),
        "deliver" => Event::Deliver(number(w)?, number(w)?),
        "lose" => Event::Lose(number(w)?, number(w)?),
        _ => return None,
    })
}

/// The cabinet line of node i, as in steps.txt.
pub fn node_text(i: u8, x: &Node) -> String {
    let activity = match x.activity {
        Activity::Idle => "idle".to_string(),
        Activity::Asking { asked, found } => format!("asking {asked} {found}"),
        Activity::Waiting { ticks, found } => format!("waiting {ticks} {found}"),
        Activity::Inviting { found, former, now } => format!("inviting {found} {former} {now}"),
        Activity::Collecting => "collecting".to_string(),
        Activity::Handing { rest, now } => format!("handing {rest} {now}"),
        Activity::Contacting => "contacting".to_string(),
        Activity::Forwarding { rest, now, caller, call } => {
            format!("forwarding {rest} {now} {caller} {call}")
        }
        Activity::Accepting { caller, call } => format!("accepting {caller} {call}"),
    };
    format!(
        "cabinet {i} {} {} {} {} {} {} {} {activity}\n",
        x.status as u8, x.counter, x.group, x.coordinator, x.task, x.members, x.last_call
    )
}

/// The limits, cabinet, message and counts lines of a table, as in steps.txt.
pub fn table_text(table: &Table) -> String {
    let mut text = format!("limits {} {}\n", table.limits.nodes, table.limits.messages);
    text.extend((1..=table.n.min(MAX_NODES)).map(|i| node_text(i, table.node(i))));
    for m in &table.messages {
        let task = if let Body::Ready { task, .. } = m.body { task } else { 0 };
        let yes = matches!(m.body, Body::Reply { yes: true });
        writeln!(
            text,
            "message {} {} {} {} {} {task} {}",
            m.sender,
            m.receiver,
            m.body.kind(),
            m.call,
            m.body.group().unwrap_or(0),
            u8::from(yes)
        )
        .expect("a String takes every line");
    }
    for (a, b) in (1..=MAX_NODES).flat_map(|a| (1..=MAX_NODES).map(move |b| (a, b))) {
        let Traffic { sent, delivered, lost } = &table.traffic;
        let counts = [sent, delivered, lost].map(|counts| count_of(counts, a, b));
        if counts != [0; 3] {
            let [sent, delivered, lost] = counts;
            writeln!(text, "counts {a} {b} {sent} {delivered} {lost}")
                .expect("a String takes every line");
        }
    }
    text
}
