//! A strict reader of labelled transition systems in the Aldebaran form (.aut files), to test that a
//! printed text is one that other tools read. It is written from the form's rules, as CADP (`bcg_io`),
//! mCRL2 (`ltsinfo`) and LTSmin are known to have them, and not from any printer; the tools and their
//! manuals were not at hand. Where the tools differ, it takes only what all of them take:
//!
//! - lines of printable ASCII, each ended by a newline;
//! - first the descriptor `des (0, TRANSITIONS, STATES)`, then as many edges `(FROM, "LABEL", TO)` as it
//!   announces, one in a line, and nothing else;
//! - any number of spaces after a comma; otherwise only the one after `des`, and those of labels;
//! - numbers of decimal digits without a sign or a leading zero, below 2^64; at least one state, and
//!   FROM and TO below STATES;
//! - labels in double quotes, of 1 to 5,000 characters of which none is a double quote.
//!
//! A text that keeps to this may still be of a system that nobody meant to hand over: `System::defect`
//! looks for an edge that occurs twice and for a state that is not reached.

use std::collections::hash_map::Entry;
use std::collections::{HashMap, HashSet, VecDeque};
use std::error::Error;
use std::fmt::{self, Display, Formatter};
use std::ops::RangeInclusive;

/// The characters of the longest label, without its quotes.
pub const LONGEST_LABEL: usize = 5_000;

/// The only initial state that all tools take.
const INITIAL: u64 = 0;

/// A labelled transition system with the states 0 to `states` - 1, of which 0 is the initial one.
#[derive(Clone, Debug, PartialEq, Eq)]
pub struct System {
    pub states: u64,
    /// In the text's order: edge i, from 0, is in line i + 2.
    pub edges: Vec<Edge>,
}

#[derive(Clone, Debug, PartialEq, Eq, Hash)]
pub struct Edge {
    pub source: u64,
    /// Without its quotes.
    pub label: String,
    pub target: u64,
}

/// Where a text breaks the form's rules first.
#[derive(Clone, Debug, PartialEq, Eq)]
pub struct Fault {
    /// From 1.
    pub line: usize,
    /// In bytes, from 1. None where edges are missing: then the line is that of the first of them.
    pub column: Option<usize>,
    pub expected: String,
    pub found: String,
}

/// What is wrong with a system, beyond its text.
#[derive(Clone, Copy, Debug, PartialEq, Eq)]
pub enum Defect {
    /// The lines of an edge and of its first repetition.
    Repeated { first: usize, again: usize },
    /// The lowest state that is not reached from the initial one.
    Unreached(u64),
}

/// What can be told of a system at a glance.
#[derive(Clone, Debug, PartialEq, Eq)]
pub struct Facts {
    pub states: u64,
    pub transitions: usize,
    /// Different ones.
    pub labels: usize,
    /// No two edges of one source have the same label.
    pub deterministic: bool,
    /// The states without an outgoing edge.
    pub deadlocks: u64,
    /// The longest of the shortest paths from the initial state to the states reached.
    pub depth: u64,
    /// One path leads from the initial state to each state, and only the empty one to itself.
    pub tree: bool,
}

/// Reads a whole text.
pub fn read(text: &[u8]) -> Result<System, Fault> {
    let mut reader = Reader { text, at: 0, line: 1, start: 0 };
    reader.word("des (")?;
    reader.number("the initial state", INITIAL..=INITIAL)?;
    reader.comma()?;
    let transitions = reader.number("the number of transitions", 0..=u64::MAX)?;
    reader.comma()?;
    let states = reader.number("the number of states", 1..=u64::MAX)?;
    reader.end_of_line()?;

    // The number announced may be far too large, so no place is made for it.
    let mut edges = Vec::new();
    while reader.next().is_some() {
        if edges.len() as u64 == transitions {
            let expected = format!("the end of the text, the transitions being {transitions}");
            return Err(reader.fault(expected));
        }
        edges.push(reader.edge(states)?);
    }
    let count = edges.len() as u64;
    if count < transitions {
        let expected = format!("edge {} of {transitions}", count + 1);
        return Err(Fault { column: None, ..reader.fault(expected) });
    }
    Ok(System { states, edges })
}

struct Reader<'a> {
    text: &'a [u8],
    /// The place of the next byte.
    at: usize,
    line: usize,
    /// The place of the line's first byte.
    start: usize,
}

impl Reader<'_> {
    fn next(&self) -> Option<u8> {
        self.text.get(self.at).copied()
    }

    /// The next byte is not what is expected.
    fn fault(&self, expected: impl Into<String>) -> Fault {
        let found = match self.next() {
            None => "the end of the text".to_string(),
            Some(b'\n') => "the end of the line".to_string(),
            Some(byte @ b' '..=b'~') => format!("`{}`", char::from(byte)),
            Some(byte) => format!("the byte 0x{byte:02X}"),
        };
        self.fault_at(self.at, expected, found)
    }

    /// A fault at a place of this line.
    fn fault_at(&self, at: usize, expected: impl Into<String>, found: String) -> Fault {
        let column = Some(at - self.start + 1);
        Fault { line: self.line, column, expected: expected.into(), found }
    }

    /// A fault is at the first byte that differs.
    fn word(&mut self, word: &str) -> Result<(), Fault> {
        for byte in word.bytes() {
            if self.next() != Some(byte) {
                return Err(self.fault(format!("`{word}`")));
            }
            self.at += 1;
        }
        Ok(())
    }

    /// A comma and the spaces after it.
    fn comma(&mut self) -> Result<(), Fault> {
        self.word(",")?;
        while self.next() == Some(b' ') {
            self.at += 1;
        }
        Ok(())
    }

    fn number(&mut self, what: &str, range: RangeInclusive<u64>) -> Result<u64, Fault> {
        let expected = || match (range.start(), range.end()) {
            (first, last) if first == last => format!("{what}, {first}"),
            (first, last) => format!("{what}, from {first} to {last}"),
        };
        let first = self.at;
        let mut digits = String::new();
        while let Some(digit @ b'0'..=b'9') = self.next() {
            digits.push(char::from(digit));
            self.at += 1;
        }
        if digits.is_empty() {
            return Err(self.fault(expected()));
        }
        if digits.len() > 1 && digits.starts_with('0') {
            let expected = format!("{what} without a leading zero");
            return Err(self.fault_at(first, expected, format!("`{digits}`")));
        }
        match digits.parse() {
            Ok(number) if range.contains(&number) => Ok(number),
            _ => Err(self.fault_at(first, expected(), format!("`{digits}`"))),
        }
    }

    /// A closing parenthesis and the newline.
    fn end_of_line(&mut self) -> Result<(), Fault> {
        self.word(")")?;
        if self.next() != Some(b'\n') {
            return Err(self.fault("a newline"));
        }
        self.at += 1;
        self.line += 1;
        self.start = self.at;
        Ok(())
    }

    fn edge(&mut self, states: u64) -> Result<Edge, Fault> {
        self.word("(")?;
        let source = self.number("the source state", 0..=states - 1)?;
        self.comma()?;
        let label = self.label()?;
        self.comma()?;
        let target = self.number("the target state", 0..=states - 1)?;
        self.end_of_line()?;
        Ok(Edge { source, label, target })
    }

    fn label(&mut self) -> Result<String, Fault> {
        self.word("\"")?;
        let mut label = String::new();
        while let Some(byte @ (b' '..=b'!' | b'#'..=b'~')) = self.next() {
            if label.len() == LONGEST_LABEL {
                return Err(self.fault(format!("`\"` after {LONGEST_LABEL} characters of a label")));
            }
            label.push(char::from(byte));
            self.at += 1;
        }
        match self.next() {
            Some(b'"') if !label.is_empty() => {
                self.at += 1;
                Ok(label)
            }
            _ if label.is_empty() => Err(self.fault("a printable character of a label")),
            _ => Err(self.fault("a printable character of a label, or `\"`")),
        }
    }
}

impl System {
    /// The first defect: a repeated edge, or else an unreached state.
    pub fn defect(&self) -> Option<Defect> {
        if let Some((first, again)) = self.repeated() {
            return Some(Defect::Repeated { first: first + 2, again: again + 2 });
        }
        self.unreached().map(Defect::Unreached)
    }

    /// The first edge that has occurred before, as the numbers, from 0, of the two.
    pub fn repeated(&self) -> Option<(usize, usize)> {
        let mut seen = HashMap::new();
        let mut edges = self.edges.iter().enumerate();
        edges.find_map(|(again, edge)| seen.insert(edge, again).map(|first| (first, again)))
    }

    /// The lowest state that is not reached from the initial one.
    pub fn unreached(&self) -> Option<u64> {
        let distances = self.distances();
        (0..self.states).find(|state| !distances.contains_key(state))
    }

    pub fn facts(&self) -> Facts {
        let labels: HashSet<&str> = self.edges.iter().map(|edge| &*edge.label).collect();
        let sources: HashSet<u64> = self.edges.iter().map(|edge| edge.source).collect();
        let starts: HashSet<(u64, &str)> =
            self.edges.iter().map(|edge| (edge.source, &*edge.label)).collect();
        let distances = self.distances();
        let all_reached = distances.len() as u64 == self.states;
        Facts {
            states: self.states,
            transitions: self.edges.len(),
            labels: labels.len(),
            deterministic: starts.len() == self.edges.len(),
            deadlocks: self.states - sources.len() as u64,
            depth: distances.values().copied().max().unwrap_or(0),
            // Each state but the initial one needs an edge to it, so none is left over.
            tree: all_reached && self.edges.len() as u64 == self.states - 1,
        }
    }

    /// The states that are reached from the initial one, with their distances from it. There may be far
    /// fewer of them than the states announced.
    fn distances(&self) -> HashMap<u64, u64> {
        let mut edges: Vec<(u64, u64)> =
            self.edges.iter().map(|edge| (edge.source, edge.target)).collect();
        edges.sort_unstable();
        let mut distances = HashMap::from([(INITIAL, 0)]);
        let mut queue = VecDeque::from([(INITIAL, 0)]);
        while let Some((state, distance)) = queue.pop_front() {
            let first = edges.partition_point(|&(source, _)| source < state);
            let outgoing = edges[first..].iter().take_while(|&&(source, _)| source == state);
            for &(_, target) in outgoing {
                if let Entry::Vacant(entry) = distances.entry(target) {
                    entry.insert(distance + 1);
                    queue.push_back((target, distance + 1));
                }
            }
        }
        distances
    }
}

impl Display for Fault {
    fn fmt(&self, f: &mut Formatter) -> fmt::Result {
        write!(f, "line {}", self.line)?;
        if let Some(column) = self.column {
            write!(f, ", column {column}")?;
        }
        write!(f, ": expected {}, found {}", self.expected, self.found)
    }
}

impl Error for Fault {}

impl Display for Defect {
    fn fmt(&self, f: &mut Formatter) -> fmt::Result {
        match self {
            Defect::Repeated { first, again } => {
                write!(f, "line {again}: the edge of line {first} again")
            }
            Defect::Unreached(state) => {
                write!(f, "state {state} is not reached from the initial state")
            }
        }
    }
}

impl Display for Facts {
    fn fmt(&self, f: &mut Formatter) -> fmt::Result {
        write!(
            f,
            "states {}, transitions {}, labels {}, {}, deadlocks {}, depth {}, {}",
            self.states,
            self.transitions,
            self.labels,
            if self.deterministic { "deterministic" } else { "nondeterministic" },
            self.deadlocks,
            self.depth,
            if self.tree { "tree" } else { "not a tree" },
        )
    }
}
