//! A trace's text read into steps and messages. Nothing is run here: what a line says is taken as
//! it stands, and a line that has none of the trace's forms is told among the faults.

use std::collections::{HashMap, VecDeque};

/// The most cabinets that a run has.
const MOST_CABINETS: usize = 16;

/// The four totals behind the closing table, by the words that begin their lines.
const TOTALS: [&str; 4] = ["messages", "sent", "delivered", "lost"];

/// What a trace says.
#[derive(Default)]
pub struct Run<'a> {
    /// how many there are, or 0 where the list did not come so far
    pub cabinets: usize,
    /// event e at place e - 1
    pub steps: Vec<Step<'a>>,
    /// in the order sent
    pub messages: Vec<Message<'a>>,
    /// the offset and the refusal's number of a list that stops
    pub stopped: Option<(u64, u64)>,
    /// messages, sent, delivered and lost, as they are printed
    pub totals: Vec<(&'static str, &'a str)>,
    /// what could not be read, and what does not agree with something else in the trace
    pub faults: Vec<String>,
}

/// An event and what it did.
pub struct Step<'a> {
    /// the event's text, as in `deliver 2 1`
    pub text: &'a str,
    /// its first word
    pub name: &'a str,
    /// where it takes place: the receiver of deliver; 0 of lose
    pub cabinet: usize,
    /// the refusal's number
    pub refused: Option<u64>,
    pub change: Option<Change<'a>>,
    /// the message taken out and the one put in, by their places in `messages`
    pub taken: Option<usize>,
    pub sent: Option<usize>,
}

/// A record that changed, and its new status, group and task where these are not as before.
pub struct Change<'a> {
    pub cabinet: usize,
    pub status: Option<Status>,
    pub group: Option<&'a str>,
    pub task: Option<&'a str>,
}

#[derive(Clone, Copy, Debug, PartialEq, Eq)]
pub enum Status {
    Down,
    Election,
    Reorganization,
    Normal,
}

impl Status {
    pub const ALL: [Status; 4] =
        [Status::Down, Status::Election, Status::Reorganization, Status::Normal];

    fn of(word: &str) -> Option<Status> {
        Status::ALL.get(usize::try_from(number(word)?).ok()?).copied()
    }

    pub fn letter(self) -> &'static str {
        &self.name()[..1]
    }

    pub fn name(self) -> &'static str {
        match self {
            Status::Down => "Down",
            Status::Election => "Election",
            Status::Reorganization => "Reorganization",
            Status::Normal => "Normal",
        }
    }
}

/// A message, with the event that sent it.
pub struct Message<'a> {
    pub from: usize,
    pub to: usize,
    /// as in `Invitation group 33 call 2`
    pub words: &'a str,
    pub sent: usize,
    pub end: End,
}

/// What became of a message, with the event by which it did.
#[derive(Clone, Copy, Debug, PartialEq, Eq)]
pub enum End {
    Waits,
    Delivered(usize),
    Lost(usize),
}

impl<'a> Message<'a> {
    /// Its kind, of a reply with yes or no.
    pub fn kind(&self) -> &'a str {
        let words = if self.words.starts_with("reply ") { 2 } else { 1 };
        self.words
            .match_indices(' ')
            .nth(words - 1)
            .map_or(self.words, |(end, _)| &self.words[..end])
    }
}

/// Reads a trace's text.
pub fn read(trace: &str) -> Run<'_> {
    let mut reader = Reader::default();
    let mut lines = trace.split('\n');
    let behind = lines.next_back();
    for (place, line) in lines.enumerate() {
        if reader.line(line).is_none() {
            reader.fault(format!("line {} is not a line of a trace: {line}", place + 1));
        }
    }
    if behind.is_some_and(|rest| !rest.is_empty()) {
        reader.fault("the trace's last line has no end".to_string());
    }
    reader.finish()
}

/// How many faults are told one by one.
const MOST_FAULTS: usize = 8;

#[derive(Default)]
struct Reader<'a> {
    run: Run<'a>,
    /// the six numbers of each cabinet's last line, at first those of the starting table
    records: Vec<&'a str>,
    /// the waiting messages of each pair, oldest first
    waiting: HashMap<(usize, usize), VecDeque<usize>>,
    /// how many lines of the closing table were read
    closing: usize,
    /// behind the last event
    ended: bool,
    faults: usize,
}

impl<'a> Reader<'a> {
    fn fault(&mut self, words: String) {
        self.faults += 1;
        if self.faults <= MOST_FAULTS {
            self.run.faults.push(words);
        }
    }

    /// Reads a line, or answers nothing where it is none of the trace's.
    fn line(&mut self, line: &'a str) -> Option<()> {
        if self.run.cabinets == 0 {
            return self.first(line);
        }
        match line.strip_prefix("  ") {
            Some(detail) if !self.ended => self.detail(detail),
            _ => self.event(line).or_else(|| self.end(line)),
        }
    }

    /// `cabinets N`, or `stopped B R` alone.
    fn first(&mut self, line: &'a str) -> Option<()> {
        if self.ended {
            return None;
        }
        if let Some(stopped) = stopped(line) {
            self.run.stopped = Some(stopped);
            self.ended = true;
            return Some(());
        }
        self.run.cabinets = cabinet(line.strip_prefix("cabinets ")?, MOST_CABINETS)?;
        self.records = vec!["0 0 0 0 0 0"; self.run.cabinets];
        Some(())
    }

    /// `12 deliver 2 1 accepted`, or `refused R` at its end.
    fn event(&mut self, line: &'a str) -> Option<()> {
        let (place, rest) = line.split_once(' ')?;
        let next = u64::try_from(self.run.steps.len()).ok()? + 1;
        if self.ended || number(place)? != next {
            return None;
        }
        let (text, refused) = match rest.strip_suffix(" accepted") {
            Some(text) => (text, None),
            None => {
                let (text, refusal) = rest.rsplit_once(" refused ")?;
                (text, Some(number(refusal)?))
            }
        };
        let (name, numbers) = text.split_once(' ')?;
        let numbers = numbers.split(' ').map(number).collect::<Option<Vec<u64>>>()?;
        let at = match (name, &numbers[..]) {
            ("crash" | "recover" | "check" | "timeout" | "tick" | "expire", [cabinet])
            | ("finish", [cabinet, _])
            | ("deliver", [_, cabinet]) => *cabinet,
            ("lose", [_, _]) => 0,
            _ => return None,
        };
        // the numbers of a refused event may be any
        let at = usize::try_from(at).unwrap_or(usize::MAX);
        if refused.is_none() && at > self.run.cabinets {
            return None;
        }
        self.run.steps.push(Step {
            text,
            name,
            cabinet: at,
            refused,
            change: None,
            taken: None,
            sent: None,
        });
        Some(())
    }

    /// A line below an accepted event: `taken ..`, `sent ..`, or a record.
    fn detail(&mut self, detail: &'a str) -> Option<()> {
        let event = self.run.steps.len();
        if self.run.steps.last()?.refused.is_some() {
            return None;
        }
        if let Some(message) = detail.strip_prefix("taken ") {
            return self.taken(event, message);
        }
        if let Some(message) = detail.strip_prefix("sent ") {
            return self.sent(event, message);
        }
        let (cabinet, status) = self.record(detail)?;
        let before: Vec<&str> = self.records[cabinet - 1].split(' ').collect();
        let after: Vec<&str> = detail.split(' ').skip(1).take(6).collect();
        let changed = |place: usize| (after[place] != before[place]).then_some(after[place]);
        let change = Change {
            cabinet,
            status: changed(0).map(|_| status),
            group: changed(2),
            task: changed(3),
        };
        self.records[cabinet - 1] = numbers_of(detail);
        let step = self.run.steps.last_mut()?;
        if step.change.replace(change).is_some() {
            self.fault(format!("event {event} has two records"));
        }
        Some(())
    }

    /// The cabinet and status of a record with its activity in words, where it has that form.
    fn record(&self, detail: &str) -> Option<(usize, Status)> {
        let mut words = detail.split(' ');
        let cabinet = cabinet(words.next()?, self.run.cabinets)?;
        let status = Status::of(words.next()?)?;
        for _ in 0..5 {
            number(words.next()?)?;
        }
        let activity = words.next()?;
        const ACTIVITIES: [&str; 9] = [
            "idle",
            "asking",
            "waiting",
            "inviting",
            "collecting",
            "handing",
            "contacting",
            "forwarding",
            "accepting",
        ];
        let plain = |word: &str| {
            number(word).is_some()
                || !word.is_empty() && word.bytes().all(|byte| byte.is_ascii_lowercase())
        };
        (ACTIVITIES.contains(&activity) && words.all(plain)).then_some((cabinet, status))
    }

    fn sent(&mut self, event: usize, message: &'a str) -> Option<()> {
        let (from, to, words) = self.message(message)?;
        let place = self.run.messages.len();
        self.run.messages.push(Message { from, to, words, sent: event, end: End::Waits });
        self.waiting.entry((from, to)).or_default().push_back(place);
        if self.run.steps.last_mut()?.sent.replace(place).is_some() {
            self.fault(format!("event {event} sent two messages"));
        }
        Some(())
    }

    /// The oldest of its pair is taken out.
    fn taken(&mut self, event: usize, message: &'a str) -> Option<()> {
        let (from, to, words) = self.message(message)?;
        let step = self.run.steps.last_mut()?;
        let end = match step.name {
            "deliver" => End::Delivered(event),
            "lose" => End::Lost(event),
            _ => return None,
        };
        let oldest = self.waiting.get_mut(&(from, to)).and_then(|pair| pair.pop_front());
        let Some(place) = oldest else {
            self.fault(format!("event {event} takes a message that was not sent: {message}"));
            return Some(());
        };
        let twice = step.taken.replace(place).is_some();
        self.run.messages[place].end = end;
        if self.run.messages[place].words != words {
            self.fault(format!(
                "event {event} does not take the oldest message from {from} to {to}"
            ));
        }
        if twice {
            self.fault(format!("event {event} took two messages"));
        }
        Some(())
    }

    /// `2 -> 1 Invitation group 33 call 2`: sender, receiver, and the words behind them.
    fn message(&self, text: &'a str) -> Option<(usize, usize, &'a str)> {
        let (from, rest) = text.split_once(" -> ")?;
        let (to, words) = rest.split_once(' ')?;
        let from = cabinet(from, self.run.cabinets)?;
        let to = cabinet(to, self.run.cabinets)?;
        let parts: Vec<&str> = words.split(' ').collect();
        let numbers: &[&str] = match &parts[..] {
            ["AreYouCoordinator", "call", call] => &[call],
            ["AreYouThere" | "Invitation" | "Accept", "group", group, "call", call] => {
                &[group, call]
            }
            ["Ready", "group", group, "task", task, "call", call] => &[group, task, call],
            ["reply", "yes" | "no", "call", call] => &[call],
            _ => return None,
        };
        let good = from != to && numbers.iter().all(|word| number(word).is_some());
        good.then_some((from, to, words))
    }

    /// `stopped B R`, a line of the closing table, or a total.
    fn end(&mut self, line: &'a str) -> Option<()> {
        if let Some(stopped) = stopped(line).filter(|_| !self.ended) {
            self.run.stopped = Some(stopped);
            self.ended = true;
            return Some(());
        }
        let place = self.closing;
        if place < self.run.cabinets {
            let words: Vec<&str> = line.split(' ').collect();
            let numbers = words.iter().filter(|word| number(word).is_some()).count();
            if words.len() != 7 || numbers != 7 || number(words[0])? != place as u64 + 1 {
                return None;
            }
            if numbers_of(line) != self.records[place] {
                let words =
                    format!("the closing table has another record of cabinet {}", place + 1);
                self.fault(words);
            }
        } else {
            let total = *TOTALS.get(place - self.run.cabinets)?;
            let value = line.strip_prefix(total)?.strip_prefix(' ')?;
            number(value)?;
            self.run.totals.push((total, value));
        }
        self.ended = true;
        self.closing += 1;
        Some(())
    }

    /// What is told of the whole trace.
    fn finish(mut self) -> Run<'a> {
        if self.run.cabinets == 0 && self.run.stopped.is_none() {
            (self.run.faults, self.faults) = (Vec::new(), 0);
            self.fault("this is not a trace: it has neither `cabinets n` nor `stopped 0 r`".into());
        } else if self.run.cabinets > 0 && self.closing < self.run.cabinets + TOTALS.len() {
            self.fault("the trace ends before its closing table does".to_string());
        } else if self.run.cabinets > 0 {
            let ends = |how: fn(&End) -> bool| {
                self.run.messages.iter().filter(|message| how(&message.end)).count()
            };
            let counted = [
                ends(|end| *end == End::Waits),
                self.run.messages.len(),
                ends(|end| matches!(end, End::Delivered(_))),
                ends(|end| matches!(end, End::Lost(_))),
            ];
            for (place, count) in counted.into_iter().enumerate() {
                let (total, value) = self.run.totals[place];
                if number(value) != Some(count as u64) {
                    self.fault(format!(
                        "the trace ends with {total} {value}, and its steps have {count}"
                    ));
                }
            }
        }
        if self.faults > MOST_FAULTS {
            self.run.faults.push(format!("and {} more", self.faults - MOST_FAULTS));
        }
        self.run
    }
}

/// The six numbers behind a cabinet's own, as text; the line is known to have them.
fn numbers_of(line: &str) -> &str {
    let start = line.find(' ').map_or(line.len(), |space| space + 1);
    let end = line.match_indices(' ').nth(6).map_or(line.len(), |(space, _)| space);
    line.get(start..end).unwrap_or("")
}

/// `stopped B R`
fn stopped(line: &str) -> Option<(u64, u64)> {
    let (offset, refusal) = line.strip_prefix("stopped ")?.split_once(' ')?;
    Some((number(offset)?, number(refusal)?))
}

/// A cabinet's number, 1 to the most.
fn cabinet(word: &str, most: usize) -> Option<usize> {
    let number = usize::try_from(number(word)?).ok()?;
    (1..=most).contains(&number).then_some(number)
}

/// A number as the trace prints it: digits without a zero in front.
pub fn number(word: &str) -> Option<u64> {
    let digits = !word.is_empty() && word.bytes().all(|byte| byte.is_ascii_digit());
    let plain = digits && word.len() <= 10 && (word == "0" || !word.starts_with('0'));
    if plain {
        word.parse().ok()
    } else {
        None
    }
}

#[cfg(test)]
mod tests {
    use super::*;

    const K10: &str = include_str!("../../../examples/k10-trace.txt");

    #[test]
    fn k10_is_read_whole() {
        let run = read(K10);
        assert!(run.faults.is_empty(), "{:?}", run.faults);
        assert_eq!((run.cabinets, run.steps.len(), run.messages.len()), (2, 12, 8));
        assert_eq!(
            run.totals,
            [("messages", "0"), ("sent", "8"), ("delivered", "8"), ("lost", "0")]
        );
        let invitation = &run.messages[2];
        assert_eq!((invitation.from, invitation.to, invitation.sent), (2, 1, 5));
        assert_eq!((invitation.kind(), invitation.end), ("Invitation", End::Delivered(6)));
        assert_eq!(run.messages[1].kind(), "reply yes");
        let change = run.steps[9].change.as_ref().expect("event 10 changes a record");
        assert_eq!((change.cabinet, change.status), (2, Some(Status::Reorganization)));
        assert_eq!((change.group, change.task), (None, Some("100")));
    }

    #[test]
    fn the_oldest_of_a_pair_is_taken() {
        let run = read(
            "cabinets 2\n1 tick 1 accepted\n  sent 1 -> 2 Accept group 33 call 1\n\
             2 tick 1 accepted\n  sent 1 -> 2 reply no call 2\n\
             3 lose 1 2 accepted\n  taken 1 -> 2 Accept group 33 call 1\n\
             1 0 0 0 0 0 0\n2 0 0 0 0 0 0\nmessages 1\nsent 2\ndelivered 0\nlost 1\n",
        );
        assert!(run.faults.is_empty(), "{:?}", run.faults);
        assert_eq!(run.messages[0].end, End::Lost(3));
        assert_eq!(run.messages[1].end, End::Waits);
    }

    #[test]
    fn refused_and_stopped() {
        let run = read(
            "cabinets 1\n1 crash 200 refused 7\n2 recover 1 accepted\n  1 3 1 16 1 1 0 idle\n\
             stopped 12 4\n1 3 1 16 1 1 0\nmessages 0\nsent 0\ndelivered 0\nlost 0\n",
        );
        assert!(run.faults.is_empty(), "{:?}", run.faults);
        assert_eq!(run.steps[0].refused, Some(7));
        assert_eq!(run.stopped, Some((12, 4)));
        let whole = read("stopped 0 3\n");
        assert_eq!((whole.cabinets, whole.stopped, whole.faults.len()), (0, Some((0, 3)), 0));
    }

    #[test]
    fn what_does_not_agree_is_told() {
        for (from, to, told) in [
            (
                "  taken 2 -> 1 Invitation group 33 call 2",
                "  taken 2 -> 1 Invitation group 34 call 2",
                "oldest",
            ),
            ("  sent 1 -> 2 Accept group 33 call 1\n", "", "not sent"),
            ("lost 0", "lost 1", "lost 1"),
            ("\n2 3 2 33 100 2 1\n", "\n2 3 2 34 100 2 1\n", "another record"),
            ("12 deliver", "13 deliver", "line 38"),
            ("cabinets 2", "cabinets 17", "not a trace"),
            ("Ready group 33 task 100 call 3\n11", "Ready group 33 call 3\n11", "line 33"),
            ("lost 0\n", "", "before its closing table"),
            ("lost 0\n", "lost 0", "no end"),
            ("lost 0\n", "lost 0\nlost 0\n", "line 47"),
        ] {
            let changed = K10.replacen(from, to, 1);
            assert_ne!(changed, K10, "{from}");
            let faults = read(&changed).faults;
            assert!(faults.iter().any(|fault| fault.contains(told)), "{told}: {faults:?}");
        }
    }

    #[test]
    fn only_the_first_faults_are_told() {
        let faults = read(&format!("cabinets 1\n{}", "x\n".repeat(1000))).faults;
        assert_eq!(faults.len(), MOST_FAULTS + 1);
        assert_eq!(faults[MOST_FAULTS], "and 993 more");
    }
}
