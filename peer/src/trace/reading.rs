//! A trace read from its bytes alone: the bench program's text, what it tells of each event, and whether all that is told
//! leads from the starting table to the table at its end.

/// The bench program's text, read off a trace: lines that begin with a space are left out, those of refused events are
/// `refused e r`, those of accepted events are left out, and all others stay.
pub fn bench_text(trace: &[u8]) -> Vec<u8> {
    let mut text = Vec::new();
    for line in trace.split_inclusive(|&byte| byte == b'\n') {
        if line.starts_with(b" ") {
            continue;
        }
        let words = line.strip_suffix(b"\n").unwrap_or(line);
        let words: Vec<&[u8]> = words.split(|&byte| byte == b' ').collect();
        match words[..] {
            [e, second, ..] if second.first().is_some_and(u8::is_ascii_lowercase) => {
                if let [.., b"refused", r] = words[..] {
                    text.extend([b"refused ", e, b" ", r, b"\n"].concat());
                }
            }
            _ => text.extend(line),
        }
    }
    text
}

/// What a trace tells of one event: its number, its name and numbers, the number of its refusal, and what stands below it.
#[derive(Clone, Debug, Default)]
pub struct Told<'a> {
    pub e: &'a str,
    pub event: &'a str,
    pub refused: Option<&'a str>,
    pub record: Option<&'a str>,
    pub taken: Option<&'a str>,
    pub sent: Option<&'a str>,
}

/// What a trace tells of each event. The error says what is wrong with a line.
pub fn read(trace: &str) -> Result<Vec<Told<'_>>, &'static str> {
    let mut told: Vec<Told> = Vec::new();
    for line in trace.lines() {
        if let Some(below) = line.strip_prefix("  ") {
            let last = told.last_mut().ok_or("a line below no event")?;
            let (place, words) = match below.split_once(' ') {
                Some(("taken", words)) => (&mut last.taken, words),
                Some(("sent", words)) => (&mut last.sent, words),
                _ => (&mut last.record, below),
            };
            if place.replace(words).is_some() {
                return Err("two lines of one kind below an event");
            }
            continue;
        }
        let (e, words) = line.split_once(' ').ok_or("a line of one word")?;
        if !words.starts_with(|c: char| c.is_ascii_lowercase()) {
            continue;
        }
        let (event, answer) = words.rsplit_once(' ').ok_or("an event without an answer")?;
        told.push(match event.strip_suffix(" refused") {
            Some(event) => Told { e, event, refused: Some(answer), ..Told::default() },
            None if answer == "accepted" => Told { e, event, ..Told::default() },
            None => return Err("an event without an answer"),
        });
    }
    Ok(told)
}

/// What the lines of a trace lead to: each node's last record, the messages that wait, and how many were sent, delivered
/// and lost.
struct Led<'a> {
    records: Vec<String>,
    waiting: Vec<&'a str>,
    counts: [usize; 3],
}

/// Whether a trace of which this is told holds together. The error says where it does not.
pub fn judge(trace: &str, told: &[Told]) -> Result<(), String> {
    let Some(n) = trace.lines().next().and_then(|line| line.strip_prefix("cabinets ")) else {
        // The list is refused.
        return if trace.lines().count() == 1 { Ok(()) } else { Err("no first line".to_string()) };
    };
    let records = (1..=n.parse().unwrap_or(0u8)).map(|i| format!("{i} 0 0 0 0 0 0 idle")).collect();
    let mut led = Led { records, waiting: Vec::new(), counts: [0; 3] };
    for (k, told) in told.iter().enumerate() {
        if told.e != (k + 1).to_string() {
            return Err(format!("event {} has another number", k + 1));
        }
        led.go_on(told).map_err(|words| format!("event {}: {words}", k + 1))?;
    }
    let table = led.table();
    match trace.ends_with(&table) {
        true => Ok(()),
        false => Err(format!("its lines lead to another table:\n{table}")),
    }
}

impl<'a> Led<'a> {
    fn go_on(&mut self, told: &Told<'a>) -> Result<(), &'static str> {
        let words: Vec<&str> = told.event.split(' ').collect();
        let (acting, counted) = match words[..] {
            ["deliver", _, b] => (b, Some(1)),
            ["lose", _, b] => (b, Some(2)),
            [_, i] | ["finish", i, _] => (i, None),
            _ => return Err("no event"),
        };
        if told.refused.is_some() {
            let below = [told.record, told.taken, told.sent];
            return match below.iter().all(Option::is_none) {
                true => Ok(()),
                false => Err("something happens though it is refused"),
            };
        }
        if let Some(record) = told.record {
            let place = acting.parse().unwrap_or(0usize).wrapping_sub(1);
            let before = self.records.get_mut(place).ok_or("it is at no node")?;
            if record.split(' ').next() != Some(acting) || before == record {
                return Err("a record of another node, or the same as before");
            }
            *before = record.to_string();
        }
        if told.taken.is_some() != counted.is_some() {
            return Err("a message is taken out, or none");
        }
        if let (Some(m), Some(counted)) = (told.taken, counted) {
            let pair = format!("{} -> {} ", words[1], words[2]);
            let oldest = self.waiting.iter().position(|m| m.starts_with(&pair));
            let oldest = oldest.filter(|&place| self.waiting[place] == m);
            self.waiting.remove(oldest.ok_or("another message is taken out")?);
            self.counts[counted] += 1;
        }
        if let Some(m) = told.sent {
            let words: Vec<&str> = m.split(' ').collect();
            if words[0] != acting || words[2] == acting {
                return Err("another node sends, or to itself");
            }
            self.waiting.push(m);
            self.counts[0] += 1;
        }
        Ok(())
    }

    /// As the bench program prints it.
    fn table(&self) -> String {
        let mut table = String::new();
        for record in &self.records {
            // Without the activity.
            let ends = record.match_indices(' ').nth(6).map_or(record.len(), |(place, _)| place);
            table += &record[..ends];
            table.push('\n');
        }
        let [sent, delivered, lost] = self.counts;
        let waiting = self.waiting.len();
        table + &format!("messages {waiting}\nsent {sent}\ndelivered {delivered}\nlost {lost}\n")
    }
}
