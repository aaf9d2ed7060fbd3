//! The search for tables of runs from which many quiet events are accepted, and for these events: T-13 says "at most
//! 20,000". A table is prepared by a list, of which many are tried and changed; from it rows of quiet events are
//! grown side by side, and of those of one length the most promising are kept.

use crate::drive::{member, pick, Ready, Run, CROSSING, GROUPS, LATE};
use crate::machine::{
    advance, only, owner, step, Activity, Body, Event, Limits, Set, Status, Table,
};
use crate::numbers::Numbers;
use crate::rest::potential::{potential, reorganized, rest_bound};
use crate::traffic_tables::pairs;
use std::collections::HashSet;
use std::time::{Duration, Instant};

/// The task of every finish: no full peal, which T-10 may refuse.
const TASK: u16 = 200;

/// What was found: the events that lead to a table, and the quiet ones behind them, all accepted.
#[derive(Clone, Debug)]
pub struct Found {
    pub n: u8,
    pub limits: Limits,
    pub before: Vec<Event>,
    pub quiet: Vec<Event>,
}

impl Found {
    /// Runs it on the machine with the range check, and gives a line: how many quiet events were accepted, and the
    /// potential and the bound of the table that they began at, with its messages and with as many as may wait.
    pub fn line(&self) -> String {
        let Found { n, limits, .. } = *self;
        let mut table = Table::start(n, limits);
        for event in &self.before {
            let _ = step(&mut table, event);
        }
        let (high, waiting) = (potential(&table), table.messages.len());
        for event in &self.quiet {
            step(&mut table, event).expect("it was accepted when it was found");
        }
        let most = usize::from(limits.messages);
        format!(
            "n {n}, limits {} {}: {} quiet events accepted, potential {high}, bound {} with {waiting} \
             waiting, {} with {most}",
            limits.nodes,
            limits.messages,
            self.quiet.len(),
            rest_bound(n, waiting),
            rest_bound(n, most)
        )
    }
}

/// The table that some events lead to.
fn prepared(n: u8, limits: Limits, before: &[Event]) -> Table {
    let mut table = Table::start(n, limits);
    for event in before {
        let _ = advance(&mut table, event);
    }
    table
}

/// Every set of one node in a row.
fn each(set: Set) -> impl Iterator<Item = u8> {
    (1..=16).filter(move |&i| set & only(i) != 0)
}

/// The quiet events that may be worth while on a table: what waits to a node that is Down is lost, else nothing is,
/// unless that is asked for.
fn worth_while(table: &Table, with_losses: bool) -> Vec<Event> {
    let ready = Ready::of(table);
    let mut events: Vec<Event> = each(ready.expire).map(Event::Expire).collect();
    events.extend(each(ready.tick).map(Event::Tick));
    events.extend(each(ready.finish).map(|i| Event::Finish(i, TASK)));
    let mut seen = [0; 17];
    for m in &table.messages {
        let (a, b) = (m.sender, m.receiver);
        if seen[usize::from(a)] & only(b) != 0 {
            continue;
        }
        seen[usize::from(a)] |= only(b);
        let down = ready.down & only(b) != 0;
        if !down {
            events.push(Event::Deliver(a, b));
        }
        if down || with_losses {
            events.push(Event::Lose(a, b));
        }
    }
    events
}

/// What an asking node can still find, and how many it still asks behind the one that it asks now.
fn to_find(table: &Table, i: u8, asked: u8, found: Set, own: Set) -> (Set, u32) {
    let node = table.node(i);
    let behind = (asked + 1..=table.n).filter(|&j| j != i);
    let mut all = found;
    let mut count = 0;
    for j in behind {
        count += 1;
        all |= own & only(j);
    }
    let open = table.messages.iter().find(|m| match m.body {
        Body::Reply { .. } => m.receiver == i && m.sender == asked && m.call == node.last_call,
        _ => m.sender == i && m.call == node.last_call,
    });
    match open.map(|m| m.body) {
        Some(Body::Reply { yes: true }) => all |= only(asked),
        Some(Body::AreYouCoordinator) => all |= own & only(asked),
        _ => {}
    }
    (all, count)
}

/// About how many quiet events can still be accepted, twice. It goes by what a patient order of events comes to: an ask
/// is answered in time (2), an invitation is given up (1), delivered, its acceptance given up, delivered and answered
/// late (4, and only 2 at a node that is not Normal); a new member is handed Ready (2), and an invitation is forwarded
/// to it later (5). Of two nodes that both have to finish only one can be the other's new member.
fn estimate(table: &Table) -> i64 {
    let n = table.n;
    let count = |set: Set| i64::from(set.count_ones());
    // Who is Normal and its own coordinator, who has all behind it, and who has to finish.
    let (mut own, mut done, mut to_finish): (Set, Set, Set) = (0, 0, 0);
    for i in 1..=n {
        let node = table.node(i);
        if node.status == Status::Normal && node.coordinator == i {
            own |= only(i);
        }
        match node.activity {
            Activity::Idle | Activity::Contacting if node.status == Status::Normal => {
                done |= only(i)
            }
            Activity::Forwarding { .. } | Activity::Accepting { .. } | Activity::Handing { .. } => {
                done |= only(i);
            }
            Activity::Idle | Activity::Contacting => {}
            _ => to_finish |= only(i),
        }
    }
    // What an invitation still to be sent to each of a set comes to.
    let to_send = |set: Set| 10 * count(set) - count(set & to_finish);
    let mut value = 0;
    // Whom each node will invite or forward to, whom it has as a member for certain, and who is invited now.
    let mut invites = [0; 17];
    let mut certain = [0; 17];
    let mut invited: Set = 0;
    for m in &table.messages {
        value += match m.body {
            Body::Invitation { group } => {
                let (c, receiver) = (table.node(owner(group)), table.node(m.receiver));
                if owner(group) != m.receiver {
                    invited |= only(m.receiver);
                }
                if c.status == Status::Election && c.group == group {
                    invites[usize::from(owner(group))] |= only(m.receiver);
                }
                match owner(group) == m.receiver || receiver.group == group {
                    true => 4,
                    false if to_finish & only(m.receiver) != 0 => 6,
                    false => 8,
                }
            }
            Body::Reply { .. } => 2,
            Body::Accept { group } => {
                let c = table.node(m.receiver);
                if c.status == Status::Election && c.group == group {
                    certain[usize::from(m.receiver)] |= only(m.sender);
                }
                4
            }
            _ => 4,
        };
    }
    for i in 1..=n {
        let (node, k) = (table.node(i), usize::from(i));
        match node.activity {
            Activity::Idle => {
                if own & only(i) != 0 {
                    invites[k] |= node.members;
                }
            }
            Activity::Asking { asked, found } => {
                let (all, asks) = to_find(table, i, asked, found, own);
                value += 4 * i64::from(asks);
                if all != 0 {
                    let ticks = (16 - all.leading_zeros() as u8).saturating_sub(i);
                    value += 2 * i64::from(ticks) + to_send(all) + to_send(node.members) + 2;
                    invites[k] |= all | node.members;
                } else {
                    value += 2 + 10 * count(node.members);
                }
            }
            Activity::Waiting { ticks, found } => {
                invites[k] |= found | node.members;
                value += 2 * i64::from(ticks) + to_send(found) + to_send(node.members) + 2;
            }
            Activity::Inviting { found, former, .. } => {
                invites[k] |= found | former;
                certain[k] |= node.members;
                value += to_send(found) + to_send(former) + 4;
            }
            Activity::Collecting => {
                certain[k] |= node.members;
                value += 2;
            }
            Activity::Handing { rest, .. } => value += 4 * count(rest),
            Activity::Contacting => value += 2,
            Activity::Forwarding { rest, .. } => value += 10 * count(rest) + 8,
            Activity::Accepting { .. } => value += 2,
        }
        if let Activity::Forwarding { rest, .. } = node.activity {
            invited |= rest;
        }
        if let Activity::Forwarding { .. } | Activity::Accepting { .. } = node.activity {
            let c = table.node(node.coordinator);
            if c.status == Status::Election && c.group == node.group {
                invites[usize::from(node.coordinator)] |= only(i);
            }
        }
    }
    let all_invites = (1..=n).fold(invited, |all, i| all | invites[usize::from(i)]);
    for i in 1..=n {
        let (node, k) = (table.node(i), usize::from(i));
        let later = if all_invites & only(i) != 0 { 5 } else { 0 };
        if to_finish & only(i) != 0 {
            let sure = certain[k] | invites[k] & done;
            let maybe = invites[k] & !sure & to_finish;
            value += (2 + later) * (2 * count(sure) + count(maybe));
        } else if reorganized(node) && node.coordinator == i {
            value += 2 * later * count(node.members);
        }
    }
    value
}

/// A number that tables share which go on alike: what matters of calls and groups is which of them are equal to a
/// node's, and of the messages their order in each pair.
fn likeness(table: &Table) -> u64 {
    let mut hash = 0xcbf2_9ce4_8422_2325_u64;
    let mut take = |number: u64| {
        hash = (hash ^ number).wrapping_mul(0x0100_0000_01b3);
        hash ^= hash >> 29;
    };
    let open = |i: u8, call: u32| u64::from(table.node(i).open_call() == Some(call));
    let group = |group: u32, holder: u8| {
        let of = owner(group);
        u64::from(of) * 4
            + u64::from(table.node(of).group == group)
            + 2 * u64::from(table.node(holder).group == group)
    };
    for i in 1..=table.n {
        let node = table.node(i);
        take(node.status as u64 + 4 * u64::from(node.coordinator) + 128 * u64::from(node.members));
        take(if node.group == 0 { 0 } else { group(node.group, i) });
        match node.activity {
            Activity::Idle => take(1),
            Activity::Asking { asked, found } => {
                take(2 + 16 * u64::from(asked) + 1024 * u64::from(found));
            }
            Activity::Waiting { ticks, found } => {
                take(3 + 16 * u64::from(ticks) + 1024 * u64::from(found));
            }
            Activity::Inviting { found, former, now } => {
                take(4 + 16 * u64::from(now) + 1024 * u64::from(found));
                take(u64::from(former));
            }
            Activity::Collecting => take(5),
            Activity::Handing { rest, now } => {
                take(6 + 16 * u64::from(now) + 1024 * u64::from(rest));
            }
            Activity::Contacting => take(7),
            Activity::Forwarding { rest, now, caller, call } => {
                take(8 + 16 * u64::from(now) + 1024 * u64::from(rest));
                take(u64::from(caller) * 2 + open(caller, call));
            }
            Activity::Accepting { caller, call } => {
                take(9);
                take(u64::from(caller) * 2 + open(caller, call));
            }
        }
    }
    let mut places: Vec<usize> = (0..table.messages.len()).collect();
    places.sort_by_key(|&at| (table.messages[at].sender, table.messages[at].receiver));
    for at in places {
        let m = &table.messages[at];
        let (a, b) = (m.sender, m.receiver);
        let waits_for = match m.body {
            Body::Reply { yes } => open(b, m.call) * (1 + u64::from(yes)),
            _ => open(a, m.call),
        };
        let of = m.body.group().map_or(0, |g| group(g, b));
        take(u64::from(a) + 32 * u64::from(b) + 1024 * u64::from(m.body.kind()));
        take(waits_for + 8 * of);
    }
    hash
}

/// One of the rows of quiet events that are grown side by side.
struct Row {
    table: Table,
    /// Its last event, by its place among all.
    last: u32,
}

/// Grows rows of quiet events from a table, and keeps so many of each length, until nothing more is accepted or the time is
/// over. Gives a longest.
pub fn grow(start: &Table, width: usize, end: Instant, numbers: &mut Numbers) -> Vec<Event> {
    // Now and then messages are lost on purpose.
    let losses = numbers.one_in(8);
    let mut trail: Vec<(u32, Event)> = vec![(0, Event::Tick(0))];
    let mut rows = vec![Row { table: start.clone(), last: 0 }];
    let mut longest = 0;
    while !rows.is_empty() {
        longest = rows[0].last;
        if Instant::now() > end {
            break;
        }
        let mut seen = HashSet::new();
        let mut next: Vec<(i64, u32, Event, Table)> = Vec::new();
        for row in &rows {
            for event in worth_while(&row.table, losses) {
                let mut table = row.table.clone();
                if advance(&mut table, &event).is_err() || !seen.insert(likeness(&table)) {
                    continue;
                }
                // Of equals any.
                let value = estimate(&table) * 64 + i64::from(numbers.below(64));
                next.push((value, row.last, event, table));
            }
        }
        if next.len() > width {
            next.select_nth_unstable_by_key(width, |&(value, ..)| -value);
            next.truncate(width);
        }
        rows = next
            .into_iter()
            .map(|(_, from, event, table)| {
                trail.push((from, event));
                Row { table, last: trail.len() as u32 - 1 }
            })
            .collect();
    }
    let mut events = Vec::new();
    while longest != 0 {
        let (from, event) = trail[longest as usize];
        events.push(event);
        longest = from;
    }
    events.reverse();
    events
}

/// Events that lead to a table on which every node is its own coordinator, asks, and keeps as members all that come
/// behind it in this order; and up to so many messages wait, of asks that were given up. No two can be members of
/// each other: the one that joined formed its own group later.
pub fn nested(
    n: u8,
    limits: Limits,
    order: &[u8],
    fill: usize,
    numbers: &mut Numbers,
) -> Vec<Event> {
    let mut run = Run { table: Table::start(n, limits), events: Vec::new() };
    for i in 1..=n {
        run.go(Event::Recover(i));
    }
    for (k, &c) in order.iter().enumerate() {
        let others = order[k + 1..].iter().fold(0, |set, &j| set | only(j));
        if others != 0 {
            gather(&mut run, c, others);
        }
    }
    let mut passes = 0;
    while run.table.messages.len() < fill && passes < 200 {
        passes += 1;
        let ready = Ready::of(&run.table).check;
        if ready == 0 {
            break;
        }
        let i = member(ready, numbers);
        run.go(Event::Check(i));
        while let Activity::Asking { asked, .. } = run.table.node(i).activity {
            if run.table.messages.len() > fill {
                run.go(Event::Lose(i, asked));
            }
            run.go(Event::Expire(i));
        }
    }
    for i in each(Ready::of(&run.table).check) {
        run.go(Event::Check(i));
    }
    run.events
}

/// Node c finds some others, which join and then recover, and is Normal with these as its members.
fn gather(run: &mut Run, c: u8, others: Set) {
    run.go(Event::Check(c));
    for _ in 0..1000 {
        match run.table.node(c).activity {
            Activity::Asking { asked, .. } if others & only(asked) != 0 => {
                run.go(Event::Deliver(c, asked));
                run.go(Event::Deliver(asked, c));
            }
            Activity::Asking { asked, .. } => {
                run.go(Event::Lose(c, asked));
                run.go(Event::Expire(c));
            }
            Activity::Waiting { .. } => run.go(Event::Tick(c)),
            Activity::Inviting { now, .. } => {
                run.go(Event::Deliver(c, now));
                run.go(Event::Expire(now));
                run.go(Event::Deliver(now, c));
                run.go(Event::Deliver(c, now));
                run.go(Event::Expire(c));
            }
            Activity::Collecting => run.go(Event::Finish(c, TASK)),
            Activity::Handing { now, .. } => {
                run.go(Event::Deliver(c, now));
                run.go(Event::Deliver(now, c));
            }
            _ => return,
        }
    }
}

/// A row of quiet events that is made by hand on a table of `nested`.
struct Patient {
    table: Table,
    events: Vec<Event>,
    /// The pair whose invitation is kept to the end: then the last node forwards it to its members.
    kept: (u8, u8),
}

impl Patient {
    /// Adds an event that is accepted; any other is left out.
    fn go(&mut self, event: Event) -> bool {
        let accepted = advance(&mut self.table, &event).is_ok();
        if accepted {
            self.events.push(event);
        }
        accepted
    }

    fn head(&self, a: u8, b: u8) -> Option<Body> {
        let first = self.table.messages.iter().find(|m| (m.sender, m.receiver) == (a, b));
        first.map(|m| m.body)
    }

    fn activity(&self, i: u8) -> Activity {
        self.table.node(i).activity
    }

    /// Delivers what waits of a pair, while it does no harm: no invitation to a node that asks or waits, nor the kept one.
    /// Whoever joins gives all its calls up, and then these arrive.
    fn drain(&mut self, a: u8, b: u8) {
        while let Some(body) = self.head(a, b) {
            let invitation = matches!(body, Body::Invitation { .. });
            let busy =
                matches!(self.activity(b), Activity::Asking { .. } | Activity::Waiting { .. });
            if invitation && (busy || self.kept == (a, b)) || !self.go(Event::Deliver(a, b)) {
                return;
            }
            if invitation {
                self.settle(b);
            }
        }
    }

    /// A node that has joined a group gives up what it forwards and its acceptance, and is its own coordinator again; then
    /// what it sent arrives.
    fn settle(&mut self, s: u8) {
        let mut called = Vec::new();
        loop {
            match self.activity(s) {
                Activity::Forwarding { now, .. } => called.push(now),
                Activity::Accepting { .. } => called.push(self.table.node(s).coordinator),
                _ => break,
            }
            if !self.go(Event::Expire(s)) {
                return;
            }
        }
        for to in called {
            self.drain(s, to);
        }
    }

    /// All ask and are answered in time. The highest, which merges at once then, comes last.
    fn ask(&mut self) {
        for i in 1..=self.table.n {
            while let Activity::Asking { asked, .. } = self.activity(i) {
                let made = self.events.len();
                while self.activity(i) == (Activity::Asking { asked, found: self.found(i) })
                    && (self.head(i, asked).is_some() && self.go(Event::Deliver(i, asked))
                        || self.head(asked, i).is_some() && self.go(Event::Deliver(asked, i)))
                {
                }
                if self.events.len() == made && !self.go(Event::Expire(i)) {
                    return;
                }
            }
        }
    }

    fn found(&self, i: u8) -> Set {
        match self.activity(i) {
            Activity::Asking { found, .. } => found,
            _ => 0,
        }
    }

    /// Everything that waits and does no harm.
    fn drain_all(&mut self) {
        loop {
            let made = self.events.len();
            for (a, b) in pairs(self.table.n) {
                self.drain(a, b);
            }
            if self.events.len() == made {
                return;
            }
        }
    }

    /// All that node c still has to do: it gives each invitation up, and then it arrives; it finishes and hands Ready.
    fn finish(&mut self, c: u8) {
        while let Activity::Inviting { now, .. } = self.activity(c) {
            if !self.go(Event::Expire(c)) {
                return;
            }
            self.drain(c, now);
            self.drain(now, c);
        }
        for s in (1..=self.table.n).filter(|&s| s != c) {
            self.drain(s, c);
        }
        self.go(Event::Finish(c, TASK));
        while let Activity::Handing { now, .. } = self.activity(c) {
            let made = self.events.len();
            self.drain(c, now);
            self.drain(now, c);
            if self.events.len() == made && !self.go(Event::Expire(c)) {
                return;
            }
        }
    }
}

/// The row by hand: all ask, all merge, and then they finish one after another in this order, so that each has as new
/// members all that came before it.
pub fn patient(start: &Table, order: &[u8]) -> Vec<Event> {
    let (first, last) = (order[0], order[order.len() - 1]);
    let mut row = Patient { table: start.clone(), events: Vec::new(), kept: (first, last) };
    row.ask();
    row.drain_all();
    for i in (1..=start.n).rev() {
        while let Activity::Waiting { .. } = row.activity(i) {
            if !row.go(Event::Tick(i)) {
                break;
            }
        }
    }
    for &c in order {
        row.finish(c);
    }
    row.kept = (0, 0);
    row.drain_all();
    row.events
}

/// Some events changed: a few taken out, others put in that fit there, or a new end.
fn changed(n: u8, limits: Limits, events: &[Event], numbers: &mut Numbers) -> Vec<Event> {
    let mut events = events.to_vec();
    for _ in 0..numbers.between(1, 3) {
        let place = numbers.place(events.len() + 1);
        match numbers.below(5) {
            0 => {
                let end = (place + numbers.between(1, 6) as usize).min(events.len());
                events.drain(place..end);
            }
            1 => {
                let late = events.len() - numbers.place(events.len().min(20) + 1);
                events.truncate(late);
            }
            _ => {
                let place = if numbers.one_in(2) { events.len() } else { place };
                let mut table = prepared(n, limits, &events[..place]);
                let manner = numbers.of(&[GROUPS, LATE, CROSSING]);
                let mut put_in = Vec::new();
                for _ in 0..numbers.between(1, 12) {
                    let event = pick(&table, &manner, numbers);
                    let _ = advance(&mut table, &event);
                    put_in.push(event);
                }
                events.splice(place..place, put_in);
            }
        }
    }
    if numbers.one_in(2) {
        for i in each(Ready::of(&prepared(n, limits, &events)).check) {
            events.push(Event::Check(i));
        }
    }
    events
}

/// Any order of 1 to n.
fn any_order(n: u8, numbers: &mut Numbers) -> Vec<u8> {
    let mut order: Vec<u8> = (1..=n).collect();
    for k in (1..order.len()).rev() {
        order.swap(k, numbers.place(k + 1));
    }
    order
}

/// A search under way.
struct Search {
    best: Found,
    end: Instant,
    numbers: Numbers,
}

impl Search {
    /// Takes over what is longer than the best, or as long behind fewer events.
    fn consider(&mut self, before: Vec<Event>, quiet: Vec<Event>) {
        let best = &mut self.best;
        let (more, fewer) = (quiet.len() > best.quiet.len(), before.len() < best.before.len());
        if more || fewer && quiet.len() == best.quiet.len() {
            (best.before, best.quiet) = (before, quiet);
        }
    }

    fn grown(&mut self, before: Vec<Event>, width: usize) {
        let start = prepared(self.best.n, self.best.limits, &before);
        let quiet = grow(&start, width, self.end, &mut self.numbers);
        self.consider(before, quiet);
    }

    /// A table prepared by hand, with the row by hand and with rows grown from it.
    fn by_hand(&mut self, order: &[u8], width: usize) {
        let Found { n, limits, .. } = self.best;
        let free = self.numbers.of(&[0, 0, 1, 4]) + usize::from(n);
        let fill = usize::from(limits.messages).saturating_sub(free);
        let before = nested(n, limits, order, fill, &mut self.numbers);
        let finish: Vec<u8> = order.iter().rev().copied().collect();
        let quiet = patient(&prepared(n, limits, &before), &finish);
        self.consider(before.clone(), quiet);
        self.grown(before, width);
    }

    /// The best, with other quiet events from some place on.
    fn another_end(&mut self, width: usize) {
        let (before, mut quiet) = (self.best.before.clone(), self.best.quiet.clone());
        // Often near the end, from where rows are short and many can be grown.
        let back = self.numbers.of(&[20, 60, 200, quiet.len()]).min(quiet.len());
        let width = if back < quiet.len() { 16 * width } else { width };
        quiet.truncate(quiet.len() - self.numbers.place(back + 1));
        let mut table = prepared(self.best.n, self.best.limits, &before);
        for event in &quiet {
            let _ = advance(&mut table, event);
        }
        quiet.extend(grow(&table, width, self.end, &mut self.numbers));
        self.consider(before, quiet);
    }
}

/// Searches for so long. The first tables are prepared by hand, in the orders down, up and any; then the best is changed
/// again and again, before its quiet events or among them; and in the end rows are grown from its table side by side,
/// ever more of them.
pub fn search(n: u8, limits: Limits, time: Duration, seed: u64) -> Found {
    let (start, numbers) = (Instant::now(), Numbers::new(seed));
    let best = Found { n, limits, before: Vec::new(), quiet: Vec::new() };
    let mut search = Search { best, end: start + time, numbers };
    let width = if n > 8 { 2 } else { 12 };
    let up: Vec<u8> = (1..=n).collect();
    let down: Vec<u8> = (1..=n).rev().collect();
    search.by_hand(&down, width);
    search.by_hand(&up, width);
    while start.elapsed() < time / 4 {
        let order = any_order(n, &mut search.numbers);
        search.by_hand(&order, width);
    }
    while start.elapsed() < time * 3 / 4 {
        let width = search.numbers.of(&[width, 2 * width, 4 * width]);
        if search.numbers.one_in(2) {
            search.another_end(width);
        } else {
            let before = changed(n, limits, &search.best.before, &mut search.numbers);
            search.grown(before, width);
        }
    }
    let mut wide = 8 * width;
    while Instant::now() < search.end {
        let before = search.best.before.clone();
        search.grown(before, wide);
        wide *= 2;
    }
    search.best
}
