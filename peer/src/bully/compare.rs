//! Compares a library's Bully machine with this program's: on runs from all Down, on events from any table,
//! and on calls with any bytes. A difference is shortened and told in words.

use crate::bully::bytes::{
    event_to_field, free, table_from_bytes, table_to_bytes, TableBytes, TABLE_BYTES,
};
use crate::bully::claims::broken_claim;
use crate::bully::corners::Corners;
use crate::bully::machine::{Event, Table};
use crate::bully::tables::in_another_form;
use crate::bully::words::table_text;
use crate::compare::{Difference, Lent};
use crate::corners::Source;
use crate::numbers::Numbers;
use crate::proved::{Library, Own};
use crate::shortest::shortest;

/// How many bytes behind a table are looked at.
const BEHIND: usize = 8;

/// Events one after another, with where they begin.
#[derive(Clone)]
pub struct Walk {
    /// A run is from all Down.
    pub source: Source,
    pub start: Table,
    pub events: Vec<Event>,
    /// A seed: then each table is given in another form of its bytes.
    pub noise: Option<u64>,
}

/// Makes one call through the library and through this program's machine, and compares the answers and every
/// byte of the lent buffer. Gives the answer.
pub fn call(
    library: &impl Library,
    table: &[u8],
    field: &[u8],
    lent: &mut Lent,
) -> Result<u8, String> {
    let answer = library.bully_step(table, field, &mut lent.now);
    let mut own = [0; TABLE_BYTES];
    let room = lent.now.len().min(TABLE_BYTES);
    let number = Own.bully_step(table, field, &mut own[..room]);
    let written = if number == 0 { &own[..] } else { &[] };
    match lent.judge_bytes(answer, number, written, &[free(written)]) {
        None => Ok(answer),
        Some(words) => match (answer, lent.now.first_chunk()) {
            (0, Some(after)) => Err(format!(
                "{words}\nlibrary's, {}here, {}",
                table_text(&table_from_bytes(after)),
                table_text(&table_from_bytes(&own))
            )),
            _ => Err(words),
        },
    }
}

/// Each event through the library's step, on the table that it gave before. In a run the claims are checked
/// on each of the library's tables. The events are counted in the corners.
pub fn walk_difference(
    library: &impl Library,
    walk: &Walk,
    mut corners: Option<&mut Corners>,
) -> Option<Difference> {
    let mut numbers = Numbers::new(walk.noise.unwrap_or(0));
    let mut lent = Lent::new(TABLE_BYTES + BEHIND, &mut numbers);
    let mut bytes: TableBytes = table_to_bytes(&walk.start);
    for (k, event) in walk.events.iter().enumerate() {
        let fault = |words: String| {
            let events = k + 1;
            Some(Difference { events, words: format!("event {events}, {event}: {words}") })
        };
        let before = table_from_bytes(&bytes);
        let field = event_to_field(event);
        let called = match walk.noise {
            Some(_) => call(library, &in_another_form(&bytes, &mut numbers), &field, &mut lent),
            None => call(library, &bytes, &field, &mut lent),
        };
        let answer = match called {
            Ok(answer) => answer,
            Err(words) => return fault(words),
        };
        if answer == 0 {
            bytes = *lent.now.first_chunk()?;
            lent.renew(&mut numbers);
        }
        let after = table_from_bytes(&bytes);
        if walk.source == Source::Run {
            if let Some(words) = broken_claim(&after) {
                return fault(format!("{words}\n{}", table_text(&after)));
            }
        }
        if let Some(corners) = &mut corners {
            corners.event(walk.source, &before, event, answer, &after);
        }
    }
    None
}

/// A difference in words, with as few of the events as still show one.
pub fn tell_walk(library: &impl Library, walk: &Walk) -> String {
    let found = |events: &[Event]| {
        walk_difference(library, &Walk { events: events.to_vec(), ..walk.clone() }, None)
    };
    let mut events = walk.events.clone();
    if let Some(found) = found(&events) {
        events.truncate(found.events);
    }
    let events = shortest(events, |events| found(events).is_some());
    let names: Vec<String> = events.iter().map(Event::to_string).collect();
    format!(
        "{}{}\n{}",
        table_text(&walk.start),
        names.join(", "),
        found(&events).map(|found| found.words).unwrap_or_default()
    )
}
