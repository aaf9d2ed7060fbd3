//! Where things are in the picture: a column for each cabinet, a row for each event.

use super::run::{End, Message, Run, Status, Step};

/// The height of a row. Row 0 is the starting table, row e is event e.
pub const ROW: f64 = 26.0;
/// The width of the part with the events' text.
pub const GUTTER: f64 = 128.0;
/// The height of the part with the cabinets' numbers.
pub const HEADS: f64 = 34.0;
/// The width of the strip of refused events.
pub const STRIP: f64 = 238.0;
/// Left of the first cabinet's line, and right of the last one's.
const EDGE: f64 = 66.0;
/// How many rows are put into one group, so that what is out of sight is passed over quickly.
const GROUP: usize = 64;

/// How a run is laid out.
pub struct Layout<'a> {
    pub run: &'a Run<'a>,
    /// between two cabinets' lines
    column: f64,
    /// whether there are refused events
    pub strip: bool,
    /// the messages that wait at the end, in the order sent: each has a row behind the last event
    pub waits: Vec<usize>,
}

/// Where something is, seen from a cabinet's line.
#[derive(Clone, Copy, PartialEq)]
pub enum Side {
    Left,
    Right,
}

impl Side {
    /// Where cabinet b lies, seen from cabinet a.
    pub fn of(a: usize, b: usize) -> Side {
        if b < a {
            Side::Left
        } else {
            Side::Right
        }
    }

    pub fn other(self) -> Side {
        match self {
            Side::Left => Side::Right,
            Side::Right => Side::Left,
        }
    }

    pub fn sign(self) -> f64 {
        match self {
            Side::Left => -1.0,
            Side::Right => 1.0,
        }
    }
}

/// The middle of a row.
pub fn middle(row: usize) -> f64 {
    (row as f64 + 0.5) * ROW
}

impl<'a> Layout<'a> {
    pub fn new(run: &'a Run<'a>) -> Layout<'a> {
        let column = match run.cabinets {
            0..=2 => 200.0,
            3 => 150.0,
            4..=6 => 104.0,
            7..=8 => 84.0,
            9..=12 => 66.0,
            _ => 56.0,
        };
        let strip = run.steps.iter().any(|step| step.refused.is_some());
        let waits = |place: &usize| run.messages[*place].end == End::Waits;
        Layout { run, column, strip, waits: (0..run.messages.len()).filter(waits).collect() }
    }

    // ── columns ──

    /// The line of a cabinet.
    pub fn x(&self, cabinet: usize) -> f64 {
        EDGE + cabinet.saturating_sub(1) as f64 * self.column
    }

    /// Where the columns end, and the strip begins if there is one.
    pub fn strip_start(&self) -> f64 {
        self.x(self.run.cabinets) + EDGE
    }

    /// The width of the columns and the strip, without the events' text.
    pub fn width(&self) -> f64 {
        self.strip_start() + if self.strip { STRIP } else { 0.0 }
    }

    /// The room beside a cabinet's line.
    pub fn room(&self, cabinet: usize, side: Side) -> f64 {
        match side {
            Side::Left => self.x(cabinet),
            Side::Right => self.strip_start() - self.x(cabinet),
        }
    }

    // ── rows ──

    pub fn rows(&self) -> usize {
        1 + self.run.steps.len() + self.waits.len()
    }

    /// The height without the cabinets' numbers.
    pub fn height(&self) -> f64 {
        self.rows() as f64 * ROW
    }

    /// The rows of each group: the first, and the one behind the last.
    pub fn groups(&self) -> impl Iterator<Item = (usize, usize)> {
        let rows = self.rows();
        (0..rows).step_by(GROUP).map(move |start| (start, rows.min(start + GROUP)))
    }

    /// The event of a row.
    pub fn step(&self, row: usize) -> Option<&Step<'a>> {
        self.run.steps.get(row.checked_sub(1)?)
    }

    /// The message of a row behind the last event.
    pub fn waiting(&self, row: usize) -> Option<&Message<'a>> {
        let place = self.waits.get(row.checked_sub(1 + self.run.steps.len())?)?;
        self.run.messages.get(*place)
    }

    /// The row in which a message ends.
    pub fn end_row(&self, place: usize) -> usize {
        match self.run.messages[place].end {
            End::Delivered(event) | End::Lost(event) => event,
            End::Waits => {
                1 + self.run.steps.len() + self.waits.binary_search(&place).unwrap_or_default()
            }
        }
    }

    /// Where a row has a new status.
    pub fn new_status(&self, row: usize) -> Option<(usize, Status)> {
        let change = self.step(row)?.change.as_ref()?;
        Some((change.cabinet, change.status?))
    }

    /// Whether a letter stands there on the cabinet's line.
    pub fn has_box(&self, row: usize, cabinet: usize) -> bool {
        self.new_status(row).is_some_and(|(changed, _)| changed == cabinet)
    }
}

#[cfg(test)]
mod tests {
    use super::super::run::read;
    use super::*;

    #[test]
    fn sixteen_cabinets_fit_beside_the_panel() {
        let run = read("cabinets 16\n1 crash 1 refused 9\n");
        // a wide screen less the panel and a scrollbar
        assert!(GUTTER + Layout::new(&run).width() <= 1920.0 - 519.0 - 15.0);
        let run = read("cabinets 4\n1 crash 1 refused 9\n");
        assert!(GUTTER + Layout::new(&run).width() <= 1280.0 - 455.0 - 15.0);
    }

    #[test]
    fn messages_that_wait_have_rows_behind_the_last_event() {
        let run = read(
            "cabinets 3\n1 tick 1 accepted\n  sent 1 -> 3 reply no call 7\n\
             2 tick 1 accepted\n  sent 1 -> 2 reply no call 8\n",
        );
        let layout = Layout::new(&run);
        assert_eq!((layout.rows(), layout.end_row(0), layout.end_row(1)), (5, 3, 4));
        assert_eq!(layout.waiting(4).map(|message| message.to), Some(2));
        assert!(layout.waiting(2).is_none() && layout.waiting(5).is_none());
    }

    #[test]
    fn every_row_is_in_one_group() {
        let refused = (1..=200).map(|event| format!("{event} tick 1 refused 9\n"));
        let text = format!("cabinets 1\n{}", refused.collect::<String>());
        let run = read(&text);
        let groups: Vec<_> = Layout::new(&run).groups().collect();
        assert_eq!(groups, [(0, 64), (64, 128), (128, 192), (192, 201)]);
    }
}
