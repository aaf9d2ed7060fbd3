//! The picture of a run as SVG: time goes down, a row for each event and a column for each cabinet.
//! It is drawn once, in parts, which the page and the document put together.

use super::ground;
use super::layout::{middle, Layout, Side, GUTTER, ROW, STRIP};
use super::run::{End, Message, Status, Step};
use super::shapes::{self, in_two_lines, text_width, Short, BOX, LABEL, SMALL};
use std::fmt::Write;

/// How far before the receiver's line a message ends that did not come to it.
const BEFORE: f64 = 20.0;
/// A message that takes more rows is drawn fainter.
const FAR: usize = 30;

/// The cabinets' numbers, above the columns.
pub fn heads(layout: &Layout) -> String {
    let mut out = String::new();
    for cabinet in 1..=layout.run.cabinets {
        let x = layout.x(cabinet);
        let left = Short(x - 16.0);
        let _ =
            write!(out, "<rect class='number' x='{left}' y='6' width='32' height='22' rx='4'/>");
        out += &shapes::text("number", x, 22.0, &cabinet.to_string());
    }
    if layout.strip {
        let x = layout.strip_start() + 8.0;
        out += &shapes::text("head", x, 22.0, "refused events: number and ground");
    }
    out
}

/// Above the events' text.
pub fn corner() -> String {
    shapes::text("head", 47.0, 22.0, "event") + &shapes::text("head end", 122.0, 22.0, "cabinet")
}

/// The events' numbers and text, left of the columns.
pub fn gutter(layout: &Layout) -> String {
    let mut out = String::new();
    for (start, end) in layout.groups() {
        let _ = writeln!(out, "<g>{}", rules(start, end, GUTTER));
        for row in start..end {
            let (class, number, text) = match (layout.step(row), layout.waiting(row)) {
                (Some(step), _) => {
                    let class = if step.refused.is_some() { "event no gone" } else { "event" };
                    (class, row.to_string(), shapes::escape(step.text))
                }
                (_, Some(Message { from, to, .. })) => {
                    ("event no", String::new(), format!("{from} to {to} waits"))
                }
                _ => ("event no", row.to_string(), "start".to_string()),
            };
            let y = Short(middle(row) + 4.0);
            let text = format!("{number}<tspan x='47'>{text}</tspan>");
            let _ = writeln!(out, "<text class='{class}' x='40' y='{y}'>{text}</text>");
        }
        out += "</g>\n";
    }
    out
}

/// The columns and the strip.
pub fn body(layout: &Layout) -> String {
    let mut out = String::new();
    below(&mut out, layout);
    lifelines(&mut out, layout);
    let mut ending: Vec<Vec<usize>> = vec![Vec::new(); layout.rows()];
    for place in 0..layout.run.messages.len() {
        ending[layout.end_row(place)].push(place);
    }
    for (start, end) in layout.groups() {
        out += "<g>\n";
        for place in ending[start..end].iter().flatten() {
            line(&mut out, layout, *place);
        }
        out += "</g>\n";
    }
    for (start, end) in layout.groups() {
        let mut marks = Marks::new(layout);
        for (row, ends) in ending.iter().enumerate().take(end).skip(start) {
            if row == 0 {
                marks.start();
            }
            if let Some(step) = layout.step(row) {
                marks.event(row, step);
            }
            ends.iter().for_each(|place| marks.label(row, *place));
        }
        let Marks { plates, shapes, texts, .. } = marks;
        let _ = writeln!(out, "<g><path class='plate' d='{plates}'/>\n{shapes}{texts}</g>");
    }
    out
}

/// Thin lines below these rows.
fn rules(start: usize, end: usize, width: f64) -> String {
    let line = |row: usize| format!("M0 {}H{}", Short(row as f64 * ROW), Short(width));
    let lines: String = (start + 1..=end).map(line).collect();
    format!("<path class='rule' d='{lines}'/>\n")
}

/// The strip's tint, the lines between rows and the end of the list.
fn below(out: &mut String, layout: &Layout) {
    let (x, height) = (Short(layout.strip_start()), Short(layout.height()));
    if layout.strip {
        let _ =
            writeln!(out, "<rect class='strip' x='{x}' y='0' width='{STRIP}' height='{height}'/>");
    }
    for (start, end) in layout.groups() {
        *out += &rules(start, end, layout.width());
    }
    if !layout.waits.is_empty() {
        let y = Short((1 + layout.run.steps.len()) as f64 * ROW);
        let _ = writeln!(out, "<path class='last' d='M0 {y}H{x}'/>");
    }
}

/// A path for each stretch of a cabinet's line in which its status is the same.
fn lifelines(out: &mut String, layout: &Layout) {
    let cabinets = layout.run.cabinets;
    let mut since = vec![(Status::Down, middle(0)); cabinets];
    let mut paths = vec![String::new(); cabinets];
    let mut stretch = |cabinet: usize, (status, from): (Status, f64), to: f64| {
        let way = format!("V{}", Short(to));
        paths[cabinet - 1] += &shapes::lifeline(layout.x(cabinet), from, &way, status);
    };
    for row in 1..=layout.run.steps.len() {
        if let Some((cabinet, status)) = layout.new_status(row) {
            stretch(cabinet, since[cabinet - 1], middle(row));
            since[cabinet - 1] = (status, middle(row));
        }
    }
    for cabinet in 1..=cabinets {
        stretch(cabinet, since[cabinet - 1], layout.height());
    }
    for (cabinet, path) in (1..).zip(paths) {
        let _ = writeln!(out, "<g class='life' data-cabinet='{cabinet}'>{path}</g>");
    }
}

/// The line of a message, from where it was sent to where it ended, with what it ends in.
fn line(out: &mut String, layout: &Layout, place: usize) {
    let message = &layout.run.messages[place];
    let row = layout.end_row(place);
    let before = if matches!(message.end, End::Delivered(_)) { 0.0 } else { BEFORE };
    let back = Side::of(message.to, message.from).sign();
    let (x1, y1) = (layout.x(message.from), middle(message.sent));
    let (x2, y2) = (layout.x(message.to) + back * before, middle(row));
    let length = (x2 - x1).hypot(y2 - y1).max(1.0);
    let (ux, uy) = ((x2 - x1) / length, (y2 - y1) / length);
    // so far before the line's end, and so far beside it
    let at = |along: f64, across: f64| {
        let (x, y) = (x2 - ux * along - uy * across, y2 - uy * along + ux * across);
        format!("{} {}", Short(x), Short(y))
    };
    let (how, gap, end) = match message.end {
        End::Delivered(_) => {
            // the head points at the line, or at the box with the letter
            let gap = if layout.has_box(row, message.to) { BOX + 1.5 } else { 3.0 };
            let (tip, left, right) = (at(gap, 0.0), at(gap + 9.0, 4.0), at(gap + 9.0, -4.0));
            ("delivered", gap + 6.0, format!("<path class='tip' d='M{tip}L{left}L{right}z'/>"))
        }
        End::Lost(_) => ("lost", 0.0, shapes::cross(x2, y2)),
        End::Waits => ("waits", 4.0, shapes::open(x2, y2)),
    };
    let way = shapes::way(&format!("M{} {}L{}", Short(x1), Short(y1), at(gap, 0.0)));
    let far = if row - message.sent > FAR { " far" } else { "" };
    let class = shapes::kind_class(message.words);
    let Message { from, to, sent, .. } = message;
    let data = format!("data-from='{from}' data-to='{to}' data-sent='{sent}' data-row='{row}'");
    let _ = writeln!(out, "<g class='m {class}{far}' {data} data-how='{how}'>{way}{end}</g>");
}

/// What stands on the lines, and in the strip, in some rows.
struct Marks<'a> {
    layout: &'a Layout<'a>,
    /// behind the texts, as one path
    plates: String,
    shapes: String,
    texts: String,
}

impl<'a> Marks<'a> {
    fn new(layout: &'a Layout<'a>) -> Marks<'a> {
        Marks { layout, plates: String::new(), shapes: String::new(), texts: String::new() }
    }

    /// A text beside a cabinet's line, `near` from it.
    fn text(&mut self, class: &str, (x, side, near): (f64, Side, f64), y: f64, text: &str) {
        let start = x + side.sign() * near;
        let width = text_width(text, LABEL) + 4.0;
        let (left, class) = match side {
            Side::Left => (start - width + 2.0, format!("{class} end")),
            Side::Right => (start - 2.0, class.to_string()),
        };
        let (left, top, width) = (Short(left), Short(y - 5.5), Short(width));
        let _ = write!(self.plates, "M{left} {top}h{width}v11h-{width}z");
        self.texts += &shapes::text(&class, start, y + 3.5, text);
    }

    /// The starting table: all are Down.
    fn start(&mut self) {
        for cabinet in 1..=self.layout.run.cabinets {
            self.shapes += &shapes::status_box(self.layout.x(cabinet), middle(0), Status::Down);
        }
    }

    /// The kind of a message, beside its end.
    fn label(&mut self, row: usize, place: usize) {
        let message = &self.layout.run.messages[place];
        let (x, from) = (self.layout.x(message.to), self.layout.x(message.from));
        // from where the lines that meet here are apart as far as a label is high
        let rows = (row - message.sent).max(1) as f64;
        let apart = 5.5 * (x - from).abs() / (ROW * rows);
        let least = if self.layout.has_box(row, message.to) { BOX + 12.0 } else { 15.0 };
        let (class, end, near) = match message.end {
            End::Delivered(_) => ("label", "", apart.clamp(least, 60.0)),
            End::Lost(_) => ("label lost", " lost", BEFORE + 10.0),
            End::Waits => ("label waits", " waits", BEFORE + 10.0),
        };
        let text = format!("{}{end}", message.kind());
        let back = Side::of(message.to, message.from);
        let fits = near + text_width(&text, LABEL) <= self.layout.room(message.to, back);
        let (side, near) = if fits { (back, near) } else { (back.other(), 10.0) };
        self.text(class, (x, side, near), middle(row), &text);
    }

    /// What an event leaves on the lines beside messages, or in the strip.
    fn event(&mut self, row: usize, step: &Step) {
        if let Some(refusal) = step.refused {
            self.refused(self.layout.strip_start() + 8.0, row, refusal);
            return;
        }
        let goes = step.sent.map(|place| {
            let message = &self.layout.run.messages[place];
            Side::of(message.from, message.to)
        });
        match step.name {
            "lose" => {}
            "deliver" => {
                // on the other side than the message that comes in; above the one that goes out
                let from = step.taken.map(|place| self.layout.run.messages[place].from);
                let free = from.map_or(Side::Right, |from| Side::of(from, step.cabinet));
                self.beside(row, step, ("note", 12.0), (free, goes == Some(free)), &notes(step));
            }
            name => self.at_cabinet(row, step, name, goes),
        }
        if let Some((cabinet, status)) = self.layout.new_status(row) {
            self.shapes += &shapes::status_box(self.layout.x(cabinet), middle(row), status);
        }
    }

    /// The mark and the name of an event that is no delivery, with what is new.
    fn at_cabinet(&mut self, row: usize, step: &Step, name: &str, goes: Option<Side>) {
        let (x, y) = (self.layout.x(step.cabinet), middle(row));
        let mut near = 12.0;
        if matches!(name, "crash" | "recover") {
            let mark = shapes::power(name, x - 2.0 * BOX - 2.0, y);
            let data = format!("data-row='{row}' data-cabinet='{}'", step.cabinet);
            let _ = writeln!(self.shapes, "<g class='{name}' {data}>{mark}</g>");
            near = 3.0 * BOX + 4.0;
        } else if !self.layout.has_box(row, step.cabinet) {
            self.shapes += &shapes::dot(x, y);
        }
        let notes = notes(step);
        match goes {
            None => {
                self.beside(row, step, ("name", near), (Side::Left, false), name);
                self.beside(row, step, ("note", 12.0), (Side::Right, false), &notes);
            }
            // where a message goes out all is written on the other side
            Some(goes) => {
                let words = format!("{name} {notes}");
                let words = words.trim_end();
                self.beside(row, step, ("name", near), (goes.other(), false), words);
            }
        }
    }

    /// Words beside the line of an event's cabinet, on this side if there is room. They stand
    /// higher where a message goes out on the same side.
    fn beside(
        &mut self,
        row: usize,
        step: &Step,
        (class, near): (&str, f64),
        (side, high): (Side, bool),
        words: &str,
    ) {
        if words.is_empty() {
            return;
        }
        let fits = near + text_width(words, LABEL) <= self.layout.room(step.cabinet, side);
        let (side, high) = if fits { (side, high) } else { (side.other(), true) };
        let y = middle(row) - if high { 6.0 } else { 0.0 };
        self.text(class, (self.layout.x(step.cabinet), side, near), y, words);
    }

    /// A refused event's number and ground, in two lines where one is too short.
    fn refused(&mut self, x: f64, row: usize, refusal: u64) {
        let words = ground_words(refusal);
        let (lines, whole) = in_two_lines(&words, STRIP - 14.0, SMALL);
        let _ = write!(self.texts, "<text class='refused' data-row='{row}'>");
        if let Some(whole) = whole {
            let _ = write!(self.texts, "<title>{}</title>", shapes::escape(whole));
        }
        let first = middle(row) + if lines.len() == 1 { 3.5 } else { -2.0 };
        for (line, y) in lines.iter().zip([first, first + 11.0]) {
            let (x, y, line) = (Short(x), Short(y), shapes::escape(line));
            let _ = write!(self.texts, "<tspan x='{x}' y='{y}'>{line}</tspan>");
        }
        self.texts += "</text>\n";
    }
}

/// Group and task of a record that changed, those that are new: `g33 t100`.
fn notes(step: &Step) -> String {
    let Some(change) = &step.change else {
        return String::new();
    };
    let group = change.group.map(|group| format!("g{group}"));
    let task = change.task.map(|task| format!("t{task}"));
    [group, task].into_iter().flatten().collect::<Vec<_>>().join(" ")
}

/// A refusal's number and its ground: `11: deliver, lose: no message from a to b`.
fn ground_words(refusal: u64) -> String {
    format!("{refusal}: {}", ground(refusal))
}

#[cfg(test)]
mod tests {
    use super::super::run::read;
    use super::*;

    const K10: &str = include_str!("../../../examples/k10-trace.txt");

    fn count(text: &str, part: &str) -> usize {
        text.matches(part).count()
    }

    #[test]
    fn k10_has_its_arrows_lines_and_marks() {
        let run = read(K10);
        let body = body(&Layout::new(&run));
        assert_eq!(count(&body, "data-how='delivered'"), 8);
        assert_eq!(count(&body, "class='life'"), 2);
        assert_eq!(count(&body, "class='recover'"), 2);
        assert_eq!(count(&body, "class='crash'"), 0);
        // two at the start, and eight changes of status
        assert_eq!(count(&body, "class='box "), 2 + 8);
        assert!(body.contains(">g33</text>") && body.contains(">AreYouCoordinator</text>"));
        assert!(body.contains(">finish t100</text>"));
        assert!(!body.contains("strip"));
    }

    #[test]
    fn an_arrow_goes_from_sender_to_receiver() {
        let run = read(K10);
        let layout = Layout::new(&run);
        let mut out = String::new();
        line(&mut out, &layout, 2);
        let start = format!("d='M{} {}L", Short(layout.x(2)), Short(middle(5)));
        assert!(out.contains(&start), "{out}");
        assert!(out.contains("data-from='2' data-to='1' data-sent='5' data-row='6'"), "{out}");
    }

    #[test]
    fn lost_waiting_and_refused() {
        let run = read(
            "cabinets 2\n1 tick 1 accepted\n  sent 1 -> 2 Accept group 33 call 1\n\
             2 tick 1 accepted\n  sent 1 -> 2 reply no call 2\n\
             3 lose 1 2 accepted\n  taken 1 -> 2 Accept group 33 call 1\n4 lose 1 2 refused 11\n\
             1 0 0 0 0 0 0\n2 0 0 0 0 0 0\nmessages 1\nsent 2\ndelivered 0\nlost 1\n",
        );
        assert!(run.faults.is_empty(), "{:?}", run.faults);
        let layout = Layout::new(&run);
        let body = body(&layout);
        assert!(body.contains("data-sent='1' data-row='3' data-how='lost'"), "{body}");
        assert!(body.contains("data-sent='2' data-row='5' data-how='waits'"), "{body}");
        assert!(body.contains(">Accept lost</text>") && body.contains(">reply no waits</text>"));
        assert_eq!(count(&body, "<text class='refused' data-row='4'>"), 1);
        let gutter = gutter(&layout);
        assert!(gutter.contains(">1 to 2 waits<") && gutter.contains("class='event no gone'"));
    }

    #[test]
    fn every_ground_of_a_list_fits_into_two_lines() {
        for refusal in (1..=14).chain(17..=19) {
            let words = ground_words(refusal);
            let (lines, whole) = in_two_lines(&words, STRIP - 14.0, SMALL);
            assert_eq!((lines.concat(), whole), (words.clone(), None));
        }
    }
}
