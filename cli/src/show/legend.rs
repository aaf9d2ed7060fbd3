//! What the picture's lines, letters and marks mean.

use super::run::Status;
use super::shapes::{self, text_width, Short, BOX, LABEL};

/// Samples with their words, in rows of this width, and the height of all.
pub fn legend(width: f64) -> (String, f64) {
    let mut rows = Rows { out: String::new(), width, x: START, y: 14.0 };
    for status in [Status::Normal, Status::Reorganization, Status::Election, Status::Down] {
        rows.add(42.0, status.name(), |x, y| {
            let line = shapes::lifeline(x + 2.0 * BOX + 2.0, y, "h24", status);
            format!("<g class='life'>{line}</g>{}", shapes::status_box(x + BOX, y, status))
        });
    }
    let tip = |x, y| format!("<path class='tip' d='M{} {}l-9 -4v8z'/>", Short(x + 4.0), Short(y));
    for words in ["AreYouCoordinator, AreYouThere", "Invitation", "Accept", "Ready", "reply"] {
        rows.message(words, tip);
    }
    rows.message("lost", shapes::cross);
    rows.message("waits at the end", shapes::open);
    for name in ["crash", "recover"] {
        let mark = |x, y| format!("<g class='{name}'>{}</g>", shapes::power(name, x + 7.0, y));
        rows.add(14.0, name, mark);
    }
    rows.add(14.0, "other event", |x, y| shapes::dot(x + 7.0, y));
    rows.add(20.0, "new group 33", |x, y| shapes::text("note", x, y + 3.5, "g33"));
    rows.add(25.0, "new task 100", |x, y| shapes::text("note", x, y + 3.5, "t100"));
    (rows.out, rows.y + 14.0)
}

/// Where a row begins.
const START: f64 = 8.0;

struct Rows {
    out: String,
    width: f64,
    x: f64,
    y: f64,
}

impl Rows {
    /// A sample of this width, and its words, in the next row where this one is full.
    fn add(&mut self, sample: f64, words: &str, draw: impl Fn(f64, f64) -> String) {
        let wide = sample + 6.0 + text_width(words, LABEL) + 16.0;
        if self.x + wide > self.width && self.x > START {
            (self.x, self.y) = (START, self.y + 22.0);
        }
        self.out += &draw(self.x, self.y);
        self.out += &shapes::text("label", self.x + sample + 6.0, self.y + 3.5, words);
        self.x += wide;
    }

    /// A message's line with what it ends in.
    fn message(&mut self, words: &str, end: impl Fn(f64, f64) -> String) {
        self.add(34.0, words, |x, y| {
            let way = shapes::way(&format!("M{} {}h26", Short(x), Short(y)));
            let class = shapes::kind_class(words);
            format!("<g class='m {class}'>{way}{}</g>", end(x + 30.0, y))
        });
    }
}

#[cfg(test)]
mod tests {
    use super::*;

    #[test]
    fn every_status_and_kind_is_there() {
        let (narrow, height) = legend(400.0);
        let (wide, less) = legend(4000.0);
        assert!(less < height);
        for words in Status::ALL.map(Status::name).into_iter().chain(["lost", "crash", "reply"]) {
            assert!(narrow.contains(&format!(">{words}<")) && wide.contains(&format!(">{words}<")));
        }
    }
}
