//! Small pieces of the picture as SVG, and the measures of its text.

use super::run::Status;
use std::fmt;

/// Half the side of the box with a status's letter.
pub const BOX: f64 = 8.0;
/// The size of labels, and of the strip's text.
pub const LABEL: f64 = 10.5;
pub const SMALL: f64 = 10.0;

/// A number with at most one digit behind the point.
#[derive(Clone, Copy)]
pub struct Short(pub f64);

impl fmt::Display for Short {
    fn fmt(&self, f: &mut fmt::Formatter) -> fmt::Result {
        let text = format!("{:.1}", self.0);
        f.write_str(text.strip_suffix(".0").unwrap_or(&text))
    }
}

/// About how wide a text is, in a font like Helvetica; fonts differ.
pub fn text_width(text: &str, size: f64) -> f64 {
    let em = |letter: char| match letter {
        'f' | 'i' | 'j' | 'l' | 'r' | 't' => 0.31,
        ' ' | '.' | ',' | ':' | ';' | '\'' | '|' | '(' | ')' => 0.31,
        'm' | 'w' | 'M' | 'W' => 0.84,
        'A'..='Z' => 0.69,
        _ => 0.57,
    };
    text.chars().map(em).sum::<f64>() * size
}

/// Text for HTML and XML. Characters that XML does not have are replaced.
pub fn escape(text: &str) -> String {
    let mut out = String::with_capacity(text.len());
    for letter in text.chars() {
        match letter {
            '&' => out.push_str("&amp;"),
            '<' => out.push_str("&lt;"),
            '>' => out.push_str("&gt;"),
            '"' => out.push_str("&quot;"),
            '\'' => out.push_str("&#39;"),
            '\t' | '\n' => out.push(' '),
            '\u{fffe}' | '\u{ffff}' => out.push('\u{fffd}'),
            letter if letter.is_control() => out.push('\u{fffd}'),
            letter => out.push(letter),
        }
    }
    out
}

/// A text that begins at x, or ends there where its class says `end`.
pub fn text(class: &str, x: f64, y: f64, text: &str) -> String {
    let (x, y, text) = (Short(x), Short(y), escape(text));
    format!("<text class='{class}' x='{x}' y='{y}'>{text}</text>\n")
}

/// The box with a status's letter.
pub fn status_box(x: f64, y: f64, status: Status) -> String {
    let letter = status.letter();
    let (left, top, side) = (Short(x - BOX), Short(y - BOX), Short(2.0 * BOX));
    format!(
        "<rect class='box {letter}' x='{left}' y='{top}' width='{side}' height='{side}' rx='3'/>"
    ) + &text("letter", x, y + 4.0, letter)
}

/// A cabinet's line from a place on; `way` is how it goes on from there, as in `V80`.
pub fn lifeline(x: f64, y: f64, way: &str, status: Status) -> String {
    format!("<path class='{}' d='M{} {}{way}'/>", status.letter(), Short(x), Short(y))
}

/// The sign of crash, an X, or of recover, an arrow up, in a box.
pub fn power(name: &str, x: f64, y: f64) -> String {
    let sign = match name {
        "crash" => format!("M{} {}l8 8m-8 0l8-8", Short(x - 4.0), Short(y - 4.0)),
        _ => format!("M{} {}v-9m-4 4l4-4l4 4", Short(x), Short(y + 4.5)),
    };
    let (left, top) = (Short(x - 7.0), Short(y - 7.0));
    format!("<rect x='{left}' y='{top}' width='14' height='14' rx='2'/><path d='{sign}'/>")
}

/// The sign of any other event at a cabinet.
pub fn dot(x: f64, y: f64) -> String {
    format!("<circle class='dot' cx='{}' cy='{}' r='3.5'/>\n", Short(x), Short(y))
}

/// A message's line, as a path's data.
pub fn way(data: &str) -> String {
    format!("<path class='way' d='{data}'/>")
}

/// Where a message is lost.
pub fn cross(x: f64, y: f64) -> String {
    format!("<path class='cross' d='M{} {}l11 11m-11 0l11-11'/>", Short(x - 5.5), Short(y - 5.5))
}

/// Where a message waits.
pub fn open(x: f64, y: f64) -> String {
    format!("<circle class='open' cx='{}' cy='{}' r='4'/>", Short(x), Short(y))
}

/// The class of a message's kind: the kinds have different lines.
pub fn kind_class(words: &str) -> &'static str {
    match words.split([' ', ',']).next() {
        Some("AreYouCoordinator" | "AreYouThere") => "question",
        Some("Invitation") => "invitation",
        Some("Accept") => "accept",
        Some("Ready") => "ready",
        Some("reply") => "reply",
        _ => "any",
    }
}

/// Text in at most two lines of this width; where it is cut, the whole of it as well.
pub fn in_two_lines(text: &str, width: f64, size: f64) -> (Vec<String>, Option<&str>) {
    let mut lines = vec![String::new()];
    for word in text.split(' ') {
        let last = lines.len() - 1;
        let space = if lines[last].is_empty() { "" } else { " " };
        let longer = format!("{}{space}{word}", lines[last]);
        if text_width(&longer, size) <= width {
            lines[last] = longer;
        } else if last == 0 {
            // with a space, so that the two lines make the text when they are joined
            lines[0].push(' ');
            lines.push(word.to_string());
        } else {
            lines[1].push('…');
            return (lines, Some(text));
        }
    }
    (lines, None)
}

#[cfg(test)]
mod tests {
    use super::*;

    #[test]
    fn numbers_are_short() {
        let texts = [26.0, -0.55, 7.25, -0.01, 425983.0].map(|number| Short(number).to_string());
        assert_eq!(texts, ["26", "-0.6", "7.2", "-0", "425983"]);
    }

    #[test]
    fn what_is_cut_is_kept_whole() {
        assert_eq!(in_two_lines("a b", 100.0, 10.0), (vec!["a b".to_string()], None));
        let long = "word ".repeat(20);
        let (lines, whole) = in_two_lines(&long, 100.0, 10.0);
        assert!(lines.len() == 2 && lines[1].ends_with('…') && whole == Some(long.as_str()));
    }

    #[test]
    fn nothing_is_left_of_markup() {
        assert_eq!(
            escape("<a b='c' d=\"e\">&\u{0}\n"),
            "&lt;a b=&#39;c&#39; d=&quot;e&quot;&gt;&amp;\u{fffd} "
        );
    }
}
