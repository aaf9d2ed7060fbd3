//! Where a list stops, and where a text is bad: read off what the library tells of it.

use crate::Refusal;
use std::error::Error;
use std::fmt;

/// Where a list stops, and why.
///
/// ```
/// use nevraspu::lists;
///
/// // The second field has no contents, though recover has one byte.
/// let text = lists::text_of_list(&[0x01, 0, 1, 2, 0x11, 0, 0]);
/// assert_eq!(text, b"cabinets 2\nstopped 4 5\n");
/// let stopped = lists::stopped(&text).unwrap();
/// assert_eq!(stopped.to_string(), "stopped at byte 4, refusal 5: length wrong for the tag");
/// ```
#[derive(Clone, Copy, Debug, PartialEq, Eq, Hash)]
pub struct Stopped {
    /// The offset of the field, 0 for the whole list.
    pub offset: u32,
    /// Why.
    pub refusal: Refusal,
}

/// As in `stopped at byte 4, refusal 5: length wrong for the tag`.
impl fmt::Display for Stopped {
    fn fmt(&self, f: &mut fmt::Formatter) -> fmt::Result {
        write!(f, "stopped at byte {}, {}", self.offset, self.refusal)
    }
}

impl Error for Stopped {}

/// The line `stopped b r` of a text of this module's functions; None where the text has none.
///
/// ```
/// use nevraspu::{lists, Refusal};
///
/// let stopped = lists::stopped(&lists::print(b"")).unwrap();
/// assert_eq!((stopped.offset, stopped.refusal), (0, Refusal::CutShort));
/// assert_eq!(lists::stopped(&lists::print(&[0x01, 0, 1, 16])), None);
/// ```
pub fn stopped(text: &[u8]) -> Option<Stopped> {
    let line = text.split(|&byte| byte == b'\n').find_map(|line| line.strip_prefix(b"stopped "))?;
    let (offset, number) = std::str::from_utf8(line).ok()?.split_once(' ')?;
    let refusal = Refusal::from_number(number.parse().ok()?)?;
    Some(Stopped { offset: offset.parse().ok()?, refusal })
}

/// What is told of a bad text: a line with the place and with what was expected there.
#[derive(Clone, Debug, PartialEq, Eq, Hash)]
pub struct BadText {
    /// Without its line end.
    told: String,
}

impl BadText {
    /// From the line that the library tells.
    pub(crate) fn told(line: &[u8]) -> BadText {
        BadText { told: String::from_utf8_lossy(line).trim_end().to_string() }
    }

    /// The line of the text, from 1.
    pub fn line(&self) -> u32 {
        self.number_behind("line ")
    }

    /// The column in this line, from 1, in bytes.
    pub fn column(&self) -> u32 {
        self.number_behind("column ")
    }

    /// The number behind the first such word.
    fn number_behind(&self, word: &str) -> u32 {
        let behind = self.told.split_once(word).map_or("", |(_, behind)| behind);
        let digits = behind.split(|c: char| !c.is_ascii_digit()).next();
        digits.and_then(|digits| digits.parse().ok()).expect("the library tells it")
    }
}

/// As in `line 2, column 9: expected a number from 0 to 255`.
impl fmt::Display for BadText {
    fn fmt(&self, f: &mut fmt::Formatter) -> fmt::Result {
        f.pad(&self.told)
    }
}

impl Error for BadText {}

#[cfg(test)]
mod tests {
    use super::*;

    #[test]
    fn the_line_may_stand_anywhere() {
        let at = |text: &str| stopped(text.as_bytes()).map(|s| (s.offset, s.refusal.number()));
        assert_eq!(at("stopped 0 16\n"), Some((0, 16)));
        assert_eq!(at("cabinets 1\nrefused 1 9\nstopped 65535 3\nmessages 0\n"), Some((65_535, 3)));
        assert_eq!(at("cabinets 1\nmessages 0\n"), None);
        assert_eq!(at(""), None);
        // No text of the library has these.
        assert_eq!(at("stopped 1\n"), None);
        assert_eq!(at("stopped 1 0\n"), None);
        assert_eq!(at("stopped x 3\n"), None);
    }
}
