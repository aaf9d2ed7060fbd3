//! A list read from a file or from standard input, in bytes or as text.

use crate::arguments::{Reading, Source};
use crate::failure::Failure;
use nevraspu::lists;
use std::fs::File;
use std::io::Read;

/// One byte more than the longest text has, which is also more than the longest list: of a longer
/// input so much is read, and the library says that it is too long.
const MOST: u64 = 1_048_577;

/// A list that was read.
pub struct List {
    pub bytes: Vec<u8>,
    /// whether it was read as text
    pub from_text: bool,
}

/// Reads a list; one as text is made bytes.
pub fn list(source: &Source) -> Result<List, Failure> {
    let read =
        read(source).map_err(|error| Failure::Transfer(format!("{}: {error}", source.name())))?;
    let from_text = match source.reading {
        Reading::Bytes => false,
        Reading::Text => true,
        Reading::ByFirstByte => begins_text(&read),
    };
    let bytes = if from_text {
        let told = |bad| Failure::Input(format!("{}: {bad}", source.name()));
        lists::list_of_text(&read).map_err(told)?
    } else {
        read
    };
    Ok(List { bytes, from_text })
}

/// Whether it is read as text: its first byte is none of the bytes below 32, but tab and line ends.
/// A list in bytes begins with its first field's tag, 1 or 2. No bytes at all are an empty list.
fn begins_text(bytes: &[u8]) -> bool {
    match bytes.first() {
        None => false,
        Some(b'\t' | b'\n' | b'\r') => true,
        Some(first) => *first >= b' ',
    }
}

fn read(source: &Source) -> std::io::Result<Vec<u8>> {
    let mut bytes = Vec::new();
    match &source.file {
        Some(path) => File::open(path)?.take(MOST).read_to_end(&mut bytes)?,
        None => std::io::stdin().lock().take(MOST).read_to_end(&mut bytes)?,
    };
    Ok(bytes)
}

#[cfg(test)]
mod tests {
    use super::begins_text;

    #[test]
    fn told_apart_by_the_first_byte() {
        for text in [
            "cabinets 2\n",
            "stand 4",
            "# a comment",
            "\n\ncabinets 1",
            "\tcabinets 1",
            "\r\n",
            "x",
        ] {
            assert!(begins_text(text.as_bytes()), "{text}");
        }
        // a byte order mark too, so that its line and column are told
        assert!(begins_text("\u{feff}cabinets 2".as_bytes()));
        for list in [&[1, 0, 1, 2][..], &[2, 0, 1, 4], &[0x10, 0, 1, 1], &[0], &[]] {
            assert!(!begins_text(list), "{list:?}");
        }
    }
}
