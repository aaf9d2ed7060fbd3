//! The form of a text read once more, line by line and without the other reader: what stands before `#` in a line, in
//! pieces parted by commas, and each piece in words. And by that alone whether the right thing is told of a wrong text:
//! what stands before the place can be gone on with what was expected, and no more of it can be gone on with.

use crate::list::MAX_LIST;
use crate::list_text::list_of_text::Expected::{self, *};
use crate::list_text::list_of_text::{is_blank, is_of_word, EXPECTED, MAX_TEXT};

/// A name, the tag of its field, and the bytes that its numbers take.
type Form = (&'static [u8], u8, &'static [usize]);

const FIRST: [Form; 2] = [(b"cabinets", 0x01, &[1]), (b"stand", 0x02, &[1])];

const EVENTS: [Form; 9] = [
    (b"crash", 0x10, &[1]),
    (b"recover", 0x11, &[1]),
    (b"check", 0x12, &[1]),
    (b"timeout", 0x13, &[1]),
    (b"tick", 0x14, &[1]),
    (b"expire", 0x15, &[1]),
    (b"finish", 0x16, &[1, 2]),
    (b"deliver", 0x17, &[1, 1]),
    (b"lose", 0x18, &[1, 1]),
];

/// The list of a text, however long both are. None where anything is wrong.
pub fn list_of(text: &[u8]) -> Option<Vec<u8>> {
    let mut list = Vec::new();
    for line in text.split(|&byte| byte == b'\n') {
        let before = line.split(|&byte| byte == b'#').next()?;
        if before.iter().all(|&byte| is_blank(byte)) {
            continue;
        }
        for piece in before.split(|&byte| byte == b',') {
            let forms: &[Form] = if list.is_empty() { &FIRST } else { &EVENTS };
            add_field(&mut list, forms, piece)?;
        }
    }
    (!list.is_empty()).then_some(list)
}

/// The words of a piece.
pub fn words(piece: &[u8]) -> impl Iterator<Item = &[u8]> {
    piece.split(|&byte| is_blank(byte)).filter(|word| !word.is_empty())
}

fn add_field(list: &mut Vec<u8>, forms: &[Form], piece: &[u8]) -> Option<()> {
    let mut words = words(piece);
    let name = words.next()?;
    let &(_, tag, sizes) = forms.iter().find(|(form, ..)| *form == name)?;
    list.extend([tag, 0, sizes.iter().sum::<usize>() as u8]);
    for &size in sizes {
        let number = number(words.next()?)?;
        let (above, bytes) = number.split_at(number.len() - size);
        above.iter().all(|&byte| byte == 0).then_some(())?;
        list.extend(bytes);
    }
    words.next().is_none().then_some(())
}

/// A number, high byte first.
fn number(word: &[u8]) -> Option<[u8; 8]> {
    let word = std::str::from_utf8(word).ok()?;
    if word.contains(|c: char| !c.is_ascii_digit()) {
        return None;
    }
    match word.trim_start_matches('0') {
        "" => Some([0; 8]),
        digits => Some(digits.parse::<u64>().ok()?.to_be_bytes()),
    }
}

/// What is told of a wrong text, read from the line: the offset and what was expected.
pub fn read_told(text: &[u8], told: &[u8]) -> Option<(usize, Expected)> {
    let told = std::str::from_utf8(told).ok()?.strip_suffix('\n')?;
    let (place, expected) = told.split_once(": expected ")?;
    let (line, column) = place.strip_prefix("line ")?.split_once(", column ")?;
    let expected = EXPECTED.into_iter().find(|one| one.words() == expected)?;
    let (line, column): (usize, usize) = (line.parse().ok()?, column.parse().ok()?);
    if place != format!("line {line}, column {column}") {
        return None;
    }
    let mut lines = text.split(|&byte| byte == b'\n');
    let before: usize = lines.by_ref().take(line.checked_sub(1)?).map(|line| line.len() + 1).sum();
    let column = column.checked_sub(1)?;
    (column <= lines.next()?.len()).then_some((before + column, expected))
}

/// Whether this is what must be told of a text, which must be wrong. The error says why not.
pub fn judge_told(text: &[u8], told: &[u8]) -> Result<(), String> {
    let (offset, expected) = read_told(text, told).ok_or("no such line is told of a text")?;
    let (before, behind) = text.split_at(offset);
    let goes_on = |more: &str| goes_on_with(before, more);
    let right = match expected {
        // It may end in a comment.
        FirstWord => goes_on("\ncabinets 1"),
        Byte => (goes_on(" 255") || goes_on(" 255 255")) && !goes_on(" 65535"),
        Task => goes_on(" 65535"),
        Event => goes_on(" crash 1"),
        Separator => goes_on("") && goes_on(", crash 1") && !goes_on(" crash 1"),
        EndOfList => no_room(before, behind),
        EndOfText => offset == MAX_TEXT && !behind.is_empty(),
    };
    if !right || (text.len() > MAX_TEXT && expected != EndOfText) {
        return Err("what stands before the place can't be gone on with so".to_string());
    }
    if matches!(expected, EndOfList | EndOfText) {
        return Ok(());
    }
    let in_a_word = before.last().is_some_and(|&byte| is_of_word(byte));
    let word = behind.iter().take_while(|&&byte| is_of_word(byte)).count();
    match behind.first() {
        Some(&byte) if is_blank(byte) => return Err("a blank stands at the place".to_string()),
        Some(_) if word > 0 && in_a_word => return Err("the place is in a word".to_string()),
        _ => {}
    }
    // The word there, a comma, a line end or `#`, or the end of the text.
    let end = offset + word.max(1).min(behind.len());
    let more: &[&str] = if behind.is_empty() { &[""] } else { &["", " 1", " 1 1", " crash 1"] };
    if more.iter().any(|more| goes_on_with(&text[..end], more)) {
        return Err("nothing is wrong at the place".to_string());
    }
    Ok(())
}

fn goes_on_with(before: &[u8], more: &str) -> bool {
    list_of(&[before, more.as_bytes()].concat()).is_some()
}

/// Whether a text's part ends in an event for which its list has no room, and has room for those before.
fn no_room(before: &[u8], behind: &[u8]) -> bool {
    let ends_in_a_number = before.last().is_some_and(u8::is_ascii_digit);
    let goes_on = behind.first().is_some_and(|&byte| is_of_word(byte));
    let list = list_of(before).unwrap_or_default();
    let (mut last, mut end) = (0, 0);
    while end < list.len() {
        last = end;
        end += 3 + usize::from(list[end + 2]);
    }
    ends_in_a_number && !goes_on && last <= MAX_LIST && list.len() > MAX_LIST
}
