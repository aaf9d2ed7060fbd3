//! Random texts of lists: parted, commented and spaced in every way, with other words and with other bytes.

use crate::compare::event_words;
use crate::corners::EVENTS;
use crate::list_text::list_of_text::is_of_word;
use crate::list_text::FIRST_WORDS;
use crate::machine::Event;
use crate::numbers::Numbers;

/// The words of `cabinets N` or of an event.
pub type Part = Vec<String>;

/// Bytes that a text may have anywhere, or that are next to those.
const BYTES: &[u8] = b"  \t\r\n\n##,,0012359acdeflorstCR+-.:;\x00\x0b\x0c\x7f\x80\xa0\xff";
/// What stands in comments.
const COMMENTS: [&str; 6] = ["#", "##", "# the bells", "#,", "# recover 1, check 1", "#cabinets 3"];
/// What is put behind a word.
const SIGNS: [&str; 14] = [
    ",", ",", ", ,", ",\n", " , \n", ",#", ", # x\n", "\n,", "#,\n,", " x", " 1", "#", "#\n", "\n",
];
/// Numbers over their limits, some of which are small in 8, 16, 32 or 64 bits.
const OVER: [&str; 8] =
    ["257", "65537", "66000", "99999", "100000", "4294967296", "4294967297", "9999999999"];
const FAR_OVER: [&str; 4] = [
    "18446744073709551616",
    "18446744073709551617",
    "99999999999999999999999",
    "340282366920938463463374607431768211457",
];
const NO_NUMBERS: [&str; 10] =
    ["-1", "+1", "1.0", "0x1", "1e2", "1_0", "one", "/", "1:", "\u{0661}"];
/// What ends a part before a number or a name that is due.
const NOTHING: [&str; 5] = ["", "", ",", "\n", "#"];
/// Words that are no names.
const OTHER_NAMES: [&str; 12] = [
    "stopped",
    "lists",
    "refused",
    "turns",
    "e",
    "crashrecover",
    "12",
    "0",
    "1",
    "255",
    "cabinets2",
    "\u{fffd}",
];

/// An event with any numbers, at their ends among them.
pub fn any_event(numbers: &mut Numbers) -> Event {
    let (any, other) = (numbers.byte(), numbers.byte());
    let i = numbers.of(&[0, 1, 2, 3, 9, 10, 16, 17, 99, 100, 255, any]);
    let j = numbers.of(&[0, 1, 2, 3, 9, 10, 16, 17, 99, 100, 255, other]);
    let any_task = numbers.bits() as u16;
    let task = numbers.of(&[0, 5, 99, 100, 999, 1000, 9999, 10_000, 65_535, any_task]);
    let single =
        [Event::Crash, Event::Recover, Event::Check, Event::Timeout, Event::Tick, Event::Expire];
    match numbers.below(12) {
        0..=5 => numbers.of(&single)(i),
        6 | 7 => Event::Finish(i, task),
        8 | 9 => Event::Deliver(i, j),
        _ => Event::Lose(i, j),
    }
}

pub fn any_events(count: u32, numbers: &mut Numbers) -> Vec<Event> {
    (0..count).map(|_| any_event(numbers)).collect()
}

/// The words of an event.
pub fn part_of(event: &Event) -> Part {
    event_words(event).split(' ').map(String::from).collect()
}

/// Text k of any number: right, with other numbers, words, signs or bytes.
pub fn any_text(k: usize, numbers: &mut Numbers) -> Vec<u8> {
    let any = numbers.byte();
    let n = numbers.of(&[0, 1, 2, 3, 4, 5, 16, 17, 255, any]);
    let (word, _) = numbers.of(&FIRST_WORDS);
    let mut parts = vec![vec![word.to_string(), n.to_string()]];
    let events = if numbers.one_in(40) { 120 } else { numbers.below(6) };
    parts.extend(any_events(events, numbers).iter().map(part_of));
    match k % 16 {
        4..=9 => other_number(&mut parts, numbers),
        10..=12 => other_words(&mut parts, numbers),
        _ => {}
    }
    let mut text = joined(&parts, numbers);
    match k % 16 {
        13 => other_signs(&mut text, numbers),
        14 | 15 => {
            for _ in 0..numbers.of(&[1, 1, 1, 2]) {
                other_bytes(&mut text, numbers);
            }
        }
        _ => {}
    }
    text
}

/// A text of these parts: plain in lines, plain in one line, with the events in one line as T-01 has them, or in any
/// manner.
pub fn joined(parts: &[Part], numbers: &mut Numbers) -> Vec<u8> {
    let plain = |part: &Part| part.join(" ");
    let words: Vec<String> = parts.iter().map(plain).collect();
    match numbers.below(6) {
        0 => words.join("\n").into_bytes(),
        1 => words.join(", ").into_bytes(),
        2 => words.join(", ").replacen(", ", "\n", 1).into_bytes(),
        _ => in_any_manner(parts, numbers),
    }
}

fn in_any_manner(parts: &[Part], numbers: &mut Numbers) -> Vec<u8> {
    let mut text = Vec::new();
    if numbers.one_in(3) {
        lines(&mut text, numbers);
    }
    for (k, part) in parts.iter().enumerate() {
        if k > 0 {
            separator(&mut text, numbers);
        }
        for (k, word) in part.iter().enumerate() {
            if k > 0 {
                text.push(b' ');
                some_blanks(&mut text, 3, numbers);
                // Another blank may stand alone too.
                let last = text.len() - 1;
                text[last] = numbers.of(b"    \t\r");
            }
            let number = !word.is_empty() && word.bytes().all(|byte| byte.is_ascii_digit());
            if number && numbers.one_in(5) {
                let few = numbers.one_in(2);
                let zeros = if few { numbers.between(1, 2) } else { numbers.between(18, 40) };
                text.extend((0..zeros).map(|_| b'0'));
            }
            text.extend(word.bytes());
        }
    }
    match numbers.below(9) {
        0 | 1 => {}
        2 => some_blanks(&mut text, 1, numbers),
        3 | 4 => text.push(b'\n'),
        5 => comment(&mut text, numbers),
        6 | 7 => {
            text.push(b'\n');
            lines(&mut text, numbers);
        }
        _ => {
            text.push(b'\n');
            comment(&mut text, numbers);
        }
    }
    text
}

/// A comma or at least one line end, with blanks, comments and empty lines.
fn separator(text: &mut Vec<u8>, numbers: &mut Numbers) {
    some_blanks(text, 3, numbers);
    match numbers.below(8) {
        0..=3 => {
            text.push(b',');
            if numbers.one_in(2) {
                text.push(b' ');
            }
            some_blanks(text, 3, numbers);
        }
        4 | 5 => {
            text.extend(numbers.of(&[&b"\n"[..], b"\r\n"]));
            some_blanks(text, 4, numbers);
        }
        6 => {
            comment(text, numbers);
            text.push(b'\n');
        }
        _ => {
            text.push(b'\n');
            lines(text, numbers);
        }
    }
}

/// Empty lines and comments, and blanks before what comes next.
fn lines(text: &mut Vec<u8>, numbers: &mut Numbers) {
    if numbers.one_in(8) {
        text.extend([b'\n'; 120].iter().take(numbers.of(&[20, 120])));
    }
    for _ in 0..numbers.below(4) {
        some_blanks(text, 2, numbers);
        if numbers.one_in(2) {
            comment(text, numbers);
        }
        text.push(b'\n');
    }
    some_blanks(text, 2, numbers);
}

fn comment(text: &mut Vec<u8>, numbers: &mut Numbers) {
    text.extend(numbers.of(&COMMENTS).bytes());
    if numbers.one_in(4) {
        let any = (0..numbers.below(6)).map(|_| numbers.byte()).filter(|&byte| byte != b'\n');
        text.extend(any);
    }
}

/// Blanks, once in so many times.
fn some_blanks(text: &mut Vec<u8>, times: u32, numbers: &mut Numbers) {
    if numbers.one_in(times) {
        let most = if numbers.one_in(20) { 150 } else { 3 };
        text.extend((0..numbers.between(1, most)).map(|_| numbers.of(b" \t\r")));
    }
}

/// Puts another number in: at its limit, over it, no number, or none at all.
fn other_number(parts: &mut Vec<Part>, numbers: &mut Numbers) {
    let (words, limit): (&[&str], u32) = match numbers.below(4) {
        0 => (&[], 255),
        1 => (&[numbers.of(&EVENTS)], 255),
        2 => (&[numbers.of(&["deliver", "lose"]), "1"], 255),
        _ => (&["finish", "1"], 65_535),
    };
    let number = match numbers.below(8) {
        0 => (limit + 1).to_string(),
        1 => numbers.of(&OVER).to_string(),
        2 => numbers.of(&FAR_OVER).to_string(),
        3 => numbers.of(&NO_NUMBERS).to_string(),
        _ => numbers.of(&NOTHING).to_string(),
    };
    if words.is_empty() {
        parts[0][1] = number;
        ends_if_nothing(parts, 0);
        return;
    }
    let place = numbers.place(parts.len()) + 1;
    let part = words.iter().copied().chain([&number[..]]).map(String::from).collect();
    parts.insert(place, part);
    ends_if_nothing(parts, place);
}

/// Where a part has nothing for its last word, the text ends.
fn ends_if_nothing(parts: &mut Vec<Part>, place: usize) {
    if parts[place].last().is_some_and(String::is_empty) {
        parts.truncate(place + 1);
    }
}

/// Changes the words of a text: other names, words and parts missing, twice or in other places.
fn other_words(parts: &mut Vec<Part>, numbers: &mut Numbers) {
    let place = if numbers.one_in(2) { 0 } else { numbers.place(parts.len()).max(1) };
    let place = place.min(parts.len() - 1);
    let part = &mut parts[place];
    match numbers.below(14) {
        0 | 1 => part[0] = numbers.of(&OTHER_NAMES).to_string(),
        2..=4 => part[0] = other_name(&part[0], numbers),
        5 => {
            let word = part[numbers.place(part.len())].clone();
            part.insert(numbers.place(part.len() + 1), word);
        }
        6 => {
            part.remove(numbers.place(part.len()));
        }
        // `cabinets` or `stand` once more, or not at all, or nothing at all.
        7 => parts.insert(numbers.place(parts.len()) + 1, parts[0].clone()),
        8 => parts.clear(),
        9 => parts[0] = vec![",".to_string()],
        10 => {
            parts.remove(0);
        }
        11 | 12 => {
            part.extend([",", numbers.of(&NOTHING)].map(String::from));
            ends_if_nothing(parts, place);
        }
        _ => {
            let (a, b) = (numbers.place(parts.len()), numbers.place(parts.len()));
            let (i, j) = (numbers.place(parts[a].len()), numbers.place(parts[b].len()));
            let (word, other) = (parts[a][i].clone(), parts[b][j].clone());
            parts[a][i] = other;
            parts[b][j] = word;
        }
    }
    if numbers.one_in(16) {
        parts.push(["stopped", "4", "3"].map(String::from).to_vec());
    }
}

/// A name with capitals, cut, or with something behind it.
fn other_name(name: &str, numbers: &mut Numbers) -> String {
    match numbers.below(4) {
        0 => name.to_uppercase(),
        1 => name[..1].to_uppercase() + &name[1..],
        2 => name[..name.len() - 1].to_string(),
        _ => format!("{name}{}", numbers.of(&["1", "s", ":", "\0"])),
    }
}

/// Puts signs behind a word or at the start, or cuts the text there.
fn other_signs(text: &mut Vec<u8>, numbers: &mut Numbers) {
    let is_end = |&place: &usize| {
        let before = place.checked_sub(1).map(|place| text[place]);
        before.is_none_or(is_of_word) && !text.get(place).is_some_and(|&byte| is_of_word(byte))
    };
    let ends: Vec<usize> = (0..=text.len()).filter(is_end).collect();
    let place = if ends.is_empty() || numbers.one_in(12) { 0 } else { numbers.of(&ends) };
    let signs = numbers.of(&SIGNS).bytes();
    match numbers.below(4) {
        0 => {
            text.truncate(place);
            text.extend(numbers.of(&["", ",", ", ", "\t,\r", "\n,", "#", "\n#,"]).bytes());
        }
        _ => {
            text.splice(place..place, signs);
        }
    }
}

/// Changes one byte of a text, takes bytes out, puts some in, or cuts it.
fn other_bytes(text: &mut Vec<u8>, numbers: &mut Numbers) {
    let place = numbers.place(text.len() + 1);
    let end = (place + numbers.of(&[1, 1, 1, 2, 8])).min(text.len());
    let any = numbers.byte();
    let byte = if numbers.one_in(8) { any } else { numbers.of(BYTES) };
    match numbers.below(6) {
        0 | 1 if place < text.len() => text[place] = byte,
        2 => {
            text.drain(place..end);
        }
        3 => text.truncate(place),
        4 => {
            let twice = text[place..end].to_vec();
            text.splice(place..place, twice);
        }
        _ => text.insert(place, byte),
    }
}
