//! Damages the bytes of a list.

use crate::list::MAX_LIST;
use crate::numbers::Numbers;

/// Tags of first fields and of events, and those beside them.
const TAGS: [u8; 11] = [0x00, 0x01, 0x02, 0x0f, 0x10, 0x15, 0x16, 0x17, 0x18, 0x19, 0xff];

/// Changes a list in one to four places: bytes flipped, cut, inserted, doubled, fields damaged.
pub fn damage(list: &mut Vec<u8>, numbers: &mut Numbers) {
    for _ in 0..numbers.between(1, 4) {
        if list.is_empty() {
            list.push(numbers.byte());
            continue;
        }
        // Now and then in the first field.
        let place = if numbers.one_in(8) {
            numbers.place(list.len().min(4))
        } else {
            numbers.place(list.len())
        };
        let end = (place + numbers.between(1, 12) as usize).min(list.len());
        match numbers.below(9) {
            0 => list[place] ^= 1 << numbers.below(8),
            1 => list[place] = numbers.byte(),
            2 => list[place] = numbers.of(&TAGS),
            3 => list.truncate(place),
            4 => {
                list.drain(place..end);
            }
            5 => {
                let byte = numbers.byte();
                list.insert(place, byte);
            }
            6 => {
                let doubled = list[place..end].to_vec();
                list.splice(place..place, doubled);
            }
            7 => list.truncate(list.len() - numbers.place(list.len().min(6))),
            _ => {
                // A field that is whole, with any tag and a length that may not fit it.
                let length = numbers.below(5) as u8;
                let tag = numbers.of(&TAGS);
                let field = [tag, 0, length, 1, 2, 3, 4];
                list.splice(place..place, field[..3 + usize::from(length)].iter().copied());
            }
        }
    }
    list.truncate(MAX_LIST + 8);
}

/// A field of a list, mostly no event: an unknown tag, a wrong length, cut.
pub fn no_event(numbers: &mut Numbers) -> Vec<u8> {
    let contents = match numbers.below(3) {
        0 => 1,
        1 => 2,
        _ => numbers.below(6) as u8,
    };
    let tag = numbers.of(&TAGS);
    let mut field = vec![tag, 0, contents];
    field.extend((0..contents).map(|_| numbers.between(1, 16) as u8));
    if numbers.one_in(4) {
        field.truncate(numbers.place(field.len()));
    }
    if numbers.one_in(8) && field.len() > 1 {
        field[1] = numbers.byte();
    }
    field
}

/// Gives a list, which begins with a whole field of one byte, another first field: either tag with any n, a
/// third tag, a wrong length, or one that is cut.
pub fn other_first(list: &[u8], numbers: &mut Numbers) -> Vec<u8> {
    let behind = list.get(4..).unwrap_or_default();
    let n = numbers.of(&[0, 1, 4, 5, 16, 17, 255]);
    let (tag, mostly_second) = (numbers.of(&[0x01, 0x02]), numbers.of(&[0x01, 0x02, 0x02]));
    let any = numbers.byte();
    let third = numbers.of(&[0x00, 0x00, 0x03, 0x03, 0x03, 0x10, 0x17, any]);
    let first = match numbers.below(16) {
        0..=8 => vec![tag, 0, 1, n],
        9 => vec![mostly_second, 0, 0],
        10 => vec![mostly_second, 0, 2, n, 1],
        11 | 12 => vec![third, 0, 1, n],
        13 | 14 => vec![third, 0, 2, n, 1],
        // Nothing stands behind it.
        _ => {
            let cut = numbers.between(1, 3) as usize;
            return [mostly_second, numbers.of(&[0, 1]), 1][..cut].to_vec();
        }
    };
    [&first, behind].concat()
}

/// Puts a field that must be first behind the first one, or behind a later one, with a length that may be
/// wrong, or cut. The list must begin with a whole field of one byte, and go on with events.
pub fn first_tag_later(list: &[u8], numbers: &mut Numbers) -> Vec<u8> {
    let mut ends = vec![4];
    while let Some(&[_, _, length]) = list.get(ends[ends.len() - 1]..).and_then(|l| l.first_chunk())
    {
        ends.push(ends[ends.len() - 1] + 3 + usize::from(length));
    }
    let place = if numbers.one_in(2) { 4 } else { numbers.of(&ends).min(list.len()) };
    let tag = numbers.of(&[0x01, 0x02]);
    let n = numbers.between(0, 17) as u8;
    match numbers.below(6) {
        0 => [&list[..place], &[tag, 0, 0], &list[place..]].concat(),
        1 => [&list[..place], &[tag, 0, 2, n, n], &list[place..]].concat(),
        2 => [&list[..place], &[tag, 0, 1][..numbers.between(1, 3) as usize]].concat(),
        _ => [&list[..place], &[tag, 0, 1, n], &list[place..]].concat(),
    }
}
