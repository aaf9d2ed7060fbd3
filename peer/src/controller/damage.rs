//! Damages the bytes of a message: any byte changed, cut anywhere, bytes put in or behind, fields swapped, doubled,
//! missing or of another kind, lengths changed, and numbers just out of range or at their ends.

use crate::controller::message::{encode, CALL, ENDS, GROUP, TASK, YES};
use crate::controller::reading::LENGTHS;
use crate::machine::{
    group_number, owner, Body, Message, MAX_CALL, MAX_COUNTER, MAX_NODES, MIN_TASK,
};
use crate::numbers::Numbers;
use crate::tables::other;

/// What was done to the bytes of a message.
#[derive(Clone, Copy, Debug, PartialEq, Eq, Hash)]
pub enum Damage {
    /// The byte at this place alone is another.
    Changed(u8),
    /// So many bytes are left.
    Cut(u8),
    /// By its place in `FORMS`.
    Form(u8),
    /// By its place in `NUMBERS`.
    Number(u8),
}

/// What is wrong with the form. Each is refused, whatever stands there.
pub const FORMS: [&str; 15] = [
    "one byte behind",
    "zeros behind",
    "a field behind",
    "the message once more behind",
    "a byte put in",
    "a byte taken out",
    "two fields swapped",
    "a field doubled",
    "a field missing",
    "a group it does not carry",
    "a task it does not carry",
    "yes or no it does not carry",
    "an unknown field",
    "a field with a byte more",
    "a field with a byte less",
];
const GROUP_FORM: usize = 9;
const TASK_FORM: usize = 10;
const YES_FORM: usize = 11;

/// Numbers that are just out of range or at an end of it, with the field that has them.
pub const NUMBERS: [(&str, u8); 34] = [
    ("sender 0", ENDS),
    ("sender over n, up to 16", ENDS),
    ("sender over 16", ENDS),
    ("receiver 0", ENDS),
    ("receiver over n, up to 16", ENDS),
    ("receiver over 16", ENDS),
    ("sender equal to receiver", ENDS),
    ("kind 0", ENDS),
    ("kind 7", ENDS),
    ("kind over 7", ENDS),
    ("call 0", CALL),
    ("call 16,777,216", CALL),
    ("call of four high bytes", CALL),
    ("call low byte first", CALL),
    ("group 0", GROUP),
    ("group of counter 0", GROUP),
    ("group of counter 1,048,576", GROUP),
    ("group of four high bytes", GROUP),
    ("group with an owner over n", GROUP),
    ("group low byte first", GROUP),
    ("task 0", TASK),
    ("task 99", TASK),
    ("task low byte first", TASK),
    ("yes 2", YES),
    ("yes 255", YES),
    // At the ends: these are in range.
    ("call 1", CALL),
    ("call 16,777,215", CALL),
    ("group of counter 1", GROUP),
    ("group of counter 1,048,575", GROUP),
    ("group with owner n", GROUP),
    ("task 100", TASK),
    ("task 65,535", TASK),
    ("yes 0", YES),
    ("yes 1", YES),
];
/// From here on they are in range.
pub const IN_RANGE_FROM: usize = 25;

/// The fields that a kind carries.
pub fn fields_of(kind: u8) -> &'static [u8] {
    match kind {
        1 => &[ENDS, CALL],
        2..=4 => &[ENDS, CALL, GROUP],
        5 => &[ENDS, CALL, GROUP, TASK],
        _ => &[ENDS, CALL, YES],
    }
}

/// Every damage that can be done to a message of this kind.
pub fn damages_of(kind: u8) -> Vec<Damage> {
    let length = LENGTHS[usize::from(kind) - 1] as u8;
    let fields = fields_of(kind);
    let mut all: Vec<Damage> = (0..length).map(Damage::Changed).collect();
    all.extend((0..length).map(Damage::Cut));
    all.extend(
        (0..FORMS.len())
            .filter(|&form| can_have(fields, form))
            .map(|form| Damage::Form(form as u8)),
    );
    let numbers = (0..NUMBERS.len()).filter(|&number| fields.contains(&NUMBERS[number].1));
    all.extend(numbers.map(|number| Damage::Number(number as u8)));
    all
}

/// Whether this form is wrong for a kind with these fields.
fn can_have(fields: &[u8], form: usize) -> bool {
    match form {
        GROUP_FORM => !fields.contains(&GROUP),
        TASK_FORM => !fields.contains(&TASK),
        YES_FORM => !fields.contains(&YES),
        _ => true,
    }
}

/// The bytes of a message, which must be in range for n, with this damage; None where it can't be done with n.
pub fn damaged(m: &Message, n: u8, damage: Damage, numbers: &mut Numbers) -> Option<Vec<u8>> {
    let mut bytes = encode(m);
    match damage {
        Damage::Changed(place) => {
            let byte = &mut bytes[usize::from(place)];
            let any = numbers.byte();
            let bit = *byte ^ 1 << numbers.below(8);
            let near = [byte.wrapping_add(1), byte.wrapping_sub(1), 0, 255, bit, any];
            *byte = Some(numbers.of(&near)).filter(|other| other != byte).unwrap_or(bit);
        }
        Damage::Cut(length) => bytes.truncate(usize::from(length)),
        Damage::Form(form) => bytes = in_wrong_form(m, usize::from(form), numbers),
        Damage::Number(number) => bytes = with_number(m, n, usize::from(number), numbers)?,
    }
    Some(bytes)
}

/// The fields of a message, each with its tag and length.
fn fields(bytes: &[u8]) -> Vec<Vec<u8>> {
    let (mut fields, mut rest) = (Vec::new(), bytes);
    while let Some(&length) = rest.get(2) {
        let (field, behind) = rest.split_at(3 + usize::from(length));
        fields.push(field.to_vec());
        rest = behind;
    }
    fields
}

fn any_bytes(length: usize, numbers: &mut Numbers) -> Vec<u8> {
    let mut bytes = vec![0; length];
    numbers.fill(&mut bytes);
    bytes
}

/// A whole field of this tag, with contents that are in range where it has a place.
fn field_of(tag: u8, m: &Message, numbers: &mut Numbers) -> Vec<u8> {
    let group = m.body.group().unwrap_or(group_number(1, m.sender));
    let contents = match tag {
        GROUP => group.to_be_bytes().to_vec(),
        TASK => 200_u16.to_be_bytes().to_vec(),
        YES => vec![numbers.below(2) as u8],
        _ => any_bytes(numbers.place(5), numbers),
    };
    [&[tag, 0, contents.len() as u8][..], &contents].concat()
}

fn in_wrong_form(m: &Message, form: usize, numbers: &mut Numbers) -> Vec<u8> {
    let bytes = encode(m);
    let mut parts = fields(&bytes);
    let which = numbers.place(parts.len());
    match form {
        0 => return [&bytes[..], &[numbers.byte()]].concat(),
        1 => return [&bytes[..], &vec![0; numbers.between(1, 30) as usize]].concat(),
        2 => {
            let any = numbers.byte();
            let tag = numbers.of(&[GROUP, TASK, YES, any]);
            parts.push(field_of(tag, m, numbers));
        }
        3 => parts.extend(parts.clone()),
        4 => {
            let place = numbers.place(bytes.len());
            let any = numbers.byte();
            let byte = numbers.of(&[0, any]);
            let mut longer = bytes;
            longer.insert(place, byte);
            return longer;
        }
        5 => {
            let mut shorter = bytes;
            shorter.remove(numbers.place(shorter.len()));
            return shorter;
        }
        6 => {
            let with = numbers.place(parts.len() - 1);
            parts.swap(with, with + 1);
        }
        7 => {
            let place = numbers.of(&[which + 1, parts.len()]);
            parts.insert(place, parts[which].clone());
        }
        8 => {
            parts.remove(which);
        }
        GROUP_FORM => parts.insert(2, field_of(GROUP, m, numbers)),
        TASK_FORM => parts.insert(parts.len().min(3), field_of(TASK, m, numbers)),
        YES_FORM => parts.push(field_of(YES, m, numbers)),
        12 => {
            let any = numbers.between(0x25, 0xff) as u8;
            let tag = numbers.of(&[0x00, 0x01, 0x10, 0x1f, 0x25, any]);
            let place = numbers.place(parts.len() + 1);
            parts.insert(place, field_of(tag, m, numbers));
        }
        13 => {
            let field = &mut parts[which];
            field[2] += 1;
            // High byte first, a zero before a number leaves it as it is.
            let (place, byte) = (numbers.between(3, field.len() as u32), numbers.byte());
            field.insert(place as usize, numbers.of(&[0, byte]));
        }
        _ => {
            let field = &mut parts[which];
            field[2] -= 1;
            field.remove(numbers.between(3, field.len() as u32 - 1) as usize);
        }
    }
    parts.concat()
}

/// The message with a number that is just out of range for n, or at an end of it.
fn with_number(m: &Message, n: u8, number: usize, numbers: &mut Numbers) -> Option<Vec<u8>> {
    let mut m = *m;
    let over = (n < MAX_NODES).then(|| {
        let any = numbers.between(u32::from(n) + 1, u32::from(MAX_NODES)) as u8;
        numbers.of(&[n + 1, any])
    });
    let any_over = numbers.between(u32::from(MAX_NODES) + 1, 255) as u8;
    let over_16 = numbers.of(&[MAX_NODES + 1, 255, any_over]);
    let swapped = |value: u32| value.swap_bytes();
    let held = m.body.group().unwrap_or(16);
    match number {
        0 => m.sender = 0,
        1 => m.sender = over?,
        2 => m.sender = over_16,
        3 => m.receiver = 0,
        4 => m.receiver = over?,
        5 => m.receiver = over_16,
        6 => m.sender = m.receiver,
        7..=9 => {
            let mut bytes = encode(&m);
            bytes[5] = match number {
                7 => 0,
                8 => 7,
                _ => numbers.between(8, 255) as u8,
            };
            return Some(bytes);
        }
        10 => m.call = 0,
        11 => m.call = MAX_CALL + 1,
        12 => m.call = numbers.bits() as u32 | 0x8000_0000,
        13 => m.call = swapped(m.call),
        14 => set_group(&mut m, 0),
        15 => set_group(&mut m, u32::from(numbers.between(1, 15) as u8)),
        16 => set_group(&mut m, group_number(MAX_COUNTER + 1, owner(held))),
        17 => set_group(&mut m, held | 0x8000_0000),
        18 => set_group(&mut m, group_number(held / 16, over?)),
        19 => set_group(&mut m, swapped(held)),
        20 => set_task(&mut m, |_| 0),
        21 => set_task(&mut m, |_| MIN_TASK - 1),
        22 => set_task(&mut m, u16::swap_bytes),
        23 | 24 => {
            let mut bytes = encode(&m);
            *bytes.last_mut()? = if number == 23 { 2 } else { 255 };
            return Some(bytes);
        }
        25 => m.call = 1,
        26 => m.call = MAX_CALL,
        27 => set_group(&mut m, group_number(1, owner(held))),
        28 => set_group(&mut m, group_number(MAX_COUNTER, owner(held))),
        29 => set_group(&mut m, group_number(held / 16, n)),
        30 => set_task(&mut m, |_| MIN_TASK),
        31 => set_task(&mut m, |_| u16::MAX),
        _ => m.body = Body::Reply { yes: number == 33 },
    }
    Some(encode(&m))
}

fn set_group(m: &mut Message, to: u32) {
    match &mut m.body {
        Body::AreYouThere { group }
        | Body::Invitation { group }
        | Body::Accept { group }
        | Body::Ready { group, .. } => *group = to,
        _ => {}
    }
}

fn set_task(m: &mut Message, to: impl FnOnce(u16) -> u16) {
    if let Body::Ready { task, .. } = &mut m.body {
        *task = to(*task);
    }
}

/// The message for another cabinet than own, if n has a third.
pub fn for_another(m: &Message, n: u8, own: u8, numbers: &mut Numbers) -> Message {
    let mut m = *m;
    if n > 2 {
        while m.receiver == own {
            m.receiver = other(m.sender, n, numbers);
        }
    }
    m
}
