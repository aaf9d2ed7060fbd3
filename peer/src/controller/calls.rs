//! Random calls of controllers: of any cabinet, in range or with one rule broken, with an event or a message that
//! fits, is for another cabinet, is damaged or is none at all, and with a buffer of any length.

use crate::controller::bytes::SHARE_BYTES;
use crate::controller::compare::Made;
use crate::controller::damage::{damaged, damages_of, for_another as message_for_another, Damage};
use crate::controller::message::encode;
use crate::controller::reading::{Given, Input};
use crate::controller::records::{
    break_rule, for_another, in_another_form, low_task, record_bytes, sending, with_event,
    with_message, Reaches, Scene,
};
use crate::damage::no_event;
use crate::list::write_event;
use crate::machine::{Activity, Event, Message, Status};
use crate::numbers::Numbers;
use crate::proved::NODE_BYTES;
use std::sync::OnceLock;

/// A call: what is given, how it was made, and how many bytes are lent.
pub type AnyCall = (Given, Made, usize);

/// Any call.
pub fn any_call(numbers: &mut Numbers) -> AnyCall {
    match numbers.below(64) {
        0..=17 => event(numbers),
        18..=28 => message(numbers),
        29..=58 => damaged_message(numbers),
        59..=62 => field(numbers),
        _ => any_bytes(numbers),
    }
}

/// How many bytes are lent: mostly just so many as are needed, or more.
fn any_room(numbers: &mut Numbers) -> usize {
    match numbers.below(24) {
        0 => 0,
        1 => SHARE_BYTES - 1,
        2 => numbers.place(SHARE_BYTES),
        3..=9 => SHARE_BYTES + numbers.between(1, 40) as usize,
        _ => SHARE_BYTES,
    }
}

/// A scene's record in bytes; now and then in another form of them, or cut short, if it may mean another then.
fn any_record(scene: &Scene, may_be_another: bool, numbers: &mut Numbers) -> Vec<u8> {
    let bytes = record_bytes(&scene.record);
    match numbers.below(8) {
        0 if may_be_another => bytes[..numbers.place(NODE_BYTES)].to_vec(),
        1 | 2 => in_another_form(&bytes, numbers),
        _ => bytes.to_vec(),
    }
}

/// A scene with an input; in a quarter of them a rule of the range is broken.
fn call_of(
    mut scene: Scene,
    input: Input,
    damage: Option<(u8, Damage)>,
    numbers: &mut Numbers,
) -> AnyCall {
    let broken = if numbers.one_in(4) { break_rule(&mut scene, numbers) } else { None };
    let record = any_record(&scene, broken.is_none(), numbers);
    let given = Given { n: scene.n, own: scene.own, record, input };
    (given, Made { damage, broken }, any_room(numbers))
}

/// An event, mostly for the cabinet.
fn event(numbers: &mut Numbers) -> AnyCall {
    let scene = if numbers.one_in(4) { sending(numbers) } else { with_event(numbers) };
    let mut event = match scene.reaches {
        Reaches::Event(event) => event,
        Reaches::Message(m) => return message_of(scene, m, numbers),
    };
    if numbers.one_in(4) {
        event = for_another(&event, scene.n, scene.own, numbers);
    }
    if let (Event::Finish(i, _), true) = (event, numbers.one_in(2)) {
        event = Event::Finish(i, low_task(numbers));
    }
    let mut field = field_of(&event);
    if numbers.one_in(8) {
        field.push(numbers.byte());
    }
    call_of(scene, Input::Field(field), None, numbers)
}

fn field_of(event: &Event) -> Vec<u8> {
    let mut field = Vec::with_capacity(8);
    write_event(&mut field, event);
    field
}

/// A message, mostly for the cabinet.
fn message(numbers: &mut Numbers) -> AnyCall {
    let scene = if numbers.one_in(3) { sending(numbers) } else { with_message(None, numbers) };
    match scene.reaches {
        Reaches::Message(m) => message_of(scene, m, numbers),
        Reaches::Event(event) => call_of(scene, Input::Field(field_of(&event)), None, numbers),
    }
}

fn message_of(mut scene: Scene, m: Message, numbers: &mut Numbers) -> AnyCall {
    let m = astray(&mut scene, m, numbers);
    call_of(scene, Input::Message(encode(&m)), None, numbers)
}

/// Now and then the cabinet is Down, or the message is for another.
fn astray(scene: &mut Scene, m: Message, numbers: &mut Numbers) -> Message {
    if numbers.one_in(6) {
        (scene.record.status, scene.record.activity) = (Status::Down, Activity::Idle);
    }
    match numbers.one_in(5) {
        true => message_for_another(&m, scene.n, scene.own, numbers),
        false => m,
    }
}

/// Every damage that can be done to a message, with its kind.
fn all_damages() -> &'static [(u8, Damage)] {
    static ALL: OnceLock<Vec<(u8, Damage)>> = OnceLock::new();
    ALL.get_or_init(|| {
        let of_kind = |kind| damages_of(kind).into_iter().map(move |damage| (kind, damage));
        (1..=6).flat_map(of_kind).collect()
    })
}

/// A message with each damage of each kind, each as often.
fn damaged_message(numbers: &mut Numbers) -> AnyCall {
    let (kind, damage) = numbers.of(all_damages());
    let (mut scene, m) = with_message_of(kind, numbers);
    let m = astray(&mut scene, m, numbers);
    match damaged(&m, scene.n, damage, numbers) {
        Some(bytes) => call_of(scene, Input::Message(bytes), Some((kind, damage)), numbers),
        None => call_of(scene, Input::Message(encode(&m)), None, numbers),
    }
}

fn with_message_of(kind: u8, numbers: &mut Numbers) -> (Scene, Message) {
    let scene = with_message(Some(kind), numbers);
    match scene.reaches {
        Reaches::Message(m) => (scene, m),
        Reaches::Event(_) => unreachable!("a message reaches it"),
    }
}

/// A field with this tag, of so many contents.
fn any_field(tag: u8, length: u8, numbers: &mut Numbers) -> Vec<u8> {
    let mut field = vec![tag, 0, length];
    field.extend((0..length).map(|_| numbers.between(0, 17) as u8));
    field
}

/// A field that is no event of a controller, or has bytes behind it.
fn field(numbers: &mut Numbers) -> AnyCall {
    let scene = with_event(numbers);
    let mut field = match numbers.below(4) {
        0 => {
            let (tag, length) =
                (numbers.of(&[0x17, 0x18, 0x01, 0x02]), numbers.of(&[2, 2, 0, 1, 3]));
            any_field(tag, length, numbers)
        }
        1 => vec![0; numbers.place(3)],
        2 => {
            let (tag, length) = (numbers.between(0x10, 0x16) as u8, numbers.below(5) as u8);
            any_field(tag, length, numbers)
        }
        _ => no_event(numbers),
    };
    if numbers.one_in(6) {
        let mut behind = vec![0; numbers.place(20)];
        numbers.fill(&mut behind);
        field.extend(behind);
    }
    call_of(scene, Input::Field(field), None, numbers)
}

/// A record, a field or a message with some of its bytes changed, or any bytes at all.
fn any_bytes(numbers: &mut Numbers) -> AnyCall {
    let scene = if numbers.one_in(2) { with_event(numbers) } else { with_message(None, numbers) };
    let mut record = any_record(&scene, true, numbers);
    let mut bytes = match scene.reaches {
        Reaches::Event(event) => field_of(&event),
        Reaches::Message(m) => encode(&m),
    };
    for some in [&mut record, &mut bytes] {
        if numbers.one_in(8) {
            *some = vec![0; numbers.place(60)];
            numbers.fill(some);
        }
        for _ in 0..numbers.below(3) {
            if !some.is_empty() {
                let place = numbers.place(some.len());
                some[place] = numbers.byte();
            }
        }
    }
    let any = (numbers.byte(), numbers.byte());
    let (n, own) = if numbers.one_in(8) { any } else { (scene.n, scene.own) };
    let input = match scene.reaches {
        Reaches::Event(_) => Input::Field(bytes),
        Reaches::Message(_) => Input::Message(bytes),
    };
    (Given { n, own, record, input }, Made::default(), any_room(numbers))
}
