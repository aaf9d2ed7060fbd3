//! What the library's functions answer and what they leave in the buffer, at every edge: this program's
//! own machine behind the boundary, and the proved library where it is linked.

use crate::functions;
use crate::other_forms;

use functions::Functions;
use other_forms::in_another_form;
use peer::compare::{field_difference, printed_difference, walk_difference, Lent};
use peer::drive::any_event;
use peer::fuzz_loop::Fuzzer;
use peer::list::{first_event, write_event, write_list};
use peer::machine::*;
use peer::numbers::Numbers;
use peer::print::run_list;
use peer::proved::*;
use peer::tables::{in_range, move_to_ends, spoil};

/// The proved library, if it was there when this was built.
fn proved() -> Option<Proved> {
    Proved::linked().ok()
}

fn no_difference(difference: Option<String>) {
    if let Some(words) = difference {
        panic!("{words}");
    }
}

/// "which is looked at first, and is left as it was", whatever the table and the field are.
fn too_short_a_buffer(library: &impl Library) {
    let mut numbers = Numbers::new(1);
    let fields: [&[u8]; 4] = [&[0x11, 0, 1, 1], &[], &[0xff, 0, 0], &[0x11, 0, 1, 0]];
    for room in (0..TABLE_BYTES).step_by(31).chain([TABLE_BYTES - 1]) {
        for field in fields {
            let mut table = Table::start(2, TOWER);
            if numbers.one_in(2) {
                table = in_range(&mut numbers);
                spoil(&mut table, &mut numbers);
            }
            no_difference(field_difference(library, &table, field, room, numbers.bits()));
        }
    }
}

/// 3: "only 1 or 2 bytes left, or fewer contents than its length says"; 4: "unknown tag, 0x01 not first";
/// 5: "length wrong for the tag". On a table in range.
fn no_field(library: &impl Library) {
    let cases: [(&[u8], u8); 31] = [
        (&[], 3),
        (&[0x10], 3),
        (&[0x00], 3),
        (&[0x10, 0], 3),
        (&[0xff, 0xff], 3),
        (&[0x10, 0, 1], 3),
        (&[0x10, 0, 2, 1], 3),
        (&[0x16, 0, 3, 1, 0], 3),
        (&[0x17, 0, 2, 1], 3),
        // Fewer contents than the length says come before an unknown tag and a wrong length.
        (&[0xff, 0, 1], 3),
        (&[0x01, 0, 1], 3),
        (&[0x10, 1, 0, 1], 3),
        (&[0x10, 0xff, 0xff, 1, 2, 3, 4], 3),
        (&[0x00, 0, 0], 4),
        (&[0x00, 0, 1, 1], 4),
        (&[0x01, 0, 1, 2], 4),
        (&[0x02, 0, 1, 2], 4),
        (&[0x0f, 0, 1, 1], 4),
        (&[0x19, 0, 1, 1], 4),
        (&[0x19, 0, 2, 1, 2], 4),
        (&[0x20, 0, 1, 1], 4),
        (&[0x90, 0, 1, 1], 4),
        (&[0xff, 0, 0], 4),
        (&[0x10, 0, 0], 5),
        (&[0x10, 0, 2, 1, 1], 5),
        (&[0x15, 0, 3, 1, 1, 1], 5),
        (&[0x16, 0, 1, 1], 5),
        (&[0x16, 0, 2, 1, 100], 5),
        (&[0x16, 0, 4, 1, 0, 100, 0], 5),
        (&[0x17, 0, 1, 1], 5),
        (&[0x18, 0, 3, 1, 2, 3], 5),
    ];
    let mut numbers = Numbers::new(2);
    for (field, number) in cases {
        assert_eq!(first_event(field), Err(number), "{field:02x?}");
        for table in [Table::start(16, TOWER), in_range(&mut numbers)] {
            for room in [TABLE_BYTES, TABLE_BYTES + 7] {
                no_difference(field_difference(library, &table, field, room, numbers.bits()));
            }
        }
    }
    // 256 contents where 1 is right: the high byte of the length counts.
    let mut long = vec![0x11, 1, 0];
    long.resize(3 + 256, 1);
    assert_eq!(first_event(&long), Err(5));
    no_difference(field_difference(library, &Table::start(2, TOWER), &long, TABLE_BYTES, 3));
}

/// "bytes behind the first field are not looked at": a second event, no field, and more than a list may
/// have.
fn bytes_behind_the_field(library: &impl Library) {
    let mut numbers = Numbers::new(4);
    let mut long = vec![0; 70_000];
    numbers.fill(&mut long);
    let behind: [&[u8]; 5] = [&[0x11, 0, 1, 2], &[0x11, 0, 1, 1], &[0x10], &[0xff; 9], &long];
    for behind in behind {
        for _ in 0..20 {
            let table = in_range(&mut numbers);
            let mut field = Vec::new();
            write_event(&mut field, &any_event(table.n, &mut numbers));
            field.extend(behind);
            let room = TABLE_BYTES + numbers.place(9);
            no_difference(field_difference(library, &table, &field, room, numbers.bits()));
        }
        let field = [&[0x11, 0, 1, 1], behind].concat();
        let mut out = [0; TABLE_BYTES];
        let mut bytes = [0; TABLE_BYTES];
        table_to_bytes(&Table::start(2, TOWER), &mut bytes);
        assert_eq!(library.step(&bytes, &field, &mut out), 0);
        assert_eq!(table_from_bytes(&out).node(2).status, Status::Down);
        // A field that is none is refused, whatever stands behind it.
        let field = [&[0x19, 0, 0], behind].concat();
        assert_eq!(library.step(&bytes, &field, &mut out), 4);
    }
}

/// Every refusal of an event leaves the buffer as it was, and an accepted one what stands behind the
/// table; zeros or random bytes stand in what is no part of a table.
fn refusals_leave_the_buffer(library: &impl Library) {
    let mut numbers = Numbers::new(5);
    let mut answers = [0; 256];
    for k in 0..40_000 {
        let mut table = in_range(&mut numbers);
        move_to_ends(&mut table, &mut numbers);
        if k % 8 == 0 {
            spoil(&mut table, &mut numbers);
        }
        let event = any_event(table.n, &mut numbers);
        answers[usize::from(step(&mut table.clone(), &event).err().unwrap_or(0))] += 1;
        let noise = (k % 2 == 0).then_some(k);
        let found = walk_difference(library, &table, &[event], noise, None);
        no_difference(found.map(|found| found.words));
    }
    for number in [0, 1, 7, 8, 9, 10, 11, 12, 13, 14, 17] {
        assert!(answers[number] > 20, "{number}: {}", answers[number]);
    }
}

/// Every room from none to more than enough: the lines that fit are there, whole, and all else is as it
/// was.
fn small_rooms(library: &impl Library) {
    use Event::*;
    let lists = [
        vec![],
        vec![0x01, 0, 1, 0],
        write_list(1, TOWER, &[]),
        write_list(2, TOWER, &[Recover(1), Recover(1), Check(9), Deliver(1, 2)]),
        [write_list(2, TOWER, &[Recover(2), Recover(2)]), vec![0x10, 0]].concat(),
        write_list(16, TOWER, &[Crash(1); 130]),
    ];
    for list in lists {
        let text = run_list(&list);
        for room in 0..text.len() + 80 {
            no_difference(printed_difference(library, &list, &text, room));
        }
    }
}

/// A table that is cut short has zeros behind its end, what stands behind a whole one is not looked at,
/// and status and activity are read by their remainders.
fn tables_of_any_length(library: &impl Library) {
    let mut numbers = Numbers::new(6);
    let mut accepted = 0;
    for k in 0..40_000 {
        let mut bytes = [0; TABLE_BYTES];
        table_to_bytes(&in_range(&mut numbers), &mut bytes);
        let given = in_another_form(k, &mut bytes, &mut numbers);
        let table = table_from_bytes(&bytes);
        let mut field = Vec::new();
        let event = any_event(table.n, &mut numbers);
        write_event(&mut field, &event);
        let mut own = table.clone();
        let answer = step(&mut own, &event);
        accepted += u32::from(answer.is_ok());
        let mut lent = Lent::new(TABLE_BYTES + 5, &mut numbers);
        no_difference(lent.step_difference(library, &given, &field, answer.map(|()| &own)));
    }
    assert!(accepted > 1000, "{accepted}");
}

#[test]
fn own_machine() {
    tables_of_any_length(&Own);
    too_short_a_buffer(&Own);
    no_field(&Own);
    bytes_behind_the_field(&Own);
    refusals_leave_the_buffer(&Own);
    small_rooms(&Own);
}

#[test]
fn proved_too_short_a_buffer() {
    proved().iter().for_each(too_short_a_buffer);
}

#[test]
fn proved_no_field() {
    proved().iter().for_each(no_field);
}

#[test]
fn proved_bytes_behind_the_field() {
    proved().iter().for_each(bytes_behind_the_field);
}

#[test]
fn proved_refusals_leave_the_buffer() {
    proved().iter().for_each(refusals_leave_the_buffer);
}

#[test]
fn proved_tables_of_any_length() {
    proved().iter().for_each(tables_of_any_length);
}

#[test]
fn proved_small_rooms() {
    proved().iter().for_each(small_rooms);
}

/// Libraries that are nearly right at the boundary are found.
#[test]
fn wrong_boundaries_are_found() {
    let wrong = |mistake: u8| {
        let print = move |list: &[u8], out: &mut [u8]| {
            let length = Own.print(list, out);
            if let (6, Some(byte)) = (mistake, length.and_then(|length| out.get_mut(length))) {
                *byte = !*byte;
            }
            length
        };
        let step = move |table: &[u8], field: &[u8], out: &mut [u8]| {
            let answer = Own.step(table, field, out);
            let refused = (1..TOO_SHORT).contains(&answer);
            match mistake {
                // Writes the table that it was given when it refuses.
                0 if refused => out[..table.len()].copy_from_slice(table),
                // Answers 255 where the field is none.
                1 if (3..=5).contains(&answer) => return TOO_SHORT,
                // Writes a byte behind the table.
                2 if answer == 0 && out.len() > TABLE_BYTES => out[TABLE_BYTES] ^= 1,
                // Looks at what stands behind the field.
                3 if answer == 0 && field.len() > 6 => return 5,
                // Writes into a buffer that is too short.
                4 if answer == TOO_SHORT && !out.is_empty() => out[0] ^= 1,
                // Looks at the field before the buffer.
                5 if answer == TOO_SHORT => return first_event(field).err().unwrap_or(answer),
                _ => {}
            }
            answer
        };
        Functions { print: Box::new(print), step: Box::new(step), ..Functions::default() }
    };
    for mistake in 0..=6 {
        let mut fuzz = peer::fuzzing::Fuzz::new(wrong(mistake), 1);
        fuzz.go_on(std::time::Duration::from_secs(20), 0);
        assert!(fuzz.tell(0).1 > 0, "{mistake}");
    }
}

/// A library that takes what a message's kind does not carry for a part of it is found.
#[test]
fn fields_that_are_not_carried_decide_nothing() {
    // Refuses by 1 where a group that is not carried is out of range.
    let step = |table: &[u8], field: &[u8], out: &mut [u8]| {
        let waiting = usize::from(table[WAITING_AT]).min(MAX_MESSAGES);
        let messages = table[465..465 + 14 * waiting].chunks(14);
        if out.len() >= TABLE_BYTES && messages.clone().any(|m| m[2] == 6 && m[7] != 0) {
            return 1;
        }
        Own.step(table, field, out)
    };
    let reads = Functions { step: Box::new(step), ..Functions::default() };
    let mut fuzz = peer::fuzzing::Fuzz::new(reads, 1);
    fuzz.go_on(std::time::Duration::from_secs(20), 0);
    assert!(fuzz.tell(0).1 > 0);
}
