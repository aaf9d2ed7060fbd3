//! The functions of the proved library, each behind a safe one of the same name that takes slices.
//!
//! Nothing is looked at or changed here: the arguments and the answers are those of
//! `include/nevraspu.h`, which says what each function answers and what stands in `out` then. Any
//! bytes and any numbers are answered, and `out` may have any length.
//!
//! ```
//! // A table of no bytes at all is read as zeros, which is not in range.
//! let mut out = [0; 4436];
//! assert_eq!(nevraspu::calls::step(&[], &[0x11, 0, 1, 1], &mut out), 1);
//! // One byte of room is too few.
//! assert_eq!(nevraspu::calls::step(&[], &[], &mut [0]), 255);
//! assert_eq!(nevraspu::calls::print(&[], &mut [0]), None);
//! ```

// This is the only file of the crate with `unsafe`. Why each call is sound: a pointer and the length
// behind it come from one slice, and `out` is borrowed alone, so that it lies apart from the others.
// The library reads the slices and writes `out`, each within its length, and keeps no pointer: that
// is what the header asks of a caller and what it promises, for any bytes and any lengths.

use functions::*;

mod functions {
    extern "C" {
        pub fn nevraspu_step(
            table: *const u8,
            table_len: usize,
            field: *const u8,
            field_len: usize,
            out: *mut u8,
            out_len: usize,
        ) -> u8;
        pub fn nevraspu_recovery(
            table: *const u8,
            table_len: usize,
            node: u8,
            out: *mut u8,
            out_len: usize,
        ) -> u8;
        pub fn nevraspu_turn(
            table: *const u8,
            table_len: usize,
            a: u8,
            b: u8,
            out: *mut u8,
            out_len: usize,
        ) -> u8;
        pub fn nevraspu_controller_event(
            n: u8,
            own: u8,
            record: *const u8,
            record_len: usize,
            field: *const u8,
            field_len: usize,
            out: *mut u8,
            out_len: usize,
        ) -> u8;
        pub fn nevraspu_controller_message(
            n: u8,
            own: u8,
            record: *const u8,
            record_len: usize,
            message: *const u8,
            message_len: usize,
            out: *mut u8,
            out_len: usize,
        ) -> u8;
        pub fn nevraspu_bully_step(
            table: *const u8,
            table_len: usize,
            field: *const u8,
            field_len: usize,
            out: *mut u8,
            out_len: usize,
        ) -> u8;
        pub fn nevraspu_fold(list: *const u8, list_len: usize) -> u32;
        pub fn nevraspu_print(
            list: *const u8,
            list_len: usize,
            out: *mut u8,
            out_len: usize,
        ) -> u64;
        pub fn nevraspu_trace(
            list: *const u8,
            list_len: usize,
            out: *mut u8,
            out_len: usize,
        ) -> u64;
        pub fn nevraspu_rest(list: *const u8, list_len: usize, out: *mut u8, out_len: usize)
            -> u64;
        pub fn nevraspu_text_of_list(
            list: *const u8,
            list_len: usize,
            out: *mut u8,
            out_len: usize,
        ) -> u64;
        pub fn nevraspu_list_of_text(
            text: *const u8,
            text_len: usize,
            out: *mut u8,
            out_len: usize,
        ) -> u64;
        pub fn nevraspu_aldebaran(
            input: *const u8,
            input_len: usize,
            out: *mut u8,
            out_len: usize,
        ) -> u64;
        pub fn nevraspu_short_lists(
            input: *const u8,
            input_len: usize,
            from: u64,
            out: *mut u8,
            out_len: usize,
        ) -> u64;
    }
}

/// Added to the length of the line that is told of a bad text.
const BAD_TEXT: usize = 1 << 32;

/// A length, or None for the number that says that there is no room.
fn length(number: u64) -> Option<usize> {
    (number != u64::MAX).then_some(number as usize)
}

/// One event, as a field, on a table: 0, a refusal's number, or 255.
pub fn step(table: &[u8], field: &[u8], out: &mut [u8]) -> u8 {
    // SAFETY: as said at the top.
    unsafe {
        nevraspu_step(
            table.as_ptr(),
            table.len(),
            field.as_ptr(),
            field.len(),
            out.as_mut_ptr(),
            out.len(),
        )
    }
}

/// The eight records of a cabinet's recovery: 0, a refusal's number, or 255.
pub fn recovery(table: &[u8], cabinet: u8, out: &mut [u8]) -> u8 {
    // SAFETY: as said at the top.
    unsafe { nevraspu_recovery(table.as_ptr(), table.len(), cabinet, out.as_mut_ptr(), out.len()) }
}

/// A turn of the round at the pair of a and b: 0, a refusal's number, or 255.
pub fn turn(table: &[u8], a: u8, b: u8, out: &mut [u8]) -> u8 {
    // SAFETY: as said at the top.
    unsafe { nevraspu_turn(table.as_ptr(), table.len(), a, b, out.as_mut_ptr(), out.len()) }
}

/// One event, as a field, at the controller of cabinet `own` of n: 0, a refusal's number, or 255.
pub fn controller_event(n: u8, own: u8, record: &[u8], field: &[u8], out: &mut [u8]) -> u8 {
    // SAFETY: as said at the top.
    unsafe {
        nevraspu_controller_event(
            n,
            own,
            record.as_ptr(),
            record.len(),
            field.as_ptr(),
            field.len(),
            out.as_mut_ptr(),
            out.len(),
        )
    }
}

/// One message that has reached cabinet `own` of n: 0, a refusal's number, or 255.
pub fn controller_message(n: u8, own: u8, record: &[u8], message: &[u8], out: &mut [u8]) -> u8 {
    // SAFETY: as said at the top.
    unsafe {
        nevraspu_controller_message(
            n,
            own,
            record.as_ptr(),
            record.len(),
            message.as_ptr(),
            message.len(),
            out.as_mut_ptr(),
            out.len(),
        )
    }
}

/// One event, as a field, on a table of the Bully machine: 0, a refusal's number, or 255.
pub fn bully_step(table: &[u8], field: &[u8], out: &mut [u8]) -> u8 {
    // SAFETY: as said at the top.
    unsafe {
        nevraspu_bully_step(
            table.as_ptr(),
            table.len(),
            field.as_ptr(),
            field.len(),
            out.as_mut_ptr(),
            out.len(),
        )
    }
}

/// How many events of a list are accepted, from the starting table.
pub fn fold(list: &[u8]) -> u32 {
    // SAFETY: as said at the top.
    unsafe { nevraspu_fold(list.as_ptr(), list.len()) }
}

/// The bench program's text of a list: its length, or None where it does not fit.
pub fn print(list: &[u8], out: &mut [u8]) -> Option<usize> {
    // SAFETY: as said at the top.
    length(unsafe { nevraspu_print(list.as_ptr(), list.len(), out.as_mut_ptr(), out.len()) })
}

/// The text of a list step by step: its length, or None where it does not fit.
pub fn trace(list: &[u8], out: &mut [u8]) -> Option<usize> {
    // SAFETY: as said at the top.
    length(unsafe { nevraspu_trace(list.as_ptr(), list.len(), out.as_mut_ptr(), out.len()) })
}

/// The text of a list and the turns behind it until no message waits: its length, or None where it
/// does not fit.
pub fn rest(list: &[u8], out: &mut [u8]) -> Option<usize> {
    // SAFETY: as said at the top.
    length(unsafe { nevraspu_rest(list.as_ptr(), list.len(), out.as_mut_ptr(), out.len()) })
}

/// A list as text: its length, or None where it does not fit.
pub fn text_of_list(list: &[u8], out: &mut [u8]) -> Option<usize> {
    // SAFETY: as said at the top.
    length(unsafe { nevraspu_text_of_list(list.as_ptr(), list.len(), out.as_mut_ptr(), out.len()) })
}

/// The list of a text: its length, or as the error the length of the line that is told of a bad
/// text, or None where that does not fit.
pub fn list_of_text(text: &[u8], out: &mut [u8]) -> Option<Result<usize, usize>> {
    // SAFETY: as said at the top.
    let number =
        unsafe { nevraspu_list_of_text(text.as_ptr(), text.len(), out.as_mut_ptr(), out.len()) };
    let length = length(number)?;
    Some(length.checked_sub(BAD_TEXT).map_or(Ok(length), Err))
}

/// The transition system of the two bytes n and L: the text's length, or None where it does not
/// fit.
pub fn aldebaran(input: &[u8], out: &mut [u8]) -> Option<usize> {
    // SAFETY: as said at the top.
    length(unsafe { nevraspu_aldebaran(input.as_ptr(), input.len(), out.as_mut_ptr(), out.len()) })
}

/// The short lists of the two bytes n and length, from byte `from` of their text on: how many bytes
/// were written.
pub fn short_lists(input: &[u8], from: u64, out: &mut [u8]) -> usize {
    // SAFETY: as said at the top.
    let written = unsafe {
        nevraspu_short_lists(input.as_ptr(), input.len(), from, out.as_mut_ptr(), out.len())
    };
    written as usize
}
