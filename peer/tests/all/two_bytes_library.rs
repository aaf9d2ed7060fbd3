//! Libraries whose functions for T-01 and T-12 are wrong on purpose: the comparison finds each.

use crate::text_functions::TextFunctions;
use peer::proved::{write_whole, Own, Texts};
use peer::two_bytes::library::compare;
use peer::two_bytes::{Request, ALDEBARAN, SHORT_LISTS};

/// What is found of a library, which must be something.
fn found(request: &'static Request, library: impl Fn() -> TextFunctions<'static> + Sync) -> String {
    compare(request, library).1.unwrap_err()
}

#[test]
fn nothing_is_found_of_the_peer_itself() {
    for request in [&SHORT_LISTS, &ALDEBARAN] {
        let (calls, found) = compare(request, || Own);
        assert_eq!(found, Ok(()));
        assert!(calls > 18_000, "{calls}");
    }
}

/// How much of the text is given.
type Whole = fn(&[u8], &mut [u8]) -> Option<usize>;

#[test]
fn wrong_functions_of_t12_are_found() {
    let wrong: [Whole; 9] = [
        // The text itself.
        |input, out| write_whole(&ALDEBARAN.text(&input[..input.len().min(2)]), out),
        |input, out| write_whole(&SHORT_LISTS.text(input), out),
        |input, out| match *input {
            [3, 4] => write_whole(&ALDEBARAN.text(&[3, 3]), out),
            _ => Own.aldebaran(input, out),
        },
        |input, out| match *input {
            [4, length] => Own.aldebaran(&[3, length], out),
            _ => Own.aldebaran(input, out),
        },
        // The buffer: a byte behind the text, as much as fits, one byte more asked for, no answer of its own where it does
        // not fit, an answer where it does not.
        |input, out| {
            let length = Own.aldebaran(input, out);
            out.get_mut(length?).into_iter().for_each(|byte| *byte = 0);
            length
        },
        |input, out| {
            let text = ALDEBARAN.text(input);
            out.iter_mut().zip(&text).for_each(|(place, byte)| *place = *byte);
            (text.len() <= out.len()).then_some(text.len())
        },
        |input, out| {
            let length = out.len().checked_sub(1)?;
            Own.aldebaran(input, &mut out[..length])
        },
        |input, out| Some(Own.aldebaran(input, out).unwrap_or(0)),
        |input, out| Own.aldebaran(input, out).or(Some(ALDEBARAN.text(input).len())),
    ];
    for (k, wrong) in wrong.into_iter().enumerate() {
        let library = || TextFunctions { aldebaran: Box::new(wrong), ..TextFunctions::default() };
        let words = found(&ALDEBARAN, library);
        assert!(words.starts_with("the library: input of "), "{k}: {words}");
    }
}

/// How much of the text is given from a byte on.
type Window = fn(&[u8], u64, &mut [u8]) -> usize;

#[test]
fn wrong_functions_of_t01_are_found() {
    let wrong: [Window; 12] = [
        // The text itself.
        |input, from, out| Own.short_lists(&input[..input.len().min(2)], from, out),
        |input, from, out| match *input {
            [n, 8] => Own.short_lists(&[n, 7], from, out),
            _ => Own.short_lists(input, from, out),
        },
        // Another place: the next byte, the first one, the start of a line, by the lowest 32 bits alone.
        |input, from, out| Own.short_lists(input, from.saturating_add(1), out),
        |input, _, out| Own.short_lists(input, 0, out),
        |input, from, out| {
            let text = SHORT_LISTS.text(input);
            let before = &text[..text.len().min(from as usize)];
            let line = before.iter().rposition(|&byte| byte == b'\n').map_or(0, |end| end + 1);
            Own.short_lists(input, line as u64, out)
        },
        |input, from, out| Own.short_lists(input, from as u32 as u64, out),
        // Behind the end: from the first byte on.
        |input, from, out| match SHORT_LISTS.text(input).len() as u64 {
            length if from > length => Own.short_lists(input, 0, out),
            _ => Own.short_lists(input, from, out),
        },
        // The answer: all that is left, or the whole text, or the room.
        |input, from, out| {
            Own.short_lists(input, from, out);
            SHORT_LISTS.text(input).len().saturating_sub(from as usize)
        },
        |input, from, out| Own.short_lists(input, from, out).max(1),
        |input, from, out| {
            Own.short_lists(input, from, out);
            out.len()
        },
        // The buffer: whole lines alone, a byte behind the last.
        |input, from, out| {
            let written = Own.short_lists(input, from, out);
            let left = SHORT_LISTS.text(input).len().saturating_sub(from as usize);
            let line = out[..written].iter().rposition(|&byte| byte == b'\n');
            if written < left {
                line.map_or(0, |end| end + 1)
            } else {
                written
            }
        },
        |input, from, out| {
            let written = Own.short_lists(input, from, out);
            out.get_mut(written).into_iter().for_each(|byte| *byte = 0);
            written
        },
    ];
    for (k, wrong) in wrong.into_iter().enumerate() {
        let library = || TextFunctions { short_lists: Box::new(wrong), ..TextFunctions::default() };
        let words = found(&SHORT_LISTS, library);
        assert!(words.starts_with("the library: input of "), "{k}: {words}");
    }
}

/// One byte of one long text, near its end, and one list too few in its middle.
#[test]
fn wrong_long_texts_are_found() {
    let wrong: [Window; 2] = [
        |input, from, out| {
            let written = Own.short_lists(input, from, out);
            if let ([3, 6], Some(count)) = (input, out.windows(6).position(|w| w == b"lists ")) {
                out[count + 6] ^= 1;
            }
            written
        },
        |input, from, out| match (input, from) {
            ([2, 7], 10_000..) => Own.short_lists(input, from + 60, out),
            _ => Own.short_lists(input, from, out),
        },
    ];
    for (wrong, input) in wrong.into_iter().zip(["[03 06]", "[02 07]"]) {
        let library = || TextFunctions { short_lists: Box::new(wrong), ..TextFunctions::default() };
        let words = found(&SHORT_LISTS, library);
        assert!(words.contains(input), "{words}");
    }
}
