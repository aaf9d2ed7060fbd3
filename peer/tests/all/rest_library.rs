//! Libraries whose function for T-13 is wrong on purpose: the comparison finds each.

use crate::text_functions::TextFunctions;
use peer::machine::{advance, Table};
use peer::proved::{write_fitting, write_whole, Own, Texts};
use peer::rest::check::check_both;
use peer::rest::text::{rest, rest_by};
use peer::round::driver::turn_in_range;

/// Libraries whose function is wrong in the text or in what is left in the buffer.
#[test]
fn wrong_functions_are_found() {
    type Rest = fn(&[u8], &mut [u8]) -> Option<usize>;
    let wrong: [Rest; 8] = [
        |list, out| {
            // The turns begin with (2, 1). With one node nothing waits.
            let turns = |table: &mut Table| {
                let (mut place, mut made) = ((2, 1), 0);
                while !table.messages.is_empty() {
                    (place, _) = turn_in_range(table, place).unwrap();
                    made += 1;
                }
                made
            };
            write_fitting(&rest_by(advance, turns, list), out)
        },
        |list, out| write_fitting(&peer::print::run_list(list), out),
        |list, out| write_fitting(&rest(&list[..list.len().min(65_536)]), out),
        |list, out| {
            write_fitting(&rest(if list.is_empty() { &[1] } else { list }), out)?.checked_sub(1)
        },
        // A byte behind it.
        |list, out| {
            let length = Own.rest(list, out);
            out.get_mut(length?).into_iter().for_each(|byte| *byte = 0);
            length
        },
        // All or nothing, as much as fits, and one byte more asked for.
        |list, out| write_whole(&rest(list), out),
        |list, out| {
            let text = rest(list);
            out.iter_mut().zip(&text).for_each(|(place, byte)| *place = *byte);
            (text.len() <= out.len()).then_some(text.len())
        },
        |list, out| {
            let length = out.len().checked_sub(1)?;
            Own.rest(list, &mut out[..length])
        },
    ];
    for (k, wrong) in wrong.into_iter().enumerate() {
        let library = || TextFunctions { rest: Box::new(wrong), ..TextFunctions::default() };
        let words = check_both(library, |list| Ok(rest(list)), &[]).1.unwrap_err();
        assert!(words.contains(": the library "), "{k}: {words}");
    }
}
