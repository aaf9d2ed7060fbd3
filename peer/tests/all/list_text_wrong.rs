//! check-list-text finds what is wrong: libraries and programs that differ in one thing.

use crate::functions::Functions;
use peer::list_text::check::{check, Program, Said};
use peer::list_text::list_of_text::list_or_line;
use peer::list_text::text_of_list::text_of_list;
use peer::proved::{list_of_text_by, write_fitting, Library, Own, Proved};
use std::process::Command;

/// What the peer's own programs say.
fn own(program: Program, input: &[u8]) -> Result<Said, String> {
    Ok(match program {
        Program::TextOfList => (text_of_list(input), vec![]),
        Program::ListOfText => match list_or_line(input) {
            Ok(list) => (list, vec![]),
            Err(line) => (vec![], line),
        },
    })
}

/// What is found of a library, which must be something.
fn found(library: impl Fn() -> Functions<'static> + Sync) -> String {
    check(library, own, &[]).1.unwrap_err()
}

fn replaced(bytes: Vec<u8>, from: &str, to: &str) -> Vec<u8> {
    let text = String::from_utf8_lossy(&bytes);
    // What is no text stays as it is.
    if text.contains(from) {
        text.replace(from, to).into_bytes()
    } else {
        bytes
    }
}

#[test]
fn nothing_is_found_of_the_peer_itself() {
    let (passed, found) = check(|| Own, own, &[("a list".to_string(), vec![0x01, 0, 1, 1])]);
    assert_eq!(found, Ok(()));
    assert!(passed > 100_000);
}

#[test]
fn wrong_texts_of_lists_are_found() {
    type Text = fn(&[u8]) -> Vec<u8>;
    let wrong: [Text; 9] = [
        |list| replaced(text_of_list(list), "stand", "cabinets"),
        |list| replaced(text_of_list(list), "lose", "loose"),
        |list| replaced(text_of_list(list), " 65535\n", " 65534\n"),
        |list| replaced(text_of_list(list), "tick 0\n", "tick \n"),
        |list| replaced(text_of_list(list), "\nstopped", "\n\nstopped"),
        |list| replaced(text_of_list(list), " 6\n", " 5\n"),
        |list| text_of_list(&list[..list.len().min(65_536)]),
        |list| text_of_list(if list.len() == 65_536 { &[] } else { list }),
        // As the bench program, which runs it.
        peer::print::run_list,
    ];
    for text in wrong {
        let words = found(|| Functions {
            text_of_list: Box::new(move |list, out| write_fitting(&text(list), out)),
            ..Functions::default()
        });
        assert!(words.contains("TextOfList, input of "), "{words}");
    }
}

#[test]
fn wrong_lists_of_texts_are_found() {
    type List = fn(&[u8]) -> Result<Vec<u8>, Vec<u8>>;
    let wrong: [List; 13] = [
        // Another byte, name, limit or separator is read, or is not.
        |text| list_or_line(&text.to_ascii_lowercase()),
        |text| list_or_line(&replaced(text.to_vec(), "\x0b", " ")),
        |text| list_or_line(&replaced(text.to_vec(), ";", ",")),
        |text| list_or_line(&replaced(text.to_vec(), ",\n", "\n")),
        |text| list_or_line(&replaced(text.to_vec(), "\r", "x")),
        |text| list_or_line(&replaced(text.to_vec(), " 256\n", " 0\n")),
        |text| list_or_line(&replaced(text.to_vec(), "18446744073709551617", "1")),
        |text| list_or_line(&text[..text.len().min(1_048_576)]),
        // Other words are told.
        |text| list_or_line(text).map_err(|line| replaced(line, "line 1,", "line 0,")),
        |text| list_or_line(text).map_err(|line| replaced(line, "to 65535", "to 65,535")),
        |text| list_or_line(text).map_err(|line| line[..line.len() - 1].to_vec()),
        // A list that is too long is cut, and one that n refuses is not written.
        |text| match list_or_line(text) {
            Err(line) if line.ends_with(b"has at most 65536 bytes\n") => Ok(vec![0x01, 0, 1, 1]),
            answer => answer,
        },
        |text| match list_or_line(text) {
            Ok(list) if list[3] == 0 => Err(b"line 1, column 10: expected a number\n".to_vec()),
            answer => answer,
        },
    ];
    for (k, list) in wrong.into_iter().enumerate() {
        let words = found(|| Functions {
            list_of_text: Box::new(move |text, out| list_of_text_by(list, text, out)),
            ..Functions::default()
        });
        assert!(words.contains(", input of "), "{k}: {words}");
    }
}

/// What is in the buffer behind the bytes, or where they don't fit.
#[test]
fn wrong_buffers_are_found() {
    let libraries: [fn() -> Functions<'static>; 5] = [
        || Functions {
            text_of_list: Box::new(|list, out| {
                let length = Own.text_of_list(list, out);
                out.get_mut(length?).into_iter().for_each(|byte| *byte = 0);
                length
            }),
            ..Functions::default()
        },
        // All or nothing.
        || Functions {
            text_of_list: Box::new(|list, out| match text_of_list(list).len() <= out.len() {
                true => Own.text_of_list(list, out),
                false => None,
            }),
            ..Functions::default()
        },
        // One byte more is asked for.
        || Functions {
            list_of_text: Box::new(|text, out| {
                let length = out.len().checked_sub(1)?;
                Own.list_of_text(text, &mut out[..length])
            }),
            ..Functions::default()
        },
        // As much as fits.
        || Functions {
            list_of_text: Box::new(|text, out| {
                let (Ok(bytes) | Err(bytes)) = &list_or_line(text);
                out.iter_mut().zip(bytes).for_each(|(place, byte)| *place = *byte);
                Own.list_of_text(text, out)
            }),
            ..Functions::default()
        },
        // A bad text is told as if it were a list.
        || Functions {
            list_of_text: Box::new(|text, out| {
                Own.list_of_text(text, out)?.map_or_else(|k| Some(Ok(k)), |k| Some(Ok(k)))
            }),
            ..Functions::default()
        },
    ];
    for library in libraries {
        found(library);
    }
}

#[test]
fn wrong_programs_are_found() {
    type Says = fn(Program, &[u8]) -> Result<Said, String>;
    let wrong: [(Says, &str); 5] = [
        (|program, input| own(program, input).map(|(out, err)| (err, out)), "difference at byte 0"),
        (|program, input| own(program, input).map(|(out, _)| (out, vec![])), "standard error, "),
        (|program, input| own(program, &input[..input.len().min(65_536)]), "difference at byte "),
        (
            |program, input| match own(program, input)? {
                (out, err) if err.is_empty() => Ok((out, b"done\n".to_vec())),
                said => Ok(said),
            },
            "standard error, ",
        ),
        (|_, _| Err("it can't be run".to_string()), "it can't be run"),
    ];
    for (says, words) in wrong {
        let told = check(|| Own, says, &[]).1.unwrap_err();
        assert!(told.contains(words), "{told}");
    }
}

/// A difference is told with the shortest input that shows it.
#[test]
fn differences_are_shortened() {
    let words = found(|| Functions {
        list_of_text: Box::new(|text, out| {
            let no_tabs = |text: &[u8]| list_or_line(&replaced(text.to_vec(), "\t", "x"));
            list_of_text_by(no_tabs, text, out)
        }),
        ..Functions::default()
    });
    assert!(words.contains("ListOfText, input of 1 bytes [09] \"\\t\": "), "{words}");
}

/// check-list-text as a process: 1 for other programs, 2 where there are none, or no library. That it is 0 for the right
/// ones is seen by running it.
#[test]
fn the_program_that_compares() {
    let (texts, lists) = (env!("CARGO_BIN_EXE_text-of-list"), env!("CARGO_BIN_EXE_list-of-text"));
    let folder = concat!(env!("CARGO_MANIFEST_DIR"), "/../tests/lists");
    let status = |arguments: &[&str]| {
        let output =
            Command::new(env!("CARGO_BIN_EXE_check-list-text")).args(arguments).output().unwrap();
        (output.status.code(), String::from_utf8_lossy(&output.stdout).into_owned())
    };
    if Proved::linked().is_ok() {
        let (code, printed) = status(&[texts, "/bin/cat", folder]);
        assert_eq!(code, Some(1), "{printed}");
        assert!(printed.ends_with(" passed, 1 failed\n"));
    } else {
        assert_eq!(status(&[texts, lists]), (Some(2), String::new()));
    }
    assert_eq!(status(&[texts, "/no such program"]).0, Some(2));
    assert_eq!(status(&[texts, lists, "/no such folder"]).0, Some(2));
    assert_eq!(status(&[texts]).0, Some(2));
}
