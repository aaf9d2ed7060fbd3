//! check-trace finds what is wrong: libraries and programs that differ in one thing.

use crate::functions::Functions;
use peer::machine::{advance, Event, Table};
use peer::proved::{write_fitting, Library, Own, Proved};
use peer::trace::check::check;
use peer::trace::text::{trace, trace_by};
use std::process::Command;

type Text = fn(&[u8]) -> Vec<u8>;

/// What the peer's own program prints.
fn own(list: &[u8]) -> Result<Vec<u8>, String> {
    Ok(trace(list).text)
}

/// What is found of a library, which must be something.
fn found(library: impl Fn() -> Functions<'static> + Sync) -> String {
    check(library, own, &[]).1.unwrap_err()
}

fn replaced(list: &[u8], from: &str, to: &str) -> Vec<u8> {
    String::from_utf8(trace(list).text).unwrap().replace(from, to).into_bytes()
}

fn without(list: &[u8], is: impl Fn(&str) -> bool) -> Vec<u8> {
    let text = String::from_utf8(trace(list).text).unwrap();
    text.split_inclusive('\n').filter(|line| !is(line)).collect::<String>().into_bytes()
}

/// Traces that are wrong in some lines.
const WRONG: [Text; 16] = [
    |list| replaced(list, "cabinets", "stand"),
    |list| replaced(list, " refused 18\n", " refused 10\n"),
    |list| replaced(list, " found none\n", " found\n"),
    |list| replaced(list, " former none\n", "\n"),
    |list| replaced(list, " reply no ", " reply yes "),
    |list| replaced(list, "  sent ", "  send "),
    |list| replaced(list, " accepted\n  taken ", " accepted\n  "),
    |list| replaced(list, "collecting", "idle"),
    |list| replaced(list, " found 2 3", " found 3 2"),
    |list| without(list, |line| line.starts_with("  sent ") && line.contains("Accept")),
    |list| without(list, |line| line.starts_with("  taken ") && line.contains("Ready")),
    |list| without(list, |line| line.ends_with("contacting\n")),
    |list| without(list, |line| line.starts_with("stopped ") && !line.starts_with("stopped 0 ")),
    |list| [trace(list).text, b"\n".to_vec()].concat(),
    |list| trace(&list[..list.len().min(65_535)]).text,
    |list| replaced(list, "\n10000 ", "\n0000 "),
];

#[test]
fn nothing_is_found_of_the_peer_itself() {
    let (passed, found) = check(|| Own, own, &[("a list".to_string(), vec![0x01, 0, 1, 1])]);
    assert_eq!(found, Ok(()));
    assert!(passed > 40_000);
}

#[test]
fn wrong_programs_are_found() {
    for (k, wrong) in WRONG[..4].iter().enumerate() {
        let (_, found) = check(|| Own, |list| Ok(wrong(list)), &[]);
        assert!(found.unwrap_err().contains("difference at byte "), "{k}");
    }
    let (_, found) = check(|| Own, |_| Err("it can't be run".to_string()), &[]);
    assert!(found.unwrap_err().contains("it can't be run"));
}

/// A library whose trace is by another program; where it does not fit, the peer's pieces stand there.
fn traces(program: Text) -> Functions<'static> {
    let trace = move |list: &[u8], out: &mut [u8]| {
        let text = program(list);
        match out.get_mut(..text.len()) {
            Some(place) => place.copy_from_slice(&text),
            None => return Own.trace(list, out),
        }
        Some(text.len())
    };
    Functions { trace: Box::new(trace), ..Functions::default() }
}

#[test]
fn wrong_traces_are_found() {
    for (k, wrong) in WRONG.into_iter().enumerate() {
        let words = found(|| traces(wrong));
        assert!(words.contains("traced "), "{k}: {words}");
    }
}

/// Machines that are wrong in one thing.
#[test]
fn wrong_machines_are_found() {
    type Machine = fn(&mut Table, &Event) -> Result<(), u8>;
    let machines: [Machine; 4] = [
        |_, _| Ok(()),
        |_, _| Err(9),
        |table, event| match event {
            Event::Lose(..) => advance(&mut table.clone(), event),
            _ => advance(table, event),
        },
        // Another node's last call number changes too, which no line of the bench program shows.
        |table, event| {
            let answer = advance(table, event);
            if answer.is_ok() && matches!(event, Event::Tick(1)) && table.n > 1 {
                table.nodes[1].last_call += 1;
            }
            answer
        },
    ];
    for machine in machines {
        found(|| Functions {
            trace: Box::new(move |list, out| trace_by(machine, list).write(out)),
            ..Functions::default()
        });
    }
}

/// What is in the buffer behind the trace, or where it does not fit.
#[test]
fn wrong_buffers_are_found() {
    let libraries: [fn() -> Functions<'static>; 6] = [
        // A byte behind it.
        || Functions {
            trace: Box::new(|list, out| {
                let length = Own.trace(list, out);
                out.get_mut(length?).into_iter().for_each(|byte| *byte = 0);
                length
            }),
            ..Functions::default()
        },
        // Line by line.
        || Functions {
            trace: Box::new(|list, out| write_fitting(&trace(list).text, out)),
            ..Functions::default()
        },
        // All or nothing.
        || Functions {
            trace: Box::new(|list, out| match trace(list).text.len() <= out.len() {
                true => Own.trace(list, out),
                false => None,
            }),
            ..Functions::default()
        },
        // As much as fits.
        || Functions {
            trace: Box::new(|list, out| {
                let text = trace(list).text;
                out.iter_mut().zip(&text).for_each(|(place, byte)| *place = *byte);
                (text.len() <= out.len()).then_some(text.len())
            }),
            ..Functions::default()
        },
        // A piece that just fits is not written.
        || Functions {
            trace: Box::new(|list, out| {
                let length = out.len().saturating_sub(1);
                match trace(list).text.len() <= out.len() {
                    true => Own.trace(list, out),
                    false => Own.trace(list, &mut out[..length]),
                }
            }),
            ..Functions::default()
        },
        // The line of a stop is a piece of its own.
        || Functions {
            trace: Box::new(|list, out| {
                let mut own = trace(list);
                let text = String::from_utf8(own.text.clone()).unwrap();
                if let Some(place) = text.find("\nstopped ") {
                    let line = text[place + 1..].find('\n').unwrap() + 1;
                    own.ends.insert(own.ends.len() - 1, place + 1 + line);
                }
                own.write(out)
            }),
            ..Functions::default()
        },
    ];
    for library in libraries {
        found(library);
    }
}

/// What a library prints for the bench program must be what is read off its trace.
#[test]
fn other_bench_texts_are_found() {
    let words = found(|| Functions {
        print: Box::new(|list, out| {
            let text = String::from_utf8(peer::print::run_list(list)).unwrap();
            write_fitting(text.replace("refused 1 9\n", "refused 1 10\n").as_bytes(), out)
        }),
        ..Functions::default()
    });
    assert!(words.contains("read off the trace: "), "{words}");
}

/// A difference is told with the shortest list that shows it.
#[test]
fn differences_are_shortened() {
    let words = found(|| traces(|list| replaced(list, "asking 1 ", "asking 2 ")));
    assert!(words.contains(", 2 events\n  recover "), "{words}");
}

/// check-trace as a process: 1 for another program, 2 where there is none, or no library. That it is 0 for the right one
/// is seen by running it.
#[test]
fn the_program_that_compares() {
    let program = env!("CARGO_BIN_EXE_trace");
    let folder = concat!(env!("CARGO_MANIFEST_DIR"), "/../tests/lists");
    let status = |arguments: &[&str]| {
        let output =
            Command::new(env!("CARGO_BIN_EXE_check-trace")).args(arguments).output().unwrap();
        (output.status.code(), String::from_utf8_lossy(&output.stdout).into_owned())
    };
    if Proved::linked().is_ok() {
        let (code, printed) = status(&["/bin/cat", folder]);
        assert_eq!(code, Some(1), "{printed}");
        assert!(printed.ends_with(" passed, 1 failed\n"));
    } else {
        assert_eq!(status(&[program, folder]), (Some(2), String::new()));
    }
    assert_eq!(status(&["/no such program"]).0, Some(2));
    assert_eq!(status(&[program, "/no such folder"]).0, Some(2));
    assert_eq!(status(&[]).0, Some(2));
}
