//! What `--help` says, for the command and for each subcommand. Tests run every example.

/// What is said of a subcommand.
pub struct Help {
    arguments: &'static str,
    /// in one line
    short: &'static str,
    long: &'static str,
    example: &'static str,
}

/// How a list is handed in, for all subcommands that take one.
const LISTS: &str = "\
LIST is a file's name; without one, or with -, standard input is read. A list is
bytes or text, told apart by the first byte: a list in bytes begins with a byte
below 32 that is no tab and no line end. --bytes or --text settle it.
";

/// The exit statuses, for all.
const STATUSES: &str = "\
Exit status: 0, also where events are refused; 1 bad input, with its line and
column, or the refusal's number and its ground, on standard error; 2 wrong
usage; 3 reading or writing failed.
";

pub const SUBCOMMANDS: [(&str, Help); 8] = [
    (
        "run",
        Help {
            arguments: "[--bytes | --text] [LIST]",
            short: "run a list and print the table after it",
            long: "\
Prints `cabinets n`, `refused e r` for each event that is refused, and the table
after the last event. Where the list is damaged, `stopped b r` and the table so
far; the exit status is then 1.
",
            example: "nevraspu run examples/k10.list",
        },
    ),
    (
        "trace",
        Help {
            arguments: "[--bytes | --text] [LIST]",
            short: "run a list and print every step",
            long: "\
Prints each event with its number and `accepted` or `refused r`; below an
accepted one the record that changed and the message taken out and put in; at
the end the table that `run` prints.
",
            example: "nevraspu trace examples/k10.script",
        },
    ),
    (
        "text",
        Help {
            arguments: "[--bytes | --text] [LIST]",
            short: "print a list as text",
            long: "\
Prints `cabinets n` or `stand n` and a line for each event. Nothing is run. A
damaged list is shown up to the damage, and then `stopped b r`; the exit status
is then 1.
",
            example: "nevraspu text examples/k10.list",
        },
    ),
    (
        "list",
        Help {
            arguments: "[--bytes | --text] [LIST]",
            short: "print a list as bytes",
            long: "\
A text begins with `cabinets N` or `stand N`; then come events by their names
and numbers, as in `recover 1`, `finish 2 100`, `deliver 2 1`, each on a line or
parted by a comma. Empty lines, and # to the end of a line, are skipped. Of a
bad text nothing is printed, and standard error has its line and column.
",
            example: "nevraspu list examples/k10.script > target/k10.list",
        },
    ),
    (
        "short-lists",
        Help {
            arguments: "N LENGTH",
            short: "print all lists of a length that the machine accepts",
            long: "\
N is the number of cabinets, 1 to 3, and LENGTH that of events, 0 to 7. Prints a
line for each list that is accepted, event by event, from the starting table,
finish with task 100 only, and last `lists k`. With `cabinets N` before it, a
line is a list as text. Where standard error is a terminal and standard output
is none, standard error shows how much is written.
",
            example: "nevraspu short-lists 2 3",
        },
    ),
    (
        "aldebaran",
        Help {
            arguments: "N L",
            short: "print all lists up to a length as a transition system",
            long: "\
N is the number of cabinets, 1 to 3, and L the most events, 0 to 4. Prints the
lists of short-lists up to that length in the Aldebaran text form (.aut), which
model-checking tools read.
",
            example: "nevraspu aldebaran 2 4 > target/two.aut",
        },
    ),
    (
        "rest",
        Help {
            arguments: "[--bytes | --text] [LIST]",
            short: "run a list and then the driver, until no message waits",
            long: "\
Prints what `run` prints, but for the table: `turns k`, and the table after so
many turns of the round of the cable.
",
            example: "nevraspu rest examples/asking.list",
        },
    ),
    (
        "show",
        Help {
            arguments: "[--svg] [--bytes | --text] [LIST]",
            short: "make a page that shows a run, step by step",
            long: "\
Prints one HTML file: the cabinets' lines, the messages between them, and the
table at each event; a slider and the arrow keys go through the events, and
run.html#12 opens at event 12. --svg prints the picture alone, for documents.
",
            example: "nevraspu show examples/k10.list > target/run.html",
        },
    ),
];

/// The whole command's.
pub fn all() -> String {
    let mut text = "\
Usage: nevraspu SUBCOMMAND ..

Lists of events for the cabinets of a carillon, answered by the proved machine.

"
    .to_string();
    for (name, help) in &SUBCOMMANDS {
        text += &format!("  {name:<13}{}\n", help.short);
    }
    text + "
nevraspu SUBCOMMAND --help tells more, with an example; nevraspu --version tells
the version.

" + LISTS
        + "\n"
        + STATUSES
}

/// A subcommand's, if there is one of that name.
pub fn of(name: &str) -> Option<String> {
    let (_, help) = SUBCOMMANDS.iter().find(|(known, _)| *known == name)?;
    let Help { arguments, short, long, example } = help;
    let lists = if arguments.contains("LIST]") { format!("{LISTS}\n") } else { String::new() };
    let first = short[..1].to_uppercase() + &short[1..];
    Some(format!(
        "Usage: nevraspu {name} {arguments}\n\n{first}.\n\n{long}\n{lists}{STATUSES}\nExample, at the root of the repository:\n\n    {example}\n"
    ))
}

#[cfg(test)]
mod tests {
    use super::*;

    #[test]
    fn no_line_is_longer_than_a_terminal() {
        let texts = SUBCOMMANDS.iter().filter_map(|(name, _)| of(name)).chain([all()]);
        for line in texts.flat_map(|text| text.lines().map(String::from).collect::<Vec<_>>()) {
            assert!(line.len() <= 80, "{line}");
        }
    }
}
