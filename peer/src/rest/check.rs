//! Compares a library and a program with this crate's `rest`, byte for byte, on the lists of directories and on random
//! ones; and reads each text by itself. Since they take long, a fifth of the random lists goes through the library, and
//! fewer through the program; all through the peer's own text and its reading. Counts what was met.

use crate::compare::{text_difference, BEHIND};
use crate::corners::Source;
use crate::ending::told;
use crate::list::{Stop, MAX_LIST};
use crate::machine::{MAX_NODES, STAND, TOWER};
use crate::numbers::Numbers;
use crate::proved::{Own, Proved, Texts};
use crate::rest::lists::any_list;
use crate::rest::reading::{read, Seen};
use crate::rest::text::rest;
use crate::tally::Where::{self, Either};
use crate::tally::{Book, Tally};
use crate::two_bytes::compare::{difference, input_words};
use crate::two_bytes::process::{printed, side_by_side, whole_path, Input};
use crate::vectors::read_named_lists;
use std::path::PathBuf;

const SEED: u64 = 20_260;
/// So many random lists are made, and each of so many goes through the library and the program too. The kinds of lists
/// come round in twelves: neither has a divisor in common with 12, so that each kind goes through both.
const LISTS: usize = 40_000;
const EACH: [usize; 2] = [5, 17];
/// How often each corner is met at least.
const TIMES: u64 = 1000;

/// What is met: of what, and how.
type Corner = (&'static str, u32);

/// What a program does that is given PROGRAM [LISTS_DIR ..]. Gives how many lists passed and how many failed; it ends at
/// the first difference.
pub fn checked(name: &str) -> Result<(u64, u64), String> {
    let arguments: Vec<PathBuf> = std::env::args_os().skip(1).map(PathBuf::from).collect();
    let [program, directories @ ..] = arguments.as_slice() else {
        return Err(format!("{name} PROGRAM [LISTS_DIR ..]"));
    };
    let program = whole_path(program)?;
    let lists = read_named_lists(directories)?;
    let prints = |list: &[u8]| printed(&program, &Input::whole(list.to_vec()));
    Ok(told(check_both(|| Proved, prints, &lists)))
}

/// Compares what is printed for each named list and for random ones, as `check_both` does with the peer's own function.
pub fn check(
    lists: &[(String, Vec<u8>)],
    prints: impl Fn(&[u8]) -> Result<Vec<u8>, String> + Sync,
) -> (u64, Result<(), String>) {
    check_both(|| Own, prints, lists)
}

/// Compares what a library, which each list has for itself, and a program give for each named list and for random ones.
/// Gives how many lists passed; the error is the first difference, or a corner that was met too seldom.
pub fn check_both<L: Texts>(
    library: impl Fn() -> L + Sync,
    prints: impl Fn(&[u8]) -> Result<Vec<u8>, String> + Sync,
    lists: &[(String, Vec<u8>)],
) -> (u64, Result<(), String>) {
    println!("seed {SEED}");
    let all = lists.len() + LISTS;
    let (seen, found) = side_by_side(all, |k| {
        let (name, list) = match lists.get(k) {
            Some((name, list)) => (name.clone(), list.clone()),
            None => {
                let k = k - lists.len();
                let list = any_list(k, &mut Numbers::new(SEED + k as u64));
                (format!("random list {k}, {}", input_words(&list)), list)
            }
        };
        let [through_library, by_program] =
            EACH.map(|each| k < lists.len() || (k - lists.len()).is_multiple_of(each));
        let numbers = &mut Numbers::new(SEED + k as u64);
        let own = rest(&list);
        let corners = judge(&list, &own, by_program.then_some(&prints)).and_then(|corners| {
            let rooms = match through_library {
                true => by_library(&library(), &list, &own, numbers)?,
                false => vec![],
            };
            Ok([corners, rooms].concat())
        });
        let by = [through_library, by_program];
        corners.map(|corners| (by, corners)).map_err(|words| format!("{name}: {words}"))
    });
    let passed = seen.len() as u64;
    let mut tally = Tally::new(possible, words);
    for ([_, by_program], corners) in &seen {
        let source = if *by_program { Source::Run } else { Source::Table };
        corners.iter().for_each(|corner| tally.add(source, *corner));
    }
    if let Err(words) = found {
        return (passed, Err(words));
    }
    let [through_library, by_program] = [0, 1].map(|k| seen.iter().filter(|(by, _)| by[k]).count());
    println!(
        "{}",
        tally.text().replace("   in runs  in tables", "by program     others").trim_end()
    );
    println!(
        "{passed} lists through the peer's two readings, {through_library} of them through the library and {by_program} \
         through the program too; {} lists of directories",
        lists.len()
    );
    let wrong = [tally.impossible(), tally.seldom(TIMES)].concat();
    match wrong.first() {
        Some(words) => {
            (passed, Err(format!("met fewer than {TIMES} times, or has no place: {words}")))
        }
        None => (passed, Ok(())),
    }
}

/// One list: the peer's text, read by itself, and the program's, if it is to print it. Gives what was met.
fn judge(
    list: &[u8],
    own: &[u8],
    prints: Option<&impl Fn(&[u8]) -> Result<Vec<u8>, String>>,
) -> Result<Vec<Corner>, String> {
    let Some(prints) = prints else {
        let seen = read(list, own).map_err(|words| format!("the peer's text, {words}"))?;
        return Ok(corners(list, &seen));
    };
    let text = prints(list)?;
    // Each of the two says for itself what is wrong.
    let by_bytes = difference(("peer", own), ("program", &text)).err();
    match (by_bytes, read(list, &text)) {
        (None, Ok(seen)) => Ok(corners(list, &seen)),
        (by_bytes, seen) => {
            let by_reading = seen.err().map(|words| format!("read by itself, {words}"));
            let found: Vec<String> = by_bytes.into_iter().chain(by_reading).collect();
            Err(found.join("\n"))
        }
    }
}

/// How long a lent buffer is, seen from the text: of the first two all of it is written, of the others not.
const ROOMS: [&str; 7] = [
    "a buffer of just that length",
    "a longer buffer",
    "a buffer that is one byte too short",
    "a buffer that ends anywhere in the text",
    "a buffer up to the end of a line",
    "a buffer up to the last byte of a line",
    "a buffer of no bytes",
];
const ENOUGH: usize = 2;

/// A list by the library, into a buffer that is long enough and mostly into one that is not. Gives what was met.
fn by_library(
    library: &impl Texts,
    list: &[u8],
    own: &[u8],
    numbers: &mut Numbers,
) -> Result<Vec<Corner>, String> {
    let short = (!numbers.one_in(4)).then(|| ENOUGH + numbers.place(ROOMS.len() - ENOUGH));
    let mut met = Vec::new();
    for kind in [Some(numbers.place(ENOUGH)), short].into_iter().flatten() {
        let room = room(own, kind, numbers);
        if let Some(words) = text_difference(|out| library.rest(list, out), own, room) {
            return Err(format!("the library {words}"));
        }
        met.push((ROOMS[kind], 0));
    }
    Ok(met)
}

/// So many bytes are lent.
fn room(text: &[u8], kind: usize, numbers: &mut Numbers) -> usize {
    let ends = || (1..=text.len()).filter(|&end| text[end - 1] == b'\n').collect::<Vec<_>>();
    match kind {
        0 => text.len(),
        1 => text.len() + numbers.between(1, BEHIND as u32) as usize,
        2 => text.len() - 1,
        3 => numbers.place(text.len()),
        // But for the last.
        4 => numbers.of(&[&[0], &ends()[..ends().len() - 1]].concat()),
        5 => numbers.of(&ends()) - 1,
        _ => 0,
    }
}

/// Every corner, with where it must be met.
fn possible() -> Vec<(Corner, Where)> {
    let mut corners: Vec<Corner> = (1..=u32::from(MAX_NODES)).map(|n| ("n", n)).collect();
    let single = [
        "tower",
        "stand",
        "no turns",
        "turns within the first round",
        "turns, more than a round",
        "turns, more than three rounds",
        "turns send messages",
        "turns lose to a Down receiver",
        "as many wait as may when the list ends",
        "stopped, and then turns",
        "the list with the turns' events is a list",
        "an empty list",
        "65,536 bytes",
        "65,537 bytes",
        "more bytes",
    ];
    corners.extend(single.iter().chain(&ROOMS).map(|words| (*words, 0)));
    corners.extend((1..=6).map(|kind| ("turns deliver kind", kind)));
    corners.extend((2..=6).map(|number| ("stopped at the first field or the whole list,", number)));
    corners.extend((3..=5).map(|number| ("stopped later,", number)));
    corners.extend([7, 8, 9, 10, 11, 14, 18, 19].map(|number| ("refused", number)));
    corners.into_iter().map(|corner| (corner, Either)).collect()
}

/// What a list and its text meet.
fn corners(list: &[u8], seen: &Seen) -> Vec<Corner> {
    let mut met: Vec<Corner> = Vec::new();
    match list.len() {
        0 => met.push(("an empty list", 0)),
        MAX_LIST => met.push(("65,536 bytes", 0)),
        65_537 => met.push(("65,537 bytes", 0)),
        65_538.. => met.push(("more bytes", 0)),
        _ => {}
    }
    let Some((n, limits)) = seen.of else {
        let number = seen.stop.map_or(0, |stop| u32::from(stop.number));
        met.push(("stopped at the first field or the whole list,", number));
        return met;
    };
    met.push(("n", u32::from(n)));
    met.push((if limits == STAND { "stand" } else { "tower" }, 0));
    let round = u64::from(n) * (u64::from(n) - 1);
    met.push(match seen.turns {
        0 => ("no turns", 0),
        turns if turns <= round => ("turns within the first round", 0),
        _ => ("turns, more than a round", 0),
    });
    let mut also = |is: bool, corner: Corner| met.extend(is.then_some(corner));
    also(seen.turns > 3 * round, ("turns, more than three rounds", 0));
    also(seen.sent > 0, ("turns send messages", 0));
    also(seen.lost > 0, ("turns lose to a Down receiver", 0));
    let full = [TOWER, STAND].contains(&limits) && seen.waiting == usize::from(limits.messages);
    also(full, ("as many wait as may when the list ends", 0));
    also(seen.stop.is_some() && seen.turns > 0, ("stopped, and then turns", 0));
    also(seen.by_a_list, ("the list with the turns' events is a list", 0));
    for kind in 1..=6 {
        also(seen.delivered.contains(&kind), ("turns deliver kind", u32::from(kind)));
    }
    if let Some(Stop { number, .. }) = seen.stop {
        also(true, ("stopped later,", u32::from(number)));
    }
    let mut refused = seen.refused.clone();
    refused.sort();
    refused.dedup();
    met.extend(refused.iter().map(|&number| ("refused", u32::from(number))));
    met
}

/// A corner's words.
fn words(&(words, number): &Corner) -> String {
    match number {
        0 => words.to_string(),
        _ => format!("{words} {number}"),
    }
}
