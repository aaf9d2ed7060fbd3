//! bench [ROUNDS]: times the proved library against this program's machine and against the program
//! written for speed (`tuned`), in one process, in turn, on the same lists. Prints three tables: the
//! time against the length of the list; folding the events by the step with the range check, against
//! the machine alone; and last printing the list, against both. Times are nanoseconds of the
//! processor's time an event, the median of the rounds. A ratio is the other's time over the
//! library's, so 1.0 is as fast and 0.5 takes twice its time: median (least to most) of the rounds.
//! The last line is `N passed, M failed`, where each list on which all answer the same passes.

use peer::drive::{full_run, Manner, FULL, QUIET, REFUSED};
use peer::ending::ended;
use peer::list::{read_list, write_list, MAX_LIST};
use peer::machine::{Event, TOWER};
use peer::numbers::Numbers;
use peer::print::run_list;
use peer::proved::{fold, Library, Proved};
use peer::spread::{median, ratios, spread};
use peer::tuned;
use std::hint::black_box;
use std::process::ExitCode;
use std::time::{Duration, Instant};

const ROUNDS: usize = 9;
/// How long a round takes.
const ROUND: Duration = Duration::from_millis(100);

/// The lists of the first part are as long as this, or a few bytes shorter.
const LENGTHS: [usize; 4] = [1024, 4096, 16_384, MAX_LIST];
/// A round of them takes less.
const SHORT_ROUND: Duration = Duration::from_millis(15);

const MANNERS: [(&str, &Manner); 3] = [("quiet", &QUIET), ("busy", &FULL), ("refused", &REFUSED)];

fn main() -> ExitCode {
    let arguments: Vec<String> = std::env::args().skip(1).collect();
    let rounds = match arguments.as_slice() {
        [] => Some(ROUNDS),
        [rounds] => rounds.parse().ok().filter(|&rounds| rounds > 0),
        _ => None,
    };
    let rounds = rounds.ok_or("bench [ROUNDS]".to_string());
    ended(rounds.map(|rounds| bench(&Proved, rounds)))
}

/// A list of the benchmark, with the name of its kind.
struct Case {
    n: u8,
    name: &'static str,
    events: Vec<Event>,
    list: Vec<u8>,
}

fn bench(library: &impl Library, rounds: usize) -> (u64, u64) {
    let (mut passed, mut failed) = (0, 0);
    let mut out = vec![0; 1 << 20];
    let mut cases = Vec::new();
    for n in [2, 5, 16] {
        for (name, manner) in MANNERS {
            let events = full_run(n, TOWER, manner, &mut Numbers::new(u64::from(n)));
            let list = write_list(n, TOWER, &events);
            if agree(library, &list, &mut out) {
                passed += 1;
            } else {
                failed += 1;
                println!("n {n}, {name}: the answers differ");
            }
            cases.push(Case { n, name, events, list });
        }
    }
    // In the refused lists more messages wait as the list goes on, so they tell less here.
    let even = |case: &&Case| case.name == "busy" || (case.name == "quiet" && case.n == 5);
    for case in cases.iter().filter(even) {
        for limit in LENGTHS {
            let list = cut(case, limit);
            if agree(library, &list, &mut out) {
                passed += 1;
            } else {
                failed += 1;
                println!("n {}, {}, {limit} bytes: the answers differ", case.n, case.name);
            }
        }
    }
    println!("time of the proved library against the length of the list, {rounds} rounds\n");
    println!("|  | n | list | {} bytes |", LENGTHS.map(|limit| limit.to_string()).join(" | "));
    println!("|---|---|---|{}", "---|".repeat(LENGTHS.len()));
    for case in cases.iter().filter(even) {
        lengths(library, case, rounds, &mut out);
    }
    println!("\nfold, {rounds} rounds\n");
    println!("| n | list | events | proved | peer | ratio to peer |");
    println!("|---|---|---|---|---|---|");
    for case in &cases {
        let list = black_box(&case.list[..]);
        let times =
            race(rounds, ROUND, &mut [&mut || sum(library.fold(list)), &mut || sum(fold(list))]);
        println!("{}", row(case, &times));
    }
    println!("\nprint, {rounds} rounds\n");
    println!("| n | list | events | proved | peer | tuned | ratio to peer | ratio to tuned |");
    println!("|---|---|---|---|---|---|---|---|");
    let mut second = out.clone();
    for case in &cases {
        let list = black_box(&case.list[..]);
        let times = race(
            rounds,
            ROUND,
            &mut [
                &mut || length(library.print(list, &mut out)),
                &mut || run_list(list).len(),
                &mut || length(tuned::print(list, &mut second)),
            ],
        );
        println!("{}", row(case, &times));
    }
    (passed, failed)
}

fn sum(accepted: u32) -> usize {
    accepted as usize
}

fn length(printed: Option<usize>) -> usize {
    printed.unwrap_or(usize::MAX)
}

/// The library's times on the first events of a case.
fn lengths(library: &impl Library, case: &Case, rounds: usize, out: &mut [u8]) {
    let lists: Vec<Vec<u8>> = LENGTHS.iter().map(|&limit| cut(case, limit)).collect();
    let mut rows = [String::new(), String::new()];
    for list in &lists {
        let list = black_box(&list[..]);
        // So many passes at a time that the clock's own time is small.
        let passes = MAX_LIST / list.len();
        let events = read_list(list).map_or(0, |list| list.events.len());
        let mut print = || (0..passes).map(|_| length(library.print(list, out))).max().unwrap_or(0);
        let mut folds = || (0..passes).map(|_| sum(library.fold(list))).max().unwrap_or(0);
        let times = race(rounds, SHORT_ROUND, &mut [&mut print, &mut folds]);
        for (row, times) in rows.iter_mut().zip(&times) {
            *row += &format!(" {:.1} |", median(times) / (events * passes) as f64 * 1e9);
        }
    }
    for (what, row) in ["print", "fold"].iter().zip(rows) {
        println!("| {what} | {} | {} |{row}", case.n, case.name);
    }
}

/// The list of a case's first events, as many as fit.
fn cut(case: &Case, limit: usize) -> Vec<u8> {
    let mut bytes = 4;
    let fitting = case.events.iter().take_while(|event| {
        bytes += peer::drive::field_bytes(event);
        bytes <= limit
    });
    write_list(case.n, TOWER, &fitting.copied().collect::<Vec<_>>())
}

fn agree(library: &impl Library, list: &[u8], out: &mut [u8]) -> bool {
    let text = run_list(list);
    let proved = library.print(list, out) == Some(text.len()) && out[..text.len()] == text;
    let tuned = tuned::print(list, out) == Some(text.len()) && out[..text.len()] == text;
    proved && tuned && library.fold(list) == fold(list)
}

/// A row of a table: the times of all sides, the library's first, and the ratios of the others to it.
fn row(case: &Case, times: &[Vec<f64>]) -> String {
    let mut row = format!("| {} | {} | {} |", case.n, case.name, case.events.len());
    for times in times {
        row += &format!(" {:.1} |", median(times) / case.events.len() as f64 * 1e9);
    }
    for other in &times[1..] {
        row += &format!(" {} |", spread(&ratios(other, &times[0]), 3));
    }
    row
}

/// Times some sides, one pass of each in turn. Gives the seconds for a pass of each side, the least of
/// each round.
fn race(rounds: usize, round: Duration, sides: &mut [&mut dyn FnMut() -> usize]) -> Vec<Vec<f64>> {
    let mut times = vec![Vec::new(); sides.len()];
    for _ in 0..rounds {
        let mut least = vec![f64::INFINITY; sides.len()];
        let start = Instant::now();
        let mut first = true;
        while first || start.elapsed() < round {
            first = false;
            for (side, least) in sides.iter_mut().zip(&mut least) {
                let start = processor_time();
                black_box(side());
                *least = least.min(processor_time() - start);
            }
        }
        for (times, least) in times.iter_mut().zip(least) {
            times.push(least);
        }
    }
    times
}

/// How long this thread has run, in seconds. What other programs take is not in it.
fn processor_time() -> f64 {
    /// As Linux has it on x86-64, which the library is made for.
    #[repr(C)]
    struct Time {
        seconds: i64,
        nanoseconds: i64,
    }
    extern "C" {
        fn clock_gettime(clock: i32, time: *mut Time) -> i32;
    }
    const THREAD: i32 = 3;
    let mut time = Time { seconds: 0, nanoseconds: 0 };
    // Safety: the system writes the time where it is told to.
    let ended = unsafe { clock_gettime(THREAD, &mut time) };
    assert_eq!(ended, 0, "the system tells no processor time");
    time.seconds as f64 + time.nanoseconds as f64 * 1e-9
}
