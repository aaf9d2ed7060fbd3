//! bench-short-lists PROGRAM [ROUNDS]: times the proved program for document 02's T-01 against
//! `short-lists`, which stands beside this program. Both run as processes, in turn, and write to a file
//! that is removed afterwards. Prints for each the processor's time (user and system), the time by the
//! clock and the peak of memory; and last a table with a row for each input. A ratio is the peer's time
//! over the proved program's, so 1.0 is as fast and 0.5 takes twice its time. All are median (least to
//! most) of the rounds. The last line is `N passed, M failed`, where each input for which both write the
//! same text passes.

use peer::ending::ended;
use peer::short::{print_lists, Counts};
use peer::spread::{median, ratios, spread};
use std::fs::File;
use std::io::{self, BufReader, Read, Write};
use std::os::unix::process::ExitStatusExt;
use std::path::{Path, PathBuf};
use std::process::{Child, Command, ExitCode, ExitStatus, Stdio};
use std::time::Instant;

const ROUNDS: usize = 9;
/// n and length.
const INPUTS: [[u8; 2]; 3] = [[3, 7], [3, 6], [2, 7]];

fn main() -> ExitCode {
    let arguments: Vec<String> = std::env::args().skip(1).collect();
    let asked = match arguments.as_slice() {
        [program] => Some((program, ROUNDS)),
        [program, rounds] => {
            rounds.parse().ok().filter(|&rounds| rounds > 0).map(|rounds| (program, rounds))
        }
        _ => None,
    };
    let asked = asked.ok_or("bench-short-lists PROGRAM [ROUNDS]".to_string());
    ended(asked.and_then(|(program, rounds)| bench(Path::new(program), rounds)))
}

/// A program and what its runs on an input took, one value for each round.
struct Side {
    name: &'static str,
    program: PathBuf,
    text: Temporary,
    processor: Vec<f64>,
    clock: Vec<f64>,
    memory: Vec<f64>,
}

/// The proved program and the peer, on an input.
struct Race {
    input: [u8; 2],
    counts: Counts,
    bytes: u64,
    sides: [Side; 2],
}

fn bench(program: &Path, rounds: usize) -> Result<(u64, u64), String> {
    let program = program.canonicalize().map_err(|e| format!("{}: {e}", program.display()))?;
    let here = std::env::current_exe().map_err(|e| e.to_string())?;
    let peer = here.with_file_name("short-lists");
    let (mut passed, mut failed) = (0, 0);
    let mut races = Vec::new();
    for input in INPUTS {
        let race = race(input, [("proved", &program), ("peer", &peer)], rounds)?;
        match race.same_text() {
            Ok(true) => passed += 1,
            Ok(false) => {
                failed += 1;
                println!("n {}, length {}: the texts differ", input[0], input[1]);
            }
            Err(e) => return Err(e.to_string()),
        }
        races.push(race);
    }
    println!("time in milliseconds, memory in kB, {rounds} rounds\n");
    println!("| n | length | program | processor | clock | memory |");
    println!("|---|---|---|---|---|---|");
    for race in &races {
        race.sides.iter().for_each(|side| println!("{}", side.row(race.input)));
    }
    // A child begins in its parent's memory, so no peak below the parent's shows.
    println!("\nthis program's own peak of memory, below which none shows: {} kB\n", own_peak());
    println!("events a second of the processor's time; those tried are what the peer tries\n");
    println!("| n | length | program | accepted | a second | tried | a second |");
    println!("|---|---|---|---|---|---|---|");
    for race in &races {
        race.sides.iter().for_each(|side| println!("{}", side.events(race.input, &race.counts)));
    }
    println!("\nthe proved program against the peer, {rounds} rounds\n");
    println!(
        "| n | length | lists | bytes | proved ms | peer ms | ratio | ratio by the clock \
         | proved kB | peer kB |"
    );
    println!("|---|---|---|---|---|---|---|---|---|---|");
    races.iter().for_each(|race| println!("{}", race.row()));
    Ok((passed, failed))
}

/// Runs both programs once, to have them and their files in memory, and then so many rounds in turn.
fn race(
    input: [u8; 2],
    programs: [(&'static str, &PathBuf); 2],
    rounds: usize,
) -> Result<Race, String> {
    let mut count = Count(0);
    let [n, length] = input;
    let counts = print_lists(n, length, &mut count).expect("it takes every text");
    let mut sides = programs.map(|(name, program)| Side {
        name,
        program: program.clone(),
        text: Temporary::new(name),
        processor: Vec::new(),
        clock: Vec::new(),
        memory: Vec::new(),
    });
    for round in 0..=rounds {
        for side in &mut sides {
            let fault = |words| format!("{}: {words}", side.program.display());
            let took = measure(&side.program, input, &side.text.0).map_err(fault)?;
            if round > 0 {
                side.processor.push(took.processor);
                side.clock.push(took.clock);
                side.memory.push(took.memory);
            }
        }
    }
    Ok(Race { input, counts, bytes: count.0, sides })
}

impl Side {
    fn row(&self, [n, length]: [u8; 2]) -> String {
        format!(
            "| {n} | {length} | {} | {} | {} | {} |",
            self.name,
            spread(&self.processor, 2),
            spread(&self.clock, 2),
            spread(&self.memory, 0)
        )
    }

    fn events(&self, [n, length]: [u8; 2], counts: &Counts) -> String {
        let a_second = |events: u64| events as f64 / (median(&self.processor) / 1e3);
        format!(
            "| {n} | {length} | {} | {} | {:.0} | {} | {:.0} |",
            self.name,
            counts.accepted,
            a_second(counts.accepted),
            counts.tried,
            a_second(counts.tried)
        )
    }
}

impl Race {
    /// Whether both files have the text that the peer's enumeration is long. They are read in pieces, to
    /// keep this program's own memory small.
    fn same_text(&self) -> io::Result<bool> {
        let [proved, peer] = &self.sides;
        let mut left = BufReader::new(File::open(&proved.text.0)?).bytes();
        let mut right = BufReader::new(File::open(&peer.text.0)?).bytes();
        let mut bytes = 0;
        loop {
            match (left.next().transpose()?, right.next().transpose()?) {
                (None, None) => return Ok(bytes == self.bytes),
                (a, b) if a != b => return Ok(false),
                _ => bytes += 1,
            }
        }
    }

    fn row(&self) -> String {
        let [proved, peer] = &self.sides;
        format!(
            "| {} | {} | {} | {} | {:.2} | {:.2} | {} | {} | {:.0} | {:.0} |",
            self.input[0],
            self.input[1],
            self.counts.lists,
            self.bytes,
            median(&proved.processor),
            median(&peer.processor),
            spread(&ratios(&peer.processor, &proved.processor), 3),
            spread(&ratios(&peer.clock, &proved.clock), 3),
            median(&proved.memory),
            median(&peer.memory)
        )
    }
}

/// A file that is removed when it is done with.
struct Temporary(PathBuf);

impl Temporary {
    fn new(name: &str) -> Temporary {
        let name = format!("short-lists-{}-{name}.txt", std::process::id());
        Temporary(std::env::temp_dir().join(name))
    }
}

impl Drop for Temporary {
    fn drop(&mut self) {
        let _ = std::fs::remove_file(&self.0);
    }
}

/// Counts the bytes of a text and keeps none.
struct Count(u64);

impl Write for Count {
    fn write(&mut self, bytes: &[u8]) -> io::Result<usize> {
        self.0 += bytes.len() as u64;
        Ok(bytes.len())
    }

    fn flush(&mut self) -> io::Result<()> {
        Ok(())
    }
}

/// What a run took: milliseconds and kB.
struct Took {
    processor: f64,
    clock: f64,
    memory: f64,
}

fn measure(program: &Path, input: [u8; 2], text: &Path) -> Result<Took, String> {
    let fault = |e: io::Error| e.to_string();
    let file = File::create(text).map_err(fault)?;
    let start = Instant::now();
    let mut child =
        Command::new(program).stdin(Stdio::piped()).stdout(file).spawn().map_err(fault)?;
    // The end of input follows at once. A program that takes no input shows by its text.
    let _ = child.stdin.take().expect("it is piped").write_all(&input);
    let (status, usage) = wait(child).map_err(fault)?;
    let clock = start.elapsed().as_secs_f64() * 1e3;
    if !status.success() {
        return Err(status.to_string());
    }
    Ok(Took { processor: usage.milliseconds(), clock, memory: usage.peak as f64 })
}

/// As Linux has it on x86-64, which the proved program is made for.
#[repr(C)]
#[derive(Default)]
struct Time {
    seconds: i64,
    microseconds: i64,
}

/// What a process has used; the peak of its memory is in kB.
#[repr(C)]
#[derive(Default)]
struct Usage {
    user: Time,
    system: Time,
    peak: i64,
    others: [i64; 13],
}

extern "C" {
    fn wait4(process: i32, status: *mut i32, options: i32, usage: *mut Usage) -> i32;
    fn getrusage(who: i32, usage: *mut Usage) -> i32;
}

impl Usage {
    /// The processor's time, in the program and in the system for it.
    fn milliseconds(&self) -> f64 {
        let milliseconds = |time: &Time| time.seconds as f64 * 1e3 + time.microseconds as f64 / 1e3;
        milliseconds(&self.user) + milliseconds(&self.system)
    }
}

/// Waits for the end of a process, and gives what it used.
fn wait(child: Child) -> io::Result<(ExitStatus, Usage)> {
    let (mut status, mut usage) = (0, Usage::default());
    let process = child.id() as i32;
    // Safety: the system writes the status and the usage where it is told to.
    if unsafe { wait4(process, &mut status, 0, &mut usage) } != process {
        return Err(io::Error::last_os_error());
    }
    Ok((ExitStatus::from_raw(status), usage))
}

/// The peak of this program's own memory, in kB.
fn own_peak() -> i64 {
    const SELF: i32 = 0;
    let mut usage = Usage::default();
    // Safety: the system writes the usage where it is told to.
    let ended = unsafe { getrusage(SELF, &mut usage) };
    assert_eq!(ended, 0, "the system tells no usage");
    usage.peak
}
