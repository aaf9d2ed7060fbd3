//! A program's text, by a process of its own for each input, and many processes at a time.

use std::io::Write;
use std::path::{Path, PathBuf};
use std::process::{ChildStdin, Command, Output, Stdio};
use std::sync::atomic::{AtomicUsize, Ordering};
use std::time::Duration;

/// So many processes run at a time.
const AT_A_TIME: usize = 16;
/// The time between two pieces of an input, in which the program is likely to read the first.
const PAUSE: Duration = Duration::from_millis(20);
/// An empty pipe takes so much at once, though nobody reads it yet.
const PIPE: usize = 4096;

/// An input, and where there is a pause in it, if there is one.
#[derive(Clone, Debug)]
pub struct Input {
    pub bytes: Vec<u8>,
    pub pause: Option<usize>,
}

impl Input {
    pub fn whole(bytes: Vec<u8>) -> Input {
        Input { bytes, pause: None }
    }

    /// Writes it to a program, which may end before it has read all.
    fn feed(&self, mut stdin: ChildStdin) {
        let (first, later) = self.bytes.split_at(self.pause.unwrap_or(self.bytes.len()));
        if stdin.write_all(first).is_ok() && !later.is_empty() {
            std::thread::sleep(PAUSE);
            let _ = stdin.write_all(later);
        }
    }
}

/// The whole path of a program, which must be there.
pub fn whole_path(program: &Path) -> Result<PathBuf, String> {
    program.canonicalize().map_err(|e| format!("{}: {e}", program.display()))
}

/// What a program prints for an input. It must end well, and say nothing on standard error.
pub fn printed(program: &Path, input: &Input) -> Result<Vec<u8>, String> {
    let output = ran(program, input)?;
    if output.stderr.is_empty() {
        Ok(output.stdout)
    } else {
        Err(ending(&output))
    }
}

/// What a program prints for an input, on standard error too. It must end well.
pub fn ran(program: &Path, input: &Input) -> Result<Output, String> {
    let fault = |e: std::io::Error| format!("the program can't be run: {e}");
    let mut child = Command::new(program)
        .stdin(Stdio::piped())
        .stdout(Stdio::piped())
        .stderr(Stdio::piped())
        .spawn()
        .map_err(fault)?;
    let stdin = child.stdin.take().expect("it is piped");
    let output = std::thread::scope(|scope| {
        if input.bytes.len() <= PIPE {
            input.feed(stdin);
        } else {
            // Its text is read while a long input is written.
            scope.spawn(|| input.feed(stdin));
        }
        child.wait_with_output()
    });
    let output = output.map_err(fault)?;
    if output.status.success() {
        Ok(output)
    } else {
        Err(ending(&output))
    }
}

/// How a program ended, in words.
fn ending(output: &Output) -> String {
    let words = output.stderr.escape_ascii();
    format!("the program: {}, standard error: {words}", output.status)
}

/// The numbers from 0 to the sum of these counts, in an order in which those of each count are spread evenly among the
/// others: what only a few of them show is found soon.
pub fn mixed(counts: &[usize]) -> Vec<usize> {
    let mut order: Vec<(f64, usize)> = Vec::new();
    for &count in counts {
        let first = order.len();
        order.extend((0..count).map(|k| ((k as f64 + 0.5) / count as f64, first + k)));
    }
    order.sort_by(|a, b| a.0.total_cmp(&b.0));
    order.into_iter().map(|(_, number)| number).collect()
}

/// Works on the numbers from 0 to so many, many at a time, up to the first error. Gives what came of those before it, in
/// order, and the error.
pub fn side_by_side<T: Send>(
    count: usize,
    work: impl Fn(usize) -> Result<T, String> + Sync,
) -> (Vec<T>, Result<(), String>) {
    let next = AtomicUsize::new(0);
    // At an error no further number is taken. Those below it are taken already, and are worked on to the end.
    let worker = || {
        let mut done = Vec::new();
        loop {
            let k = next.fetch_add(1, Ordering::Relaxed);
            if k >= count {
                return done;
            }
            let result = work(k);
            if result.is_err() {
                next.store(count, Ordering::Relaxed);
            }
            done.push((k, result));
        }
    };
    let mut done: Vec<(usize, Result<T, String>)> = std::thread::scope(|scope| {
        let workers: Vec<_> = (0..AT_A_TIME.min(count)).map(|_| scope.spawn(worker)).collect();
        workers.into_iter().flat_map(|w| w.join().expect("it ends without a panic")).collect()
    });
    done.sort_by_key(|&(k, _)| k);
    let mut results = Vec::new();
    for (_, result) in done {
        match result {
            Ok(result) => results.push(result),
            Err(words) => return (results, Err(words)),
        }
    }
    (results, Ok(()))
}
