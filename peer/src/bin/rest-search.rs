//! rest-search SECONDS [SEED]: how many of T-13's events (deliver, lose, expire, tick, finish) can be accepted from a table of
//! a run, as many as it finds in about so long in all. First all tables of 2 nodes while few messages may wait, ever
//! more of them: a line for each with the most events in a row, which is the most there is, and beside it what the search finds.
//! Then the search for 2, 3 and 4 nodes in the tower, 4 on the stand, and 16 in the tower: a line for each with the most that
//! it found, the potential of the table, and the bound with as many messages as wait in it and as may. It compares
//! nothing, and is no test.

use peer::fuzz_loop::seconds_and_seed;
use peer::machine::{Limits, STAND, TOWER};
use peer::rest::every::every;
use peer::rest::search::search;
use std::process::ExitCode;
use std::time::{Duration, Instant};

/// So many tables take some gigabytes.
const TOO_MANY: usize = 8_000_000;

fn main() -> ExitCode {
    let (seconds, seed) = match seconds_and_seed("rest-search") {
        Ok(given) => given,
        Err(words) => {
            eprintln!("{words}");
            return ExitCode::from(2);
        }
    };
    println!("seed {seed}");
    let part = Duration::from_secs(seconds) / 6;
    every_table(part, seed);
    for (n, limits) in [(2, TOWER), (3, TOWER), (4, TOWER), (4, STAND), (16, TOWER)] {
        println!("{}", search(n, limits, part, seed).line());
    }
    ExitCode::SUCCESS
}

/// All tables of 2 nodes, as long as there is time: with one message more there are about twice as many.
fn every_table(time: Duration, seed: u64) {
    let start = Instant::now();
    for messages in 1..=TOWER.messages {
        let before = start.elapsed();
        let Some(every) = every(2, messages, TOO_MANY) else {
            return;
        };
        let limits = Limits { messages, ..TOWER };
        let found = search(2, limits, time / 16, seed).quiet.len();
        println!(
            "n 2, at most {messages} waiting: {} tables, at most {} quiet events accepted, from a potential of {}; \
             the search finds {found}",
            every.tables, every.longest, every.potential
        );
        if start.elapsed() + 3 * (start.elapsed() - before) > time {
            return;
        }
    }
}
