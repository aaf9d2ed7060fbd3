//! Compares a library and two programs with this crate's `text-of-list` and `list-of-text`, byte for byte: on the lists of
//! directories, on damaged and random ones, on texts in every manner, wrong ones too, and at the limits of both. Counts
//! what was met.

use crate::corners::Source;
use crate::damage::other_first;
use crate::ending::told;
use crate::list::write_list;
use crate::list_text::compare::{judge_list, judge_text};
use crate::list_text::corners::{book, Corner};
use crate::list_text::limits;
use crate::list_text::list_of_text::list_or_line;
use crate::list_text::text_of_list::text_of_list;
use crate::list_text::texts::{any_events, any_text, joined, Part};
use crate::list_text::FIRST_WORDS;
use crate::machine::TOWER;
use crate::numbers::Numbers;
use crate::proved::{Library, Proved};
use crate::rest::lists::whole_or_damaged;
use crate::short;
use crate::shortest::shortest;
use crate::tally::Graded;
use crate::two_bytes::compare::{difference, input_words};
use crate::two_bytes::process::{mixed, ran, side_by_side, whole_path, Input};
use crate::vectors::read_named_lists;
use std::path::PathBuf;

const SEED: u64 = 20_260;
/// So many of each kind are made in one stretch, and there are so many stretches.
const STRETCH: usize = 500;
const LISTS: usize = 100;
const TEXTS: usize = 260;
/// One in so many goes through a program too.
const EACH: u32 = 160;
/// Lists and texts at their limits: so many times each kind.
const DEAR: usize = 14;
/// So many bytes are changed of a list of a directory, one at a time, or each if it has fewer; and of its text.
const CHANGES: [usize; 2] = [200, 50];
/// The lines of T-01 up to this length are texts.
const PASTED: u8 = 5;
/// More bytes than these are long: a list is then cut at its end alone, and a difference is not shortened.
const LONG: usize = 4096;

/// The two programs.
#[derive(Clone, Copy, Debug, PartialEq, Eq)]
pub enum Program {
    TextOfList,
    ListOfText,
}

/// What a program writes to standard output and standard error.
pub type Said = (Vec<u8>, Vec<u8>);

/// What a program does that is given TEXT_OF_LIST LIST_OF_TEXT [LISTS_DIR ..]. Gives how many comparisons passed and how
/// many failed; it ends at the first difference.
pub fn checked(name: &str) -> Result<(u64, u64), String> {
    let arguments: Vec<PathBuf> = std::env::args_os().skip(1).map(PathBuf::from).collect();
    let [text_of_list, list_of_text, directories @ ..] = arguments.as_slice() else {
        return Err(format!("{name} TEXT_OF_LIST LIST_OF_TEXT [LISTS_DIR ..]"));
    };
    let programs = [whole_path(text_of_list)?, whole_path(list_of_text)?];
    let lists = read_named_lists(directories)?;
    let runs = |program: Program, input: &[u8]| {
        let output = ran(&programs[program as usize], &Input::whole(input.to_vec()))?;
        Ok((output.stdout, output.stderr))
    };
    Ok(told(check(|| Proved, runs, &lists)))
}

/// Compares what a library, which each stretch has for itself, and two programs give. Gives how many comparisons passed; the
/// error is the first difference, or a corner that was met too seldom.
pub fn check<L: Library>(
    library: impl Fn() -> L + Sync,
    runs: impl Fn(Program, &[u8]) -> Result<Said, String> + Sync,
    lists: &[(String, Vec<u8>)],
) -> (u64, Result<(), String>) {
    println!("seed {SEED}");
    let pasted_from = LISTS + TEXTS;
    let limits_from = pasted_from + usize::from(short::MAX_N);
    let all = lists.len() + limits_from + DEAR;
    let order = mixed(&[lists.len(), LISTS, TEXTS, usize::from(short::MAX_N), DEAR]);
    let (stretches, found) = side_by_side(all, |k| {
        let k = order[k];
        // The random ones are the same with all directories.
        let seed = SEED + (all - k) as u64;
        let mut stretch = Stretch::new(library(), &runs, seed);
        let rest = k.wrapping_sub(lists.len());
        let made = match lists.get(k) {
            Some((_, list)) => stretch.named(list),
            None if rest < LISTS => stretch.lists(),
            None if rest < pasted_from => stretch.texts(),
            None if rest < limits_from => stretch.pasted((rest - pasted_from + 1) as u8),
            None => stretch.at_limits(rest - limits_from),
        };
        let name = lists.get(k).map_or_else(|| format!("seed {seed}"), |(name, _)| name.clone());
        made.map(|()| (stretch.met, stretch.counts)).map_err(|words| format!("{name}: {words}"))
    });
    let mut met = book();
    let mut counts = [0; 3];
    for (more, [lists, texts, processes]) in stretches {
        met.add_all(more);
        counts = [counts[0] + lists, counts[1] + texts, counts[2] + processes];
    }
    let [of_lists, of_texts, processes] = counts;
    if let Err(words) = found {
        return (of_lists + of_texts, Err(words));
    }
    print!("{}", met.text().replace("   in runs  in tables", "by program    library"));
    println!(
        "{of_lists} lists and {of_texts} texts through the library, {processes} of them through the programs too; \
         {} lists of directories",
        lists.len()
    );
    match met.wrong().first() {
        Some(words) => {
            (of_lists + of_texts, Err(format!("a corner has no place or is met {words}")))
        }
        None => (of_lists + of_texts, Ok(())),
    }
}

/// Where what was met through a program too is counted, and what was not.
fn source(by_program: bool) -> Source {
    if by_program {
        Source::Run
    } else {
        Source::Table
    }
}

/// What is done in one go: what was met, how many lists, texts and processes there were.
struct Stretch<'a, L, R> {
    library: L,
    runs: &'a R,
    numbers: Numbers,
    met: Graded<Corner>,
    counts: [u64; 3],
}

impl<'a, L: Library, R: Fn(Program, &[u8]) -> Result<Said, String>> Stretch<'a, L, R> {
    fn new(library: L, runs: &'a R, seed: u64) -> Stretch<'a, L, R> {
        let numbers = Numbers::new(seed);
        Stretch { library, runs, numbers, met: book(), counts: [0; 3] }
    }

    /// A list of a directory, and its text: as they are, cut at each length, with single bytes changed.
    fn named(&mut self, list: &[u8]) -> Result<(), String> {
        let text = text_of_list(list);
        self.judge(Program::TextOfList, list, true)?;
        self.judge(Program::ListOfText, &text, true)?;
        let first = if list.len() > LONG { list.len() - 8 } else { 0 };
        for length in first..list.len() {
            self.sometimes(Program::TextOfList, &list[..length])?;
        }
        for (program, bytes) in [(Program::TextOfList, list), (Program::ListOfText, &text)] {
            let changes = CHANGES[program as usize];
            let mut bytes = bytes.to_vec();
            for k in 0..bytes.len().min(changes) {
                let each = bytes.len() <= changes;
                let place = if each { k } else { self.numbers.place(bytes.len()) };
                let byte = std::mem::replace(&mut bytes[place], self.numbers.byte());
                self.sometimes(program, &bytes)?;
                bytes[place] = byte;
            }
        }
        let words = |line: &[u8]| -> Part {
            String::from_utf8_lossy(line).split(' ').map(String::from).collect()
        };
        let parts: Vec<Part> =
            text.trim_ascii_end().split(|&byte| byte == b'\n').map(words).collect();
        for _ in 0..8 {
            let text = joined(&parts, &mut self.numbers);
            self.sometimes(Program::ListOfText, &text)?;
        }
        Ok(())
    }

    /// Random lists, some of them damaged, empty, too long or nearly.
    fn lists(&mut self) -> Result<(), String> {
        for k in 0..STRETCH {
            let (_, limits) = self.numbers.of(&FIRST_WORDS);
            let n = self.numbers.between(1, u32::from(limits.nodes)) as u8;
            let many = self.numbers.between(280, 400);
            let few = self.numbers.below(8);
            let events = if self.numbers.one_in(5) { many } else { few };
            let mut list = write_list(n, limits, &any_events(events, &mut self.numbers));
            match self.numbers.below(5) {
                0 => list = other_first(&list, &mut self.numbers),
                1 => list.truncate(self.numbers.place(list.len())),
                _ => list = whole_or_damaged(k, list, &mut self.numbers),
            }
            self.sometimes(Program::TextOfList, &list)?;
        }
        Ok(())
    }

    /// Random texts, some of them wrong.
    fn texts(&mut self) -> Result<(), String> {
        for k in 0..STRETCH {
            let text = any_text(k, &mut self.numbers);
            self.sometimes(Program::ListOfText, &text)?;
        }
        Ok(())
    }

    /// Lists and texts as long as may be, and longer; each round has others.
    fn at_limits(&mut self, round: usize) -> Result<(), String> {
        for k in 0..2 {
            let list = limits::list(k, &mut self.numbers);
            self.judge(Program::TextOfList, &list, true)?;
        }
        for k in 0..limits::KINDS {
            let text = limits::text(k, round, &mut self.numbers);
            self.judge(Program::ListOfText, &text, true)?;
        }
        Ok(())
    }

    /// Lines of T-01 behind their n: what was printed there must be read as the events that it was printed for.
    fn pasted(&mut self, n: u8) -> Result<(), String> {
        for length in 0..=PASTED {
            let mut printed = Vec::new();
            let walked = short::print_lists(n, length, &mut printed);
            walked.expect("a Vec takes every list");
            let lines = printed.split(|&byte| byte == b'\n');
            for (line, events) in lines.zip(short::lists(n, length)) {
                let comma = !events.is_empty() && self.numbers.one_in(2);
                let (parted, corner): (_, Corner) = match comma {
                    true => (", ", ("a line of T-01", "behind n and a comma")),
                    false => ("\n", ("a line of T-01", "behind a line with n")),
                };
                let text = [format!("cabinets {n}{parted}").as_bytes(), line].concat();
                if list_or_line(&text) != Ok(write_list(n, TOWER, &events)) {
                    return Err(format!(
                        "the peer reads T-01's line otherwise: {}",
                        text.escape_ascii()
                    ));
                }
                let by_program = self.sometimes(Program::ListOfText, &text)?;
                self.met.add(source(by_program), corner);
            }
        }
        Ok(())
    }

    /// A comparison with the library, and now and then with a program. Gives whether it was.
    fn sometimes(&mut self, program: Program, input: &[u8]) -> Result<bool, String> {
        let by_program = self.numbers.one_in(EACH);
        self.judge(program, input, by_program).map(|()| by_program)
    }

    /// The same with the program or not.
    fn judge(&mut self, program: Program, input: &[u8], by_program: bool) -> Result<(), String> {
        let mut numbers = Numbers::new(self.numbers.bits());
        let met = self.by_library(program, input, &mut numbers).and_then(|met| match by_program {
            true => self.by_program(program, input).map(|()| met),
            false => Ok(met),
        });
        let met = met.map_err(|words| self.told(program, input, by_program, words))?;
        met.into_iter().for_each(|corner| self.met.add(source(by_program), corner));
        self.counts[program as usize] += 1;
        self.counts[2] += u64::from(by_program);
        Ok(())
    }

    /// A difference in words, on the shortest input that still shows one.
    fn told(&self, program: Program, input: &[u8], by_program: bool, words: String) -> String {
        let mut words = words;
        // With buffers of other lengths too.
        let differs = |input: &[u8]| {
            let by_library = |seed| self.by_library(program, input, &mut Numbers::new(seed)).err();
            let by_process = || by_program.then(|| self.by_program(program, input).err())?;
            let found = (0..8).find_map(by_library).or_else(by_process);
            found.inspect(|found| words.clone_from(found)).is_some()
        };
        let shown = match input.len() {
            0..=LONG => shortest(input.to_vec(), differs),
            _ => input.to_vec(),
        };
        let escaped = shown[..shown.len().min(300)].escape_ascii();
        format!("{program:?}, input {} \"{escaped}\": {words}", input_words(&shown))
    }

    /// What an input meets by the library; the error is a difference.
    fn by_library(
        &self,
        program: Program,
        input: &[u8],
        numbers: &mut Numbers,
    ) -> Result<Vec<Corner>, String> {
        match program {
            Program::TextOfList => judge_list(&self.library, input, numbers),
            Program::ListOfText => judge_text(&self.library, input, numbers),
        }
    }

    /// An input by the program; the error is a difference.
    fn by_program(&self, program: Program, input: &[u8]) -> Result<(), String> {
        let (out, err) = match program {
            Program::TextOfList => (text_of_list(input), vec![]),
            Program::ListOfText => match list_or_line(input) {
                Ok(list) => (list, vec![]),
                Err(line) => (vec![], line),
            },
        };
        let said = (self.runs)(program, input)?;
        difference(("peer", &out), ("program", &said.0))?;
        difference(("peer", &err), ("program", &said.1))
            .map_err(|words| format!("standard error, {words}"))
    }
}
