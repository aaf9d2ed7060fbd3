//! Compares a library and a program with this crate's `trace`, byte for byte: on the lists of directories, whole, cut and
//! damaged, and on random ones. Counts what was met.

use crate::compare::tell_list;
use crate::corners::Source;
use crate::damage::damage;
use crate::ending::told;
use crate::numbers::Numbers;
use crate::proved::{Library, Proved};
use crate::tally::Graded;
use crate::trace::compare::judge_list;
use crate::trace::corners::{book, Corner};
use crate::trace::lists::{any_list, long_list};
use crate::trace::text::trace;
use crate::two_bytes::compare::{difference, input_words};
use crate::two_bytes::process::{mixed, printed, side_by_side, whole_path, Input};
use crate::vectors::read_named_lists;
use std::collections::HashSet;
use std::path::PathBuf;

const SEED: u64 = 20_260;
/// So many random lists are made in one stretch, and there are so many stretches.
const STRETCH: usize = 250;
const STRETCHES: usize = 200;
/// So many stretches of one list that is as long as may be.
const LONG_LISTS: usize = 22;
/// A list of a directory is cut at so many places and damaged so many times.
const VARIANTS: usize = 20;
/// One in so many lists goes through the program too.
const EACH: u32 = 40;
/// A longer list is not shortened where it shows a difference.
const LONG: usize = 4096;

/// What a program does that is given PROGRAM [LISTS_DIR ..]. Gives how many lists passed and how many failed; it ends at
/// the first difference.
pub fn checked(name: &str) -> Result<(u64, u64), String> {
    let arguments: Vec<PathBuf> = std::env::args_os().skip(1).map(PathBuf::from).collect();
    let [program, directories @ ..] = arguments.as_slice() else {
        return Err(format!("{name} PROGRAM [LISTS_DIR ..]"));
    };
    let program = whole_path(program)?;
    let lists = read_named_lists(directories)?;
    let prints = |list: &[u8]| printed(&program, &Input::whole(list.to_vec()));
    Ok(told(check(|| Proved, prints, &lists)))
}

/// Compares what a library, which each stretch has for itself, and a program give. Gives how many lists passed; the error is
/// the first difference, or a corner that was met too seldom.
pub fn check<L: Library>(
    library: impl Fn() -> L + Sync,
    prints: impl Fn(&[u8]) -> Result<Vec<u8>, String> + Sync,
    lists: &[(String, Vec<u8>)],
) -> (u64, Result<(), String>) {
    println!("seed {SEED}");
    let all = STRETCHES + LONG_LISTS + lists.len();
    let order = mixed(&[STRETCHES, LONG_LISTS, lists.len()]);
    let (stretches, found) = side_by_side(all, |k| {
        let k = order[k];
        let seed = SEED + k as u64;
        let (library, prints, numbers) = (library(), &prints, Numbers::new(seed));
        let mut stretch = Stretch { library, prints, numbers, met: book(), counts: [0; 2] };
        let named = k.checked_sub(STRETCHES + LONG_LISTS).map(|k| &lists[k]);
        let made = match named {
            Some((_, list)) => stretch.named(list),
            None if k < STRETCHES => stretch.random(),
            None => stretch.long(k),
        };
        let name = named.map_or_else(|| format!("seed {seed}"), |(name, _)| name.clone());
        made.map(|()| (stretch.met, stretch.counts)).map_err(|words| format!("{name}: {words}"))
    });
    let mut met = book();
    let [mut passed, mut processes] = [0; 2];
    for (more, counts) in stretches {
        met.add_all(more);
        (passed, processes) = (passed + counts[0], processes + counts[1]);
    }
    if let Err(words) = found {
        return (passed, Err(words));
    }
    print!("{}", met.text().replace("   in runs  in tables", "by program    library"));
    println!(
        "{passed} lists through the library, {processes} of them through the program too; \
         {} lists of directories, each with {} variants",
        lists.len(),
        2 * VARIANTS
    );
    (passed, met.wrong().into_iter().next().map_or(Ok(()), Err))
}

/// What is done in one go: what was met, and how many lists and processes there were.
struct Stretch<'a, L, P> {
    library: L,
    prints: &'a P,
    numbers: Numbers,
    met: Graded<Corner>,
    counts: [u64; 2],
}

impl<L: Library, P: Fn(&[u8]) -> Result<Vec<u8>, String>> Stretch<'_, L, P> {
    /// A list of a directory, as it is, cut and damaged.
    fn named(&mut self, list: &[u8]) -> Result<(), String> {
        self.judge(list, true)?;
        for _ in 0..VARIANTS {
            let length = self.numbers.place(list.len() + 1);
            self.sometimes(&list[..length])?;
            let mut damaged = list.to_vec();
            damage(&mut damaged, &mut self.numbers);
            self.sometimes(&damaged)?;
        }
        Ok(())
    }

    fn long(&mut self, k: usize) -> Result<(), String> {
        let list = long_list(k, &mut self.numbers);
        self.judge(&list, true)
    }

    fn random(&mut self) -> Result<(), String> {
        for _ in 0..STRETCH {
            let list = any_list(&mut self.numbers);
            self.sometimes(&list)?;
        }
        Ok(())
    }

    /// A comparison with the library, and now and then with the program.
    fn sometimes(&mut self, list: &[u8]) -> Result<(), String> {
        let by_program = self.numbers.one_in(EACH);
        self.judge(list, by_program)
    }

    /// The same with the program or not.
    fn judge(&mut self, list: &[u8], by_program: bool) -> Result<(), String> {
        let seed = self.numbers.bits();
        let met = self.by_library(list, seed).and_then(|met| match by_program {
            true => self.by_program(list).map(|()| met),
            false => Ok(met),
        });
        let met = met.map_err(|words| self.in_words(list, by_program, seed, words))?;
        let source = if by_program { Source::Run } else { Source::Table };
        met.into_iter().for_each(|corner| self.met.add(source, corner));
        self.counts[0] += 1;
        self.counts[1] += u64::from(by_program);
        Ok(())
    }

    /// What a list meets by the library; the error is a difference.
    fn by_library(&self, list: &[u8], seed: u64) -> Result<HashSet<Corner>, String> {
        judge_list(&self.library, list, &mut Numbers::new(seed))
    }

    /// A list by the program; the error is a difference.
    fn by_program(&self, list: &[u8]) -> Result<(), String> {
        let text = (self.prints)(list)?;
        difference(("peer", &trace(list).text), ("program", &text))
    }

    /// A difference on the shortest list that still shows one, if this is not a long one.
    fn in_words(&self, list: &[u8], by_program: bool, seed: u64, words: String) -> String {
        if list.len() > LONG {
            return format!("a list {}: {words}", input_words(list));
        }
        // With buffers of other lengths too, where not all of them show it.
        let differs = |list: &[u8], more: u64| self.by_library(list, seed.wrapping_add(more)).err();
        let buffers = if (0..8).all(|more| differs(list, more).is_some()) { 1 } else { 8 };
        tell_list(list, |list| {
            let by_library = (0..buffers).find_map(|more| differs(list, more));
            by_library.or_else(|| by_program.then(|| self.by_program(list).err())?)
        })
    }
}
