//! The comparison of a program with the peer: on every input that is not refused, byte by byte, each once in
//! one piece and once in two; and on wrong inputs of every kind, random ones among them, the same ones each time.
//! With vectors both are held to them.

use crate::ending::told;
use crate::numbers::Numbers;
use crate::proved::Proved;
use crate::sha256::sha256;
use crate::two_bytes::corners::{corners, rounds, Corner};
use crate::two_bytes::library;
use crate::two_bytes::process::{printed, side_by_side, whole_path, Input};
use crate::two_bytes::Request;
use crate::vectors::{read_sums, read_wrong_inputs, Sum, WrongInput};
use std::path::{Path, PathBuf};

const SEED: u64 = 20_260;
/// How often each corner is met at least.
const TIMES: usize = 1000;
/// An input that is not refused comes once in one piece, and once with a pause behind its first byte.
const WAYS: [Option<usize>; 2] = [None, Some(1)];

/// What a program does that is given PROGRAM [FOLDER]: it compares PROGRAM with the peer and with the vectors in
/// FOLDER, and then the proved library with the peer, prints what was compared, how often each corner was met, and the
/// first difference, at which it ends. Gives how many inputs and calls passed and how many failed.
pub fn compared(name: &str, request: &'static Request) -> Result<(u64, u64), String> {
    let arguments: Vec<PathBuf> = std::env::args_os().skip(1).map(PathBuf::from).collect();
    let (program, vectors) = match arguments.as_slice() {
        [program] => (program, Vectors::default()),
        [program, folder] => (program, Vectors::read(request, folder)?),
        _ => return Err(format!("{name} PROGRAM [FOLDER]")),
    };
    let program = whole_path(program)?;
    let (mut passed, mut found) =
        compare(request, &vectors, |input: &Input| printed(&program, input));
    if found.is_ok() {
        let (calls, by_library) = library::compare(request, || Proved);
        (passed, found) = (passed + calls, by_library);
    }
    Ok(told((passed, found)))
}

/// Compares what is printed for each input. Gives how many inputs passed; the error is the first difference.
pub fn compare(
    request: &'static Request,
    vectors: &Vectors,
    prints: impl Fn(&Input) -> Result<Vec<u8>, String> + Sync,
) -> (u64, Result<(), String>) {
    let corners = corners(request);
    let mut comparison = Comparison { request, corners, vectors, prints, passed: 0 };
    let found = comparison.texts().and_then(|()| comparison.wrong_inputs());
    (comparison.passed, found)
}

/// What a folder has. Without one there is nothing in it.
#[derive(Debug, Default)]
pub struct Vectors {
    /// What is known of the text of each input, in order, and the text where it is there.
    texts: Vec<(Sum, Option<Vec<u8>>)>,
    wrong_inputs: Vec<WrongInput>,
}

impl Vectors {
    pub fn read(request: &Request, folder: &Path) -> Result<Vectors, String> {
        let read = |name: &str| {
            let path = folder.join(name);
            std::fs::read_to_string(&path).map_err(|e| format!("{}: {e}", path.display()))
        };
        let sums = read_sums(&read("sums.txt")?)?;
        if !sums.iter().map(|sum| (sum.n, sum.length)).eq(request.inputs()) {
            return Err("sums.txt does not have a line for each input, in order".to_string());
        }
        let mut texts = Vec::new();
        for sum in sums {
            let name = format!("{}-{}.{}", sum.n, sum.length, request.ending);
            let there = folder.join(&name).exists();
            let text = if there { Some(read(&name)?.into_bytes()) } else { None };
            texts.push((sum, text));
        }
        Ok(Vectors { texts, wrong_inputs: read_wrong_inputs(&read("wrong-inputs.txt")?)? })
    }
}

struct Comparison<'a, P> {
    request: &'static Request,
    corners: Vec<Corner>,
    vectors: &'a Vectors,
    prints: P,
    passed: u64,
}

impl<P: Fn(&Input) -> Result<Vec<u8>, String> + Sync> Comparison<'_, P> {
    /// The inputs that are not refused. The error is the first difference.
    fn texts(&mut self) -> Result<(), String> {
        let inputs: Vec<(u8, u8)> = self.request.inputs().collect();
        let (texts, found) = side_by_side(inputs.len(), |k| self.text(k, inputs[k]));
        self.passed += WAYS.len() as u64 * texts.len() as u64;
        found?;
        println!(
            "{} inputs, {} {}, {} bytes: the program and the peer print the same",
            inputs.len(),
            texts.iter().map(|(count, _)| count).sum::<u64>(),
            self.request.items,
            texts.iter().map(|(_, bytes)| bytes).sum::<usize>()
        );
        println!(
            "both against the vectors: {} sums, {} texts",
            self.vectors.texts.len(),
            self.vectors.texts.iter().filter(|(_, text)| text.is_some()).count()
        );
        Ok(())
    }

    /// The text of input k. Gives how many lists or states it has, and its bytes.
    fn text(&self, k: usize, (n, length): (u8, u8)) -> Result<(u64, usize), String> {
        let tell = |words: String| format!("n {n}, length {length}: {words}");
        let own = self.request.text(&[n, length]);
        let count = (self.request.count)(n, length);
        if let Some((sum, text)) = self.vectors.texts.get(k) {
            let items = self.request.items;
            vector_difference(items, sum, text.as_deref(), count, &own).map_err(tell)?;
        }
        for pause in WAYS {
            let text = (self.prints)(&Input { bytes: vec![n, length], pause }).map_err(tell)?;
            // Each of the two says for itself what is wrong.
            let by_bytes = difference(("peer", &own), ("program", &text)).err();
            let by_reading = self.request.reading.and_then(|read| read(n, length, &text).err());
            let by_reading = by_reading.map(|words| format!("read by itself, {words}"));
            let found: Vec<String> = by_bytes.into_iter().chain(by_reading).collect();
            if !found.is_empty() {
                return Err(tell(found.join("\n")));
            }
        }
        Ok((count, own.len()))
    }

    /// Inputs that are refused, with the text. The error is the first difference.
    fn wrong_inputs(&mut self) -> Result<(), String> {
        println!("seed {SEED}");
        let rounds = rounds(&self.corners, TIMES);
        let of_vectors = self.vectors.wrong_inputs.len();
        let all = of_vectors + rounds.len();
        let (refused, found) = side_by_side(all, |k| match self.vectors.wrong_inputs.get(k) {
            Some(wrong) => self.refused(&Input::whole(wrong.input.clone()), &wrong.text),
            None => {
                let numbers = &mut Numbers::new(SEED + (k - of_vectors) as u64);
                let input = rounds[k - of_vectors].random(self.request, numbers);
                self.refused(&input, self.request.refusal)
            }
        });
        self.passed += refused.len() as u64;
        found?;
        println!("   refused  corner");
        let mut often = 0;
        for (k, corner) in self.corners.iter().enumerate() {
            let count = refused.iter().filter(|refused| refused.met[k]).count();
            println!("{count:>10}  {}", corner.words(self.request));
            often += usize::from(count >= TIMES);
        }
        println!("{} corners, {often} met a thousand times or more", self.corners.len());
        println!(
            "{all} wrong inputs, {of_vectors} of them of the vectors, {} in two pieces",
            refused.iter().filter(|refused| refused.in_pieces).count()
        );
        if often < self.corners.len() {
            return Err("a corner was met too seldom".to_string());
        }
        Ok(())
    }

    /// Whether an input is refused with this text.
    fn refused(&self, input: &Input, text: &[u8]) -> Result<Refused, String> {
        let met = |corner: &Corner| corner.met(self.request, &input.bytes);
        let met: Vec<bool> = self.corners.iter().map(met).collect();
        let tell = |words: String| format!("input {}: {words}", input_words(&input.bytes));
        if !met.contains(&true) {
            return Err(tell("nothing is wrong".to_string()));
        }
        let own = self.request.text(&input.bytes);
        difference(("expected", text), ("peer", &own)).map_err(tell)?;
        let printed = (self.prints)(input).map_err(tell)?;
        difference(("expected", text), ("program", &printed)).map_err(tell)?;
        Ok(Refused { met, in_pieces: input.pause.is_some() })
    }
}

/// A wrong input that was refused as it must be.
struct Refused {
    /// Whether it meets each of the corners.
    met: Vec<bool>,
    in_pieces: bool,
}

/// What a vector says of a text, against the one that the peer prints; the error is the difference.
fn vector_difference(
    items: &str,
    sum: &Sum,
    text: Option<&[u8]>,
    count: u64,
    own: &[u8],
) -> Result<(), String> {
    if let Some(text) = text {
        difference(("vector", text), ("peer", own))?;
    }
    let words = |count: u64, bytes: u64, sha256: &str| {
        format!("{count} {items}, {bytes} bytes, sha256 {sha256}")
    };
    let expected = words(sum.count, sum.bytes, &sum.sha256);
    let found = words(count, own.len() as u64, &sha256(own));
    if found != expected {
        return Err(format!("sums.txt has {expected}; the peer has {found}"));
    }
    Ok(())
}

/// The first place where two texts with their names differ, as the error.
pub fn difference(a: (&str, &[u8]), b: (&str, &[u8])) -> Result<(), String> {
    if a.1 == b.1 {
        return Ok(());
    }
    let same = a.1.iter().zip(b.1).take_while(|(x, y)| x == y).count();
    let begin = a.1[..same].iter().rposition(|&byte| byte == b'\n').map_or(0, |place| place + 1);
    let line = a.1[..same].iter().filter(|&&byte| byte == b'\n').count() + 1;
    let mut words = format!("difference at byte {same}, in line {line}");
    for (name, text) in [a, b] {
        let rest = &text[begin..];
        let end = rest.iter().position(|&byte| byte == b'\n').map_or(rest.len(), |place| place + 1);
        let shown = rest[..end.min(300)].escape_ascii();
        words += &format!("\n  {name}, {} bytes in all: {shown}", text.len());
    }
    Err(words)
}

/// An input's bytes, or the first of them.
pub fn input_words(input: &[u8]) -> String {
    let shown: Vec<String> = input.iter().take(20).map(|byte| format!("{byte:02x}")).collect();
    format!("of {} bytes [{}]", input.len(), shown.join(" "))
}
