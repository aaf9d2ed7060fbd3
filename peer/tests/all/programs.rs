//! Programs that are run as processes: the peer's own of T-01, T-12 and T-13, those that compare others with them, and
//! scripts that print something wrong.

use peer::two_bytes::Request;
use peer::vectors::read_wrong_inputs;
use std::fs::{self, File};
use std::io::Write;
use std::path::{Path, PathBuf};
use std::process::{Command, Output, Stdio};

fn piped(program: impl AsRef<Path>) -> Command {
    let mut command = Command::new(program.as_ref());
    command.stdin(Stdio::piped()).stdout(Stdio::piped()).stderr(Stdio::piped());
    command
}

/// Runs a program on an input.
fn run(command: &mut Command, input: &[u8]) -> Output {
    let mut child = command.spawn().unwrap();
    child.stdin.take().unwrap().write_all(input).unwrap();
    child.wait_with_output().unwrap()
}

/// Whether a program failed and said so in one line that begins with these words.
fn complains(output: &Output, words: &str) -> bool {
    let told = String::from_utf8_lossy(&output.stderr);
    !output.status.success() && told.starts_with(words) && told.lines().count() == 1
}

/// Every wrong input of up to two bytes, some longer ones and the vectors' are refused, and no other of two bytes.
pub fn refuses_wrong_inputs(request: &Request, wrong_inputs: &str) {
    let refused = |input: &[u8]| request.text(input) == request.refusal;
    assert!(refused(&[]));
    for a in 0..=255 {
        assert!(refused(&[a]));
        for b in 0..=255 {
            let right = (1..=3).contains(&a) && b <= request.max_length;
            assert_eq!((request.read_input)(&[a, b]), right.then_some((a, b)));
            assert!(right || refused(&[a, b]));
        }
    }
    for length in 3..300 {
        assert!(refused(&vec![1; length]));
    }
    let wrong_inputs = read_wrong_inputs(wrong_inputs).unwrap();
    assert_eq!(wrong_inputs.len(), 10);
    for wrong in wrong_inputs {
        assert_eq!(wrong.text, request.refusal);
        assert!(refused(&wrong.input));
    }
}

/// A program of the peer's prints the text of each input.
pub fn prints_texts(program: &str, request: &Request, inputs: &[&[u8]]) {
    for input in inputs {
        prints_text(program, input, &request.text(input));
    }
}

/// A program of the peer's prints this text.
pub fn prints_text(program: &str, input: &[u8], text: &[u8]) {
    let mut child = piped(program).spawn().unwrap();
    // It may end before it has read all.
    let _ = child.stdin.take().unwrap().write_all(input);
    let output = child.wait_with_output().unwrap();
    assert!(output.status.success() && output.stderr.is_empty());
    assert!(output.stdout == text, "an input of {} bytes", input.len());
}

/// A program of the peer's prints nothing where its input can't be read, and says so.
pub fn cannot_read(program: &str) {
    let output = piped(program).stdin(File::open("/").unwrap()).output().unwrap();
    assert!(output.stdout.is_empty() && complains(&output, "standard input: "));
}

/// A program of the peer's says so where its text can't be written: to a file that is open for reading alone, and to a
/// full disk.
pub fn cannot_write(program: &str, inputs: &[[u8; 2]]) {
    let for_reading = File::open("/dev/null").ok();
    let full = File::options().write(true).open("/dev/full").ok();
    for file in [for_reading, full].into_iter().flatten() {
        for input in inputs {
            let output = run(piped(program).stdout(file.try_clone().unwrap()), input);
            assert!(complains(&output, "standard output: "));
        }
    }
}

/// The same of a pipe that nobody reads, for a text that does not fit into it.
pub fn nobody_reads(program: &str, input: [u8; 2]) {
    let mut child = piped(program).spawn().unwrap();
    drop(child.stdout.take());
    child.stdin.take().unwrap().write_all(&input).unwrap();
    assert!(complains(&child.wait_with_output().unwrap(), "standard output: "));
}

/// A program that compares others with one of the peer's, and a folder of its own, which is removed at the end.
pub struct Checker {
    program: &'static str,
    peer: &'static str,
    /// The folder of the vectors.
    vectors: PathBuf,
    folder: PathBuf,
}

impl Checker {
    pub fn new(program: &'static str, peer: &'static str, vectors: &str) -> Checker {
        let folder = std::env::temp_dir().join(format!("check-{vectors}-{}", std::process::id()));
        fs::create_dir_all(&folder).unwrap();
        let vectors = Path::new(env!("CARGO_MANIFEST_DIR")).join("../tests").join(vectors);
        Checker { program, peer, vectors, folder }
    }

    /// The status, and all that is printed.
    fn check(&self, program: &Path, vectors: &Path) -> (Option<i32>, String) {
        let output = Command::new(self.program).args([program, vectors]).output().unwrap();
        let printed = [output.stdout, output.stderr].concat();
        (output.status.code(), String::from_utf8(printed).unwrap())
    }

    /// It ends with status 1 and says these words.
    fn finds(&self, program: &Path, vectors: &Path, words: &str) {
        let (status, printed) = self.check(program, vectors);
        assert_eq!(status, Some(1), "{printed}");
        assert!(printed.contains(words), "{words}: {printed}");
        assert!(printed.ends_with(" passed, 1 failed\n"), "{printed}");
    }

    /// It finds what is wrong with a program of these commands, in which PEER is the peer's.
    pub fn finds_wrong(&self, commands: &str, words: &str) {
        self.finds(&self.script(commands), &self.vectors, words);
    }

    /// The program is written by a process of its own: a file that this one has open for writing can be held open by
    /// a process that another test starts just then, and could not be run.
    fn script(&self, commands: &str) -> PathBuf {
        let path = self.folder.join("script");
        let script = format!("#!/bin/sh\n{}\n", commands.replace("PEER", self.peer));
        let mut writer = piped("sh");
        writer.args(["-c", r#"cat >"$0" && chmod 755 "$0""#]).arg(&path);
        assert!(run(&mut writer, script.as_bytes()).status.success());
        path
    }

    /// It finds a wrong text among the vectors.
    pub fn finds_wrong_text(&self, name: &str, text: &str, words: &str) {
        self.copy_vectors(None);
        fs::write(self.folder.join(name), text).unwrap();
        self.finds(Path::new(self.peer), &self.folder, words);
        fs::remove_file(self.folder.join(name)).unwrap();
    }

    /// It finds what is wrong with sums.txt where some words are others.
    pub fn finds_wrong_sum(&self, from: &str, to: &str, words: &str) {
        self.copy_vectors(Some((from, to)));
        self.finds(Path::new(self.peer), &self.folder, words);
    }

    /// It ends with status 2 where sums.txt has other inputs, is missing, or the program is.
    pub fn cannot_run(&self, from: &str, to: &str) {
        self.copy_vectors(Some((from, to)));
        assert_eq!(self.check(Path::new(self.peer), &self.folder).0, Some(2));
        fs::remove_file(self.folder.join("sums.txt")).unwrap();
        assert_eq!(self.check(Path::new(self.peer), &self.folder).0, Some(2));
        assert_eq!(self.check(&self.folder.join("none"), &self.vectors).0, Some(2));
    }

    /// Copies the vectors but the texts to the folder of its own, with some words of sums.txt changed.
    fn copy_vectors(&self, change: Option<(&str, &str)>) {
        let read = |name: &str| fs::read_to_string(self.vectors.join(name)).unwrap();
        let mut sums = read("sums.txt");
        if let Some((from, to)) = change {
            assert!(sums.contains(from));
            sums = sums.replace(from, to);
        }
        fs::write(self.folder.join("sums.txt"), sums).unwrap();
        fs::write(self.folder.join("wrong-inputs.txt"), read("wrong-inputs.txt")).unwrap();
    }
}

impl Drop for Checker {
    fn drop(&mut self) {
        let _ = fs::remove_dir_all(&self.folder);
    }
}
