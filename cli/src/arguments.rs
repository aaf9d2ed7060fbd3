//! The command line: what is asked for.

use crate::failure::Failure;
use crate::help;
use std::ffi::{OsStr, OsString};
use std::path::PathBuf;

/// Where a list comes from, and how it is read.
#[derive(Debug, PartialEq)]
pub struct Source {
    /// None is standard input.
    pub file: Option<PathBuf>,
    pub reading: Reading,
}

impl Source {
    /// What it is called in what is told of it.
    pub fn name(&self) -> String {
        match &self.file {
            None => "standard input".to_string(),
            Some(path) => path.display().to_string(),
        }
    }
}

/// How a list is read.
#[derive(Clone, Copy, Debug, PartialEq)]
pub enum Reading {
    /// Its first byte tells.
    ByFirstByte,
    Bytes,
    Text,
}

/// In what form a run is shown.
#[derive(Clone, Copy, Debug, PartialEq)]
pub enum Form {
    Page,
    Svg,
}

#[derive(Debug, PartialEq)]
pub enum Ask {
    Help(String),
    Run(Source),
    Trace(Source),
    Text(Source),
    List(Source),
    ShortLists(u8, u8),
    Aldebaran(u8, u8),
    Rest(Source),
    Show(Source, Form),
}

/// Reads the words behind the command's name.
pub fn read(words: Vec<OsString>) -> Result<Ask, Failure> {
    let Some((first, rest)) = words.split_first() else {
        return Err(Failure::Usage("a subcommand is missing".to_string()));
    };
    let Some(name) = first.to_str() else {
        return Err(unknown(first));
    };
    match name {
        "--help" | "-h" | "help" => match rest {
            [] => Ok(Ask::Help(help::all())),
            [name] => match name.to_str().and_then(help::of) {
                Some(text) => Ok(Ask::Help(text)),
                None => Err(unknown(name)),
            },
            _ => Err(Failure::Usage("help takes one subcommand".to_string())),
        },
        "--version" | "-V" => match rest {
            [] => Ok(Ask::Help(format!("nevraspu {}\n", env!("CARGO_PKG_VERSION")))),
            _ => Err(Failure::Usage("--version takes nothing".to_string())),
        },
        _ => subcommand(name, rest),
    }
}

fn subcommand(name: &str, rest: &[OsString]) -> Result<Ask, Failure> {
    let Some(help) = help::of(name) else {
        return Err(unknown(OsStr::new(name)));
    };
    let words = Words::read(name, rest)?;
    if words.help {
        return Ok(Ask::Help(help));
    }
    match name {
        "run" => Ok(Ask::Run(words.source()?)),
        "trace" => Ok(Ask::Trace(words.source()?)),
        "text" => Ok(Ask::Text(words.source()?)),
        "list" => Ok(Ask::List(words.source()?)),
        "rest" => Ok(Ask::Rest(words.source()?)),
        "show" => {
            let form = if words.svg { Form::Svg } else { Form::Page };
            Ok(Ask::Show(words.source()?, form))
        }
        "short-lists" => {
            let (n, length) = words.numbers("N", "LENGTH")?;
            Ok(Ask::ShortLists(n, length))
        }
        _ => {
            let (n, length) = words.numbers("N", "L")?;
            Ok(Ask::Aldebaran(n, length))
        }
    }
}

fn unknown(name: &OsStr) -> Failure {
    Failure::Usage(format!("there is no subcommand {}", name.display()))
}

/// The words behind a subcommand, its options told from the others.
struct Words<'a> {
    name: &'a str,
    plain: Vec<&'a OsString>,
    help: bool,
    svg: bool,
    reading: Reading,
}

impl<'a> Words<'a> {
    fn read(name: &'a str, words: &'a [OsString]) -> Result<Words<'a>, Failure> {
        let takes_list = !matches!(name, "short-lists" | "aldebaran");
        let mut read =
            Words { name, plain: vec![], help: false, svg: false, reading: Reading::ByFirstByte };
        let mut words = words.iter();
        while let Some(word) = words.next() {
            match word.to_str() {
                Some("--help" | "-h") => read.help = true,
                Some("--") => {
                    read.plain.extend(words);
                    break;
                }
                Some("--svg") if name == "show" => read.svg = true,
                Some("--bytes") if takes_list => read.reads_by(Reading::Bytes)?,
                Some("--text") if takes_list => read.reads_by(Reading::Text)?,
                _ if word != "-" && word.as_encoded_bytes().starts_with(b"-") => {
                    return Err(read.wrong(&format!("has no option {}", word.display())));
                }
                _ => read.plain.push(word),
            }
        }
        Ok(read)
    }

    fn reads_by(&mut self, reading: Reading) -> Result<(), Failure> {
        if ![Reading::ByFirstByte, reading].contains(&self.reading) {
            return Err(self.wrong("takes --bytes or --text, not both"));
        }
        self.reading = reading;
        Ok(())
    }

    fn wrong(&self, why: &str) -> Failure {
        Failure::Usage(format!("{} {why}", self.name))
    }

    /// A file's name, or none or `-` for standard input.
    fn source(&self) -> Result<Source, Failure> {
        let file = match self.plain[..] {
            [] => None,
            [name] if name == "-" => None,
            [name] if !name.is_empty() => Some(PathBuf::from(name)),
            _ => return Err(self.wrong("takes the name of one file")),
        };
        Ok(Source { file, reading: self.reading })
    }

    /// Two numbers, each of one byte, as the library takes them.
    fn numbers(&self, first: &str, second: &str) -> Result<(u8, u8), Failure> {
        let number = |word: &OsString| {
            let word = word.to_str().filter(|word| word.bytes().all(|byte| byte.is_ascii_digit()));
            word.and_then(|word| word.parse().ok())
        };
        match self.plain[..] {
            [a, b] => number(a).zip(number(b)),
            _ => None,
        }
        .ok_or_else(|| self.wrong(&format!("takes {first} and {second}, numbers from 0 to 255")))
    }
}

#[cfg(test)]
mod tests {
    use super::*;

    fn read_words(line: &str) -> Result<Ask, Failure> {
        read(line.split_whitespace().map(OsString::from).collect())
    }

    fn source(file: Option<&str>, reading: Reading) -> Source {
        Source { file: file.map(PathBuf::from), reading }
    }

    #[test]
    fn lists_come_from_a_file_or_standard_input() {
        let run = |file, reading| Ok(Ask::Run(source(file, reading)));
        assert_eq!(read_words("run"), run(None, Reading::ByFirstByte));
        assert_eq!(read_words("run -"), run(None, Reading::ByFirstByte));
        assert_eq!(read_words("run --bytes a.list"), run(Some("a.list"), Reading::Bytes));
        assert_eq!(read_words("run a.list --text"), run(Some("a.list"), Reading::Text));
        assert_eq!(read_words("run -- --text"), run(Some("--text"), Reading::ByFirstByte));
        let svg = Ask::Show(source(Some("a"), Reading::ByFirstByte), Form::Svg);
        assert_eq!(read_words("show --svg a"), Ok(svg));
    }

    #[test]
    fn two_numbers() {
        assert_eq!(read_words("short-lists 3 7"), Ok(Ask::ShortLists(3, 7)));
        assert_eq!(read_words("aldebaran 255 0"), Ok(Ask::Aldebaran(255, 0)));
    }

    #[test]
    fn wrong_usage() {
        for line in [
            "",
            "runs",
            "run a b",
            "run --svg a",
            "run -x",
            "run --bytes --text a",
            "show --png a",
            "short-lists",
            "short-lists 3",
            "short-lists 3 7 1",
            "short-lists 3 x",
            "short-lists 256 1",
            "short-lists --bytes 3 1",
            "aldebaran 1 -1",
            "aldebaran 1 +1",
            "help runs",
            "help run trace",
            "--version run",
        ] {
            assert!(matches!(read_words(line), Err(Failure::Usage(_))), "{line}");
        }
        let empty = ["run", ""].map(OsString::from).to_vec();
        assert!(matches!(read(empty), Err(Failure::Usage(_))));
    }

    #[test]
    fn each_has_its_help() {
        for (name, _) in help::SUBCOMMANDS {
            let text = help::of(name).expect("a help");
            assert_eq!(read_words(&format!("{name} --help")), Ok(Ask::Help(text.clone())));
            assert_eq!(read_words(&format!("help {name}")), Ok(Ask::Help(text)));
        }
    }
}
