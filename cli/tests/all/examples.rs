//! The example of each `--help`, run as it stands there.

use crate::process::{nevraspu, output_of, root, status};
use std::path::Path;
use std::process::Command;

fn help(arguments: &[&str]) -> String {
    let output = output_of(nevraspu(arguments), b"");
    assert_eq!(status(&output), 0);
    String::from_utf8(output.stdout).expect("text")
}

#[test]
fn each_example_runs() {
    let all = help(&["--help"]);
    let names: Vec<&str> = all
        .lines()
        .filter_map(|line| line.strip_prefix("  "))
        .filter_map(|line| line.split(' ').next())
        .collect();
    let expected = "run trace text list short-lists aldebaran rest show";
    assert_eq!(names.join(" "), expected);
    let command = Path::new(env!("CARGO_BIN_EXE_nevraspu"));
    let folder = command.parent().expect("its folder").to_str().expect("a name");
    let path = format!("{folder}:{}", std::env::var("PATH").expect("a path"));
    std::fs::create_dir_all(root().join("target")).expect("target/");
    for name in names {
        let text = help(&[name, "--help"]);
        assert!(text.starts_with(&format!("Usage: nevraspu {name} ")), "{text}");
        let example = text.lines().last().expect("an example").trim();
        assert!(example.starts_with(&format!("nevraspu {name} ")), "{example}");
        let mut shell = Command::new("sh");
        shell.args(["-c", example]).env("PATH", &path).current_dir(root());
        let output = output_of(shell, b"");
        assert_eq!(status(&output), 0, "{example}");
        assert!(output.stderr.is_empty(), "{example}");
        let written = match example.split_once(" > ") {
            Some((_, file)) => std::fs::read(root().join(file)).expect("what it wrote"),
            None => output.stdout,
        };
        assert!(!written.is_empty(), "{example}");
    }
}
