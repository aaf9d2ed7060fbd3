//! Reading and writing that fails, and what a terminal is shown.

use crate::process::{fed, folder, nevraspu, output_of, program, status, told};
use std::fs::{self, File};
use std::io::Read;
use std::process::{Command, Stdio};

#[test]
fn no_such_file() {
    let output = output_of(nevraspu(&["run", "no/such.list"]), b"");
    assert_eq!(status(&output), 3);
    assert!(told(&output).starts_with("nevraspu: no/such.list: No such file"), "{}", told(&output));
    assert!(output.stdout.is_empty());
}

#[test]
fn a_folder_is_no_list() {
    for output in [
        output_of(nevraspu(&["trace", "examples"]), b""),
        fed_from(nevraspu(&["trace"]), File::open("/").expect("the root")),
    ] {
        assert_eq!(status(&output), 3);
        assert!(told(&output).contains(": Is a directory"), "{}", told(&output));
        assert!(output.stdout.is_empty());
    }
}

fn fed_from(mut command: Command, input: File) -> std::process::Output {
    command.stdin(input).output().expect("it starts")
}

#[test]
fn a_full_disk_is_told() {
    let full = || File::options().write(true).open("/dev/full");
    if full().is_err() {
        println!("skipped: no /dev/full");
        return;
    }
    for arguments in [
        &["run", "examples/k10.list"][..],
        &["list", "examples/k10.script"],
        &["show", "examples/k10.list"],
        &["short-lists", "2", "2"],
        &["--help"],
    ] {
        let output =
            nevraspu(arguments).stdout(full().expect("as above")).output().expect("it starts");
        assert_eq!(status(&output), 3, "{arguments:?}");
        assert!(told(&output).starts_with("nevraspu: standard output: "), "{}", told(&output));
        assert_eq!(told(&output).lines().count(), 1);
    }
}

#[test]
fn a_closed_pipe_is_quiet() {
    let mut child = nevraspu(&["short-lists", "3", "6"])
        .stdout(Stdio::piped())
        .stderr(Stdio::piped())
        .spawn()
        .expect("it starts");
    let mut first = [0; 10];
    child.stdout.take().expect("a pipe").read_exact(&mut first).expect("its first bytes");
    assert_eq!(&first, b"recover 1,");
    let output = child.wait_with_output().expect("it ends");
    assert_eq!((status(&output), told(&output).as_str()), (3, ""));
}

/// Of an input without an end only the beginning is read.
#[test]
fn an_endless_input_ends() {
    let output = fed_from(nevraspu(&["run"]), File::open("/dev/zero").expect("/dev/zero"));
    assert_eq!(status(&output), 1);
    assert_eq!(output.stdout, output_of(program("bench"), &[0; 65_537]).stdout);
    let text = vec![b'#'; 1_100_000];
    let output = output_of(nevraspu(&["run"]), &text);
    assert_eq!(status(&output), 1);
    assert!(told(&output).contains("column 1048577: "), "{}", told(&output));
}

/// Standard error is a terminal, standard output a file; what the terminal shows.
fn on_a_terminal(arguments: &str, out: &str) -> Option<(i32, String)> {
    const SCRIPT: &str = "
import os, pty, sys
out = sys.argv[1]
terminal, other = pty.openpty()
pid = os.fork()
if pid == 0:
    os.dup2(os.open(out, os.O_WRONLY | os.O_CREAT | os.O_TRUNC), 1)
    os.dup2(other, 2)
    os.close(terminal)
    os.execv(sys.argv[2], sys.argv[2:])
os.close(other)
shown = b''
while True:
    try:
        read = os.read(terminal, 1000)
    except OSError:
        break
    if not read:
        break
    shown += read
sys.stdout.buffer.write(shown)
sys.stdout.flush()
sys.exit(os.waitstatus_to_exitcode(os.waitpid(pid, 0)[1]))
";
    let mut python = Command::new("python3");
    python.args(["-c", SCRIPT, out, env!("CARGO_BIN_EXE_nevraspu")]).args(arguments.split(' '));
    python.stdin(Stdio::piped()).stdout(Stdio::piped()).stderr(Stdio::piped());
    let output = fed(python.spawn().ok()?, b"");
    Some((status(&output), String::from_utf8_lossy(&output.stdout).into_owned()))
}

#[test]
fn a_terminal_is_shown_how_far_it_is() {
    let folder = folder("progress");
    let out = folder.join("all.txt");
    let Some((status, shown)) = on_a_terminal("short-lists 3 7", out.to_str().expect("a name"))
    else {
        println!("skipped: progress on a terminal (it needs python3)");
        return;
    };
    assert_eq!(status, 0, "{shown}");
    let text = fs::read(&out).expect("the text");
    assert_eq!(text.len(), 13_430_775);
    // once for each MiB begun, the last time with all of it; and it is gone at the end
    assert_eq!(shown.matches(" MB written").count(), 13, "{shown}");
    assert!(shown.contains("\r1.0 MB written"), "{shown}");
    assert!(shown.ends_with("\r13.4 MB written\r\x1b[K"), "{shown}");
    // not where standard error is none
    let output = output_of(nevraspu(&["short-lists", "3", "7"]), b"");
    assert_eq!((output.stdout == text, told(&output).as_str()), (true, ""));
}
