//! The command and the proved programs as processes.

use std::io::Write;
use std::path::{Path, PathBuf};
use std::process::{Child, Command, Output, Stdio};
use std::thread;

/// The root of the repository.
pub fn root() -> PathBuf {
    Path::new(env!("CARGO_MANIFEST_DIR")).join("..")
}

/// The command with these arguments, run at the root.
pub fn nevraspu(arguments: &[&str]) -> Command {
    let mut command = Command::new(env!("CARGO_BIN_EXE_nevraspu"));
    command.args(arguments).current_dir(root());
    command
}

/// A proved program.
pub fn program(name: &str) -> Command {
    let path = root().join("target/bin").join(name);
    assert!(path.is_file(), "target/bin/{name} is missing: build it by `tools/programs {name}`");
    Command::new(path)
}

/// What a process writes and how it ends, with this input.
pub fn output_of(mut command: Command, input: &[u8]) -> Output {
    let child = command.stdin(Stdio::piped()).stdout(Stdio::piped()).stderr(Stdio::piped()).spawn();
    fed(child.expect("it starts"), input)
}

/// What a process that was started writes and how it ends.
pub fn fed(mut child: Child, input: &[u8]) -> Output {
    let mut stdin = child.stdin.take().expect("a pipe");
    thread::scope(|scope| {
        // One that does not read all of its input is no fault here.
        scope.spawn(move || drop(stdin.write_all(input)));
        child.wait_with_output().expect("it ends")
    })
}

/// Its exit status.
pub fn status(output: &Output) -> i32 {
    output.status.code().expect("it was not killed")
}

/// What it told on standard error.
pub fn told(output: &Output) -> String {
    String::from_utf8_lossy(&output.stderr).into_owned()
}

/// A folder for a test's files, which is empty.
pub fn folder(name: &str) -> PathBuf {
    let folder = Path::new(env!("CARGO_TARGET_TMPDIR")).join(name);
    let _ = std::fs::remove_dir_all(&folder);
    std::fs::create_dir_all(&folder).expect("a folder");
    folder
}
