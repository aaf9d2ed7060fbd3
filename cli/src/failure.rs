//! Why the command ends with another exit status than 0, and what it says then.

use std::process::ExitCode;

#[derive(Debug, PartialEq)]
pub enum Failure {
    /// Bad input: where, and what was expected, or the refusal's number and its ground.
    Input(String),
    /// Wrong usage.
    Usage(String),
    /// Reading or writing fails.
    Transfer(String),
    /// Whoever read the output has gone: nobody is left to tell.
    ClosedPipe,
}

impl Failure {
    pub fn status(&self) -> u8 {
        match self {
            Failure::Input(_) => 1,
            Failure::Usage(_) => 2,
            Failure::Transfer(_) | Failure::ClosedPipe => 3,
        }
    }

    /// Says it on standard error.
    pub fn tell(&self) -> ExitCode {
        match self {
            Failure::Input(why) | Failure::Transfer(why) => {
                eprint_line(&format!("nevraspu: {why}"))
            }
            Failure::Usage(why) => {
                eprint_line(&format!("nevraspu: {why}\nTry: nevraspu --help"));
            }
            Failure::ClosedPipe => {}
        }
        ExitCode::from(self.status())
    }
}

/// Where standard error can't be written either there is nothing left to do.
fn eprint_line(line: &str) {
    use std::io::Write;
    let _ = writeln!(std::io::stderr(), "{line}");
}
