//! The commands: what each does with its words, and how it ends.

mod choice;
mod help;
mod map;
mod run;

use choice::Choice;
use std::ffi::OsString;
use std::io::{self, Write};
use std::process::ExitCode;

/// How a command ends; each has its exit status.
#[derive(Clone, Copy, Debug, PartialEq, Eq)]
#[non_exhaustive]
pub enum Status {
    Done = 0,
    /// Something could not be done.
    NotDone = 1,
    /// There is a mistake in the words given, in a plan or in a CSV file.
    Mistake = 2,
    /// The map that was asked about is refused.
    MapRefused = 3,
}

impl From<Status> for ExitCode {
    fn from(status: Status) -> ExitCode {
        ExitCode::from(status as u8)
    }
}

/// Why a command ends before its end.
enum Failure {
    Mistake(String),
    CannotDo(String),
    /// Nobody reads the answers any more, so nothing is said.
    NobodyReads,
}

/// What comes of a command that writes its answers to `out`.
type Ended = Result<Status, Failure>;

impl From<io::Error> for Failure {
    fn from(error: io::Error) -> Failure {
        match error.kind() {
            io::ErrorKind::BrokenPipe => Failure::NobodyReads,
            _ => Failure::CannotDo(format!("the answers cannot be written: {error}")),
        }
    }
}

/// Does what the words after the program's name say.
pub fn perform(words: &[OsString]) -> Status {
    let mut out = io::stdout().lock();
    let ended = act(words, &mut out).and_then(|status| {
        out.flush()?;
        Ok(status)
    });
    let (status, message) = match ended {
        Ok(status) => return status,
        Err(Failure::Mistake(message)) => (Status::Mistake, message),
        Err(Failure::CannotDo(message)) => (Status::NotDone, message),
        Err(Failure::NobodyReads) => return Status::NotDone,
    };
    tell(&message);
    status
}

fn act(words: &[OsString], out: &mut dyn Write) -> Ended {
    match choice::choose(words).map_err(Failure::Mistake)? {
        Choice::Page(page) => write!(out, "{page}")?,
        Choice::Version => writeln!(out, "codwalet {}", env!("CARGO_PKG_VERSION"))?,
        Choice::Command(command, given) => return (command.act)(&given, out),
    }
    Ok(Status::Done)
}

/// Says something on standard error. Where nobody reads it, the exit status still tells.
fn tell(message: &str) {
    let _ = writeln!(io::stderr().lock(), "{}", message.trim_end());
}
