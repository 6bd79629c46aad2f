//! The command line: its words go to the command that they name, and the exit status comes back.

use codwalet_cli::command;
use std::ffi::OsString;
use std::process::ExitCode;

fn main() -> ExitCode {
    let words: Vec<OsString> = std::env::args_os().skip(1).collect();
    command::perform(&words).into()
}
