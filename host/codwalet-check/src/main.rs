//! The engine beside the independent implementation and beside plain Rust.

use std::env;
use std::error::Error;
use std::io::{self, Write};
use std::path::Path;
use std::process::ExitCode;

use codwalet_check::differential::{self, Proved};
use codwalet_check::{bench, cases};

const USAGE: &str = "\
host/run test                   compare the engine with the reference, for about a minute
host/run soak SECONDS [SEED]    go on as long as told
host/run cases                  compare the stored cases of the program `holdings` with those made here
host/run cases --write          write them
host/run bench                  time the engine beside plain Rust
host/run help                   say this";

/// The crate of the program `holdings`, where its cases are stored.
const HOLDINGS: &str = concat!(env!("CARGO_MANIFEST_DIR"), "/../../crates/holdings");

/// The words of the command line, understood.
enum Command {
    Help,
    Test,
    Soak { seconds: u64, seed: Option<u64> },
    CompareCases,
    WriteCases,
    Bench,
}

fn number(name: &str, word: &str) -> Result<u64, String> {
    word.parse().map_err(|_| format!("{name} is a whole number, not \"{word}\""))
}

fn command(words: &[&str]) -> Result<Command, String> {
    match words {
        ["help", ..] | [.., "--help" | "-h"] => Ok(Command::Help),
        ["test"] => Ok(Command::Test),
        ["soak"] => Err("SECONDS is missing".to_string()),
        ["soak", seconds] => Ok(Command::Soak { seconds: number("SECONDS", seconds)?, seed: None }),
        ["soak", seconds, seed] => {
            Ok(Command::Soak { seconds: number("SECONDS", seconds)?, seed: Some(number("SEED", seed)?) })
        }
        ["cases"] => Ok(Command::CompareCases),
        ["cases", "--write"] => Ok(Command::WriteCases),
        ["bench"] => Ok(Command::Bench),
        [] => Err("no command".to_string()),
        _ => Err(format!("no such command: {}", words.join(" "))),
    }
}

/// Runs a command. True if nothing differed; the error says what could not be done.
fn run(command: Command, out: &mut dyn Write) -> Result<bool, Box<dyn Error>> {
    let holdings = Path::new(HOLDINGS);
    match command {
        Command::Help => writeln!(out, "{USAGE}")?,
        Command::Test => return Ok(differential::test(&Proved, out)?),
        Command::Soak { seconds, seed } => return Ok(differential::soak(&Proved, seconds, seed, out)?),
        Command::CompareCases => writeln!(out, "holdings: {} cases as stored", cases::compare(holdings)?)?,
        Command::WriteCases => writeln!(out, "holdings: {} cases written", cases::write(holdings)?)?,
        Command::Bench => {
            writeln!(out, "{}", bench::heading())?;
            for row in bench::rows() {
                writeln!(out, "{}", row?)?;
            }
        }
    }
    Ok(true)
}

/// Whether a problem is that the reader of the output has gone, which is nothing to complain of.
fn is_closed_pipe(problem: &(dyn Error + 'static)) -> bool {
    problem.downcast_ref::<io::Error>().is_some_and(|error| error.kind() == io::ErrorKind::BrokenPipe)
}

/// Says something on standard error. If nobody reads there either, the status alone has to tell.
fn complain(words: &str) {
    let _ = writeln!(io::stderr(), "codwalet-check: {words}");
}

fn main() -> ExitCode {
    let words: Vec<String> = env::args_os().skip(1).map(|word| word.to_string_lossy().into_owned()).collect();
    let words: Vec<&str> = words.iter().map(String::as_str).collect();
    let command = match command(&words) {
        Ok(command) => command,
        Err(mistake) => {
            complain(&format!("{mistake}\n{USAGE}"));
            return ExitCode::from(2);
        }
    };
    match run(command, &mut io::stdout()) {
        Ok(true) => ExitCode::SUCCESS,
        Ok(false) => ExitCode::FAILURE,
        Err(problem) => {
            if !is_closed_pipe(problem.as_ref()) {
                complain(&problem.to_string());
            }
            ExitCode::FAILURE
        }
    }
}
