//! The program as it is called: its help, its mistakes, and its end when nobody reads what it says.

use std::io::{self, PipeWriter};
use std::process::{Command, Output};

fn program(words: &[&str]) -> Command {
    let mut program = Command::new(env!("CARGO_BIN_EXE_codwalet-check"));
    program.args(words);
    program
}

fn run(mut program: Command) -> Output {
    program.output().expect("the program was built for this test")
}

fn text(bytes: &[u8]) -> String {
    String::from_utf8_lossy(bytes).into_owned()
}

/// A pipe that nobody reads.
fn closed_pipe() -> PipeWriter {
    let (reader, writer) = io::pipe().expect("a pipe");
    drop(reader);
    writer
}

#[test]
fn help_says_how_the_program_is_called() {
    for words in [&["help"][..], &["--help"], &["-h"], &["soak", "--help"], &["cases", "--write", "--help"]] {
        let Output { status, stdout, stderr } = run(program(words));
        assert_eq!((status.code(), text(&stderr).as_str()), (Some(0), ""), "{words:?}");
        for command in ["test", "soak SECONDS [SEED]", "cases", "cases --write", "bench"] {
            assert!(text(&stdout).contains(&format!("host/run {command} ")), "{words:?} {command}");
        }
    }
}

#[test]
fn a_mistake_is_named_and_has_status_2() {
    let mistakes = [
        (&[][..], "no command"),
        (&["tests"], "no such command: tests"),
        (&["soak"], "SECONDS is missing"),
        (&["soak", "ten"], "SECONDS is a whole number, not \"ten\""),
        (&["soak", "1", "-1"], "SEED is a whole number, not \"-1\""),
    ];
    for (words, mistake) in mistakes {
        let Output { status, stdout, stderr } = run(program(words));
        assert_eq!((status.code(), text(&stdout).as_str()), (Some(2), ""), "{words:?}");
        assert_eq!(text(&stderr).lines().next(), Some(format!("codwalet-check: {mistake}").as_str()), "{words:?}");
    }
}

#[test]
fn nobody_reads_and_the_program_ends_quietly() {
    for words in [&["--help"][..], &["cases"], &["test"], &["soak", "60"], &["bench"]] {
        let mut program = program(words);
        program.stdout(closed_pipe());
        let Output { status, stderr, .. } = run(program);
        assert_eq!((status.code(), text(&stderr).as_str()), (Some(1), ""), "{words:?}");
    }
}

#[test]
fn a_mistake_that_nobody_reads_has_its_status() {
    let mut program = program(&["tests"]);
    program.stderr(closed_pipe());
    assert_eq!(run(program).status.code(), Some(2));
}

#[cfg(unix)]
#[test]
fn a_word_that_is_not_utf_8_is_a_mistake() {
    use std::ffi::OsStr;
    use std::os::unix::ffi::OsStrExt;
    let mut program = program(&[]);
    program.arg(OsStr::from_bytes(b"\xff"));
    assert_eq!(run(program).status.code(), Some(2));
}

#[test]
fn the_stored_cases_are_those_made_here() {
    let Output { status, stdout, stderr } = run(program(&["cases"]));
    assert_eq!((status.code(), text(&stderr).as_str()), (Some(0), ""));
    assert!(text(&stdout).ends_with(" cases as stored\n"), "{}", text(&stdout));
}
