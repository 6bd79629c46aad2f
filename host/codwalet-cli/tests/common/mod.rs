//! What the tests of the command line share.

// Each file of tests takes what it needs of this.
#![allow(dead_code)]

use std::ffi::OsStr;
use std::io::Write;
use std::path::{Path, PathBuf};
use std::process::{Command, Output, Stdio};

/// A CSV file with one area of two cells.
pub const CSV: &str =
    "area,weight,row,column,people,latitude,longitude\n7,1,0,0,60,39.5N,100W\n7,1,0,1,40,39.5N,99.98W\n";

/// How a run of the command line ended.
#[derive(Debug, PartialEq, Eq)]
pub struct Ended {
    pub status: Option<i32>,
    pub out: String,
    pub err: String,
}

impl Ended {
    /// The status and what was said on standard error.
    pub fn said(&self) -> (Option<i32>, &str) {
        (self.status, &self.err)
    }
}

/// The command line, to be run in a folder.
pub fn command(folder: &Path, words: &[impl AsRef<OsStr>]) -> Command {
    let mut command = Command::new(env!("CARGO_BIN_EXE_codwalet"));
    command.args(words).current_dir(folder).stdin(Stdio::null());
    command
}

/// Runs the command line in a folder.
pub fn codwalet(folder: &Path, words: &[impl AsRef<OsStr>]) -> Ended {
    ended(command(folder, words).output().expect("the command line runs"))
}

/// Runs the command line in a folder, with something on standard input.
pub fn codwalet_reading(folder: &Path, words: &[&str], input: &[u8]) -> Output {
    let mut command = command(folder, words);
    command.stdin(Stdio::piped()).stdout(Stdio::piped()).stderr(Stdio::piped());
    let mut child = command.spawn().expect("the command line runs");
    let mut pipe = child.stdin.take().expect("standard input is a pipe");
    pipe.write_all(input).expect("standard input is read");
    drop(pipe);
    child.wait_with_output().expect("the command line ends")
}

/// How a run ended whose answers and messages are text.
pub fn ended(output: Output) -> Ended {
    Ended {
        status: output.status.code(),
        out: String::from_utf8(output.stdout).expect("answers are text"),
        err: String::from_utf8(output.stderr).expect("messages are text"),
    }
}

/// An empty folder with a name of its own.
pub fn empty_folder(name: &str) -> PathBuf {
    let folder = Path::new(env!("CARGO_TARGET_TMPDIR")).join(name);
    if folder.exists() {
        std::fs::remove_dir_all(&folder).expect("an old folder is removed");
    }
    std::fs::create_dir_all(&folder).expect("a folder is made");
    folder
}

/// A folder with files in it.
pub fn folder_with(name: &str, files: &[(&str, &[u8])]) -> PathBuf {
    let folder = empty_folder(name);
    for (file, bytes) in files {
        std::fs::write(folder.join(file), bytes).expect("the file is written");
    }
    folder
}

/// The names of a folder's files, sorted.
pub fn files_in(folder: &Path) -> Vec<String> {
    let mut names = Vec::new();
    for entry in std::fs::read_dir(folder).expect("the folder is read") {
        let name = entry.expect("an entry is read").file_name();
        names.push(name.into_string().expect("the name is text"));
    }
    names.sort();
    names
}

/// The rows of a table with two columns, ` | ` between them.
pub fn rows(table: &'static str) -> impl Iterator<Item = (&'static str, &'static str)> {
    table.lines().map(|row| {
        let (left, right) = row.split_once(" | ").expect("a row of the table has two columns");
        (left.trim_end(), right)
    })
}
