//! The cases of the program `holdings`, and the lines that it must print for them. Both stand in files of its crate,
//! `stdin` and `stdout`. The lines come from the independent implementation of document 01.

mod areas;
mod cells;
mod encoding;
mod expected;
mod footprints;
mod grants;
mod lists;
mod maps;
mod proposals;
mod widths;

use std::error::Error;
use std::fmt;
use std::fs;
use std::io;
use std::path::{Path, PathBuf};

use crate::random::Random;
use crate::reference::{Ground, Licence};
use encoding::{BLOCK, BLOCKS, Case};

/// The seed of the random cases.
const SEED: u64 = 39;

/// Why the files can't be compared or written, or that they differ.
#[derive(Debug)]
pub enum Problem {
    /// A file can't be read or written.
    File { path: PathBuf, error: io::Error },
    /// The cases have more bytes than the program reads.
    TooLong { bytes: usize },
    /// A stored file differs, first in this case, counted from 1.
    Differs { path: PathBuf, case: usize, kind: &'static str },
}

impl fmt::Display for Problem {
    fn fmt(&self, out: &mut fmt::Formatter) -> fmt::Result {
        match self {
            Problem::File { path, error } => write!(out, "{}: {error}", path.display()),
            Problem::TooLong { bytes } => {
                write!(out, "{bytes} bytes of cases; the program reads {}", BLOCKS * BLOCK)
            }
            Problem::Differs { path, case, kind } => {
                write!(out, "{} differs, first in case {case} ({kind})", path.display())
            }
        }
    }
}

impl Error for Problem {}

/// A case and the lines that the program must print for it.
struct Played {
    case: Case,
    lines: String,
}

/// Cases in the order that the program plays them, and the ledger that they leave.
#[derive(Default)]
struct Cases {
    played: Vec<Played>,
    ledger: Vec<Licence>,
}

impl Cases {
    /// Every case of the program.
    fn all() -> Cases {
        let mut cases = Cases::default();
        let mut random = Random::new(SEED);
        maps::add(&mut cases, &mut random);
        grants::add(&mut cases, &mut random);
        proposals::add(&mut cases, &mut random);
        footprints::add(&mut cases, &mut random);
        lists::add(&mut cases, &mut random);
        cells::add(&mut cases);
        widths::add(&mut cases, &mut random);
        lists::add_widths(&mut cases, &mut random);
        cases
    }

    fn add(&mut self, case: Case) {
        let lines = expected::lines(&case, &mut self.ledger);
        self.played.push(Played { case, lines });
    }

    fn empty(&mut self) {
        self.add(Case::Empty);
    }

    fn grant(&mut self, call_sign: u32, ground: Ground) {
        self.add(Case::Grant(Licence::without_width(call_sign, ground)));
    }

    fn grant_width(&mut self, call_sign: u32, ground: Ground, width: u32) {
        self.add(Case::GrantWidth(Licence { call_sign, ground, width }));
    }

    fn cancel(&mut self, call_sign: u32) {
        self.add(Case::Cancellation(call_sign));
    }

    /// The licences in force after the cases so far.
    fn ledger(&self) -> &[Licence] {
        &self.ledger
    }

    /// The lines with a name that some cases print, without it.
    #[cfg(test)]
    fn printed(add: fn(&mut Cases), name: &str) -> Vec<String> {
        let mut cases = Cases::default();
        add(&mut cases);
        let lines = cases.played.iter().flat_map(|played| played.lines.lines());
        lines.filter_map(|line| line.strip_prefix(name)).map(str::to_string).collect()
    }
}

/// A file of the program's crate, and where each case starts in it.
struct File {
    name: &'static str,
    bytes: Vec<u8>,
    starts: Vec<usize>,
}

impl File {
    fn stdin(cases: &Cases) -> Result<File, Problem> {
        let (mut bytes, mut starts) = (Vec::new(), Vec::new());
        for played in &cases.played {
            let case = played.case.encode();
            encoding::append(&mut bytes, &case);
            starts.push(bytes.len() - case.len());
        }
        if bytes.len() > BLOCKS * BLOCK {
            return Err(Problem::TooLong { bytes: bytes.len() });
        }
        let name = "stdin";
        Ok(File { name, bytes, starts })
    }

    fn stdout(cases: &Cases) -> File {
        let (mut bytes, mut starts) = (Vec::new(), Vec::new());
        for played in &cases.played {
            starts.push(bytes.len());
            bytes.extend(played.lines.as_bytes());
        }
        let name = "stdout";
        File { name, bytes, starts }
    }

    /// The place of the case in which stored bytes first differ, from 0.
    fn first_difference(&self, stored: &[u8]) -> Option<usize> {
        if self.bytes == stored {
            return None;
        }
        let same = self.bytes.iter().zip(stored).take_while(|(made, stored)| made == stored);
        let position = same.count();
        self.starts.iter().rposition(|&start| start <= position)
    }
}

fn files(cases: &Cases) -> Result<[File; 2], Problem> {
    Ok([File::stdin(cases)?, File::stdout(cases)])
}

/// Compares the files stored in a directory with the cases made here, and gives the number of cases.
pub fn compare(directory: &Path) -> Result<usize, Problem> {
    let cases = Cases::all();
    for file in files(&cases)? {
        let path = directory.join(file.name);
        let stored = match fs::read(&path) {
            Ok(stored) => stored,
            Err(error) => return Err(Problem::File { path, error }),
        };
        if let Some(place) = file.first_difference(&stored) {
            let kind = cases.played[place].case.kind();
            return Err(Problem::Differs { path, case: place + 1, kind });
        }
    }
    Ok(cases.played.len())
}

/// Writes the files into a directory, and gives the number of cases.
pub fn write(directory: &Path) -> Result<usize, Problem> {
    let cases = Cases::all();
    for file in files(&cases)? {
        let path = directory.join(file.name);
        fs::write(&path, &file.bytes).map_err(|error| Problem::File { path, error })?;
    }
    Ok(cases.played.len())
}

#[cfg(test)]
mod tests {
    use super::*;

    /// An empty register, a grant that is accepted, and one that isn't.
    fn three_cases() -> Cases {
        let mut cases = Cases::default();
        cases.empty();
        cases.grant(1, Ground::Area(1));
        cases.grant(1, Ground::Area(2));
        cases
    }

    #[test]
    fn the_first_case_that_differs() {
        let file = File::stdout(&three_cases());
        assert_eq!(file.bytes, b"empty\ngrant 0\ngrant 9\n");
        let stored: [(&[u8], Option<usize>); 5] = [
            (b"empty\ngrant 0\ngrant 9\n", None),
            (b"empty\ngrant 6\ngrant 8\n", Some(1)),
            (b"empty\ngrant 0\n", Some(2)),
            (b"empty\ngrant 0\ngrant 9\nempty\n", Some(2)),
            (b"", Some(0)),
        ];
        for (stored, first) in stored {
            assert_eq!(file.first_difference(stored), first, "{stored:?}");
        }
    }

    #[test]
    fn where_cases_start() -> Result<(), Problem> {
        let file = File::stdin(&three_cases())?;
        assert_eq!(file.starts, [0, 1, 25]);
        assert_eq!(file.bytes.len(), 49);
        Ok(())
    }

    #[test]
    fn more_cases_than_the_program_reads() {
        let mut cases = Cases::default();
        for _ in 0..=BLOCKS * BLOCK {
            cases.empty();
        }
        let too_long = File::stdin(&cases).err().map(|problem| problem.to_string());
        assert_eq!(too_long.as_deref(), Some("196609 bytes of cases; the program reads 196608"));
    }
}
