//! Runs cases of every kind for a time, counts them, and writes down those that differ.

use std::io::{self, Write};
use std::path::Path;
use std::time::{Duration, Instant, SystemTime, UNIX_EPOCH};

use super::case::Case;
use super::compare::{self, Outcome};
use super::engine::Engine;
use super::kinds::{KINDS, Kind};
use super::seen::Seen;
use super::shrink::shrink;
use crate::random::Random;

/// The seed of the set that is the same each time.
const FIXED_SEED: u64 = 39;
const FIXED_TIME: Duration = Duration::from_secs(36);
const FRESH_TIME: Duration = Duration::from_secs(12);
/// A soak takes a new seed this often.
const ROUND: Duration = Duration::from_secs(60);
/// After so many differences no more are looked for.
pub(super) const MOST_DIFFERENCES: usize = 10;
/// Where cases that differ are written.
const FOLDER: &str = "target/differ";

/// Cases and calls compared, and cases that differed, of a kind.
#[derive(Clone, Copy, Default)]
struct Count {
    cases: usize,
    calls: usize,
    differed: usize,
}

impl Count {
    fn add(&mut self, other: &Count) {
        self.cases += other.cases;
        self.calls += other.calls;
        self.differed += other.differed;
    }
}

/// A test of an engine, with what was counted so far.
pub(super) struct Test<'a, E> {
    engine: &'a E,
    folder: &'a Path,
    out: &'a mut dyn Write,
    counts: [Count; KINDS.len()],
    seen: Seen,
}

/// The seed of a case: any case can be made again from the run's seed, its kind and its number.
fn case_seed(seed: u64, kind: usize, number: u64) -> u64 {
    Random::new(seed).word().wrapping_add((kind as u64) << 40).wrapping_add(number)
}

impl<'a, E: Engine> Test<'a, E> {
    /// A test that writes down cases in a folder, and says what it finds.
    pub(super) fn new(engine: &'a E, folder: &'a Path, out: &'a mut dyn Write) -> Test<'a, E> {
        Test { engine, folder, out, counts: [Count::default(); KINDS.len()], seen: Seen::default() }
    }

    /// How many cases differed.
    pub(super) fn differed(&self) -> usize {
        self.counts.iter().map(|count| count.differed).sum()
    }

    /// Runs cases with a seed, each kind for its part of the time, and at least one of each.
    pub(super) fn round(&mut self, seed: u64, time: Duration) -> io::Result<()> {
        for (place, kind) in KINDS.iter().enumerate() {
            let end = Instant::now() + time / KINDS.len() as u32;
            for number in 0.. {
                if self.differed() >= MOST_DIFFERENCES {
                    return Ok(());
                }
                let case = (kind.make)(&mut Random::new(case_seed(seed, place, number)));
                self.case(seed, place, number, &case)?;
                if Instant::now() >= end {
                    break;
                }
            }
        }
        Ok(())
    }

    fn case(&mut self, seed: u64, kind: usize, number: u64, case: &Case) -> io::Result<()> {
        let Outcome { calls, seen, difference } = compare::run(self.engine, case);
        self.seen.add(&seen);
        self.counts[kind].add(&Count { cases: 1, calls, differed: usize::from(difference.is_some()) });
        if difference.is_some() {
            let title = format!("{}, seed {seed}, case {number}", KINDS[kind].name);
            let path = self.folder.join(format!("{seed}-{}.txt", self.differed()));
            let (case, words) = self.explained(case);
            write_down(&path, format!("{title}\n{case}differs at {words}\n")).map_err(not_written)?;
            writeln!(self.out, "differs: {title}\n  {words}\n  written to {}", path.display())?;
        }
        Ok(())
    }

    /// A case that differs, made smaller, and where it differs.
    fn explained(&self, case: &Case) -> (Case, String) {
        let small = shrink(self.engine, case);
        // An engine that differs only now and then may not differ again: then the case itself is shown.
        let (shown, outcome) = match compare::run(self.engine, &small) {
            again @ Outcome { difference: Some(_), .. } => (small, again),
            _ => (case.clone(), compare::run(self.engine, case)),
        };
        let words = match outcome.difference {
            Some(d) => format!("call {}: {}\n  expected {}\n  got      {}", d.call, d.what, d.expected, d.got),
            None => "differed once, and not when run again".to_string(),
        };
        (shown, words)
    }

    /// A line for each kind, the totals, and what came up.
    fn summary(&self) -> String {
        let line = |name: &str, count: &Count| {
            let Count { cases, calls, differed } = count;
            format!("{name:26} {cases:9} cases {calls:10} calls compared {differed:4} differed\n")
        };
        let mut total = Count::default();
        let mut lines = String::new();
        for (Kind { name, .. }, count) in KINDS.iter().zip(&self.counts) {
            lines += &line(name, count);
            total.add(count);
        }
        lines + &line("total", &total) + &self.seen.to_string()
    }
}

/// Writes a file, and its folder if that is missing.
fn write_down(path: &Path, text: String) -> io::Result<()> {
    path.parent().map_or(Ok(()), std::fs::create_dir_all)?;
    std::fs::write(path, text)
}

fn not_written(error: io::Error) -> io::Error {
    io::Error::other(format!("a case that differs could not be written: {error}"))
}

/// A seed from the clock.
fn seed_from_clock() -> u64 {
    let since = SystemTime::now().duration_since(UNIX_EPOCH).unwrap_or_default();
    since.as_millis() as u64
}

/// Runs the fixed set and a fresh one; true if nothing differed and every sort of answer came up. An error is of
/// writing down a case, or of saying what was found.
pub fn test(engine: &impl Engine, out: &mut dyn Write) -> io::Result<bool> {
    let mut test = Test::new(engine, Path::new(FOLDER), out);
    let fresh = seed_from_clock();
    writeln!(test.out, "seeds {FIXED_SEED} (fixed) and {fresh} (from the clock)")?;
    test.round(FIXED_SEED, FIXED_TIME)?;
    test.round(fresh, FRESH_TIME)?;
    let (summary, lacking) = (test.summary(), test.seen.lacking());
    writeln!(test.out, "{summary}")?;
    if !lacking.is_empty() {
        writeln!(test.out, "never came up: {}", lacking.join(", "))?;
    }
    Ok(test.differed() == 0 && lacking.is_empty())
}

/// Runs for so many seconds from a seed, or from the clock's, taking the next seed each round; true if nothing
/// differed.
pub fn soak(engine: &impl Engine, seconds: u64, seed: Option<u64>, out: &mut dyn Write) -> io::Result<bool> {
    let mut test = Test::new(engine, Path::new(FOLDER), out);
    let mut seed = seed.unwrap_or_else(seed_from_clock);
    let (start, time) = (Instant::now(), Duration::from_secs(seconds));
    while start.elapsed() < time && test.differed() < MOST_DIFFERENCES {
        writeln!(test.out, "seed {seed}")?;
        test.round(seed, ROUND.min(time.saturating_sub(start.elapsed())))?;
        seed = seed.wrapping_add(1);
    }
    let summary = test.summary();
    writeln!(test.out, "{summary}")?;
    Ok(test.differed() == 0)
}
