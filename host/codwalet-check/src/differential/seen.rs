//! Counts of what the reference answered, to show that every sort of answer came up.

use std::collections::BTreeMap;
use std::fmt::{self, Display, Formatter};

use super::sorts::SORTS;
use codwalet::raw::{Outline, Proposal};

/// Refusals are numbered 1 to 13, and 0 is none.
const REFUSALS: usize = 14;

/// The counts.
#[derive(Clone, Debug, Default)]
pub struct Seen {
    refusals: [usize; REFUSALS],
    /// Proposals by kind, 1 to 3.
    kinds: [usize; 4],
    tied: usize,
    /// Footprints without a last ring, and with one.
    even: usize,
    last_ring: usize,
    /// Sorts of cells and widths, by name.
    sorts: BTreeMap<&'static str, usize>,
}

impl Seen {
    /// Counts an answer's refusal.
    pub fn refusal(&mut self, number: u32) {
        self.refusals[number as usize] += 1;
    }

    /// Counts a proposal.
    pub fn proposal(&mut self, proposal: &Proposal) {
        self.refusal(proposal.refusal);
        self.kinds[proposal.kind as usize] += 1;
        self.tied += usize::from(proposal.tied > 1);
    }

    /// Counts a footprint, by how many entries of the table it used.
    pub fn footprint(&mut self, outline: &Outline, used: usize) {
        self.refusal(outline.refusal);
        if outline.refusal == 0 {
            *(if used == 0 { &mut self.even } else { &mut self.last_ring }) += 1;
        }
    }

    /// Counts the sorts of an answer.
    pub fn sorts(&mut self, names: &[&'static str]) {
        names.iter().for_each(|name| *self.sorts.entry(name).or_default() += 1);
    }

    fn sort(&self, name: &str) -> usize {
        self.sorts.get(name).copied().unwrap_or(0)
    }

    /// The names of what never came up.
    pub fn lacking(&self) -> Vec<String> {
        let refusals = self.refusals.iter().enumerate().map(|(number, &count)| (format!("refusal {number}"), count));
        let kinds = self.kinds.iter().enumerate().skip(1).map(|(kind, &count)| (format!("kind {kind}"), count));
        let others = [
            ("a tie".to_string(), self.tied),
            ("a footprint without a last ring".to_string(), self.even),
            ("a footprint with a last ring".to_string(), self.last_ring),
        ];
        let sorts = SORTS.iter().map(|name| (name.to_string(), self.sort(name)));
        let counts = refusals.chain(kinds).chain(others).chain(sorts);
        counts.filter(|&(_, count)| count == 0).map(|(name, _)| name).collect()
    }

    /// Adds other counts to these.
    pub fn add(&mut self, other: &Seen) {
        let add =
            |sum: &mut [usize], counts: &[usize]| sum.iter_mut().zip(counts).for_each(|(sum, count)| *sum += count);
        add(&mut self.refusals, &other.refusals);
        add(&mut self.kinds, &other.kinds);
        self.tied += other.tied;
        self.even += other.even;
        self.last_ring += other.last_ring;
        other.sorts.iter().for_each(|(name, count)| *self.sorts.entry(name).or_default() += count);
    }
}

impl Display for Seen {
    fn fmt(&self, out: &mut Formatter<'_>) -> fmt::Result {
        write!(out, "accepted {}; refused", self.refusals[0])?;
        for (number, count) in self.refusals.iter().enumerate().skip(1) {
            write!(out, " {number}: {count},")?;
        }
        let [_, exact, rounded_up, one_part] = self.kinds;
        write!(
            out,
            "\nproposals exact {exact}, rounded up {rounded_up}, one part {one_part}, with ties {}",
            self.tied
        )?;
        write!(out, "; footprints without a last ring {}, with one {}", self.even, self.last_ring)?;
        SORTS.iter().try_for_each(|name| write!(out, "\n{name} {}", self.sort(name)))
    }
}
