//! Coverage and blocks of one area, and the proposal over all of them.

use crate::{MhzPops, Weighted, raw};
use std::fmt;

/// What licences in force cover in an area. A cell under two licences counts for both, with its people.
#[derive(Clone, Copy, Debug, Default, PartialEq, Eq)]
#[non_exhaustive]
pub struct Coverage {
    /// c: for each licence its width times the people in the cells that it covers.
    pub mhz_pops: MhzPops,
    /// Covered cells, those without people too, whatever the width of a licence.
    pub cells: u64,
}

impl Coverage {
    pub(crate) fn from_raw(covered: &raw::Covered) -> Coverage {
        Coverage { mhz_pops: MhzPops(covered.mhz_pops), cells: covered.cells }
    }
}

/// What an area holds in blocks of 100 MHz.
#[derive(Clone, Copy, Debug, Default, PartialEq, Eq)]
#[non_exhaustive]
pub struct Blocks {
    /// Whole blocks.
    pub whole: u64,
    /// What is held beyond the whole blocks, if the area is partial.
    pub part: Option<Part>,
}

impl Blocks {
    pub(crate) fn from_raw(held: &raw::Held) -> Blocks {
        let raw::Held { whole, value, size, .. } = *held;
        Blocks { whole, part: (size > 0).then_some(Part { value: Weighted(value), size: Weighted(size) }) }
    }
}

/// What a partial area holds beyond its whole blocks, and one block of it.
#[derive(Clone, Copy, Debug, PartialEq, Eq)]
#[non_exhaustive]
pub struct Part {
    /// v, what is held.
    pub value: Weighted,
    /// M, the whole block.
    pub size: Weighted,
}

/// The kind of a proposal.
#[derive(Clone, Copy, Debug, PartialEq, Eq, Hash)]
#[non_exhaustive]
pub enum Kind {
    /// Whole areas add to T.
    Exact,
    /// One area is rounded up to a whole block.
    RoundedUp,
    /// One area is held in part.
    OnePart,
}

impl Kind {
    /// Document 01's number for the kind.
    pub fn number(self) -> u32 {
        match self {
            Kind::Exact => raw::EXACT,
            Kind::RoundedUp => raw::ROUNDED_UP,
            Kind::OnePart => raw::ONE_PART,
        }
    }

    /// The kind in document 01's words.
    pub fn words(self) -> &'static str {
        match self {
            Kind::Exact => "exact",
            Kind::RoundedUp => "rounded up",
            Kind::OnePart => "one part",
        }
    }

    fn from_raw(kind: u32) -> Kind {
        match kind {
            raw::EXACT => Kind::Exact,
            raw::ROUNDED_UP => Kind::RoundedUp,
            raw::ONE_PART => Kind::OnePart,
            other => unreachable!("the engine answered a proposal of kind {other}"),
        }
    }
}

impl fmt::Display for Kind {
    fn fmt(&self, out: &mut fmt::Formatter) -> fmt::Result {
        out.pad(self.words())
    }
}

/// What an area gets by a proposal, beyond the whole blocks it has.
#[derive(Clone, Copy, Debug, PartialEq, Eq, Hash)]
#[non_exhaustive]
pub enum Gets {
    /// Nothing.
    Nothing,
    /// A whole block.
    Whole,
    /// A whole block, of which at least 90 in the hundred are held.
    RoundedUp,
    /// A part of a block.
    Share(Weighted),
}

impl Gets {
    /// What the area gets, in document 01's words.
    pub fn words(self) -> &'static str {
        match self {
            Gets::Nothing => "nothing",
            Gets::Whole => "whole",
            Gets::RoundedUp => "rounded up",
            Gets::Share(_) => "share",
        }
    }

    /// The amount, if the area gets a share.
    pub fn share(self) -> Option<Weighted> {
        match self {
            Gets::Share(share) => Some(share),
            _ => None,
        }
    }
}

impl fmt::Display for Gets {
    fn fmt(&self, out: &mut fmt::Formatter) -> fmt::Result {
        match self {
            Gets::Nothing => write!(out, "nothing"),
            Gets::Whole => write!(out, "a whole block"),
            Gets::RoundedUp => write!(out, "a whole block, rounded up"),
            Gets::Share(share) => write!(out, "a share of {share}"),
        }
    }
}

/// A proposal's line for an area of the map.
#[derive(Clone, Copy, Debug, PartialEq, Eq)]
#[non_exhaustive]
pub struct Given {
    /// The area's number.
    pub number: u16,
    /// Whole blocks that the area has without the proposal.
    pub blocks: u64,
    /// What the area gets.
    pub gets: Gets,
    /// Cells that licences in force cover in the area, as [`Coverage::cells`]. A site survey is priced by them; the proposal
    /// itself reads MHz-pops only.
    pub cells: u64,
}

impl Given {
    fn from_raw(given: &raw::Given) -> Given {
        let gets = match given.gets {
            raw::GETS_NOTHING => Gets::Nothing,
            raw::GETS_WHOLE => Gets::Whole,
            raw::GETS_ROUNDED_UP => Gets::RoundedUp,
            raw::GETS_SHARE => Gets::Share(Weighted(given.share)),
            other => unreachable!("the engine answered that an area gets {other}"),
        };
        Given { number: area_number(given.number), blocks: given.blocks, gets, cells: given.cells }
    }
}

/// A proposal: which areas are held in whole blocks, and the one that is held in part.
#[derive(Clone, Debug, PartialEq, Eq)]
#[non_exhaustive]
pub struct Proposal {
    /// Whether and how one area is partial.
    pub kind: Kind,
    /// T, the sum of what the partial areas hold.
    pub target: Weighted,
    /// What the partial area lacks to a whole block.
    pub white_space: Weighted,
    /// Areas among which the draw decided; 0 if the kind is exact.
    pub tied: u64,
    /// The map's areas, ascending.
    pub areas: Vec<Given>,
}

impl Proposal {
    pub(crate) fn from_raw(answer: &raw::Proposal) -> Proposal {
        Proposal {
            kind: Kind::from_raw(answer.kind),
            target: Weighted(answer.target),
            white_space: Weighted(answer.white_space),
            tied: answer.tied,
            areas: answer.areas[..answer.count as usize].iter().map(Given::from_raw).collect(),
        }
    }

    /// The partial area, which is rounded up or gets a share. None if the kind is exact.
    pub fn partial(&self) -> Option<&Given> {
        self.areas.iter().find(|given| matches!(given.gets, Gets::RoundedUp | Gets::Share(_)))
    }

    /// The share of the partial area, if the kind is one part.
    pub fn share(&self) -> Option<Weighted> {
        self.partial()?.gets.share()
    }
}

/// The C interface widens area numbers.
pub(crate) fn area_number(number: u32) -> u16 {
    u16::try_from(number).expect("the engine answers numbers of areas")
}
