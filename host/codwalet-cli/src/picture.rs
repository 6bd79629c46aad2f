//! Pictures of a footprint, for a terminal and as SVG.
//!
//! The mask comes from the engine. The last ring is beyond its answers: it is found by the share of the engine's
//! proposal, and drawn only if it goes with the mask.

mod svg;
mod terminal;

use crate::beyond::ring::{self, Start};
use crate::beyond::value_of;
use codwalet::{Cell, Footprint, GeoBox, Ground, Licence, Map, Refusal, Register, Weighted};
pub use svg::svg;
pub use terminal::terminal;

/// A footprint and what is drawn with it. Lists by place go row by row, top first.
#[derive(Clone, Debug, PartialEq, Eq)]
pub struct Drawing {
    pub area: u16,
    pub weight: u32,
    pub rows: usize,
    pub columns: usize,
    pub cells: Vec<Option<Cell>>,
    pub share: Weighted,
    pub footprint: Vec<bool>,
    /// The cells that the footprint starts from: those under a licence.
    pub covered: Vec<bool>,
    /// All false if there is no last ring; None if it doesn't go with the footprint.
    pub last_ring: Option<Vec<bool>>,
    /// The licences that cover cells of the area, by call sign.
    pub licences: Vec<Licence>,
}

/// Said below a picture that lacks the last ring.
const NO_RING: &str = "The last ring is not drawn: it does not go with the mask.";

/// What a cell is drawn as.
#[derive(Clone, Copy, Debug, PartialEq, Eq)]
pub enum Mark {
    CoveredIn,
    JoinedIn,
    RingIn,
    RingOut,
    CoveredOut,
    Out,
}

impl Mark {
    /// All marks, in the order of legends.
    pub const ALL: [Mark; 6] =
        [Mark::CoveredIn, Mark::JoinedIn, Mark::RingIn, Mark::RingOut, Mark::CoveredOut, Mark::Out];

    /// The mark's words in legends.
    pub fn words(self) -> &'static str {
        match self {
            Mark::CoveredIn => "in the footprint, under a licence",
            Mark::JoinedIn => "in the footprint, joined ring by ring",
            Mark::RingIn => "last ring, in the footprint",
            Mark::RingOut => "last ring, left out",
            Mark::CoveredOut => "under a licence, not in the footprint",
            Mark::Out => "not in the footprint",
        }
    }
}

/// The cells with a mark, and their people.
#[derive(Clone, Copy, Debug, PartialEq, Eq)]
pub struct Count {
    pub cells: u64,
    pub people: u64,
}

impl Drawing {
    /// The footprint of the proposal with this draw, ready to draw. Refused by 12 and 13.
    pub fn make(map: &Map, register: &Register, draw: u32) -> Result<Drawing, Refusal> {
        let Footprint { area, rows, columns, mask, .. } = map.footprint(register, draw)?;
        // Where there is a footprint, the proposal has a share.
        let share = map.propose(register, draw)?.share().unwrap_or_default();
        let head = map.areas().find(|head| head.number == area).expect("a footprint's area is in the map");
        let (weight, cells) = (head.weight, head.cells());
        let licences = licences_over(register, area, &cells);
        let under_licence = |cell: Cell| licences.iter().any(|licence| licence.covers(area, &cell));
        let covered = cells.iter().map(|cell| cell.is_some_and(under_licence)).collect();
        let footprint = mask.iter().map(|&mark| mark == 1).collect();
        let mut drawing =
            Drawing { area, weight, rows, columns, cells, share, footprint, covered, last_ring: None, licences };
        drawing.last_ring = drawing.find_last_ring();
        Ok(drawing)
    }

    /// The last ring, by place; all false if there is none. None if it doesn't go with the footprint.
    fn find_last_ring(&self) -> Option<Vec<bool>> {
        let Drawing { rows, columns, weight, share, ref cells, ref covered, .. } = *self;
        ring::last_ring(&Start { rows, columns, weight, cells, covered, share }, &self.footprint)
    }

    /// The mark of a place, if it has a cell.
    pub fn mark(&self, place: usize) -> Option<Mark> {
        self.cells[place]?;
        let in_ring = self.last_ring.as_ref().is_some_and(|ring| ring[place]);
        Some(match (self.footprint[place], in_ring, self.covered[place]) {
            (true, true, _) => Mark::RingIn,
            (false, true, _) => Mark::RingOut,
            (true, false, true) => Mark::CoveredIn,
            (true, false, false) => Mark::JoinedIn,
            (false, false, true) => Mark::CoveredOut,
            (false, false, false) => Mark::Out,
        })
    }

    /// The cells for which something holds of their place.
    pub fn count(&self, holds: impl Fn(usize) -> bool) -> Count {
        let counted = self.cells.iter().enumerate().filter(|&(place, _)| holds(place)).filter_map(|(_, &cell)| cell);
        counted.fold(Count { cells: 0, people: 0 }, |count, cell| Count {
            cells: count.cells + 1,
            people: count.people + u64::from(cell.people),
        })
    }

    /// What the footprint carries.
    pub fn carries(&self) -> Weighted {
        value_of(self.weight, self.count(|place| self.footprint[place]).people)
    }

    /// The licences for boxes, by call sign, with their boxes.
    fn boxes(&self) -> impl Iterator<Item = (Licence, GeoBox)> + '_ {
        self.licences.iter().filter_map(|licence| match licence.ground() {
            Ground::Box(edges) => Some((*licence, edges)),
            _ => None,
        })
    }

    /// The licences for the whole area, by call sign.
    fn whole_area(&self) -> impl Iterator<Item = Licence> + '_ {
        let for_area = |licence: &&Licence| matches!(licence.ground(), Ground::Area(_));
        self.licences.iter().filter(for_area).copied()
    }

    /// The marks that are on the drawing, with their cells.
    fn legend(&self) -> impl Iterator<Item = (Mark, Count)> + '_ {
        let counted = Mark::ALL.iter().map(|&mark| (mark, self.count(|place| self.mark(place) == Some(mark))));
        counted.filter(|(_, count)| count.cells > 0)
    }
}

/// The licences that cover cells of an area, by call sign.
fn licences_over(register: &Register, area: u16, cells: &[Option<Cell>]) -> Vec<Licence> {
    let covers_some = |licence: &Licence| cells.iter().flatten().any(|cell| licence.covers(area, cell));
    let mut licences: Vec<Licence> = register.licences().filter(covers_some).collect();
    licences.sort_by_key(|licence| licence.call_sign());
    licences
}
