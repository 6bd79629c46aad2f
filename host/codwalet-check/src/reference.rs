//! Document 01 written out plainly, to hold the engine against, a module for each of its sections, with document 02's
//! cells beside people and licences narrower than 50 MHz. It shares nothing with the engine and takes nothing from the
//! library: maps are taken apart field by field, the ledger is a list of lines, a proposal lists every choice, and a
//! footprint works on sets of places. Types and limits stand here a second time on purpose, since a mistake in shared
//! ones would not be seen.

mod coverage;
mod footprint;
mod map;
mod proposal;
mod register;
#[cfg(test)]
mod tests;

pub use coverage::{Blocks, Covered, blocks, coverage, covered};
pub use footprint::{
    Made, Outline, Refused, covered_places, footprint, footprint_from, last_ring, outline, shared_area,
};
pub use map::{Area, Cell, Fault, read_map};
pub use proposal::{Gets, Given, Proposal, propose, propose_blocks};
pub use register::{Ground, Licence, cancel, grant};
