//! The engine's work written directly in Rust, without a proof: what the benchmarks hold its times against. The bytes
//! that go in and the answers that come out are those of the C interface. It is written to be quick: a map is read
//! once, several cells at a time; the search puts two halves of the partial areas together; a ring goes on from the
//! ring before.

mod coverage;
mod footprint;
mod last_ring;
mod map;
mod proposal;
mod register;
mod row;
mod search;

use codwalet::raw::{Covered, Outline, Proposal, Register};
use coverage::Grounds;
pub use register::{cancel, grant, grant_width};

/// 0 if the map is accepted, else its refusal.
#[inline(never)]
pub fn check_map(map: &[u8]) -> u32 {
    map::read(map, &Grounds::default()).err().unwrap_or(0)
}

/// The MHz-pops and the cells covered in the area with a number: zeros if the map lacks it.
#[inline(never)]
pub fn coverage(map: &[u8], register: Register, number: u16) -> Covered {
    let areas = match map::read(map, &Grounds::of(&register).only_in(number)) {
        Err(refusal) => return Covered { refusal, ..Covered::default() },
        Ok(areas) => areas,
    };
    let area = areas.iter().find(|area| area.number == number);
    let covered = area.map_or(Default::default(), |area| area.covered);
    Covered { mhz_pops: covered.mhz_pops, cells: covered.cells, ..Covered::default() }
}

/// The proposal with a draw.
#[inline(never)]
pub fn propose(map: &[u8], register: Register, draw: u32) -> Proposal {
    let areas = map::read(map, &Grounds::of(&register));
    areas.and_then(|areas| proposal::choose(&areas, draw)).unwrap_or_else(proposal::refused)
}

/// The footprint of the partial area of the proposal with a draw.
#[inline(never)]
pub fn footprint(map: &[u8], register: Register, draw: u32, mask: &mut [u8], table: &mut [u16]) -> Outline {
    let outline = footprint::outline(map, &Grounds::of(&register), draw, mask, table);
    outline.unwrap_or_else(|refusal| Outline { refusal, ..Outline::default() })
}
