//! What is under test: any engine with the functions of the C interface.

use crate::random::Random;
use codwalet::Map;
use codwalet::raw::{self, Area, Covered, Held, Licence, Outline, Proposal, Register, Step};

/// Elements on each side of what is lent.
const GUARD: usize = 16;

/// A buffer lent inside a larger one, so that a write beyond it is seen.
#[derive(Clone, Debug, PartialEq, Eq)]
pub struct Lent<T> {
    whole: Vec<T>,
}

impl<T: Clone> Lent<T> {
    /// Lends a copy of a buffer between guards of random elements.
    pub fn new(buffer: &[T], mut element: impl FnMut() -> T) -> Lent<T> {
        let mut whole: Vec<T> = (0..GUARD).map(|_| element()).collect();
        whole.extend_from_slice(buffer);
        whole.extend((0..GUARD).map(|_| element()));
        Lent { whole }
    }

    /// The buffer itself.
    pub fn part(&self) -> &[T] {
        &self.whole[GUARD..self.whole.len() - GUARD]
    }

    /// The buffer itself, to be written.
    pub fn part_mut(&mut self) -> &mut [T] {
        let end = self.whole.len() - GUARD;
        &mut self.whole[GUARD..end]
    }

    /// The buffer with its guards.
    pub fn whole(&self) -> &[T] {
        &self.whole
    }

    /// The buffer with its guards, to be written: for engines that are wrong on purpose.
    #[cfg(test)]
    pub fn whole_mut(&mut self) -> &mut [T] {
        &mut self.whole
    }

    /// Where an element of the whole stands in the buffer: below 0 and from its length on is a guard.
    pub fn place(at: usize) -> i64 {
        at as i64 - GUARD as i64
    }
}

impl Lent<u8> {
    /// A buffer of random bytes.
    pub fn bytes(length: usize, random: &mut Random) -> Lent<u8> {
        let bytes: Vec<u8> = (0..length).map(|_| random.word() as u8).collect();
        Lent::new(&bytes, || random.word() as u8)
    }
}

impl Lent<u16> {
    /// A table of random entries.
    pub fn table(length: usize, random: &mut Random) -> Lent<u16> {
        let entries: Vec<u16> = (0..length).map(|_| random.word() as u16).collect();
        Lent::new(&entries, || random.word() as u16)
    }
}

/// What a footprint is lent.
#[derive(Clone, Debug)]
pub struct Buffers {
    pub mask: Lent<u8>,
    pub table: Lent<u16>,
}

/// The functions of the C interface, and the list of areas that the library makes beside them.
pub trait Engine {
    /// The register with no licence in force.
    fn empty(&self) -> Register;
    /// The register with a licence granted without a width.
    fn grant(&self, current: Register, licence: Licence) -> Step;
    /// The register with a licence of so many MHz granted.
    fn grant_width(&self, current: Register, licence: Licence, width: u32) -> Step;
    /// The register with a licence cancelled.
    fn cancel(&self, current: Register, call_sign: u32) -> Step;
    /// 0 if the map is accepted, else its refusal.
    fn check_map(&self, map: &[u8]) -> u32;
    /// The area with a number.
    fn look_up(&self, map: &[u8], number: u16) -> Area;
    /// The areas of an accepted map with their numbers, as the library lists them; none of a refused one.
    fn areas(&self, map: &[u8]) -> Vec<(u16, Area)>;
    /// The MHz-pops and the cells covered in the area with a number.
    fn coverage(&self, map: &[u8], current: Register, number: u16) -> Covered;
    /// The blocks of the area with a number.
    fn blocks(&self, map: &[u8], current: Register, number: u16) -> Held;
    /// The proposal with a draw.
    fn propose(&self, map: &[u8], current: Register, draw: u32) -> Proposal;
    /// The footprint of the partial area of the proposal with a draw.
    fn footprint(&self, map: &[u8], current: Register, draw: u32, lent: &mut Buffers) -> Outline;
}

/// The proved engine, through the C interface.
pub struct Proved;

impl Engine for Proved {
    fn empty(&self) -> Register {
        raw::codwalet_empty()
    }

    fn grant(&self, current: Register, licence: Licence) -> Step {
        raw::codwalet_grant(current, licence)
    }

    fn grant_width(&self, current: Register, licence: Licence, width: u32) -> Step {
        raw::codwalet_grant_width(current, licence, width)
    }

    fn cancel(&self, current: Register, call_sign: u32) -> Step {
        raw::codwalet_cancel(current, call_sign)
    }

    fn check_map(&self, map: &[u8]) -> u32 {
        raw::check_map(map)
    }

    fn look_up(&self, map: &[u8], number: u16) -> Area {
        raw::look_up(map, number)
    }

    fn areas(&self, map: &[u8]) -> Vec<(u16, Area)> {
        let mut areas = Vec::new();
        if let Ok(accepted) = Map::new(map) {
            for head in accepted.areas() {
                let area = Area {
                    refusal: 0,
                    weight: head.weight,
                    rows: head.rows as u64,
                    columns: head.columns as u64,
                    population: head.population.0,
                    offset: (head.bytes.as_ptr().addr() - map.as_ptr().addr()) as u64,
                    length: head.bytes.len() as u64,
                };
                areas.push((head.number, area));
            }
        }
        areas
    }

    fn coverage(&self, map: &[u8], current: Register, number: u16) -> Covered {
        raw::coverage(map, current, number)
    }

    fn blocks(&self, map: &[u8], current: Register, number: u16) -> Held {
        raw::blocks(map, current, number)
    }

    fn propose(&self, map: &[u8], current: Register, draw: u32) -> Proposal {
        raw::propose(map, current, draw)
    }

    fn footprint(&self, map: &[u8], current: Register, draw: u32, lent: &mut Buffers) -> Outline {
        raw::footprint(map, current, draw, lent.mask.part_mut(), lent.table.part_mut())
    }
}
