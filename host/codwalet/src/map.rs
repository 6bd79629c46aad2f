//! Maps, and the calls that read them.

use crate::layout::{self, Fault, Head};
use crate::proposal::area_number;
use crate::raw::{self, Entry};
use crate::{AreaHead, Blocks, Coverage, Footprint, People, Proposal, Refusal, Register, Workspace};
use std::borrow::Cow;
use std::fmt;
use std::sync::OnceLock;

/// A map that the engine accepts, checked once. It borrows its bytes or owns them. Two maps are equal if their bytes are.
#[derive(Clone)]
pub struct Map<'a> {
    bytes: Cow<'a, [u8]>,
    /// Read once, when they are first asked for.
    heads: OnceLock<Vec<Head>>,
}

impl<'a> Map<'a> {
    /// The map in some bytes.
    ///
    /// # Errors
    ///
    /// 1 to 5, if the engine refuses the map: [`Refusal::MapEnds`], [`Refusal::MapLimit`], [`Refusal::MapExtra`],
    /// [`Refusal::MapOrder`] or [`Refusal::MapPopulation`]. [`Map::fault`] finds the byte.
    ///
    /// # Panics
    ///
    /// As [`raw::check_version`].
    pub fn new(bytes: &'a [u8]) -> Result<Map<'a>, Refusal> {
        Map::accept(Cow::Borrowed(bytes))
    }

    /// The map in bytes that it keeps.
    ///
    /// # Errors
    ///
    /// As [`Map::new`].
    ///
    /// # Panics
    ///
    /// As [`raw::check_version`].
    pub fn owned(bytes: Vec<u8>) -> Result<Map<'static>, Refusal> {
        Map::accept(Cow::Owned(bytes))
    }

    fn accept(bytes: Cow<[u8]>) -> Result<Map, Refusal> {
        raw::check_version();
        Refusal::accepted(raw::check_map(&bytes))?;
        Ok(Map { bytes, heads: OnceLock::new() })
    }

    /// Where a refused map goes wrong. The engine answers the refusal alone, so the byte comes from another reading of the map,
    /// which is not proved: None where the engine accepts the map, and where that reading finds another refusal than the engine.
    ///
    /// # Panics
    ///
    /// As [`raw::check_version`].
    pub fn fault(bytes: &[u8]) -> Option<Fault> {
        raw::check_version();
        let fault = layout::heads(bytes).err()?;
        (fault.refusal.number() == raw::check_map(bytes)).then_some(fault)
    }

    /// The map's bytes.
    pub fn bytes(&self) -> &[u8] {
        &self.bytes
    }

    /// How many areas the map has.
    pub fn area_count(&self) -> usize {
        self.heads().len()
    }

    /// The map's areas, ascending. They are read from the bytes once; [`Map::look_up`] asks the engine.
    pub fn areas(&self) -> impl Iterator<Item = AreaHead<'_>> {
        self.heads().iter().map(|head| AreaHead {
            number: head.number,
            weight: head.weight,
            rows: head.rows,
            columns: head.columns,
            population: head.population,
            bytes: &self.bytes[head.part.clone()],
        })
    }

    /// The area with a number, if the map has it.
    pub fn look_up(&self, number: u16) -> Option<AreaHead<'_>> {
        let raw::Area { weight, rows, columns, population, offset, length, .. } = raw::look_up(&self.bytes, number);
        // Rows are 0 only if the map lacks the number.
        (rows > 0).then(|| AreaHead {
            number,
            weight,
            rows: rows as usize,
            columns: columns as usize,
            population: People(population),
            bytes: &self.bytes[offset as usize..][..length as usize],
        })
    }

    /// What licences in force cover in an area: MHz-pops and cells, both 0 if the map lacks the number.
    pub fn coverage(&self, register: &Register, number: u16) -> Coverage {
        Coverage::from_raw(&raw::coverage(&self.bytes, register.0, number))
    }

    /// The blocks of an area, 0 and nothing partial if the map lacks the number.
    pub fn blocks(&self, register: &Register, number: u16) -> Blocks {
        Blocks::from_raw(&raw::blocks(&self.bytes, register.0, number))
    }

    /// The proposal; the draw decides among tied areas.
    ///
    /// # Errors
    ///
    /// [`Refusal::TooManyPartial`].
    pub fn propose(&self, register: &Register, draw: u32) -> Result<Proposal, Refusal> {
        let answer = raw::propose(&self.bytes, register.0, draw);
        Refusal::accepted(answer.refusal)?;
        Ok(Proposal::from_raw(&answer))
    }

    /// The footprint of the partial area of the proposal with this draw. The engine is called once, and once more where the
    /// table of a workspace of the usual size is too short.
    ///
    /// # Errors
    ///
    /// [`Refusal::TooManyPartial`], or [`Refusal::NotOnePart`] if the proposal is not of kind 3.
    pub fn footprint(&self, register: &Register, draw: u32) -> Result<Footprint, Refusal> {
        let mut workspace = Workspace::new();
        match self.footprint_in(register, draw, &mut workspace) {
            Err(Refusal::TableShort { needed }) => {
                workspace.grow(needed);
                self.footprint_in(register, draw, &mut workspace)
            }
            answer => answer,
        }
    }

    /// The footprint, made in a lent workspace. The engine is called once.
    ///
    /// # Errors
    ///
    /// As [`Map::footprint`]; [`Refusal::TableShort`] if the workspace's table is too short.
    pub fn footprint_in(
        &self,
        register: &Register,
        draw: u32,
        workspace: &mut Workspace,
    ) -> Result<Footprint, Refusal> {
        let Workspace { mask, table } = workspace;
        let area = self.footprint_into(register, draw, mask, table)?;
        let head = self.heads().iter().find(|head| head.number == area);
        let &Head { rows, columns, .. } = head.expect("a footprint is of an area of the map");
        Ok(Footprint { area, rows, columns, mask: mask[..rows * columns].to_vec() })
    }

    /// The footprint into a lent mask, with a lent table as working store; the answer is the partial area's number. The mask's
    /// first rows x columns bytes are written.
    ///
    /// # Errors
    ///
    /// As [`Map::footprint`]; [`Refusal::MaskShort`]; [`Refusal::TableShort`], where the mask's bytes for the area become 0.
    pub fn footprint_into(
        &self,
        register: &Register,
        draw: u32,
        mask: &mut [u8],
        table: &mut [Entry],
    ) -> Result<u16, Refusal> {
        let answer = raw::footprint(&self.bytes, register.0, draw, mask, table);
        match Refusal::from_raw(answer.refusal, answer.needed) {
            Some(refusal) => Err(refusal),
            None => Ok(area_number(answer.area)),
        }
    }

    fn heads(&self) -> &[Head] {
        let read = || layout::heads(&self.bytes).expect("the engine has accepted the map by the same rules");
        self.heads.get_or_init(read)
    }
}

impl PartialEq for Map<'_> {
    fn eq(&self, other: &Map) -> bool {
        self.bytes == other.bytes
    }
}

impl Eq for Map<'_> {}

impl fmt::Debug for Map<'_> {
    fn fmt(&self, out: &mut fmt::Formatter) -> fmt::Result {
        let numbers: Vec<u16> = self.areas().map(|area| area.number).collect();
        out.debug_struct("Map").field("areas", &numbers).field("bytes", &self.bytes.len()).finish()
    }
}

#[cfg(test)]
mod tests {
    use super::*;
    use crate::{Cell, Licence, NewArea, write_map};

    /// Calls of the engine's footprint that are made.
    fn calls(made: impl FnOnce() -> Result<Footprint, Refusal>) -> usize {
        let before = raw::FOOTPRINTS.get();
        made().expect("there is a footprint");
        raw::FOOTPRINTS.get() - before
    }

    /// An area of one cell under a licence of 50 MHz: all of it is the last ring, and the slack is half of its people.
    fn half_of(people: u32) -> (Map<'static>, Register) {
        let cells = vec![Some(Cell { people, latitude: 0, longitude: 0 })];
        let bytes = write_map(&[NewArea { number: 7, weight: 1, rows: 1, columns: 1, cells }]).expect("it fits a map");
        let register = Register::empty().grant(Licence::area(1, 7)).expect("the licence is granted");
        (Map::owned(bytes).expect("the map is accepted"), register)
    }

    #[test]
    fn the_engine_is_called_once_in_a_lent_workspace_and_at_most_twice_without() {
        let (map, register) = half_of(1_000);
        assert_eq!(calls(|| map.footprint(&register, 0)), 1);
        let (map, register) = half_of(1_000_000);
        assert_eq!(calls(|| map.footprint(&register, 0)), 2);
        let mut workspace = Workspace::with_entries(500_001);
        assert_eq!(calls(|| map.footprint_in(&register, 0, &mut workspace)), 1);
    }
}
