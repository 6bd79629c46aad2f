//! Areas and their cells.

use crate::{People, layout};
use std::fmt;

/// A cell of an area: its people and the point that stands for them, in hundredths of an arc second.
#[derive(Clone, Copy, Debug, PartialEq, Eq, Hash)]
pub struct Cell {
    /// The people who live in the cell.
    pub people: u32,
    /// The point's latitude, negative to the south.
    pub latitude: i32,
    /// The point's longitude, negative to the west.
    pub longitude: i32,
}

/// An area as a map has it.
#[derive(Clone, Copy, PartialEq, Eq)]
#[non_exhaustive]
pub struct AreaHead<'m> {
    /// The area's number.
    pub number: u16,
    /// What one of its MHz-pops counts.
    pub weight: u32,
    /// Rows of its grid.
    pub rows: usize,
    /// Columns of its grid.
    pub columns: usize,
    /// The people of its cells.
    pub population: People,
    /// The part of the map that holds the area's rows, first bit map to last cell.
    pub bytes: &'m [u8],
}

impl AreaHead<'_> {
    /// The area's places row by row, each with its cell if it has one.
    pub fn cells(&self) -> Vec<Option<Cell>> {
        layout::cells(self.bytes, self.rows, self.columns)
    }
}

impl fmt::Debug for AreaHead<'_> {
    fn fmt(&self, out: &mut fmt::Formatter) -> fmt::Result {
        out.debug_struct("AreaHead")
            .field("number", &self.number)
            .field("weight", &self.weight)
            .field("rows", &self.rows)
            .field("columns", &self.columns)
            .field("population", &self.population.0)
            .field("bytes", &self.bytes.len())
            .finish()
    }
}

/// An area to be written into a map by [`write_map`](crate::write_map).
#[derive(Clone, Debug, PartialEq, Eq)]
pub struct NewArea {
    /// The area's number.
    pub number: u16,
    /// What one of its MHz-pops counts.
    pub weight: u32,
    /// Rows of its grid.
    pub rows: usize,
    /// Columns of its grid.
    pub columns: usize,
    /// The places row by row, each with its cell if it has one.
    pub cells: Vec<Option<Cell>>,
}
