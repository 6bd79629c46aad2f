//! The footprint of the area that is held in part, and the working store that it takes.

use crate::limits;
use crate::raw::Entry;
use std::fmt;

/// The part of the partial area that its share stands for.
#[derive(Clone, PartialEq, Eq)]
#[non_exhaustive]
pub struct Footprint {
    /// The partial area's number.
    pub area: u16,
    /// Rows of its grid.
    pub rows: usize,
    /// Columns of its grid.
    pub columns: usize,
    /// A byte for each place, row by row: 1 in the footprint, else 0.
    pub mask: Vec<u8>,
}

impl Footprint {
    /// Whether a place of the area is in the footprint.
    pub fn contains(&self, row: usize, column: usize) -> bool {
        let in_row = self.mask.chunks(self.columns.max(1)).nth(row).and_then(|marks| marks.get(column));
        in_row == Some(&1)
    }

    /// How many cells are in the footprint.
    pub fn cell_count(&self) -> usize {
        self.mask.iter().filter(|&&mark| mark == 1).count()
    }
}

impl fmt::Debug for Footprint {
    fn fmt(&self, out: &mut fmt::Formatter) -> fmt::Result {
        out.debug_struct("Footprint")
            .field("area", &self.area)
            .field("rows", &self.rows)
            .field("columns", &self.columns)
            .field("cells", &self.cell_count())
            .finish()
    }
}

/// What a footprint is made in: a mask that is long enough for every area, and a table. A caller that makes many footprints
/// lends the same one to each.
#[derive(Clone)]
pub struct Workspace {
    pub(crate) mask: Vec<u8>,
    pub(crate) table: Vec<Entry>,
}

impl Workspace {
    /// Entries of the table that most footprints do with, in 128 KiB.
    const ENTRIES: usize = 1 << 16;

    /// A workspace whose table is long enough for most footprints.
    pub fn new() -> Workspace {
        Workspace::with_entries(Workspace::ENTRIES)
    }

    /// A workspace whose table has so many entries. One more than the population of the largest area is enough for every
    /// footprint.
    ///
    /// # Panics
    ///
    /// If there is no memory for so many.
    pub fn with_entries(entries: usize) -> Workspace {
        Workspace { mask: vec![0; limits::MASK], table: vec![0; entries] }
    }

    /// How many entries the table has.
    pub fn entries(&self) -> usize {
        self.table.len()
    }

    /// Lengthens the table to so many entries, if it has fewer.
    ///
    /// # Panics
    ///
    /// If there is no memory for so many.
    pub fn grow(&mut self, entries: usize) {
        if self.table.len() < entries {
            // What the table held says nothing, so it need not be copied.
            self.table = vec![0; entries];
        }
    }
}

impl Default for Workspace {
    fn default() -> Workspace {
        Workspace::new()
    }
}

impl fmt::Debug for Workspace {
    fn fmt(&self, out: &mut fmt::Formatter) -> fmt::Result {
        out.debug_struct("Workspace").field("entries", &self.entries()).finish_non_exhaustive()
    }
}
