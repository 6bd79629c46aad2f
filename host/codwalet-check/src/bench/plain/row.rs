//! The cells of a row: held to their limits, and taken apart to hold boxes against several at once.

use super::coverage::Count;
use codwalet::limits::{LATITUDE, LONGITUDE, PEOPLE, SIDE};

/// Bytes of a cell.
pub const CELL: usize = 12;

/// A cell's people, latitude and longitude.
fn fields(&[p0, p1, p2, p3, a0, a1, a2, a3, o0, o1, o2, o3]: &[u8; CELL]) -> (u32, i32, i32) {
    let people = u32::from_le_bytes([p0, p1, p2, p3]);
    (people, i32::from_le_bytes([a0, a1, a2, a3]), i32::from_le_bytes([o0, o1, o2, o3]))
}

/// The people of some cells. Of a row within its limits they fit in 32 bits.
fn sum(people: impl Iterator<Item = u32>) -> u64 {
    u64::from(people.fold(0u32, u32::wrapping_add))
}

/// The people of a row, if no field is outside its limits. Fields are compared without a branch.
pub fn people_within_limits(cells: &[[u8; CELL]]) -> Option<u64> {
    let mut outside = false;
    let people = sum(cells.iter().map(fields).map(|(people, latitude, longitude)| {
        outside |= (people > PEOPLE)
            | !(-LATITUDE..=LATITUDE).contains(&latitude)
            | !(-LONGITUDE..=LONGITUDE).contains(&longitude);
        people
    }));
    (!outside).then_some(people)
}

/// The least and the greatest of some coordinates.
#[derive(Clone, Copy)]
pub struct Span {
    pub least: i32,
    pub greatest: i32,
}

impl Span {
    /// Nothing is in it.
    const NONE: Span = Span { least: i32::MAX, greatest: i32::MIN };

    fn of(values: &[i32]) -> Span {
        values
            .iter()
            .fold(Span::NONE, |span, &value| Span { least: span.least.min(value), greatest: span.greatest.max(value) })
    }

    fn within(self, limit: i32) -> bool {
        -limit <= self.least && self.greatest <= limit
    }
}

/// The cells of a row, column by column, in a list for each field.
pub struct Row {
    count: usize,
    people: [u32; SIDE],
    latitudes: [i32; SIDE],
    longitudes: [i32; SIDE],
    total: u64,
    /// From the southernmost cell to the northernmost.
    pub south_to_north: Span,
    /// From the westernmost cell to the easternmost.
    pub west_to_east: Span,
}

impl Row {
    /// The row without a cell.
    pub const EMPTY: Row = Row {
        count: 0,
        people: [0; SIDE],
        latitudes: [0; SIDE],
        longitudes: [0; SIDE],
        total: 0,
        south_to_north: Span::NONE,
        west_to_east: Span::NONE,
    };

    /// Each cell's people.
    pub fn people(&self) -> &[u32] {
        &self.people[..self.count]
    }

    /// Each cell's latitude.
    pub fn latitudes(&self) -> &[i32] {
        &self.latitudes[..self.count]
    }

    /// Each cell's longitude.
    pub fn longitudes(&self) -> &[i32] {
        &self.longitudes[..self.count]
    }

    /// What a licence over all cells covers.
    pub fn all(&self) -> Count {
        Count { people: self.total, cells: self.count as u64 }
    }

    /// Takes the cells of a row apart. Its people, if no field is outside its limits.
    pub fn take(&mut self, cells: &[[u8; CELL]]) -> Option<u64> {
        self.count = cells.len();
        let lists = self.people.iter_mut().zip(&mut self.latitudes).zip(&mut self.longitudes);
        for (cell, ((people, latitude), longitude)) in cells.iter().zip(lists) {
            (*people, *latitude, *longitude) = fields(cell);
        }
        self.total = sum(self.people().iter().copied());
        self.south_to_north = Span::of(self.latitudes());
        self.west_to_east = Span::of(self.longitudes());
        let most = self.people().iter().fold(0, |most, &people| people.max(most));
        let within = most <= PEOPLE && self.south_to_north.within(LATITUDE) && self.west_to_east.within(LONGITUDE);
        (cells.is_empty() || within).then_some(self.total)
    }
}
