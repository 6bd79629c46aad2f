//! Coverage of a row's cells, and the blocks of an area.

use super::map::Area;
use super::row::Row;
use codwalet::raw::{FULL_WIDTH, GROUND_AREA, GROUND_BOX, Held, Licence, Register};
use std::ops::Add;

/// People and cells.
#[derive(Clone, Copy, Default)]
pub struct Count {
    pub people: u64,
    pub cells: u64,
}

impl Count {
    /// What licences over all of it cover.
    pub fn under(self, licences: Licences) -> Covered {
        Covered { mhz_pops: licences.mhz * self.people, cells: licences.count * self.cells }
    }
}

impl Add for Count {
    type Output = Count;

    fn add(self, other: Count) -> Count {
        Count { people: self.people + other.people, cells: self.cells + other.cells }
    }
}

/// How many licences there are, and their widths added up.
#[derive(Clone, Copy, Default)]
pub struct Licences {
    pub count: u64,
    mhz: u64,
}

impl Licences {
    /// A licence alone. In a register that was forged it may have no width.
    fn one(licence: &Licence) -> Licences {
        Licences { count: 1, mhz: u64::from(FULL_WIDTH.saturating_sub(u32::from(licence.narrower_by))) }
    }
}

impl Add for Licences {
    type Output = Licences;

    fn add(self, other: Licences) -> Licences {
        Licences { count: self.count + other.count, mhz: self.mhz + other.mhz }
    }
}

/// What licences cover: c, and cells, counted once for each licence over them.
#[derive(Clone, Copy, Default)]
pub struct Covered {
    pub mhz_pops: u64,
    pub cells: u64,
}

impl Add for Covered {
    type Output = Covered;

    fn add(self, other: Covered) -> Covered {
        Covered { mhz_pops: self.mhz_pops + other.mhz_pops, cells: self.cells + other.cells }
    }
}

/// The licences in force: those for areas, and those for boxes.
#[derive(Default)]
pub struct Grounds {
    areas: Vec<Licence>,
    boxes: Vec<Licence>,
    /// The one area in which they count, if no other is asked for.
    only: Option<u16>,
}

/// No ground.
static NONE: Grounds = Grounds { areas: Vec::new(), boxes: Vec::new(), only: None };

impl Grounds {
    /// The grounds of a register.
    pub fn of(register: &Register) -> Grounds {
        let in_force = || register.places.iter().filter(|place| place.call_sign != 0);
        Grounds {
            areas: in_force().filter(|place| place.kind == GROUND_AREA).copied().collect(),
            boxes: in_force().filter(|place| place.kind == GROUND_BOX).copied().collect(),
            only: None,
        }
    }

    /// The grounds for a question about one area.
    pub fn only_in(self, number: u16) -> Grounds {
        Grounds { only: Some(number), ..self }
    }

    /// The grounds that count in an area.
    pub fn counting_in(&self, number: u16) -> &Grounds {
        if self.only.is_none_or(|only| only == number) { self } else { &NONE }
    }

    /// The licences that name an area.
    pub fn naming(&self, number: u16) -> Licences {
        let naming = self.areas.iter().filter(|licence| licence.area == number);
        naming.map(Licences::one).fold(Licences::default(), Licences::add)
    }

    /// Whether a licence has a box.
    pub fn has_boxes(&self) -> bool {
        !self.boxes.is_empty()
    }

    /// What boxes cover in a row.
    pub fn boxed(&self, row: &Row) -> Covered {
        let met = self.boxes.iter().filter(|edges| meets(edges, row));
        met.map(|edges| within(edges, row).under(Licences::one(edges))).fold(Covered::default(), Covered::add)
    }

    /// Marks the cells of a row that boxes cover.
    pub fn mark_boxed(&self, row: &Row, marks: &mut [bool]) {
        for edges in self.boxes.iter().filter(|edges| meets(edges, row)) {
            for (mark, (&latitude, &longitude)) in marks.iter_mut().zip(row.latitudes().iter().zip(row.longitudes())) {
                *mark |= covers(edges, latitude, longitude);
            }
        }
    }
}

/// Whether a box can cover a cell of a row. Most boxes and most rows lie apart.
fn meets(edges: &Licence, row: &Row) -> bool {
    edges.south <= row.south_to_north.greatest
        && row.south_to_north.least < edges.north
        && edges.west <= row.west_to_east.greatest
        && row.west_to_east.least < edges.east
}

/// Without a branch, so that several cells are tested at once.
fn covers(edges: &Licence, latitude: i32, longitude: i32) -> bool {
    (edges.south <= latitude) & (latitude < edges.north) & (edges.west <= longitude) & (longitude < edges.east)
}

/// Whether a box covers all of a row's cells.
fn surrounds(edges: &Licence, row: &Row) -> bool {
    covers(edges, row.south_to_north.least, row.west_to_east.least)
        && covers(edges, row.south_to_north.greatest, row.west_to_east.greatest)
}

/// What a box covers in a row. Where it reaches past the row's cells to the south and to the north, as it mostly does,
/// the longitudes decide.
fn within(edges: &Licence, row: &Row) -> Count {
    if surrounds(edges, row) {
        return row.all();
    }
    let longitudes = row.longitudes().iter();
    if edges.south <= row.south_to_north.least && row.south_to_north.greatest < edges.north {
        let is_covered = longitudes.map(|&longitude| (edges.west <= longitude) & (longitude < edges.east));
        return count(is_covered, row.people());
    }
    let points = row.latitudes().iter().zip(longitudes);
    count(points.map(|(&latitude, &longitude)| covers(edges, latitude, longitude)), row.people())
}

/// The people and the number of covered cells.
fn count(is_covered: impl Iterator<Item = bool>, people: &[u32]) -> Count {
    let (mut sum, mut cells) = (0, 0);
    for (is_covered, &people) in is_covered.zip(people) {
        sum += if is_covered { people } else { 0 };
        cells += u32::from(is_covered);
    }
    Count { people: sum.into(), cells: cells.into() }
}

impl Area<'_> {
    /// The area's blocks.
    pub fn blocks(&self) -> Held {
        let whole = self.covered.mhz_pops / (100 * self.population);
        let rest = self.covered.mhz_pops % (100 * self.population);
        if rest >= 99 * self.population {
            return Held { whole: whole + 1, ..Held::default() };
        }
        if rest == 0 {
            return Held { whole, ..Held::default() };
        }
        let weight = u64::from(self.weight);
        Held { whole, value: weight * rest, size: 100 * weight * self.population, ..Held::default() }
    }
}
