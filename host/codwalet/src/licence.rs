//! Licences, and what is wrong with one that the engine refuses by 6.

use crate::{Cell, limits, raw};
use std::cmp::Ordering;
use std::fmt;
use std::hash::{Hash, Hasher};

/// A box between two latitudes and two longitudes, in hundredths of an arc second; degrees south and west are negative.
/// It covers the cells with south <= latitude < north and west <= longitude < east.
#[derive(Clone, Copy, Debug, PartialEq, Eq, PartialOrd, Ord, Hash)]
pub struct GeoBox {
    /// The southern edge, which belongs to the box.
    pub south: i32,
    /// The northern edge, which does not.
    pub north: i32,
    /// The western edge, which belongs to the box.
    pub west: i32,
    /// The eastern edge, which does not.
    pub east: i32,
}

impl GeoBox {
    /// Whether the box covers a cell.
    pub fn covers(&self, cell: &Cell) -> bool {
        (self.south..self.north).contains(&cell.latitude) && (self.west..self.east).contains(&cell.longitude)
    }

    /// What is wrong with the box, if something is.
    fn flaw(&self) -> Option<Flaw> {
        let GeoBox { south, north, west, east } = *self;
        let past = |edge: &i32, limit: i32| !(-limit..=limit).contains(edge);
        if let Some(edge) = [south, north].into_iter().find(|edge| past(edge, limits::LATITUDE)) {
            return Some(Flaw::Latitude(edge));
        }
        if let Some(edge) = [west, east].into_iter().find(|edge| past(edge, limits::LONGITUDE)) {
            return Some(Flaw::Longitude(edge));
        }
        if south >= north {
            return Some(Flaw::SouthNotBelowNorth { south, north });
        }
        (west >= east).then_some(Flaw::WestNotBelowEast { west, east })
    }
}

/// What a licence is for.
#[derive(Clone, Copy, Debug, PartialEq, Eq, PartialOrd, Ord, Hash)]
#[non_exhaustive]
pub enum Ground {
    /// Every cell of the area with this number.
    Area(u16),
    /// The cells that a box covers, whatever their area.
    Box(GeoBox),
    /// Nothing. No grant is accepted with it; a register that is read from bytes may hold it.
    None,
}

/// A licence: a call sign, a ground, and a width in MHz. Two are equal if all three are, one without a width being 50 MHz wide.
///
/// ```
/// use codwalet::{Licence, limits};
///
/// // A carrier that has sold 30 of its 50 MHz.
/// let slice = Licence::area(1001, 212).with_width(20);
/// assert_eq!((slice.width(), Licence::area(1001, 212).width()), (20, limits::FULL_WIDTH));
/// ```
#[derive(Clone, Copy, Debug)]
pub struct Licence {
    call_sign: u32,
    ground: Ground,
    /// None if it is to be granted without one.
    width: Option<u32>,
}

impl Licence {
    /// A licence for a whole area, without a width.
    pub fn area(call_sign: u32, number: u16) -> Licence {
        Licence { call_sign, ground: Ground::Area(number), width: None }
    }

    /// A licence for what lies within a box, without a width.
    pub fn within(call_sign: u32, edges: GeoBox) -> Licence {
        Licence { call_sign, ground: Ground::Box(edges), width: None }
    }

    /// The licence with a width in MHz. Any number is taken; a grant refuses those that are not 1 to [`limits::FULL_WIDTH`].
    pub fn with_width(self, mhz: u32) -> Licence {
        Licence { width: Some(mhz), ..self }
    }

    /// The number under which the licence is granted and cancelled.
    pub fn call_sign(&self) -> u32 {
        self.call_sign
    }

    /// What the licence is for.
    pub fn ground(&self) -> Ground {
        self.ground
    }

    /// The width in MHz: [`limits::FULL_WIDTH`] if the licence has none of its own. No grant is accepted with 0; a register that is
    /// read from bytes may hold it, and then the licence covers its cells and adds no MHz-pops.
    pub fn width(&self) -> u32 {
        self.width.unwrap_or(limits::FULL_WIDTH)
    }

    /// Whether the licence covers a cell of the area with a number, whatever its width.
    pub fn covers(&self, area: u16, cell: &Cell) -> bool {
        match self.ground {
            Ground::Area(number) => number == area,
            Ground::Box(edges) => edges.covers(cell),
            Ground::None => false,
        }
    }

    /// What is wrong with the licence, if something is. The engine answers 6 and no more, so this is the library's own
    /// reading of document 01's rules for a licence.
    pub fn flaw(&self) -> Option<Flaw> {
        if self.call_sign == 0 {
            return Some(Flaw::CallSignZero);
        }
        let of_ground = match self.ground {
            Ground::Area(number) if (1..=limits::AREA_NUMBER).contains(&number) => None,
            Ground::Area(number) => Some(Flaw::AreaNumber(number)),
            Ground::Box(edges) => edges.flaw(),
            Ground::None => Some(Flaw::NoGround),
        };
        let of_width = || (!(1..=limits::FULL_WIDTH).contains(&self.width())).then_some(Flaw::Width(self.width()));
        of_ground.or_else(of_width)
    }

    /// The step of a grant, with a width or without as the licence has it.
    pub(crate) fn grant_in(self, register: raw::Register) -> raw::Step {
        match self.width {
            Some(mhz) => raw::codwalet_grant_width(register, self.to_raw(), mhz),
            None => raw::codwalet_grant(register, self.to_raw()),
        }
    }

    /// Grants don't read `narrower_by`, which is 0 here.
    fn to_raw(self) -> raw::Licence {
        let licence = raw::Licence { call_sign: self.call_sign, ..Default::default() };
        match self.ground {
            Ground::Area(area) => raw::Licence { kind: raw::GROUND_AREA, area, ..licence },
            Ground::Box(GeoBox { south, north, west, east }) => {
                raw::Licence { kind: raw::GROUND_BOX, south, north, west, east, ..licence }
            }
            Ground::None => raw::Licence { kind: u8::MAX, ..licence },
        }
    }

    /// The licence at a place of a register.
    pub(crate) fn from_raw(licence: &raw::Licence) -> Licence {
        let raw::Licence { call_sign, area, kind, narrower_by, south, north, west, east } = *licence;
        let ground = match kind {
            raw::GROUND_AREA => Ground::Area(area),
            raw::GROUND_BOX => Ground::Box(GeoBox { south, north, west, east }),
            _ => Ground::None,
        };
        Licence { call_sign, ground, width: Some(limits::FULL_WIDTH.saturating_sub(narrower_by.into())) }
    }

    /// What licences are compared by: the width that counts, however it was given.
    fn key(&self) -> (u32, Ground, u32) {
        (self.call_sign, self.ground, self.width())
    }
}

impl PartialEq for Licence {
    fn eq(&self, other: &Licence) -> bool {
        self.key() == other.key()
    }
}

impl Eq for Licence {}

impl PartialOrd for Licence {
    fn partial_cmp(&self, other: &Licence) -> Option<Ordering> {
        Some(self.cmp(other))
    }
}

impl Ord for Licence {
    fn cmp(&self, other: &Licence) -> Ordering {
        self.key().cmp(&other.key())
    }
}

impl Hash for Licence {
    fn hash<H: Hasher>(&self, state: &mut H) {
        self.key().hash(state);
    }
}

/// What is wrong with a licence.
#[derive(Clone, Copy, Debug, PartialEq, Eq, Hash)]
#[non_exhaustive]
pub enum Flaw {
    /// No licence has call sign 0.
    CallSignZero,
    /// The number of an area that no map can have.
    AreaNumber(u16),
    /// An edge beyond the poles.
    Latitude(i32),
    /// An edge beyond half the way around.
    Longitude(i32),
    /// The box has no height.
    SouthNotBelowNorth {
        /// Its southern edge.
        south: i32,
        /// Its northern edge.
        north: i32,
    },
    /// The box has no width.
    WestNotBelowEast {
        /// Its western edge.
        west: i32,
        /// Its eastern edge.
        east: i32,
    },
    /// The ground is neither an area nor a box.
    NoGround,
    /// A width in MHz that no licence has.
    Width(u32),
}

impl fmt::Display for Flaw {
    fn fmt(&self, out: &mut fmt::Formatter) -> fmt::Result {
        match *self {
            Flaw::CallSignZero => write!(out, "the call sign is 0"),
            Flaw::AreaNumber(number) => write!(out, "area {number} is not within 1 to {}", limits::AREA_NUMBER),
            Flaw::Latitude(edge) => write_past(out, "latitude", edge, limits::LATITUDE),
            Flaw::Longitude(edge) => write_past(out, "longitude", edge, limits::LONGITUDE),
            Flaw::SouthNotBelowNorth { south, north } => {
                write!(out, "south {south} is not below north {north}, in {UNIT}")
            }
            Flaw::WestNotBelowEast { west, east } => write!(out, "west {west} is not below east {east}, in {UNIT}"),
            Flaw::NoGround => write!(out, "the ground is neither an area nor a box"),
            Flaw::Width(mhz) => write!(out, "width {mhz} is not within 1 to {} MHz", limits::FULL_WIDTH),
        }
    }
}

/// What coordinates are counted in.
const UNIT: &str = "hundredths of an arc second";

fn write_past(out: &mut fmt::Formatter, name: &str, edge: i32, limit: i32) -> fmt::Result {
    write!(out, "{name} {edge} is not within -{limit} to {limit} {UNIT}")
}
