//! Document 01's limits, as the C header has them. Each is the largest value.

use crate::raw;

/// Areas of a map.
pub const AREAS: usize = raw::AREAS;
/// Licences in force.
pub const LICENCES: usize = raw::LIMIT;
/// Partial areas of a proposal.
pub const PARTIAL_AREAS: usize = raw::PARTIAL_AREAS as usize;
/// The width of a licence in MHz, which is that of one granted without a width; the smallest is 1.
pub const FULL_WIDTH: u32 = raw::FULL_WIDTH;
/// The number of an area; the smallest is 1.
pub const AREA_NUMBER: u16 = raw::LARGEST_NUMBER as u16;
/// The weight of an area; the smallest is 1.
pub const WEIGHT: u32 = raw::LARGEST_WEIGHT;
/// Rows, and columns, of an area; the fewest are 1.
pub const SIDE: usize = raw::LARGEST_SIDE as usize;
/// People of a cell.
pub const PEOPLE: u32 = raw::LARGEST_CELL;
/// People of an area; the fewest are 1.
pub const POPULATION: u64 = raw::LARGEST_POPULATION as u64;
/// A latitude, in hundredths of an arc second; the smallest is its negative.
pub const LATITUDE: i32 = raw::LARGEST_LATITUDE as i32;
/// A longitude, in hundredths of an arc second; the smallest is its negative.
pub const LONGITUDE: i32 = raw::LARGEST_LONGITUDE as i32;
/// Bytes of a mask: one for each place of the largest area.
pub const MASK: usize = raw::LARGEST_MASK as usize;
