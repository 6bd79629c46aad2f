//! The bytes of a map, for reading and for writing: all that this library knows of where fields stand is here. The engine reads
//! maps by itself; what is read here is shown beside its answers.

use crate::{Cell, NewArea, People, Refusal, grouped, limits};
use std::fmt;
use std::ops::{Range, RangeInclusive};

/// Bytes of a cell: people, latitude and longitude.
const CELL: usize = 12;

/// Bytes of the bit map of a row.
fn bit_map_length(columns: usize) -> usize {
    columns.div_ceil(8)
}

/// Whether a bit map has a bit.
fn has_bit(bits: &[u8], column: usize) -> bool {
    bits[column / 8] >> (column % 8) & 1 == 1
}

fn cell_from(bytes: &[u8; CELL]) -> Cell {
    let field = |start: usize| [bytes[start], bytes[start + 1], bytes[start + 2], bytes[start + 3]];
    Cell {
        people: u32::from_le_bytes(field(0)),
        latitude: i32::from_le_bytes(field(4)),
        longitude: i32::from_le_bytes(field(8)),
    }
}

/// The places of an area, from the part of a map that holds its rows. Where the part ends early, so do the places.
pub(crate) fn cells(part: &[u8], rows: usize, columns: usize) -> Vec<Option<Cell>> {
    let mut places = Vec::new();
    let mut rest = part;
    for _ in 0..rows {
        let Some((bits, cells)) = rest.split_at_checked(bit_map_length(columns)) else { break };
        rest = cells;
        for column in 0..columns {
            let cell = if has_bit(bits, column) { rest.split_first_chunk() } else { None };
            rest = cell.map_or(rest, |(_, behind)| behind);
            places.push(cell.map(|(bytes, _)| cell_from(bytes)));
        }
    }
    places
}

/// An area without its cells: its head, its population, and where its rows stand in the map.
#[derive(Clone, Debug, PartialEq, Eq)]
pub(crate) struct Head {
    pub number: u16,
    pub weight: u32,
    pub rows: usize,
    pub columns: usize,
    pub population: People,
    pub part: Range<usize>,
}

/// Where a map goes wrong: the refusal, and the first byte of the field at fault. For bytes after the last area it is the first
/// of them, for a population the byte after the area's last row.
#[derive(Clone, Copy, Debug, PartialEq, Eq)]
#[non_exhaustive]
pub struct Fault {
    /// Why the map is refused.
    pub refusal: Refusal,
    /// The byte, from 0.
    pub byte: usize,
}

impl fmt::Display for Fault {
    fn fmt(&self, out: &mut fmt::Formatter) -> fmt::Result {
        write!(out, "refused, {}, at byte {}: {}", self.refusal.number(), grouped(self.byte as u64), self.refusal)
    }
}

/// The heads of a map's areas from one pass over its fields, in byte order; or the first fault met.
pub(crate) fn heads(bytes: &[u8]) -> Result<Vec<Head>, Fault> {
    let mut reader = Reader { bytes, at: 0 };
    let count = reader.byte(limits::AREAS)?;
    let mut heads: Vec<Head> = Vec::with_capacity(count);
    for _ in 0..count {
        let before = heads.last().map_or(0, |head| head.number);
        heads.push(reader.area(before)?);
    }
    if reader.at < bytes.len() {
        return Err(Fault { refusal: Refusal::MapExtra, byte: reader.at });
    }
    Ok(heads)
}

/// Takes a map's fields in byte order.
struct Reader<'a> {
    bytes: &'a [u8],
    at: usize,
}

impl<'a> Reader<'a> {
    fn take(&mut self, length: usize) -> Result<&'a [u8], Fault> {
        let fault = Fault { refusal: Refusal::MapEnds, byte: self.at };
        let field = self.bytes.get(self.at..).and_then(|rest| rest.get(..length)).ok_or(fault)?;
        self.at += length;
        Ok(field)
    }

    /// The bytes of a number, and where they stand.
    fn field<const LENGTH: usize>(&mut self) -> Result<(usize, [u8; LENGTH]), Fault> {
        let at = self.at;
        let mut field = [0; LENGTH];
        field.copy_from_slice(self.take(LENGTH)?);
        Ok((at, field))
    }

    /// A count of one byte, from 1 to a limit.
    fn byte(&mut self, limit: usize) -> Result<usize, Fault> {
        let (at, [count]) = self.field()?;
        within(at, usize::from(count), 1..=limit)
    }

    fn coordinate(&mut self, limit: i32) -> Result<i32, Fault> {
        let (at, field) = self.field()?;
        within(at, i32::from_le_bytes(field), -limit..=limit)
    }

    fn number(&mut self, before: u16) -> Result<u16, Fault> {
        let (at, field) = self.field()?;
        let number = within(at, u16::from_le_bytes(field), 1..=limits::AREA_NUMBER)?;
        if number > before { Ok(number) } else { Err(Fault { refusal: Refusal::MapOrder, byte: at }) }
    }

    fn weight(&mut self) -> Result<u32, Fault> {
        let (at, field) = self.field()?;
        within(at, u32::from_le_bytes(field), 1..=limits::WEIGHT)
    }

    fn area(&mut self, before: u16) -> Result<Head, Fault> {
        let number = self.number(before)?;
        let weight = self.weight()?;
        let rows = self.byte(limits::SIDE)?;
        let columns = self.byte(limits::SIDE)?;
        let start = self.at;
        let mut population = 0;
        for _ in 0..rows {
            population += self.row(columns)?;
        }
        if !(1..=limits::POPULATION).contains(&population) {
            return Err(Fault { refusal: Refusal::MapPopulation, byte: self.at });
        }
        Ok(Head { number, weight, rows, columns, population: People(population), part: start..self.at })
    }

    /// A row's bit map and cells; the answer is their people.
    fn row(&mut self, columns: usize) -> Result<u64, Fault> {
        let at = self.at;
        let bits = self.take(bit_map_length(columns))?;
        if (columns..8 * bits.len()).any(|column| has_bit(bits, column)) {
            return Err(Fault { refusal: Refusal::MapLimit, byte: at });
        }
        let mut people = 0;
        for _ in 0..bits.iter().map(|byte| byte.count_ones()).sum() {
            people += u64::from(self.cell()?);
        }
        Ok(people)
    }

    /// A cell; the answer is its people.
    fn cell(&mut self) -> Result<u32, Fault> {
        let (at, field) = self.field()?;
        let people = within(at, u32::from_le_bytes(field), 0..=limits::PEOPLE)?;
        self.coordinate(limits::LATITUDE)?;
        self.coordinate(limits::LONGITUDE)?;
        Ok(people)
    }
}

/// A value that is within its limits, else a fault at its first byte.
fn within<T: PartialOrd>(byte: usize, value: T, limits: RangeInclusive<T>) -> Result<T, Fault> {
    if limits.contains(&value) { Ok(value) } else { Err(Fault { refusal: Refusal::MapLimit, byte }) }
}

/// Why areas can't be written: something of them doesn't fit the bytes that a map has for it.
#[derive(Clone, Copy, Debug, PartialEq, Eq)]
#[non_exhaustive]
pub enum Unwritable {
    /// So many areas.
    Areas(usize),
    /// So many rows or columns of the area with a number.
    Side {
        /// The area's number.
        area: u16,
        /// How many.
        side: usize,
    },
    /// The area with a number has other than rows x columns places.
    Places {
        /// The area's number.
        area: u16,
        /// How many.
        places: usize,
    },
}

impl fmt::Display for Unwritable {
    fn fmt(&self, out: &mut fmt::Formatter) -> fmt::Result {
        match self {
            Unwritable::Areas(count) => write!(out, "{count} areas are too many for a map"),
            Unwritable::Side { area, side } => {
                write!(out, "area {area} has {side} rows or columns, too many for a map")
            }
            Unwritable::Places { area, places } => write!(out, "area {area} has {places} places, not rows x columns"),
        }
    }
}

impl std::error::Error for Unwritable {}

/// The bytes of a map. Fields are written as they are, within document 01's limits or not: the engine says whether it accepts
/// them.
///
/// # Errors
///
/// Where a count doesn't fit its byte, or an area has other than rows x columns places.
pub fn write_map(areas: &[NewArea]) -> Result<Vec<u8>, Unwritable> {
    let count = u8::try_from(areas.len()).map_err(|_| Unwritable::Areas(areas.len()))?;
    let mut map = vec![count];
    for area in areas {
        write_area(&mut map, area)?;
    }
    Ok(map)
}

fn write_area(map: &mut Vec<u8>, area: &NewArea) -> Result<(), Unwritable> {
    let &NewArea { number, weight, rows, columns, ref cells } = area;
    let side = |side: usize| u8::try_from(side).map_err(|_| Unwritable::Side { area: number, side });
    map.extend(number.to_le_bytes());
    map.extend(weight.to_le_bytes());
    map.extend([side(rows)?, side(columns)?]);
    if cells.len() != rows * columns {
        return Err(Unwritable::Places { area: number, places: cells.len() });
    }
    for row in cells.chunks(columns.max(1)) {
        write_row(map, row);
    }
    Ok(())
}

/// A row: its bit map, then its cells in column order.
fn write_row(map: &mut Vec<u8>, row: &[Option<Cell>]) {
    for places in row.chunks(8) {
        let bits = places.iter().enumerate().map(|(bit, place)| u8::from(place.is_some()) << bit);
        map.push(bits.sum());
    }
    for cell in row.iter().flatten() {
        map.extend(cell.people.to_le_bytes());
        map.extend(cell.latitude.to_le_bytes());
        map.extend(cell.longitude.to_le_bytes());
    }
}
