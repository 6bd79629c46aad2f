//! The map: bytes taken apart field by field.

use std::ops::RangeInclusive;

const AREAS: RangeInclusive<u64> = 1..=32;
const WEIGHTS: RangeInclusive<u64> = 1..=65_535;
const SIDES: RangeInclusive<u64> = 1..=128;
const PEOPLE: RangeInclusive<u64> = 0..=1_000_000;
const POPULATIONS: RangeInclusive<u64> = 1..=40_000_000;
/// Numbers of areas, on a map or as a ground.
pub(super) const NUMBERS: RangeInclusive<u64> = 1..=416;
/// Latitudes of cells and edges of boxes.
pub(super) const LATITUDES: RangeInclusive<i32> = -32_400_000..=32_400_000;
/// Longitudes of cells and edges of boxes.
pub(super) const LONGITUDES: RangeInclusive<i32> = -64_800_000..=64_800_000;

/// A cell of an area.
#[derive(Clone, Copy, Debug, PartialEq, Eq)]
pub struct Cell {
    pub people: u32,
    pub latitude: i32,
    pub longitude: i32,
}

/// An area of a map; `cells` has an entry for each place, row by row.
#[derive(Clone, Debug, PartialEq, Eq)]
pub struct Area {
    pub number: u16,
    pub weight: u32,
    pub rows: usize,
    pub columns: usize,
    pub cells: Vec<Option<Cell>>,
    /// Where its rows start in the map: the first byte of the first bit map.
    pub start: usize,
    /// Where its rows end in the map: the byte after the last cell.
    pub end: usize,
}

impl Area {
    /// "An area's population, written pop, is the sum of its cells' people."
    pub fn population(&self) -> u64 {
        self.cells.iter().flatten().map(|cell| u64::from(cell.people)).sum()
    }
}

/// Why a map is refused: document 01's number 1 to 5, and the position of the byte at which the field at fault starts
/// (3: the first byte after the last area; 5: the byte after the area's last row).
#[derive(Clone, Copy, Debug, PartialEq, Eq)]
pub struct Fault {
    pub number: u32,
    pub position: usize,
}

/// Takes a map's fields in byte order.
struct Reader<'a> {
    bytes: &'a [u8],
    position: usize,
}

impl<'a> Reader<'a> {
    /// "1: the map ends before or inside a field that is due."
    fn take(&mut self, length: usize) -> Result<&'a [u8], Fault> {
        let start = self.position;
        let field = self.bytes.get(start..start + length).ok_or(Fault { number: 1, position: start })?;
        self.position = start + length;
        Ok(field)
    }

    /// An unsigned field of `length` bytes. "2: a field outside its limits."
    fn unsigned(&mut self, length: usize, limits: RangeInclusive<u64>) -> Result<u64, Fault> {
        let position = self.position;
        let field = self.take(length)?;
        let value = field.iter().rev().fold(0, |value, &byte| value * 256 + u64::from(byte));
        if limits.contains(&value) { Ok(value) } else { Err(Fault { number: 2, position }) }
    }

    /// A coordinate: an i32 within its limits.
    fn coordinate(&mut self, limits: RangeInclusive<i32>) -> Result<i32, Fault> {
        let position = self.position;
        let field = self.take(4)?;
        let value = i32::from_le_bytes([field[0], field[1], field[2], field[3]]);
        if limits.contains(&value) { Ok(value) } else { Err(Fault { number: 2, position }) }
    }

    /// "number, u16, 1 to 416, above the one before"; `before` is 0 for the first area.
    fn area_number(&mut self, before: u16) -> Result<u16, Fault> {
        let position = self.position;
        let number = self.unsigned(2, NUMBERS)? as u16;
        if number > before { Ok(number) } else { Err(Fault { number: 4, position }) }
    }

    /// A row's bit map, as one truth for each column. "A bit past the last column" is refused by 2.
    fn bit_map(&mut self, columns: usize) -> Result<Vec<bool>, Fault> {
        let position = self.position;
        let bytes = self.take(columns.div_ceil(8))?;
        let mut bits: Vec<bool> = (0..bytes.len() * 8).map(|bit| bytes[bit / 8] >> (bit % 8) & 1 == 1).collect();
        if bits[columns..].contains(&true) {
            return Err(Fault { number: 2, position });
        }
        bits.truncate(columns);
        Ok(bits)
    }

    /// "A cell has 12 bytes: people, latitude, longitude."
    fn cell(&mut self) -> Result<Cell, Fault> {
        Ok(Cell {
            people: self.unsigned(4, PEOPLE)? as u32,
            latitude: self.coordinate(LATITUDES)?,
            longitude: self.coordinate(LONGITUDES)?,
        })
    }

    /// An area's fields, and its population, "found after the area's last row".
    fn area(&mut self, before: u16) -> Result<Area, Fault> {
        let number = self.area_number(before)?;
        let weight = self.unsigned(4, WEIGHTS)? as u32;
        let rows = self.unsigned(1, SIDES)? as usize;
        let columns = self.unsigned(1, SIDES)? as usize;
        let start = self.position;
        let mut cells = Vec::with_capacity(rows * columns);
        for _ in 0..rows {
            for bit in self.bit_map(columns)? {
                cells.push(if bit { Some(self.cell()?) } else { None });
            }
        }
        let area = Area { number, weight, rows, columns, cells, start, end: self.position };
        if POPULATIONS.contains(&area.population()) {
            Ok(area)
        } else {
            Err(Fault { number: 5, position: self.position })
        }
    }
}

/// The map: "Map fields are taken in byte order; the first fault met counts."
pub fn read_map(bytes: &[u8]) -> Result<Vec<Area>, Fault> {
    let mut reader = Reader { bytes, position: 0 };
    let count = reader.unsigned(1, AREAS)?;
    let mut areas: Vec<Area> = Vec::new();
    for _ in 0..count {
        let before = areas.last().map_or(0, |area| area.number);
        areas.push(reader.area(before)?);
    }
    if reader.position < bytes.len() {
        return Err(Fault { number: 3, position: reader.position });
    }
    Ok(areas)
}

#[cfg(test)]
mod tests {
    use super::*;
    use crate::reference::tests::{row, small_map};

    #[test]
    fn a_map_is_read_as_written() {
        let areas = read_map(&small_map()).expect("a good map");
        assert_eq!(areas, [Area { start: 9, end: 70, ..row(7, 1, &[5, 0, 4, 3, 8]) }]);
    }

    #[test]
    fn faults_of_fields() {
        // The bytes written, where, and the fault.
        let cases: [(usize, &[u8], u32, usize); 16] = [
            (0, &[0], 2, 0),
            (0, &[33], 2, 0),
            (0, &[2], 1, 70),
            (1, &[0, 0], 2, 1),
            (1, &[161, 1], 2, 1),
            (3, &[0, 0, 0, 0], 2, 3),
            (3, &[0, 0, 1, 0], 2, 3),
            (7, &[0], 2, 7),
            (7, &[129], 2, 7),
            (8, &[0], 2, 8),
            (8, &[129], 2, 8),
            (9, &[0b111111], 2, 9),
            (9, &[0b1111], 3, 58),
            (10, &[65, 66, 15, 0], 2, 10),
            (14, &[129, 98, 238, 1], 2, 14),
            (18, &[255, 58, 35, 252], 2, 18),
        ];
        for (at, bytes, number, position) in cases {
            let mut map = small_map();
            map[at..at + bytes.len()].copy_from_slice(bytes);
            assert_eq!(read_map(&map), Err(Fault { number, position }), "{bytes:?} at {at}");
        }
    }

    #[test]
    fn faults_of_length() {
        let map = small_map();
        let fields = [0, 1, 3, 7, 8, 9, 10, 14, 18];
        for end in 0..22 {
            let due = fields.iter().rfind(|&&field| field <= end);
            let position = *due.expect("a map has a first field");
            assert_eq!(read_map(&map[..end]), Err(Fault { number: 1, position }), "cut at {end}");
        }
        let longer = [map.as_slice(), &[0]].concat();
        assert_eq!(read_map(&longer).map_err(|fault| (fault.number, fault.position)), Err((3, 70)));
    }

    #[test]
    fn faults_of_order_and_population() {
        let map = small_map();
        let fault = |map: &[u8]| read_map(map).map_err(|fault| (fault.number, fault.position));
        let mut twice = [map.as_slice(), &map[1..]].concat();
        twice[0] = 2;
        assert_eq!(fault(&twice), Err((4, 70)));
        let mut nobody = map;
        (0..5).for_each(|cell| nobody[10 + 12 * cell] = 0);
        assert_eq!(fault(&nobody), Err((5, 70)));
    }
}
