//! The map reader. The cells of a row are taken as one part of the map, by the count of bits that stand.

use super::coverage::{Count, Covered, Grounds};
use super::row::{CELL, Row, people_within_limits};
use codwalet::limits::{AREA_NUMBER, AREAS, LATITUDE, LONGITUDE, PEOPLE, POPULATION, SIDE, WEIGHT};
use codwalet::raw::{MAP_ENDS, MAP_EXTRA, MAP_LIMIT, MAP_ORDER, MAP_POPULATION};

/// An area of a map, with what licences cover in it.
pub struct Area<'a> {
    pub number: u16,
    pub weight: u32,
    pub rows: usize,
    pub columns: usize,
    /// The map from the area's first row on.
    body: &'a [u8],
    pub population: u64,
    pub covered: Covered,
}

/// What is still to be read of a map.
struct Reader<'a> {
    rest: &'a [u8],
}

impl<'a> Reader<'a> {
    fn bytes(&mut self, count: usize) -> Result<&'a [u8], u32> {
        let (bytes, rest) = self.rest.split_at_checked(count).ok_or(MAP_ENDS)?;
        self.rest = rest;
        Ok(bytes)
    }

    fn field<const N: usize>(&mut self) -> Result<[u8; N], u32> {
        let (bytes, rest) = self.rest.split_first_chunk().ok_or(MAP_ENDS)?;
        self.rest = rest;
        Ok(*bytes)
    }

    fn side(&mut self) -> Result<usize, u32> {
        limited(usize::from(u8::from_le_bytes(self.field()?)), 1, SIDE)
    }

    /// A row's bit map and its cells, whose fields may be outside their limits.
    fn row(&mut self, columns: usize) -> Result<(&'a [u8], &'a [[u8; CELL]]), u32> {
        let bits = self.bytes(columns.div_ceil(8))?;
        if !columns.is_multiple_of(8) && bits[columns / 8] >> (columns % 8) != 0 {
            return Err(MAP_LIMIT);
        }
        let count: u32 = bits.iter().map(|byte| byte.count_ones()).sum();
        let rest = self.rest;
        let cells = self.bytes(CELL * count as usize).map_err(|_| fault_before_end(rest))?;
        Ok((bits, cells.as_chunks().0))
    }

    /// An area. Its rows are taken apart only if a box is to be held against them.
    fn area(&mut self, before: u16, grounds: &Grounds, row: &mut Row) -> Result<Area<'a>, u32> {
        let number = limited(u16::from_le_bytes(self.field()?), 1, AREA_NUMBER)?;
        if number <= before {
            return Err(MAP_ORDER);
        }
        let grounds = grounds.counting_in(number);
        let weight = limited(u32::from_le_bytes(self.field()?), 1, WEIGHT)?;
        let rows = self.side()?;
        let columns = self.side()?;
        let body = self.rest;
        let (mut all, mut boxed) = (Count::default(), Covered::default());
        for _ in 0..rows {
            let (_, cells) = self.row(columns)?;
            let people = if grounds.has_boxes() { row.take(cells) } else { people_within_limits(cells) };
            all = all + Count { people: people.ok_or(MAP_LIMIT)?, cells: cells.len() as u64 };
            boxed = boxed + grounds.boxed(row);
        }
        let population = limited(all.people, 1, POPULATION).map_err(|_| MAP_POPULATION)?;
        let covered = all.under(grounds.naming(number)) + boxed;
        Ok(Area { number, weight, rows, columns, body, population, covered })
    }
}

fn limited<T: PartialOrd>(value: T, low: T, high: T) -> Result<T, u32> {
    if value < low || high < value { Err(MAP_LIMIT) } else { Ok(value) }
}

/// The refusal of a map that ends inside a row's cells: a field before the end may be outside its limits.
fn fault_before_end(cells: &[u8]) -> u32 {
    let (fields, _) = cells.as_chunks();
    let limits = [0..=PEOPLE as i32, -LATITUDE..=LATITUDE, -LONGITUDE..=LONGITUDE];
    let mut fields = fields.iter().zip(limits.iter().cycle());
    let within = fields.all(|(&field, limits)| limits.contains(&i32::from_le_bytes(field)));
    if within { MAP_ENDS } else { MAP_LIMIT }
}

/// The areas of a map, or its refusal, 1 to 5.
pub fn read<'a>(map: &'a [u8], grounds: &Grounds) -> Result<Vec<Area<'a>>, u32> {
    let mut reader = Reader { rest: map };
    let mut row = Row::EMPTY;
    let count = limited(usize::from(u8::from_le_bytes(reader.field()?)), 1, AREAS)?;
    let mut areas: Vec<Area> = Vec::with_capacity(count);
    for _ in 0..count {
        let before = areas.last().map_or(0, |area| area.number);
        areas.push(reader.area(before, grounds, &mut row)?);
    }
    if reader.rest.is_empty() { Ok(areas) } else { Err(MAP_EXTRA) }
}

impl Area<'_> {
    /// Reads the rows again, and hands over each with its bit map.
    pub fn each_row(&self, mut take: impl FnMut(&[u8], &Row)) -> Result<(), u32> {
        let mut reader = Reader { rest: self.body };
        let mut row = Row::EMPTY;
        for _ in 0..self.rows {
            let (bits, cells) = reader.row(self.columns)?;
            row.take(cells).ok_or(MAP_LIMIT)?;
            take(bits, &row);
        }
        Ok(())
    }
}
