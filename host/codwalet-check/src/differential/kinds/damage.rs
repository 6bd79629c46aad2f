//! Maps with one or more faults.

use crate::differential::build::{self, SMALL, Style};
use crate::differential::case::{Call, Case};
use crate::maps::write_map;
use crate::random::Random;
use crate::reference::{self, Area, Cell};
use codwalet::limits::{LATITUDE, LONGITUDE};

/// The bytes of an area's head: number (2), weight (4), rows (1) and columns (1).
const HEAD: usize = 8;

/// A map with one to three faults, so that the first one met must count. Some changes are within the limits.
pub fn case(random: &mut Random) -> Case {
    let count = random.between(1, 4) as usize;
    let areas = build::areas(random, count, Style { sides: (1, 10), gap_in: 3, ..SMALL });
    let mut map = write_map(&areas);
    // Where fields stand is read back from the good map.
    let areas = reference::read_map(&map).expect("a good map");
    for _ in 0..random.pick(&[1, 1, 2, 3]) {
        damage(random, &mut map, &areas);
    }
    let grounds = build::grounds(random, &areas, 2);
    let held = build::of_widths(random, &grounds);
    let mut calls = vec![Call::CheckMap, Call::Propose(0), build::footprint_call(random)];
    calls.extend((0..4).map(|_| build::read_call(random, &areas)));
    Case { map, start: Some(build::register(random, &held)), calls, fill: random.word() }
}

fn damage(random: &mut Random, map: &mut Vec<u8>, areas: &[Area]) {
    let area = &areas[random.below(areas.len())];
    match random.below(10) {
        0 => map.truncate(random.below(map.len() + 1)),
        1 => map.extend((0..random.between(1, 20)).map(|_| random.word() as u8)),
        2 => flip(random, map),
        3 => write(map, 0, &[random.pick(&[0, 1, 31, 32, 33, 255])]),
        4 => number(random, map, area, areas),
        5 => head(random, map, area),
        6 => bit_past_last_column(random, map, area),
        7 => cell(random, map, area),
        8 => people_of_area(random, map, area),
        _ => *map = (0..random.below(40)).map(|_| random.word() as u8).collect(),
    }
}

/// Writes bytes at a place, where the map still has it.
fn write(map: &mut [u8], at: usize, bytes: &[u8]) {
    if let Some(place) = map.get_mut(at..at + bytes.len()) {
        place.copy_from_slice(bytes);
    }
}

/// Flips a bit, or makes a byte any other.
fn flip(random: &mut Random, map: &mut [u8]) {
    if map.is_empty() {
        return;
    }
    let at = random.below(map.len());
    map[at] ^= if random.once_in(2) { 1 << random.below(8) } else { random.word() as u8 };
}

/// An area's number, at and past its limits, or that of any area of the map or beside it.
fn number(random: &mut Random, map: &mut [u8], area: &Area, areas: &[Area]) {
    let near = areas[random.below(areas.len())].number;
    let number = random.pick(&[0, 1, near - 1, near, near + 1, 416, 417, u16::MAX]);
    write(map, area.start - HEAD, &number.to_le_bytes());
}

/// Another field of an area's head, at and past its limits.
fn head(random: &mut Random, map: &mut [u8], area: &Area) {
    let weight = random.pick(&[0u32, 1, 65_535, 65_536, u32::MAX]);
    let side = random.pick(&[0, 1, 8, 9, 128, 129, 255]);
    match random.below(3) {
        0 => write(map, area.start - 6, &weight.to_le_bytes()),
        1 => write(map, area.start - 2, &[side]),
        _ => write(map, area.start - 1, &[side]),
    }
}

/// Where each row of an area starts.
fn row_starts(area: &Area) -> Vec<usize> {
    let mut start = area.start;
    let mut starts = Vec::new();
    for row in area.cells.chunks(area.columns) {
        starts.push(start);
        start += area.columns.div_ceil(8) + 12 * row.iter().flatten().count();
    }
    starts
}

/// Sets a bit past the last column, if the bit map has one.
fn bit_past_last_column(random: &mut Random, map: &mut [u8], area: &Area) {
    let used = area.columns % 8;
    let at = random.pick(&row_starts(area)) + area.columns / 8;
    if used > 0 && at < map.len() {
        map[at] |= 1 << random.between(used as i64, 7);
    }
}

/// A field of a cell, at and past its limits.
fn cell(random: &mut Random, map: &mut [u8], area: &Area) {
    let row = random.below(area.rows);
    let places = &area.cells[row * area.columns..(row + 1) * area.columns];
    let count = places.iter().flatten().count();
    if count == 0 {
        return;
    }
    let at = row_starts(area)[row] + area.columns.div_ceil(8) + 12 * random.below(count);
    match random.below(3) {
        0 => write(map, at, &random.pick(&[0, 1_000_000, 1_000_001, u32::MAX]).to_le_bytes()),
        1 => write(map, at + 4, &coordinate(random, LATITUDE).to_le_bytes()),
        _ => write(map, at + 8, &coordinate(random, LONGITUDE).to_le_bytes()),
    }
}

fn coordinate(random: &mut Random, limit: i32) -> i32 {
    random.pick(&[-limit, limit, -limit - 1, limit + 1, i32::MIN, i32::MAX])
}

/// Gives each cell of an area no people, or 1,000,000: too many for more than 40 cells.
fn people_of_area(random: &mut Random, map: &mut [u8], area: &Area) {
    let people = if random.once_in(2) { 0u32 } else { 1_000_000 };
    for (row, start) in row_starts(area).into_iter().enumerate() {
        let cells: Vec<&Cell> = area.cells[row * area.columns..(row + 1) * area.columns].iter().flatten().collect();
        for cell in 0..cells.len() {
            write(map, start + area.columns.div_ceil(8) + 12 * cell, &people.to_le_bytes());
        }
    }
}
