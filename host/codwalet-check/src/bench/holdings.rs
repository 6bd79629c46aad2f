//! The maps and registers that the benchmarks work on. They are made anew in each run and are always the same.

use codwalet::limits::{AREA_NUMBER, AREAS, LICENCES, SIDE};
use codwalet::raw::{FULL_WIDTH, GROUND_AREA, GROUND_BOX, Licence, Register};
use codwalet::{Cell, NewArea, write_map};

/// A map, and the licences in force over it.
pub struct Holdings {
    pub map: Vec<u8>,
    pub register: Register,
}

/// Between the points of neighbouring cells, in hundredths of an arc second: about two kilometres.
const STEP: i32 = 6_500;

/// An area: the people of each place by row and column, none where it has no cell, and where its first place stands.
#[derive(Clone, Copy)]
struct Area<'a> {
    rows: usize,
    columns: usize,
    latitude: i32,
    longitude: i32,
    people: &'a dyn Fn(usize, usize) -> Option<u32>,
}

impl Area<'_> {
    fn cell(&self, place: usize) -> Option<Cell> {
        let (row, column) = (place / self.columns, place % self.columns);
        let latitude = self.latitude - STEP * row as i32;
        let longitude = self.longitude + STEP * column as i32;
        (self.people)(row, column).map(|people| Cell { people, latitude, longitude })
    }

    /// The area with a number and weight 1, to be written.
    fn numbered(&self, number: u16) -> NewArea {
        let cells = (0..self.rows * self.columns).map(|place| self.cell(place)).collect();
        NewArea { number, weight: 1, rows: self.rows, columns: self.columns, cells }
    }
}

/// The box around the cells of rows and columns of an area.
fn box_over(call_sign: u32, area: &Area, rows: [usize; 2], columns: [usize; 2]) -> Licence {
    Licence {
        call_sign,
        kind: GROUND_BOX,
        south: area.latitude - STEP * (rows[1] as i32 - 1),
        north: area.latitude - STEP * rows[0] as i32 + 1,
        west: area.longitude + STEP * columns[0] as i32,
        east: area.longitude + STEP * columns[1] as i32,
        ..Licence::default()
    }
}

/// The register with licences in its first places.
fn register_of(licences: &[Licence]) -> Register {
    let mut register = Register { places: [Licence::default(); LICENCES] };
    for (place, licence) in register.places.iter_mut().zip(licences) {
        *place = *licence;
    }
    register
}

fn area_licence(call_sign: u32, area: u16) -> Licence {
    Licence { call_sign, area, kind: GROUND_AREA, ..Licence::default() }
}

/// The map of areas numbered from 1.
fn map_of(areas: &[Area]) -> Vec<u8> {
    let areas: Vec<NewArea> = (1..).zip(areas).map(|(number, area)| area.numbered(number)).collect();
    write_map(&areas).expect("an area of at most 128 x 128 places fits its fields")
}

/// The areas of the largest map, eight from west to east and four from north to south.
fn largest_areas<'a>() -> Vec<Area<'a>> {
    let corner = |i: i32| (20_000_000 - (i / 8) * SIDE as i32 * STEP, -45_000_000 + (i % 8) * SIDE as i32 * STEP);
    let area = |(latitude, longitude)| Area { rows: SIDE, columns: SIDE, latitude, longitude, people: &many_people };
    (0..AREAS as i32).map(corner).map(area).collect()
}

fn many_people(row: usize, column: usize) -> Option<u32> {
    Some(((row * 7919 + column * 104_729) % 2_000) as u32)
}

/// The largest map, and some boxes, by turns over parts of its first eight areas.
pub fn largest(boxes: usize) -> Holdings {
    let areas = largest_areas();
    let box_at = |i: usize| {
        let first = 8 * (i / 8);
        box_over(i as u32 + 1, &areas[i % 8], [first, SIDE - first], [first / 2, SIDE - first])
    };
    let boxes: Vec<Licence> = (0..boxes).map(box_at).collect();
    Holdings { map: map_of(&areas), register: register_of(&boxes) }
}

/// The largest map and its 64 boxes, of widths from 50 MHz down to 1 and again from 50.
pub fn largest_narrow() -> Holdings {
    let mut on = largest(LICENCES);
    for (place, licence) in on.register.places.iter_mut().enumerate() {
        licence.narrower_by = (place % FULL_WIDTH as usize) as u8;
    }
    on
}

/// The largest map with 100 people in each cell of its last area, and a box over 16 by 16 of these. The share is worth
/// 128 cells: after rings of 60 and 52 cells 144 are left, and the next ring, of 44, is the last.
pub fn few_rings() -> Holdings {
    let mut areas = largest_areas();
    let last = Area { people: &|_, _| Some(100), ..areas[AREAS - 1] };
    areas[AREAS - 1] = last;
    let square = box_over(1, &last, [56, 72], [56, 72]);
    Holdings { map: map_of(&areas), register: register_of(&[square]) }
}

/// As large a map with all areas in one place, and 64 boxes that each leave out the columns up to another one, so that
/// each box cuts every row. All but the first eight areas have people only where no box leaves them out.
pub fn largest_cut() -> Holdings {
    let people_in_east = |row, column| if column < LICENCES { Some(0) } else { many_people(row, column) };
    let mut areas = largest_areas();
    let first = areas[0];
    areas[1..8].fill(first);
    areas[8..].fill(Area { people: &people_in_east, ..first });
    let box_after = |column: usize| box_over(column as u32 + 1, &first, [0, SIDE], [column + 1, SIDE]);
    let boxes: Vec<Licence> = (0..LICENCES).map(box_after).collect();
    Holdings { map: map_of(&areas), register: register_of(&boxes) }
}

/// 20 partial areas with near 99 in the hundred of a block each, so that any 19 whole areas add to less than T: the
/// search leaves nothing out but the choice of all 20.
pub fn twenty_partial() -> Holdings {
    let people = |i: u32| move |_: usize, column: usize| Some([97_000 + 97 * i, 3_000 + 3 * i][column]);
    let counts: Vec<_> = (0..20).map(people).collect();
    let areas: Vec<Area> = (0..)
        .zip(&counts)
        .map(|(i, people)| Area { rows: 1, columns: 2, latitude: 0, longitude: 2 * STEP * i, people })
        .collect();
    let mut licences = Vec::new();
    for (i, area) in (1..).zip(&areas) {
        licences.push(area_licence(i, i as u16));
        licences.push(box_over(100 + i, area, [0, 1], [0, 1]));
    }
    Holdings { map: map_of(&areas), register: register_of(&licences) }
}

/// How many positions the search of `twenty_partial` has: all of 20 areas but the one where all are whole.
pub fn twenty_partial_positions() -> u64 {
    positions(20) - 1
}

/// The positions of so many areas: for the first k of them, 2^k without a partial area and k * 2^(k - 1) with one.
pub fn positions(areas: u64) -> u64 {
    (0..=areas).map(|k| (1 << k) + k * ((1 << k) / 2)).sum()
}

/// The largest area with 64 licences over its corner: the footprint grows from there, ring by ring.
pub fn growing() -> Holdings {
    one_area(&|row, column| Some(if row + column == 0 { 468 } else { 1 }), [0, 1], [0, 1], LICENCES as u32)
}

/// The largest area with one licence over all of it, and more than half of the people in its middle: the footprint
/// shrinks to there.
pub fn shrinking() -> Holdings {
    let middle = SIDE / 2 - 1..=SIDE / 2;
    let people = move |row: usize, column: usize| {
        Some(if middle.contains(&row) && middle.contains(&column) { 10_000 } else { 1 })
    };
    one_area(&people, [0, SIDE], [0, SIDE], 1)
}

/// Three licences over a square of 125 by 125 cells: the first ring, of 500 cells, is the last. The people of its cells
/// are even and the slack is odd, so that no subset comes to the slack and every cell is gone through.
pub fn last_ring() -> Holdings {
    let square = 1..126;
    let people = move |row: usize, column: usize| {
        Some(match (square.contains(&row), square.contains(&column)) {
            (true, true) => 128 + 2 * u32::from(row == 1 && column == 1),
            (true, false) if column == 0 || column == 126 => ring_people(row + column),
            (false, true) if row == 0 || row == 126 => ring_people(row + 3 * column),
            _ => 0,
        })
    };
    one_area(&people, [1, 126], [1, 126], 3)
}

fn ring_people(i: usize) -> u32 {
    3_000 + 2 * (i * 7919 % 1_000) as u32
}

/// A path of one cell's width that winds through the largest area: the even rows, each joined to the next at one end, by
/// turns the right and the left. 64 licences are over its first cell, of 201 people; all others have 2. The footprint
/// grows cell by cell to 32 x 201 people: 31 x 201 more are 3,115 cells, and half of the next one, the last ring.
pub fn snake() -> Holdings {
    let people = |row: usize, column: usize| match row % 4 {
        _ if row + column == 0 => Some(201),
        1 if column < SIDE - 1 => None,
        3 if column > 0 => None,
        _ => Some(2),
    };
    one_area(&people, [0, 1], [0, 1], LICENCES as u32)
}

/// The largest area, with so many licences over the same rows and columns.
fn one_area(
    people: &dyn Fn(usize, usize) -> Option<u32>,
    rows: [usize; 2],
    columns: [usize; 2],
    licences: u32,
) -> Holdings {
    let area = Area { rows: SIDE, columns: SIDE, latitude: 0, longitude: 0, people };
    let boxes: Vec<Licence> = (1..=licences).map(|call_sign| box_over(call_sign, &area, rows, columns)).collect();
    Holdings { map: map_of(&[area]), register: register_of(&boxes) }
}

/// A register with 32 licences in force, by turns areas and boxes.
pub fn half_full() -> Register {
    let area = Area { rows: SIDE, columns: SIDE, latitude: 0, longitude: 0, people: &|_, _| Some(1) };
    let licences: Vec<Licence> = (1..=32)
        .map(|i| if i % 2 == 0 { area_licence(i, i as u16) } else { box_over(i, &area, [0, 9], [0, 9]) })
        .collect();
    register_of(&licences)
}

/// A licence to grant to `half_full`, whose call sign is not in force there.
pub fn new_licence() -> Licence {
    area_licence(1_000, AREA_NUMBER)
}
