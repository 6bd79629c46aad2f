//! What cases are built from: areas, grounds, registers and calls, all random.

use std::collections::BTreeSet;

use super::answers::{NO_LICENCE, raw_licence};
use super::case::{Call, Case};
use crate::maps::write_map;
use crate::random::Random;
use crate::reference::{Area, Cell, Ground, Licence};
use codwalet::limits::{AREA_NUMBER, LATITUDE, LICENCES, LONGITUDE};
use codwalet::raw::{FULL_WIDTH, Register};

/// How an area is made at random.
#[derive(Clone, Copy)]
pub struct Style {
    /// Rows and columns, from and to.
    pub sides: (i64, i64),
    /// The most people of a cell.
    pub people: i64,
    /// The greatest weight.
    pub weight: i64,
    /// One place in so many has no cell.
    pub gap_in: usize,
    /// One cell in so many has no people.
    pub nobody_in: usize,
}

/// Few cells, few people and small weights, so that equal values abound.
pub const SMALL: Style = Style { sides: (1, 4), people: 4, weight: 3, gap_in: 4, nobody_in: 4 };

/// An area. Its coordinates go down by row and up by column, near those of every other area.
pub fn area(random: &mut Random, number: u16, style: Style) -> Area {
    let rows = random.between(style.sides.0, style.sides.1) as usize;
    let columns = random.between(style.sides.0, style.sides.1) as usize;
    let mut area = grid(random, number, rows, columns, |random, _, _| {
        let somebody = !random.once_in(style.nobody_in);
        (!random.once_in(style.gap_in)).then(|| if somebody { random.between(1, style.people) } else { 0 } as u32)
    });
    area.weight = random.between(1, style.weight) as u32;
    area
}

/// An area of weight 1 with the people that each row and column is given, or no cell. It has people somewhere.
pub fn grid(
    random: &mut Random,
    number: u16,
    rows: usize,
    columns: usize,
    people: impl Fn(&mut Random, usize, usize) -> Option<u32>,
) -> Area {
    let north = random.between(-6, 6) as i32;
    let west = random.between(-6, 6) as i32;
    let at = |place: usize, people: u32| Cell {
        people,
        latitude: north - (place / columns) as i32,
        longitude: west + (place % columns) as i32,
    };
    let mut cells = Vec::with_capacity(rows * columns);
    for place in 0..rows * columns {
        cells.push(people(random, place / columns, place % columns).map(|people| at(place, people)));
    }
    let mut area = Area { number, weight: 1, rows, columns, cells, start: 0, end: 0 };
    if area.population() == 0 {
        let place = random.below(rows * columns);
        area.cells[place] = Some(at(place, 1));
    }
    area
}

/// So many area numbers, ascending.
pub fn numbers(random: &mut Random, count: usize) -> Vec<u16> {
    let mut numbers = BTreeSet::new();
    while numbers.len() < count {
        numbers.insert(random.between(1, i64::from(AREA_NUMBER)) as u16);
    }
    numbers.into_iter().collect()
}

/// So many areas. Once in a while one is like the one before, so that both are worth the same.
pub fn areas(random: &mut Random, count: usize, style: Style) -> Vec<Area> {
    let mut areas: Vec<Area> = Vec::new();
    for number in numbers(random, count) {
        let next = match areas.last() {
            Some(before) if random.once_in(3) => Area { number, ..before.clone() },
            _ => area(random, number, style),
        };
        areas.push(next);
    }
    areas
}

/// Two edges within a limit, the second above the first, on or beside two coordinates.
fn edges(random: &mut Random, one: i32, other: i32, limit: i32) -> (i32, i32) {
    let low = (one.min(other) + random.between(-1, 1) as i32).clamp(-limit, limit - 1);
    let high = (one.max(other) + random.between(0, 2) as i32).clamp(low + 1, limit);
    (low, high)
}

/// A box whose edges are on or beside cells of an area.
pub fn box_on_cells(random: &mut Random, area: &Area) -> Ground {
    let cells: Vec<Cell> = area.cells.iter().flatten().copied().collect();
    let (one, other) = (random.pick(&cells), random.pick(&cells));
    let (south, north) = edges(random, one.latitude, other.latitude, LATITUDE);
    let (west, east) = edges(random, one.longitude, other.longitude, LONGITUDE);
    Ground::Box { south, north, west, east }
}

/// A box over so many rows and columns, from a cell down and to the east.
pub fn box_over(cell: &Cell, rows: i32, columns: i32) -> Ground {
    Ground::Box {
        south: cell.latitude - rows + 1,
        north: cell.latitude + 1,
        west: cell.longitude,
        east: cell.longitude + columns,
    }
}

/// A ground: an area of the map or of any number, or a box on cells of the map.
pub fn ground(random: &mut Random, areas: &[Area]) -> Ground {
    let area = &areas[random.below(areas.len())];
    match random.below(12) {
        0 => Ground::Area(random.between(1, i64::from(AREA_NUMBER)) as u16),
        1..4 => Ground::Area(area.number),
        _ => box_on_cells(random, area),
    }
}

/// So many grounds.
pub fn grounds(random: &mut Random, areas: &[Area], count: i64) -> Vec<Ground> {
    (0..count).map(|_| ground(random, areas)).collect()
}

/// A width, in MHz: often at an end.
pub fn width(random: &mut Random) -> u32 {
    match random.below(3) {
        0 => random.pick(&[1, 2, 49, FULL_WIDTH]),
        _ => random.between(1, i64::from(FULL_WIDTH)) as u32,
    }
}

/// A ground of a licence, and its width in MHz.
pub type Held = (Ground, u32);

/// Licences with these grounds, each of 50 MHz.
pub fn full(grounds: &[Ground]) -> Vec<Held> {
    grounds.iter().map(|&ground| (ground, FULL_WIDTH)).collect()
}

/// The same with some licences cut into slices, as long as a register has places: the MHz-pops are those of before.
pub fn sliced(random: &mut Random, grounds: &[Ground]) -> Vec<Held> {
    let mut held = Vec::new();
    let mut spare = LICENCES.saturating_sub(grounds.len());
    for &ground in grounds {
        let mut left = FULL_WIDTH;
        while left > 1 && spare > 0 && !random.once_in(3) {
            let slice = width(random).min(left - 1);
            held.push((ground, slice));
            left -= slice;
            spare -= 1;
        }
        held.push((ground, left));
    }
    held
}

/// Licences with these grounds: of 50 MHz, the same in slices, of any widths, or of one width or two.
pub fn of_widths(random: &mut Random, grounds: &[Ground]) -> Vec<Held> {
    match random.below(6) {
        0..2 => full(grounds),
        2..4 => sliced(random, grounds),
        4 => grounds.iter().map(|&ground| (ground, width(random))).collect(),
        _ => {
            let few = [width(random), width(random)];
            grounds.iter().map(|&ground| (ground, random.pick(&few))).collect()
        }
    }
}

/// A register with licences, up to its limit, in any places.
pub fn register(random: &mut Random, held: &[Held]) -> Register {
    let mut places: Vec<usize> = (0..LICENCES).collect();
    random.shuffle(&mut places);
    let mut register = NO_LICENCE;
    for (number, (&place, &(ground, width))) in places.iter().zip(held).enumerate() {
        // Different for each number, and above 0.
        let call_sign = (number as u32 + 1) * 1_000 + random.below(1_000) as u32;
        register.places[place] = raw_licence(&Licence { call_sign, ground, width });
    }
    register
}

/// A draw: small, the greatest, or any.
pub fn draw(random: &mut Random) -> u32 {
    match random.below(4) {
        0 => random.word() as u32,
        1 => random.pick(&[u32::MAX, u32::MAX - 1]),
        _ => random.below(6) as u32,
    }
}

/// A footprint with a mask and a table that are short, just long enough, or long.
pub fn footprint_call(random: &mut Random) -> Call {
    const MORE: [i64; 8] = [0, 0, 0, 0, 1, 30, -1, i32::MIN as i64];
    Call::Footprint { draw: draw(random), more_mask: random.pick(&MORE), more_table: random.pick(&MORE) }
}

/// An area number: mostly one of the map.
pub fn number(random: &mut Random, areas: &[Area]) -> u16 {
    let near = areas[random.below(areas.len())].number;
    match random.below(8) {
        0 => random.word() as u16,
        1 => random.pick(&[0, 1, 416, 417, u16::MAX]),
        2 => random.pick(&[near - 1, near + 1]),
        _ => near,
    }
}

/// A call that reads a map and a register.
pub fn read_call(random: &mut Random, areas: &[Area]) -> Call {
    match random.below(8) {
        0 => Call::LookUp(number(random, areas)),
        1 => Call::Coverage(number(random, areas)),
        2 => Call::Blocks(number(random, areas)),
        3..5 => Call::Propose(draw(random)),
        _ => footprint_call(random),
    }
}

/// A case of so many calls that read a map of these areas and a register of licences with these grounds, of 50 MHz or
/// of other widths.
pub fn reading(random: &mut Random, areas: &[Area], grounds: &[Ground], calls: usize) -> Case {
    let held = of_widths(random, grounds);
    reading_held(random, areas, &held, calls)
}

/// The same for licences whose widths are given.
pub fn reading_held(random: &mut Random, areas: &[Area], held: &[Held], calls: usize) -> Case {
    Case {
        map: write_map(areas),
        start: Some(register(random, held)),
        calls: (0..calls).map(|_| read_call(random, areas)).collect(),
        fill: random.word(),
    }
}
