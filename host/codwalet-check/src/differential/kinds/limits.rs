//! Maps at document 01's limits, and one past them.

use crate::differential::build::{self, SMALL, Style};
use crate::differential::case::{Call, Case};
use crate::maps::write_map;
use crate::random::Random;
use crate::reference::{Area, Cell, Ground};
use codwalet::limits::{self, LATITUDE, LONGITUDE, PEOPLE, SIDE, WEIGHT};

/// The greatest population, counted as the people of a cell are.
const POPULATION: u32 = limits::POPULATION as u32;

/// A map at one of the limits.
pub fn case(random: &mut Random) -> Case {
    match random.below(7) {
        0 => most_areas(random),
        1 => full_grid(random),
        2 => crowded_cells(random),
        3 => ends_of_coordinates(random),
        4 => greatest_values(random),
        5 => large_map(random),
        _ => least(random),
    }
}

fn reading(random: &mut Random, areas: &[Area], grounds: &[Ground]) -> Case {
    let mut case = build::reading(random, areas, grounds, 4);
    case.calls.push(Call::CheckMap);
    case
}

/// 32 areas, or 33, with the first and the last number.
fn most_areas(random: &mut Random) -> Case {
    let count = random.pick(&[32, 32, 32, 33]);
    let mut areas = build::areas(random, count, Style { weight: i64::from(WEIGHT), ..SMALL });
    areas[0].number = 1;
    areas[count - 1].number = 416;
    let licences = random.between(1, 12);
    let numbers: Vec<u16> = areas.iter().map(|area| area.number).collect();
    let grounds: Vec<Ground> = (0..licences).map(|_| Ground::Area(random.pick(&numbers))).collect();
    reading(random, &areas, &grounds)
}

/// 128 x 128 cells with just the greatest population, or one more.
fn full_grid(random: &mut Random) -> Case {
    let places = (SIDE * SIDE) as u32;
    let mut area = build::grid(random, 416, SIDE, SIDE, |_, _, _| Some(POPULATION / places));
    let first = area.cells[0].as_mut().expect("a full grid");
    first.people += POPULATION % places + u32::from(random.once_in(4));
    area.weight = WEIGHT;
    let licences = random.between(1, 4);
    let grounds = build::grounds(random, std::slice::from_ref(&area), licences);
    reading(random, &[area], &grounds)
}

/// 40 cells of 1,000,000 people, or one cell more.
fn crowded_cells(random: &mut Random) -> Case {
    let columns = random.pick(&[40, 40, 40, 41]);
    let area = build::grid(random, 1, 1, columns, |_, _, _| Some(PEOPLE));
    let licences = random.between(1, 64);
    let grounds = build::grounds(random, std::slice::from_ref(&area), licences);
    reading(random, &[area], &grounds)
}

/// Cells and boxes at the ends of the coordinates.
fn ends_of_coordinates(random: &mut Random) -> Case {
    let mut areas = build::areas(random, 3, SMALL);
    for cell in areas.iter_mut().flat_map(|area| area.cells.iter_mut().flatten()) {
        cell.latitude = random.pick(&[-LATITUDE, 1 - LATITUDE, 0, LATITUDE - 1, LATITUDE]);
        cell.longitude = random.pick(&[-LONGITUDE, 1 - LONGITUDE, 0, LONGITUDE - 1, LONGITUDE]);
    }
    let end_box = |random: &mut Random| Ground::Box {
        south: random.pick(&[-LATITUDE, 1 - LATITUDE, 0]),
        north: random.pick(&[1, LATITUDE - 1, LATITUDE]),
        west: random.pick(&[-LONGITUDE, 1 - LONGITUDE, 0]),
        east: random.pick(&[1, LONGITUDE - 1, LONGITUDE]),
    };
    let licences = random.between(1, 8);
    let grounds: Vec<Ground> = (0..licences).map(|_| end_box(random)).collect();
    reading(random, &areas, &grounds)
}

/// The greatest weights and populations, and up to 64 licences.
fn greatest_values(random: &mut Random) -> Case {
    let count = random.between(1, 8) as usize;
    let mut areas = Vec::new();
    for number in build::numbers(random, count) {
        let mut area = build::grid(random, number, 1, 41, |_, _, _| Some(PEOPLE - 1));
        // 40 cells lack 40 people to the greatest population, which the last cell may make up.
        let rest = POPULATION - 40 * (PEOPLE - 1);
        area.cells[40].as_mut().expect("a full grid").people = random.pick(&[rest, rest - 1, 0]);
        area.weight = random.pick(&[WEIGHT, WEIGHT, WEIGHT - 1]);
        areas.push(area);
    }
    let licences = random.between(1, 64);
    let grounds = build::grounds(random, &areas, licences);
    reading(random, &areas, &grounds)
}

/// Areas of 128 x 128 places; once in a while, 32 of them.
fn large_map(random: &mut Random) -> Case {
    let count = if random.once_in(20) { 32 } else { random.between(1, 3) as usize };
    let side = SIDE as i64;
    let style = Style { sides: (side, side), people: 9, weight: i64::from(WEIGHT), gap_in: 9, nobody_in: 3 };
    let areas = build::areas(random, count, style);
    let licences = random.between(1, 3);
    let grounds: Vec<Ground> = (0..licences).map(|_| build::box_on_cells(random, &areas[0])).collect();
    let held = build::of_widths(random, &grounds);
    Case {
        map: write_map(&areas),
        start: Some(build::register(random, &held)),
        calls: vec![
            Call::CheckMap,
            Call::LookUp(areas[count - 1].number),
            Call::Coverage(areas[0].number),
            build::footprint_call(random),
        ],
        fill: random.word(),
    }
}

/// One area of one cell with one person, or none.
fn least(random: &mut Random) -> Case {
    let number = random.pick(&[1, 416]);
    let mut area = build::grid(random, number, 1, 1, |_, _, _| Some(1));
    area.cells = vec![Some(Cell { people: random.pick(&[0, 1, 1]), latitude: 0, longitude: 0 })];
    let licences = random.between(0, 64);
    let grounds = build::grounds(random, std::slice::from_ref(&area), licences);
    reading(random, &[area], &grounds)
}

/// About 20 partial areas: one licence over all or some of an area's people makes it partial.
pub fn partial_areas(random: &mut Random) -> Case {
    let partial = random.pick(&[19, 20, 20, 21, 21, 21, 21, 21, 22, 32]);
    let count = random.between(partial, 32) as usize;
    let greatest = random.pick(&[2, 1_000, i64::from(PEOPLE)]);
    let style = Style { sides: (1, 2), people: greatest, weight: greatest.min(9), gap_in: 9, nobody_in: 9 };
    let mut areas = build::areas(random, count, style);
    for (place, area) in areas.iter_mut().enumerate() {
        // Far enough from each other that a box over one area covers no other.
        area.cells.iter_mut().flatten().for_each(|cell| cell.latitude += 100 * place as i32);
    }
    let mut held: Vec<&Area> = areas.iter().collect();
    random.shuffle(&mut held);
    held.truncate(partial as usize);
    let grounds: Vec<Ground> = held.iter().map(|area| some_of(random, area)).collect();
    let call = if random.once_in(3) { build::footprint_call(random) } else { Call::Propose(build::draw(random)) };
    let held = build::of_widths(random, &grounds);
    let start = Some(build::register(random, &held));
    Case { map: write_map(&areas), start, calls: vec![call], fill: random.word() }
}

/// A ground over an area, or over one cell with people of it.
fn some_of(random: &mut Random, area: &Area) -> Ground {
    let cells: Vec<&Cell> = area.cells.iter().flatten().filter(|cell| cell.people > 0).collect();
    if random.once_in(2) { Ground::Area(area.number) } else { build::box_over(random.pick(&cells), 1, 1) }
}
