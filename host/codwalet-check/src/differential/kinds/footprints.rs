//! Footprints: one area is partial, alone or beside a few others that make the share uneven.

use crate::differential::build::{self, SMALL, Style};
use crate::differential::case::{Call, Case};
use crate::random::Random;
use crate::reference::{Area, Cell, Ground};

const GRID: Style = Style { sides: (2, 12), people: 9, weight: 4, gap_in: 12, nobody_in: 5 };

/// The number of the area that is to be partial. Areas beside it have greater numbers.
const NUMBER: u16 = 5;

/// A box over up to so many rows and columns from a cell of an area, with people in it.
fn box_of(random: &mut Random, area: &Area, side: i64) -> Ground {
    let cells: Vec<Cell> = area.cells.iter().flatten().filter(|cell| cell.people > 0).copied().collect();
    let (rows, columns) = (random.between(1, side), random.between(1, side));
    build::box_over(&random.pick(&cells), rows as i32, columns as i32)
}

/// The people of an area under a ground.
fn people_under(area: &Area, ground: Ground) -> u64 {
    let covers = |cell: &&Cell| ground.covers(area.number, cell);
    area.cells.iter().flatten().filter(covers).map(|cell| u64::from(cell.people)).sum()
}

/// As many licences over a ground as leave its area partial, and not enough to be rounded up: at least 3, at most 40.
fn copies(random: &mut Random, area: &Area, ground: Ground) -> Vec<Ground> {
    let most = area.population() * 18 / 10 / people_under(area, ground).max(1);
    vec![ground; random.between(3, most.clamp(3, 40) as i64) as usize]
}

/// A case of footprints. Once in two, other areas are held in part too.
fn case(random: &mut Random, area: Area, mut grounds: Vec<Ground>) -> Case {
    let mut areas = vec![area];
    if random.once_in(2) {
        let beside = random.between(1, 3) as u16;
        areas.extend((1..=beside).map(|more| build::area(random, NUMBER + more, SMALL)));
        grounds.extend((1..=beside).map(|more| Ground::Area(NUMBER + more)));
    }
    let mut case = build::reading(random, &areas, &grounds, 0);
    case.calls = (0..4).map(|_| build::footprint_call(random)).collect();
    // One at least has room for the mask and the table.
    case.calls.push(Call::Footprint { draw: build::draw(random), more_mask: 3, more_table: 3 });
    case
}

/// Three or more licences over one box carry more than the people under it.
pub fn growing(random: &mut Random) -> Case {
    let area = build::area(random, NUMBER, GRID);
    let ground = box_of(random, &area, 3);
    let grounds = copies(random, &area, ground);
    case(random, area, grounds)
}

/// One licence over a box carries half of the people under it.
pub fn shrinking(random: &mut Random) -> Case {
    let area = build::area(random, NUMBER, GRID);
    let boxes = random.between(1, 3);
    let grounds = (0..boxes).map(|_| box_of(random, &area, 12)).collect();
    case(random, area, grounds)
}

/// Two licences over a box carry just the people under it.
pub fn equal(random: &mut Random) -> Case {
    let area = build::area(random, NUMBER, GRID);
    let grounds = vec![box_of(random, &area, 8); 2];
    case(random, area, grounds)
}

/// Cells without neighbours, so that the ring is all cells outside; or groups of cells apart from each other.
pub fn islands(random: &mut Random) -> Case {
    let apart = random.once_in(2);
    let side = random.between(2, 16) as usize;
    let mut area = build::grid(random, NUMBER, side, side, |random, row, column| {
        let cell = if apart { (row + column) % 2 == 0 } else { random.once_in(3) };
        cell.then(|| random.below(6) as u32)
    });
    area.weight = random.between(1, 5) as u32;
    let ground = box_of(random, &area, 2);
    let grounds = if random.once_in(4) { vec![ground] } else { copies(random, &area, ground) };
    case(random, area, grounds)
}

/// Cells along one winding line: whole rows, joined at alternate ends.
pub fn snakes(random: &mut Random) -> Case {
    let longest = if random.once_in(100) { 60 } else { 20 };
    let rows = random.between(3, longest) as usize;
    let columns = random.between(3, longest) as usize;
    let area = build::grid(random, NUMBER, rows, columns, |random, row, column| {
        let end = if row % 4 == 1 { columns - 1 } else { 0 };
        (row % 2 == 0 || column == end).then(|| random.below(8) as u32)
    });
    let ground = box_of(random, &area, 2);
    let grounds = copies(random, &area, ground);
    case(random, area, grounds)
}

/// Last rings of up to a few hundred cells.
pub fn long_rings(random: &mut Random) -> Case {
    let people = random.pick(&[1, 3, 40, 200]);
    let style = Style { sides: (20, 70), people, gap_in: 40, ..GRID };
    let area = build::area(random, NUMBER, style);
    let ground = box_of(random, &area, 60);
    let grounds = if random.once_in(2) { vec![ground] } else { copies(random, &area, ground) };
    case(random, area, grounds)
}

/// Few cells with many people, so that the slack passes what a u16 counts.
pub fn large_slacks(random: &mut Random) -> Case {
    let people = random.pick(&[20_000, 100_000, 1_000_000]);
    let style = Style { sides: (2, 5), people, ..GRID };
    let area = build::area(random, NUMBER, style);
    let ground = box_of(random, &area, 4);
    let grounds = if random.once_in(2) { vec![ground] } else { copies(random, &area, ground) };
    case(random, area, grounds)
}
