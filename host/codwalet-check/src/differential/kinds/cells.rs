//! Covered cells beside people.

use crate::differential::build;
use crate::differential::case::{Call, Case};
use crate::random::Random;
use crate::reference::{Area, Cell, Ground};
use codwalet::limits::{LICENCES, SIDE};

/// The number of an area that is alone on its map.
const NUMBER: u16 = 7;

/// Areas in one place with the same people, each without some of the cells that have none: they are worth the same, and
/// their counts of cells differ. A licence is for a number that the map lacks.
pub fn alike(random: &mut Random) -> Case {
    let (rows, columns) = (random.between(1, 5) as usize, random.between(1, 5) as usize);
    let full = build::grid(random, NUMBER, rows, columns, |random, _, _| Some(random.pick(&[0, 0, 0, 1, 2, 5])));
    let count = random.between(2, 5) as usize;
    let mut numbers = build::numbers(random, count + 1);
    let lacking = numbers.remove(random.below(count + 1));
    let areas: Vec<Area> = numbers.iter().map(|&number| thinned(random, number, &full)).collect();
    let boxes = random.between(0, 3);
    let mut grounds: Vec<Ground> = (0..boxes).map(|_| build::box_on_cells(random, &full)).collect();
    grounds.push(Ground::Area(lacking));
    for _ in 0..random.below(3) {
        grounds.extend(numbers.iter().map(|&number| Ground::Area(number)));
    }
    let mut case = build::reading(random, &areas, &grounds, 2);
    case.calls.extend(numbers.iter().chain(&[lacking]).map(|&number| Call::Coverage(number)));
    case.calls.extend((0..count as u32).map(Call::Propose));
    case
}

/// The area with another number, without some of its cells that have no people.
fn thinned(random: &mut Random, number: u16, full: &Area) -> Area {
    let mut is_kept = |cell: &Cell| cell.people > 0 || random.once_in(2);
    let cells = full.cells.iter().map(|place| place.filter(&mut is_kept)).collect();
    Area { number, cells, ..full.clone() }
}

/// The largest area under 64 licences, for it or for boxes, which come to hundreds of thousands of covered cells; once
/// in four all of them are for the area, and no place lacks a cell.
pub fn greatest(random: &mut Random) -> Case {
    let all = random.once_in(4);
    let area = build::grid(random, NUMBER, SIDE, SIDE, |random, _, _| {
        let cell = all || !random.once_in(40);
        cell.then(|| u32::from(random.once_in(3)))
    });
    let mut ground =
        || if all || random.once_in(2) { Ground::Area(NUMBER) } else { build::box_on_cells(random, &area) };
    let grounds: Vec<Ground> = (0..LICENCES).map(|_| ground()).collect();
    let mut case = build::reading(random, &[area], &grounds, 1);
    case.calls.extend([Call::Coverage(NUMBER), Call::Propose(0)]);
    case
}
