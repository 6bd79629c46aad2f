//! Licences narrower than 50 MHz.

use crate::differential::build::{self, Held, SMALL, Style};
use crate::differential::case::{Call, Case};
use crate::random::Random;
use crate::reference::{Area, Ground};
use codwalet::limits::LICENCES;
use codwalet::raw::FULL_WIDTH;

/// Areas at 99 or 90 in the hundred of a block and one MHz-pop beside, or a few, with up to two whole blocks below.
pub fn near_whole(random: &mut Random) -> Case {
    let count = random.pick(&[1, 1, 2, 3]);
    let (mut areas, mut held) = (Vec::new(), Vec::new());
    for (place, number) in build::numbers(random, count).into_iter().enumerate() {
        let area = one_and_others(random, number, 100 * place as i32);
        held.extend(held_nearly(random, &area));
        areas.push(area);
    }
    let mut case = build::reading_held(random, &areas, &held, 2);
    for area in &areas {
        case.calls.extend([Call::Coverage(area.number), Call::Blocks(area.number)]);
    }
    case.calls.extend([Call::Propose(build::draw(random)), build::footprint_call(random)]);
    case
}

/// A row whose first cell has one person, so that a licence of 1 MHz over it is one MHz-pop; at most 40,000,000 people.
fn one_and_others(random: &mut Random, number: u16, latitude: i32) -> Area {
    let others = random.pick(&[1, 1, 2, 3, 40]);
    let most = if others < 40 { random.pick(&[1, 9, 500, 999_999]) } else { random.pick(&[9, 999_999, 999_999]) };
    let mut area = build::grid(random, number, 1, 1 + others, |random, _, column| {
        Some(if column == 0 { 1 } else { random.between(1, most) as u32 })
    });
    area.weight = random.pick(&[1, 1, 2, 65_535]);
    area.cells.iter_mut().flatten().for_each(|cell| cell.latitude += latitude);
    area
}

/// Licences over an area that come to 99 or 90 times its people, with so many MHz more over its first cell, or over all
/// its others instead of over the area. At most 11.
fn held_nearly(random: &mut Random, area: &Area) -> Vec<Held> {
    let near = random.pick(&[99, 99, 90, 90, 100]);
    let beside = random.pick(&[1, 1, 1, 2, FULL_WIDTH]);
    let first = area.cells[0].expect("a row without gaps");
    let others = area.cells[1].expect("a row without gaps");
    let (all, extra) = match random.below(3) {
        0 => (near, None),
        1 => (near, Some(build::box_over(&first, 1, 1))),
        _ => (near - beside, Some(build::box_over(&others, 1, area.columns as i32 - 1))),
    };
    let mut held = cut(random, all, area);
    held.extend(extra.map(|ground| (ground, beside)));
    // Two licences of 50 MHz over the area are a whole block.
    held.extend(vec![(Ground::Area(area.number), FULL_WIDTH); 2 * random.below(3)]);
    held
}

/// So many MHz over an area in a few licences, for it or for a box around it.
fn cut(random: &mut Random, mut mhz: u32, area: &Area) -> Vec<Held> {
    let first = area.cells[0].expect("a row without gaps");
    let grounds = [Ground::Area(area.number), build::box_over(&first, 1, area.columns as i32)];
    let mut held = Vec::new();
    while mhz > 0 {
        let most = mhz.min(FULL_WIDTH);
        // After four that may be narrow, as few as will do.
        let width = if held.len() < 4 && random.once_in(2) { build::width(random).min(most) } else { most };
        held.push((random.pick(&grounds), width));
        mhz -= width;
    }
    held
}

/// Many licences of any widths, few of them of 50 MHz, over areas that often are worth the same.
pub fn narrow(random: &mut Random) -> Case {
    let count = random.between(1, 5) as usize;
    let areas = build::areas(random, count, Style { sides: (1, 6), ..SMALL });
    let licences = random.between(1, LICENCES as i64);
    let grounds = build::grounds(random, &areas, licences);
    let held: Vec<Held> = grounds.iter().map(|&ground| (ground, build::width(random))).collect();
    let mut case = build::reading_held(random, &areas, &held, 6);
    case.calls.extend(areas.iter().map(|area| Call::Coverage(area.number)));
    case
}

/// Footprints over two boxes of one area, of which one is held narrowly or, as no grant leaves it, with no width.
pub fn starts(random: &mut Random) -> Case {
    let style = Style { sides: (2, 9), people: 9, weight: 4, gap_in: 12, nobody_in: 5 };
    let area = build::area(random, 5, style);
    let [one, other] = [build::box_on_cells(random, &area), build::box_on_cells(random, &area)];
    let copies = random.between(1, 3) as usize;
    let mut held = vec![(one, FULL_WIDTH); copies];
    held.push((other, random.pick(&[0, 1, 25, 49])));
    let mut case = build::reading_held(random, &[area], &held, 1);
    case.calls.push(Call::Coverage(5));
    // One at least has room for the mask and the table.
    case.calls.extend([build::footprint_call(random), Call::Footprint { draw: 0, more_mask: 3, more_table: 3 }]);
    case
}
