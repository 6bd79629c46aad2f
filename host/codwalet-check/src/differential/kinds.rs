//! The kinds of cases.

mod cells;
mod damage;
mod footprints;
mod limits;
mod registers;
mod widths;

use super::build::{self, SMALL, Style};
use super::case::{Call, Case};
use crate::maps::write_map;
use crate::random::Random;
use crate::reference::{Area, Ground};

/// A kind of cases, and how one is made.
pub struct Kind {
    pub name: &'static str,
    pub make: fn(&mut Random) -> Case,
}

/// All kinds.
pub const KINDS: [Kind; 22] = [
    Kind { name: "small maps with ties", make: small_maps },
    Kind { name: "99 and 90 in the hundred", make: near_whole },
    Kind { name: "maps at the limits", make: limits::case },
    Kind { name: "20 and 21 partial areas", make: limits::partial_areas },
    Kind { name: "damaged maps", make: damage::case },
    Kind { name: "look-ups", make: look_ups },
    Kind { name: "boxes on cells", make: boxes },
    Kind { name: "grants and cancellations", make: registers::grants_and_cancellations },
    Kind { name: "forged registers", make: registers::forged },
    Kind { name: "lists of calls", make: registers::list },
    Kind { name: "footprints that grow", make: footprints::growing },
    Kind { name: "footprints that shrink", make: footprints::shrinking },
    Kind { name: "footprints equal at once", make: footprints::equal },
    Kind { name: "islands", make: footprints::islands },
    Kind { name: "snakes", make: footprints::snakes },
    Kind { name: "long last rings", make: footprints::long_rings },
    Kind { name: "large slacks", make: footprints::large_slacks },
    Kind { name: "areas alike but for cells", make: cells::alike },
    Kind { name: "greatest counts of cells", make: cells::greatest },
    Kind { name: "a MHz-pop beside 99 and 90", make: widths::near_whole },
    Kind { name: "narrow licences", make: widths::narrow },
    Kind { name: "footprints of two widths", make: widths::starts },
];

/// Small maps, whose areas are often worth the same.
fn small_maps(random: &mut Random) -> Case {
    let count = random.pick(&[1, 2, 2, 3, 3, 4, 5, 6, 7, 12]);
    let areas = build::areas(random, count, SMALL);
    let licences = random.between(0, 10);
    let grounds = build::grounds(random, &areas, licences);
    build::reading(random, &areas, &grounds, 8)
}

/// Areas at 99 or 90 in the hundred of a block, and one person beside. Random people hardly ever come to these.
fn near_whole(random: &mut Random) -> Case {
    let count = random.between(1, 4) as usize;
    let mut areas = Vec::new();
    let mut grounds = Vec::new();
    for (place, number) in build::numbers(random, count).into_iter().enumerate() {
        let population = 50 * random.between(1, 60);
        let covered_twice = population * random.pick(&[98, 80]) / 100 + random.between(-1, 1);
        let mut area = build::grid(random, number, 1, 2, |_, _, column| {
            Some([covered_twice, population - covered_twice][column] as u32)
        });
        area.weight = random.between(1, 3) as u32;
        // Far enough from each other that a box over one area covers no other.
        area.cells.iter_mut().flatten().for_each(|cell| cell.latitude += 100 * place as i32);
        grounds.extend(area.cells[0].map(|cell| build::box_over(&cell, 1, 1)));
        // Each two licences over the area are a whole block.
        grounds.extend(vec![Ground::Area(number); 1 + 2 * random.below(3)]);
        areas.push(area);
    }
    let held = build::sliced(random, &grounds);
    build::reading_held(random, &areas, &held, 8)
}

/// Look-ups of numbers that a map has, lacks, or that no map may have.
fn look_ups(random: &mut Random) -> Case {
    let count = random.between(1, 32) as usize;
    let areas = build::areas(random, count, Style { sides: (1, 20), ..SMALL });
    let mut calls: Vec<Call> = areas.iter().map(|area| Call::LookUp(area.number)).collect();
    calls.extend((0..20).map(|_| Call::LookUp(build::number(random, &areas))));
    calls.push(Call::CheckMap);
    Case { map: write_map(&areas), start: None, calls, fill: random.word() }
}

/// Coverage and blocks under boxes that overlap, touch and nest, with edges on cells. Once in three the points of cells
/// are anywhere, and not where their row and column would have them.
fn boxes(random: &mut Random) -> Case {
    let count = random.between(1, 4) as usize;
    let mut areas = build::areas(random, count, Style { sides: (1, 10), people: 1_000, ..SMALL });
    if random.once_in(3) {
        areas.iter_mut().for_each(|area| scatter(random, area));
    }
    let licences = random.between(1, 64);
    let grounds: Vec<_> = (0..licences).map(|_| build::box_on_cells(random, &areas[0])).collect();
    let mut case = build::reading(random, &areas, &grounds, 1);
    for area in &areas {
        case.calls.extend([Call::Coverage(area.number), Call::Blocks(area.number)]);
    }
    case
}

/// Puts the points of an area's cells anywhere near 0.
fn scatter(random: &mut Random, area: &mut Area) {
    for cell in area.cells.iter_mut().flatten() {
        cell.latitude = random.between(-9, 9) as i32;
        cell.longitude = random.between(-9, 9) as i32;
    }
}
