//! Coverage, blocks and proposals.

use super::Cases;
use super::areas::{cell_at, gapped, refused, strip};
use super::encoding::Case;
use crate::maps::write_map;
use crate::random::Random;
use crate::reference::{Area, Ground};

/// The height of the box over an area's first cell. The area's second cell is just north of the box, and the next
/// area's first cell is as far north again.
const HEIGHT: i32 = 500;

/// What is held in an area.
#[derive(Clone, Copy, Debug)]
pub struct Held {
    pub weight: u32,
    pub population: u32,
    /// The people that licences in force cover.
    pub c: u32,
}

pub const fn held(weight: u32, population: u32, c: u32) -> Held {
    Held { weight, population, c }
}

/// Document 01's holdings 1 to 9, and more of their kind.
pub fn add(cases: &mut Cases, random: &mut Random) {
    add_holdings(cases);
    add_nothing_held(cases);
    add_edges(cases);
    // Twenty partial areas, and one more than a proposal may have.
    for count in [20, 21] {
        let map = hold(cases, &vec![held(1, 100, 35); usize::from(count)]);
        propose(cases, map, &[count], &[0, 1, 7]);
    }
    for _ in 0..60 {
        add_random(cases, random);
    }
}

/// Coverage and blocks of some areas, and a proposal with each of some draws.
pub fn propose(cases: &mut Cases, map: Vec<u8>, numbers: &[u16], draws: &[u32]) {
    let (numbers, draws) = (numbers.to_vec(), draws.to_vec());
    cases.add(Case::Proposals { map, numbers, draws });
}

/// From an empty register, grants the licences by which areas, numbered from 1, are held as told. Gives their map.
pub fn hold(cases: &mut Cases, areas: &[Held]) -> Vec<u8> {
    cases.empty();
    let areas: Vec<Area> = (1..).zip(areas).map(|(number, held)| hold_area(cases, number, held)).collect();
    write_map(&areas)
}

/// c is some whole populations, each by a licence on the area, and the people of a first cell, by a licence on a box.
fn hold_area(cases: &mut Cases, number: u16, held: &Held) -> Area {
    let (times, part) = (held.c / held.population, held.c % held.population);
    let base = (i32::from(number) - 1) * 2 * HEIGHT;
    let call_sign = u32::from(number - 1) * 100 + 1;
    for time in 0..times {
        cases.grant(call_sign + time, Ground::Area(number));
    }
    if part == 0 {
        return strip(number, held.weight, &[cell_at(held.population, base, 0)]);
    }
    let first_cell = Ground::Box { south: base, north: base + HEIGHT, west: -1, east: 1 };
    cases.grant(call_sign + times, first_cell);
    let cells = [cell_at(part, base, 0), cell_at(held.population - part, base + HEIGHT, 0)];
    strip(number, held.weight, &cells)
}

/// Document 01's holdings 1 to 9, and the last of them with a licence cancelled, which no longer counts.
fn add_holdings(cases: &mut Cases) {
    let holdings: [&[Held]; 8] = [
        &[held(1, 100, 198)],
        &[held(1, 100, 197)],
        &[held(1, 100, 180)],
        &[held(1, 100, 179)],
        &[held(1, 100, 100), held(1, 100, 100)],
        &[held(1, 100, 100), held(1, 40, 40)],
        &[held(1, 1_000, 1_000), held(1, 330, 300), held(1, 330, 300), held(1, 330, 300)],
        &[held(1, 100, 180), held(3, 120, 200)],
    ];
    for areas in holdings {
        let map = hold(cases, areas);
        propose(cases, map, &[1, 2, 416], &[0, 3]);
    }
    let map = hold(cases, &[held(1, 100, 150), held(1, 100, 150)]);
    propose(cases, map.clone(), &[1, 2, 416], &[0, 3]);
    cases.cancel(1);
    propose(cases, map, &[1, 2], &[0, 3, u32::MAX]);
}

/// Nothing held, and maps that are refused.
fn add_nothing_held(cases: &mut Cases) {
    cases.empty();
    propose(cases, gapped(), &[5, 7, 6], &[0]);
    for map in refused(gapped()) {
        propose(cases, map, &[5], &[0]);
    }
}

/// Cells on the edges of boxes, and two licences on one cell. The register is empty before.
fn add_edges(cases: &mut Cases) {
    let cells = [(7, 0), (5, 10), (3, 20), (1, -10)].map(|(people, latitude)| cell_at(people, latitude, 0));
    let map = write_map(&[strip(1, 1, &cells)]);
    let boxes = [(0, 10, 0, 1), (10, 20, 0, 1), (-10, 21, -1, 0), (-10, 21, 0, 5)];
    for (call_sign, (south, north, west, east)) in (1..).zip(boxes) {
        let ground = Ground::Box { south, north, west, east };
        cases.grant(call_sign, ground);
        propose(cases, map.clone(), &[1], &[0]);
    }
}

/// A few areas with populations from a small set, so that sums of sizes meet T and choices tie.
fn add_random(cases: &mut Cases, random: &mut Random) {
    let count = random.between(1, 6);
    let populations: &[u32] = random.pick(&[&[10], &[10, 20], &[7, 11, 13], &[100, 50]]);
    let areas: Vec<Held> = (0..count).map(|_| random_held(random, populations)).collect();
    let map = hold(cases, &areas);
    let draw = random.word() as u32;
    propose(cases, map, &[1], &[0, draw]);
}

fn random_held(random: &mut Random, populations: &[u32]) -> Held {
    let weight = random.pick(&[1, 1, 1, 2, 3]);
    let population = random.pick(populations);
    held(weight, population, random.between(1, 3 * i64::from(population)) as u32)
}
