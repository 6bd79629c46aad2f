//! Maps to check and to look up in.

use super::Cases;
use super::areas::{area, cell, cell_at, extended, gapped, one_cell, square, strip};
use super::encoding::Case;
use crate::maps::write_map;
use crate::random::Random;
use crate::reference::{Area, Cell};

// Positions of bytes in a map of one area.
const COUNT: usize = 0;
const COLUMNS: usize = 8;
const BIT_MAP: usize = 9;

/// Each field at its limits and past them, each refusal, maps with two faults; then random maps, each as it is and
/// damaged.
pub fn add(cases: &mut Cases, random: &mut Random) {
    let by_hand = [counts(), heads(), sizes(), cells(), bits_and_populations(), two_faults()].concat();
    for map in by_hand {
        let numbers = vec![5, 7, 6, 0];
        cases.add(Case::Map { map, numbers });
    }
    for _ in 0..40 {
        add_random(cases, random);
    }
}

fn with_byte(mut map: Vec<u8>, position: usize, byte: u8) -> Vec<u8> {
    map[position] = byte;
    map
}

fn cut(mut map: Vec<u8>, length: usize) -> Vec<u8> {
    map.truncate(length);
    map
}

/// Counts of areas, and bytes after the last area.
fn counts() -> Vec<Vec<u8>> {
    let square = write_map(&[square(5, 1)]);
    vec![
        gapped(),
        vec![],
        vec![0],
        vec![1],
        with_byte(square.clone(), COUNT, 33),
        with_byte(square, COUNT, 2),
        extended(gapped(), 0),
    ]
}

/// Numbers and weights, and the order of numbers.
fn heads() -> Vec<Vec<u8>> {
    let numbers = [0, 1, 416, 417, 65_535].map(|number| write_map(&[square(number, 1)]));
    let weights = [0, 1, 65_535, 65_536, u32::MAX].map(|weight| write_map(&[square(5, weight)]));
    let pairs = [4, 5, 6, 416, 417, 0].map(|number| write_map(&[square(5, 1), square(number, 1)]));
    [&numbers[..], &weights, &pairs].concat()
}

/// Rows and columns.
fn sizes() -> Vec<Vec<u8>> {
    let rows = [0, 1, 127, 128, 129, 255].map(|rows| write_map(&[area(5, 1, 1, vec![Some(cell(3)); rows])]));
    let columns = [1, 7, 8, 9, 127, 128].map(|columns| {
        let mut cells = vec![None; columns];
        cells[0] = Some(cell(3));
        write_map(&[area(5, 1, columns, cells)])
    });
    let beyond = [0, 129, 255].map(|columns| with_byte(one_cell(cell(3)), COLUMNS, columns));
    [&rows[..], &columns, &beyond].concat()
}

/// People, latitudes and longitudes.
fn cells() -> Vec<Vec<u8>> {
    let edges = |edge: i32| [edge, edge + 1, -edge, -edge - 1];
    let people = [0, 1, 1_000_000, 1_000_001, u32::MAX].map(|people| one_cell(cell(people)));
    // A longitude may be what a latitude may not, so the same value shows which limits a field is held to.
    let latitudes = edges(32_400_000).map(|edge| one_cell(cell_at(3, edge, edge)));
    let longitudes = edges(64_800_000).map(|edge| one_cell(cell_at(3, 0, edge)));
    [&people[..], &latitudes, &longitudes].concat()
}

/// Bits past the last column, in a first byte and in a second one; the greatest population, and a greater one.
fn bits_and_populations() -> Vec<Vec<u8>> {
    let mut nine_columns = vec![None; 9];
    nine_columns[8] = Some(cell(3));
    let populous = |cells| write_map(&[strip(5, 1, &vec![cell(1_000_000); cells])]);
    vec![
        with_byte(write_map(&[strip(5, 1, &[cell(3); 2])]), COLUMNS, 1),
        with_byte(write_map(&[area(5, 1, 9, nine_columns)]), BIT_MAP + 1, 130),
        populous(40),
        populous(41),
    ]
}

/// Two faults: the first in byte order counts.
fn two_faults() -> Vec<Vec<u8>> {
    vec![
        // Too many people, then the end inside the latitude.
        cut(one_cell(cell(1_000_001)), BIT_MAP + 7),
        write_map(&[square(5, 1), square(5, 0)]),
        write_map(&[square(5, 0), square(5, 1)]),
        extended(one_cell(cell(0)), 0),
        with_byte(one_cell(cell(0)), COUNT, 2),
        // A bit past the last column, and no cells.
        cut(with_byte(one_cell(cell(3)), BIT_MAP, 3), BIT_MAP + 1),
    ]
}

/// A map that is looked up in by each of its numbers and any other, and the same map damaged.
fn add_random(cases: &mut Cases, random: &mut Random) {
    let areas = random_areas(random);
    let mut numbers: Vec<u16> = areas.iter().map(|area| area.number).collect();
    let first = vec![numbers[0]];
    numbers.push(random.below(417) as u16);
    let map = write_map(&areas);
    let damaged = damaged(random, map.clone());
    cases.add(Case::Map { map, numbers });
    cases.add(Case::Map { map: damaged, numbers: first });
}

fn random_areas(random: &mut Random) -> Vec<Area> {
    let count = random.between(1, 4);
    let mut numbers: Vec<u16> = (0..count).map(|_| random.between(1, 416) as u16).collect();
    numbers.sort();
    numbers.dedup();
    numbers.iter().map(|&number| random_area(random, number)).collect()
}

fn random_area(random: &mut Random, number: u16) -> Area {
    let (rows, columns) = (random.between(1, 4) as usize, random.between(1, 20) as usize);
    let weight = random.between(1, 65_535) as u32;
    let cells = (0..rows * columns).map(|_| (random.below(10) < 3).then(|| random_cell(random)));
    area(number, weight, columns, cells.collect())
}

fn random_cell(random: &mut Random) -> Cell {
    let any = random.between(0, 1_000_000) as u32;
    let people = random.pick(&[0, 1, any]);
    let latitude = random.between(-32_400_000, 32_400_000) as i32;
    let longitude = random.between(-64_800_000, 64_800_000) as i32;
    cell_at(people, latitude, longitude)
}

/// The map cut somewhere, with a byte after it, with one byte replaced or with one bit turned over.
pub fn damaged(random: &mut Random, map: Vec<u8>) -> Vec<u8> {
    let position = random.below(map.len());
    let byte = random.below(256) as u8;
    let turned = map[position] ^ (1 << random.below(8));
    match random.below(4) {
        0 => cut(map, position),
        1 => extended(map, byte),
        2 => with_byte(map, position, byte),
        _ => with_byte(map, position, turned),
    }
}
