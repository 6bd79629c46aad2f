//! The byte at which the library finds a refused map to go wrong is the one that the independent implementation finds.

use codwalet::{Map, limits};
use codwalet_check::maps::write_map;
use codwalet_check::random::Random;
use codwalet_check::reference::{Area, Cell, read_map};
use std::collections::BTreeMap;

/// A number that is most often within 1 to a limit, and else just past it or 0.
fn some_number(numbers: &mut Random, limit: i64) -> i64 {
    if numbers.once_in(60) { numbers.pick(&[0, limit + 1]) } else { numbers.between(1, limit) }
}

fn some_cell(numbers: &mut Random) -> Cell {
    let coordinate = |numbers: &mut Random, limit: i32| numbers.pick(&[1, -1]) * numbers.pick(&[0, 7, limit]);
    let people = numbers.pick(&[0, 0, 5, limits::PEOPLE]);
    Cell {
        people: if numbers.once_in(200) { limits::PEOPLE + 1 } else { people },
        latitude: coordinate(numbers, limits::LATITUDE) + i32::from(numbers.once_in(200)),
        longitude: coordinate(numbers, limits::LONGITUDE) + i32::from(numbers.once_in(200)),
    }
}

/// An area with few cells or many, and sometimes a field outside its limits.
fn some_area(numbers: &mut Random, number: i64) -> Area {
    let (rows, columns) = (numbers.between(1, 12) as usize, numbers.between(1, 20) as usize);
    let gaps = numbers.between(1, 6) as usize;
    let cells = (0..rows * columns).map(|_| numbers.once_in(gaps).then(|| some_cell(numbers))).collect();
    let weight = some_number(numbers, limits::WEIGHT.into()) as u32;
    Area { number: number as u16, weight, rows, columns, cells, start: 0, end: 0 }
}

/// A map of a few areas, most of them in order.
fn some_map(numbers: &mut Random) -> Vec<u8> {
    let count = numbers.between(1, 3);
    let number = |numbers: &mut Random, place: i64| match numbers.below(30) {
        0 => some_number(numbers, limits::AREA_NUMBER.into()),
        _ => 100 * place + 7,
    };
    let mut areas = Vec::new();
    for place in 0..count {
        let number = number(numbers, place);
        areas.push(some_area(numbers, number));
    }
    write_map(&areas)
}

/// The map as it is, cut, made longer, or with a byte changed.
fn damaged(numbers: &mut Random, mut map: Vec<u8>) -> Vec<u8> {
    let place = numbers.below(map.len());
    match numbers.below(4) {
        0 => map.truncate(place),
        1 => map.push(0),
        2 => map[place] = numbers.below(256) as u8,
        _ => {}
    }
    map
}

#[test]
fn faults_are_found_at_the_same_byte() {
    let mut numbers = Random::new(5);
    let mut seen = BTreeMap::new();
    for _ in 0..40_000 {
        let sound = some_map(&mut numbers);
        let map = damaged(&mut numbers, sound);
        let found = Map::fault(&map).map(|fault| (fault.refusal.number(), fault.byte));
        let due = read_map(&map).err().map(|fault| (fault.number, fault.position));
        assert_eq!(found, due, "{map:?}");
        *seen.entry(due.map_or(0, |(number, _)| number)).or_insert(0) += 1;
    }
    // Accepted maps and every refusal come up many times.
    assert!((0..=5).all(|number| seen.get(&number).is_some_and(|&count| count > 200)), "{seen:?}");
}
