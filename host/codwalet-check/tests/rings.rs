//! The last ring that the command draws with a footprint is the one that the independent implementation finds.

use codwalet::{Cell, GeoBox, Ground, Licence, Map, Register, Weighted};
use codwalet_check::random::Random;
use codwalet_check::reference;
use codwalet_cli::beyond::ring::{Start, last_ring};
use codwalet_cli::csv::{HEADER, build};
use codwalet_cli::picture::Drawing;

/// A map of two areas with gaps, the coordinates of a cell being its row and column.
fn some_map(numbers: &mut Random) -> Vec<u8> {
    // From few gaps to so many that cells lie alone.
    let gaps = 1 + numbers.below(4);
    let mut text = format!("{HEADER}\n7,2,0,0,9,0,0\n9,3,0,0,9,0,20\n");
    for place in 1..2 * 80 {
        let (area, place) = (place / 80, place % 80);
        if place == 0 || numbers.below(5) < gaps {
            continue;
        }
        let (row, column, people) = (place / 10, place % 10, numbers.below(12));
        let (number, weight, longitude) = (7 + 2 * area, 2 + area, column + 20 * area);
        text += &format!("{number},{weight},{row},{column},{people},-{row},{longitude}\n");
    }
    build(text.as_bytes()).expect("the map is built").bytes
}

/// A licence for an area, and one to five for boxes.
fn some_licences(numbers: &mut Random) -> Vec<Licence> {
    let mut licences = vec![Licence::area(1, 7 + 2 * numbers.below(2) as u16)];
    for call_sign in 2..3 + numbers.below(5) as u32 {
        let (north, west) = (1 - numbers.below(8) as i32, numbers.below(28) as i32);
        let (south, east) = (north - 1 - numbers.below(5) as i32, west + 1 + numbers.below(6) as i32);
        licences.push(Licence::within(call_sign, GeoBox { south, north, west, east }));
    }
    licences
}

fn reference_licence(licence: &Licence) -> reference::Licence {
    let ground = match licence.ground() {
        Ground::Area(number) => reference::Ground::Area(number),
        Ground::Box(GeoBox { south, north, west, east }) => reference::Ground::Box { south, north, west, east },
        other => unreachable!("no test grants for {other:?}"),
    };
    reference::Licence::without_width(licence.call_sign(), ground)
}

#[test]
fn rings_are_those_of_the_independent_implementation() {
    let mut numbers = Random::new(39);
    let (mut drawn, mut ringed) = (0, 0);
    for _ in 0..400 {
        let bytes = some_map(&mut numbers);
        let map = Map::new(&bytes).expect("the map is accepted");
        let licences = some_licences(&mut numbers);
        let grant = |register: Register, licence: &Licence| register.grant(*licence).expect("the licence is granted");
        let register = licences.iter().fold(Register::empty(), grant);
        let lines: Vec<reference::Licence> = licences.iter().map(reference_licence).collect();
        let areas = reference::read_map(&bytes).expect("the map is accepted");
        let outline = reference::outline(&areas, &lines, 0);
        let drawing = Drawing::make(&map, &register, 0);
        assert_eq!(drawing.as_ref().err().map(|refusal| refusal.number()), outline.as_ref().err().copied());
        let (Ok(drawing), Ok(outline)) = (drawing, outline) else {
            continue;
        };
        assert_eq!((drawing.area, drawing.share.0), (outline.number, outline.share));
        assert_eq!((drawing.covered, drawing.footprint), (outline.start, outline.footprint));
        drawn += 1;
        ringed += usize::from(outline.last_ring.contains(&true));
        assert_eq!(drawing.last_ring, Some(outline.last_ring));
    }
    // The cases are of use: most have a footprint, and most of these a last ring.
    assert!(drawn > 200 && ringed > 150, "{drawn} drawn, {ringed} with a last ring");
}

/// An area without coordinates, with gaps.
fn some_area(numbers: &mut Random) -> reference::Area {
    let (rows, columns) = (1 + numbers.below(20), 1 + numbers.below(20));
    let gap_once_in = 2 + numbers.below(30);
    let mut cell = |_| {
        let people = numbers.below(5) as u32;
        (!numbers.once_in(gap_once_in)).then_some(reference::Cell { people, latitude: 0, longitude: 0 })
    };
    let cells = (0..rows * columns).map(&mut cell).collect();
    reference::Area { number: 7, weight: 3, rows, columns, cells, start: 0, end: 0 }
}

/// Cells of an area to start from: a few of them, or all but a few.
fn some_cells(area: &reference::Area, numbers: &mut Random) -> Vec<bool> {
    let (once_in, few) = (4 + numbers.below(40), numbers.once_in(2));
    area.cells.iter().map(|cell| cell.is_some() && numbers.once_in(once_in) == few).collect()
}

/// The last ring as the command finds it, for a mask that is the outer set.
fn command_ring(area: &reference::Area, covered: &[bool], share: u64, outer: &[bool]) -> Option<Vec<bool>> {
    let cell =
        |cell: &reference::Cell| Cell { people: cell.people, latitude: cell.latitude, longitude: cell.longitude };
    let cells: Vec<Option<Cell>> = area.cells.iter().map(|place| place.as_ref().map(cell)).collect();
    let reference::Area { weight, rows, columns, .. } = *area;
    last_ring(&Start { rows, columns, weight, cells: &cells, covered, share: Weighted(share) }, outer)
}

#[test]
fn rings_are_the_same_for_any_start_and_share() {
    let mut numbers = Random::new(13);
    let (mut grown, mut shrunk) = (0, 0);
    for _ in 0..2_000 {
        let area = some_area(&mut numbers);
        let size = 300 * area.population();
        if size < 2 {
            continue;
        }
        let covered = some_cells(&area, &mut numbers);
        let share = 1 + numbers.below(size as usize - 1) as u64;
        let (outer, ring) = reference::last_ring(&area, &covered, share);
        assert_eq!(command_ring(&area, &covered, share, &outer), Some(ring.clone()), "{area:?} {covered:?} {share}");
        // Rounds before the last have joined cells that were not covered, or have left covered ones out.
        let places = || (0..outer.len()).filter(|&place| !ring[place]);
        grown += usize::from(places().any(|place| outer[place] && !covered[place]));
        shrunk += usize::from(places().any(|place| !outer[place] && covered[place]));
    }
    // The cases are of use: many go through rounds before the last, both ways.
    assert!(grown > 300 && shrunk > 100, "{grown} grown, {shrunk} shrunk");
}
