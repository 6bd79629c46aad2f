//! Areas and maps that cases are made of.

use crate::maps::write_map;
use crate::reference::{Area, Cell, Ground};

/// How far apart neighbouring cells of a grid are, in hundredths of an arc second.
const SCALE: i32 = 10;

/// A cell at latitude 0 and longitude 0.
pub fn cell(people: u32) -> Cell {
    cell_at(people, 0, 0)
}

pub fn cell_at(people: u32, latitude: i32, longitude: i32) -> Cell {
    Cell { people, latitude, longitude }
}

/// An area from its cells, row by row. Its fields may be outside their limits.
pub fn area(number: u16, weight: u32, columns: usize, cells: Vec<Option<Cell>>) -> Area {
    Area { number, weight, rows: cells.len() / columns, columns, cells, start: 0, end: 0 }
}

/// An area of one row with a cell in each place.
pub fn strip(number: u16, weight: u32, cells: &[Cell]) -> Area {
    area(number, weight, cells.len(), cells.iter().copied().map(Some).collect())
}

/// An area of one cell with 3 people.
pub fn square(number: u16, weight: u32) -> Area {
    strip(number, weight, &[cell(3)])
}

/// A map of area 5 alone, of one cell.
pub fn one_cell(cell: Cell) -> Vec<u8> {
    write_map(&[strip(5, 1, &[cell])])
}

/// A map of areas 5 and 7, with places that have no cell.
pub fn gapped() -> Vec<u8> {
    let five = [Some(cell(10)), None, Some(cell_at(0, 0, 2)), None, Some(cell_at(7, -1, -100)), None];
    let mut seven = vec![None; 9];
    seven[8] = Some(cell_at(4, 0, 8));
    write_map(&[area(5, 3, 3, five.to_vec()), area(7, 65_535, 9, seven)])
}

/// A map for each refusal of a map: 1, 3 (a good map with a byte after it), 5, 4 and 2.
pub fn refused(good: Vec<u8>) -> [Vec<u8>; 5] {
    [
        Vec::new(),
        extended(good, 0),
        one_cell(cell(0)),
        write_map(&[square(5, 1), square(5, 1)]),
        write_map(&[square(5, 0)]),
    ]
}

/// The map with one more byte after it.
pub fn extended(mut map: Vec<u8>, byte: u8) -> Vec<u8> {
    map.push(byte);
    map
}

/// The people of a grid by row and column, `None` where there is no cell.
pub type People = Vec<Vec<Option<u32>>>;

/// Rows of people from a text: a slash ends a row, a dash is a place without a cell.
pub fn people(text: &str) -> People {
    let place = |word: &str| (word != "-").then(|| word.parse().expect("a place is a dash or a number"));
    let row = |row: &str| row.split_whitespace().map(place).collect();
    text.split('/').map(row).collect()
}

/// An area with these people: a cell's latitude grows with its row, its longitude with its column.
pub fn grid(number: u16, weight: u32, people: &People) -> Area {
    let mut cells = Vec::new();
    for (latitude, row) in (0..).step_by(SCALE as usize).zip(people) {
        for (longitude, place) in (0..).step_by(SCALE as usize).zip(row) {
            cells.push(place.map(|people| cell_at(people, latitude, longitude)));
        }
    }
    area(number, weight, people[0].len(), cells)
}

/// The map of document 01's holdings 10 to 12. Their box is over columns 2 and 3.
pub fn one_row() -> Vec<u8> {
    write_map(&[grid(1, 1, &people("5 0 4 3 8"))])
}

/// A box over some rows and columns of a grid, the first and the last of each included.
pub fn over((top, bottom): (i32, i32), (left, right): (i32, i32)) -> Ground {
    Ground::Box { south: top * SCALE, north: (bottom + 1) * SCALE, west: left * SCALE, east: (right + 1) * SCALE }
}
