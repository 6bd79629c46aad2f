//! Pictures with many boxes and with few, on areas of all shapes.

use super::Page;
use codwalet::{GeoBox, Licence, Map, Register};
use codwalet_cli::csv::{HEADER, build};
use codwalet_cli::picture::{Drawing, svg};
use std::ops::Range;

/// The drawing for the cells of some lines and some licences.
pub fn draw(lines: &str, licences: &[Licence]) -> Drawing {
    let built = build(format!("{HEADER}\n{lines}").as_bytes()).expect("the map is built");
    let map = Map::owned(built.bytes).expect("the map is accepted");
    let grant = |register: Register, licence: &Licence| register.grant(*licence).expect("the licence is granted");
    let register = licences.iter().fold(Register::empty(), grant);
    Drawing::make(&map, &register, 0).expect("there is a footprint")
}

/// A licence for a box over some rows and columns of a case's grid, its call sign having ten digits.
pub fn over(number: u32, rows: Range<i32>, columns: Range<i32>) -> Licence {
    let edges = GeoBox {
        north: 5 - 10 * rows.start,
        south: 5 - 10 * rows.end,
        west: 10 * columns.start - 5,
        east: 10 * columns.end - 5,
    };
    Licence::within(4_000_000_000 + number, edges)
}

/// A picture of area 212. Its cells are ten hundredths of an arc second apart.
pub struct Case {
    pub name: &'static str,
    pub rows: usize,
    pub columns: usize,
    pub weight: u32,
    /// The people of a cell, by its place.
    pub people: fn(usize) -> usize,
    /// How far a cell's point is from where the grid has it, in latitude and longitude, by the cell's place.
    pub away: fn(i32) -> (i32, i32),
    pub licences: Vec<Licence>,
}

impl Case {
    pub fn page(&self) -> Page {
        let lines: String = (0..self.rows * self.columns).map(|place| self.line(place)).collect();
        Page::read(&svg(&draw(&lines, &self.licences)))
    }

    /// The line of a cell.
    fn line(&self, place: usize) -> String {
        let (row, column, away) = (place / self.columns, place % self.columns, (self.away)(place as i32));
        let (latitude, longitude) = (away.0 - 10 * row as i32, away.1 + 10 * column as i32);
        format!("212,{},{row},{column},{},{latitude},{longitude}\n", self.weight, (self.people)(place))
    }

    /// What legends list: the call sign of each licence, and its width if it is narrower than 50 MHz.
    pub fn listed(&self) -> impl Iterator<Item = String> {
        self.licences.iter().map(|licence| match (licence.call_sign(), licence.width()) {
            (call_sign, 50) => call_sign.to_string(),
            (call_sign, mhz) => format!("{call_sign} ({mhz} MHz)"),
        })
    }
}

/// The people of a cell, by its place.
pub fn some_people(place: usize) -> usize {
    place * 7919 % 131
}

/// Points where the grid has them.
pub fn not_away(_: i32) -> (i32, i32) {
    (0, 0)
}

/// Points up to one and a half cells away.
fn scattered(place: i32) -> (i32, i32) {
    (place * 7919 % 31 - 15, place * 6151 % 31 - 15)
}

/// 64 boxes, each made from its number, over a grid of some rows and columns.
fn boxes(name: &'static str, rows: usize, columns: usize, each: fn(i32) -> (Range<i32>, Range<i32>)) -> Case {
    let licence = |number: u32| {
        let (rows, columns) = each(number as i32);
        over(number, rows, columns)
    };
    let licences = (0..64).map(licence).collect();
    Case { name, rows, columns, weight: 3, people: some_people, away: not_away, licences }
}

/// From a start on, so many.
fn from(start: i32, count: i32) -> Range<i32> {
    start..start + count
}

/// Pictures with 64 boxes.
pub fn crowded() -> Vec<Case> {
    vec![
        boxes("spread", 128, 128, |n| (from(n * 37 % 110, 2 + n % 15), from(n * 53 % 110, 2 + n * 7 % 15))),
        boxes("nested", 128, 128, |n| (n..127 - n.min(62), n..128 - n)),
        boxes("overlapping", 40, 40, |n| (from(n * 7 % 20, 5 + n % 13), from(n * 11 % 20, 5 + n * 3 % 15))),
        boxes("side by side", 16, 16, |n| (from(n / 8 * 2, 2), from(n % 8 * 2, 2))),
        boxes("close together", 128, 128, |n| (from(20 + n / 8, 1), from(40 + n % 8, 1))),
        boxes("narrowing", 20, 64, |n| (0..20, 0..64 - n)),
        boxes("wide and low", 4, 128, |n| (from(n % 3, 1 + n % 2), from(n * 29 % 110, 3 + n % 14))),
        boxes("tall and narrow", 128, 4, |n| (from(n * 29 % 110, 3 + n % 14), from(n % 3, 1 + n % 2))),
        boxes("in few cells", 4, 4, |n| (0..1 + n % 4, n / 16..1 + n / 4 % 4 + n / 16)),
        Case {
            away: scattered,
            ..boxes("outlined", 30, 30, |n| (from(n * 7 % 26, 3 + n % 5), from(n * 11 % 26, 3 + n * 3 % 6)))
        },
    ]
}

/// Pictures with few boxes, two with licences for the whole area too, one of these with narrow licences, and one with the largest
/// amounts.
pub fn plain() -> Vec<Case> {
    let few = vec![over(1, 2..6, 2..6), over(2, 5..9, 5..9), over(3, 0..4, 8..12)];
    let whole_area = (1..=20).map(|call_sign| Licence::area(call_sign, 212));
    let with_area: Vec<Licence> = few.iter().copied().chain(whole_area).collect();
    let narrow = with_area.iter().zip(1..).map(|(licence, mhz)| licence.with_width(mhz)).collect();
    let corners = [(1, 0, 127), (2, 127, 0), (3, 127, 127)];
    let corners = corners.map(|(number, row, column)| over(number, from(row, 1), from(column, 1)));
    let case = |name, rows, columns, licences| Case {
        name,
        rows,
        columns,
        weight: 3,
        people: some_people,
        away: not_away,
        licences,
    };
    vec![
        case("few", 12, 12, few),
        case("with the whole area", 12, 12, with_area),
        case("narrow", 12, 12, narrow),
        case("in the corners", 128, 128, corners.to_vec()),
        case("two cells", 1, 2, vec![over(1, 0..1, 1..2)]),
        case("wide and low, few", 4, 128, vec![over(1, 0..4, 10..40), over(2, 1..3, 60..90)]),
        case("the same box", 8, 8, (0..36).map(|number| over(number, 2..5, 2..6)).collect()),
        Case { weight: 65_535, people: |_| 1_000_000, ..case("large amounts", 5, 8, vec![over(1, 0..3, 0..8)]) },
    ]
}

/// All these pictures.
pub fn all() -> impl Iterator<Item = Case> {
    crowded().into_iter().chain(plain())
}
