//! The areas of a CSV text, gathered from its lines, and what can be wrong with them as a whole.

use super::{Found, Wrong};
use codwalet::{Cell, NewArea, limits};
use std::collections::BTreeMap;

/// A line of the text, each field within its limits.
#[derive(Clone, Debug)]
pub struct CellLine {
    pub line: usize,
    pub area: u16,
    pub weight: u32,
    pub row: usize,
    pub column: usize,
    pub people: u32,
    pub latitude: i32,
    pub longitude: i32,
}

/// The lines of an area, by row and column.
struct AreaLines {
    weight: u32,
    first_line: usize,
    last_line: usize,
    cells: BTreeMap<(usize, usize), CellLine>,
}

/// The areas, ascending.
pub struct Areas(BTreeMap<u16, AreaLines>);

impl Areas {
    /// The areas in some lines; mistakes of the whole map join those of its lines.
    pub fn gather(lines: Vec<CellLine>, mistakes: &mut Vec<Found>) -> Areas {
        let mut areas = Areas(BTreeMap::new());
        for cell in lines {
            let line = cell.line;
            mistakes.extend(areas.add(cell).into_iter().flatten().map(|wrong| (line, wrong)));
        }
        // What an area holds is known only where all its lines are.
        if mistakes.is_empty() {
            mistakes.extend(areas.wrong_populations());
            mistakes.extend(areas.0.is_empty().then_some((0, Wrong::NoCells)));
        }
        mistakes.extend(areas.too_many());
        areas
    }

    /// Adds a line; says what is wrong with it beside those before.
    fn add(&mut self, cell: CellLine) -> [Option<Wrong>; 2] {
        let CellLine { line, area, weight, row, column, .. } = cell;
        let new = || AreaLines { weight, first_line: line, last_line: line, cells: BTreeMap::new() };
        let lines = self.0.entry(area).or_insert_with(new);
        lines.last_line = line;
        let (earlier, earlier_line) = (lines.weight, lines.first_line);
        let other_weight = (weight != earlier).then_some(Wrong::OtherWeight { weight, area, earlier, earlier_line });
        let same_place = |earlier: CellLine| Wrong::SamePlace { area, row, column, earlier_line: earlier.line };
        [other_weight, lines.cells.insert((row, column), cell).map(same_place)]
    }

    fn wrong_populations(&self) -> impl Iterator<Item = Found> {
        self.0.iter().filter_map(|(&area, lines)| {
            let people: u64 = lines.cells.values().map(|cell| u64::from(cell.people)).sum();
            let wrong = Wrong::Population { area, people };
            (!(1..=limits::POPULATION).contains(&people)).then_some((lines.last_line, wrong))
        })
    }

    /// The areas beyond the most that a map can have, in the order of the text.
    fn too_many(&self) -> Vec<Found> {
        let mut first: Vec<(usize, u16)> = self.0.iter().map(|(&area, lines)| (lines.first_line, area)).collect();
        first.sort_unstable();
        first.into_iter().skip(limits::AREAS).map(|(line, area)| (line, Wrong::AreaTooMany(area))).collect()
    }

    /// The areas as the map writer takes them.
    pub fn to_new(&self) -> Vec<NewArea> {
        self.0.iter().map(|(&number, lines)| lines.to_new(number)).collect()
    }
}

impl AreaLines {
    fn to_new(&self, number: u16) -> NewArea {
        let rows = self.cells.keys().map(|&(row, _)| row + 1).max().unwrap_or(0);
        let columns = self.cells.keys().map(|&(_, column)| column + 1).max().unwrap_or(0);
        let mut cells = vec![None; rows * columns];
        for (&(row, column), &CellLine { people, latitude, longitude, .. }) in &self.cells {
            cells[row * columns + column] = Some(Cell { people, latitude, longitude });
        }
        NewArea { number, weight: self.weight, rows, columns, cells }
    }
}
