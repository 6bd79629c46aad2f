//! The grid of an area: its squares, their people, and outlines around them.

use super::shapes::{Line, Rectangle};
use super::words::Font;
use super::{INK, RING, is_ring};
use crate::picture::{Drawing, Mark};

/// The longest that a grid's width and height are, and how small and large its squares are, in the picture's units.
/// Squares at their smallest come before the grid's length.
const LONGEST_GRID: usize = 720;
const SMALLEST_SIDE: usize = 4;
const LARGEST_SIDE: usize = 40;
/// With more boxes than this, the squares of small areas are larger, so that labels have room.
const MOST_BOXES_ON_USUAL_SQUARES: usize = 16;
const LARGEST_SIDE_FOR_MANY: usize = 120;
/// Below this side a square's lines are thinner.
const FINE: usize = 16;
/// From this side on, a square has room for its people.
const SIDE_WITH_PEOPLE: usize = 30;
/// The sizes that figures of people may have.
const LARGEST_FIGURE: f64 = 10.0;
const SMALLEST_FIGURE: f64 = 7.5;

/// The hatching of covered cells.
pub(super) const HATCH: &str = "fill=\"url(#covered)\" opacity=\"0.35\"";
const CELLS_EDGE: &str = "#8b95a3";

/// The colour of a mark's squares, and of the figures on them.
pub(super) fn colours(mark: Mark) -> (&'static str, &'static str) {
    match mark {
        Mark::CoveredIn | Mark::JoinedIn => ("#6ea8dc", "#0b1526"),
        Mark::RingIn => ("#b5d5f2", "#0b1526"),
        Mark::RingOut | Mark::CoveredOut | Mark::Out => ("#eceff2", "#5c6470"),
    }
}

/// The area's grid, its top left corner at the origin.
pub(super) struct Grid<'d> {
    pub drawing: &'d Drawing,
    /// The side of a square.
    pub side: usize,
}

impl<'d> Grid<'d> {
    pub(super) fn new(drawing: &'d Drawing) -> Grid<'d> {
        let largest =
            if drawing.boxes().count() > MOST_BOXES_ON_USUAL_SQUARES { LARGEST_SIDE_FOR_MANY } else { LARGEST_SIDE };
        let side = (LONGEST_GRID / drawing.rows.max(drawing.columns)).clamp(SMALLEST_SIDE, largest);
        Grid { drawing, side }
    }
}

impl Grid<'_> {
    pub(super) fn width(&self) -> f64 {
        (self.drawing.columns * self.side) as f64
    }

    pub(super) fn height(&self) -> f64 {
        (self.drawing.rows * self.side) as f64
    }

    /// The rectangle of all places.
    pub(super) fn frame(&self) -> Rectangle {
        Rectangle { left: 0.0, right: self.width(), top: 0.0, bottom: self.height() }
    }

    /// The first of two values, or the second where squares are small.
    pub(super) fn by_side<T>(&self, usual: T, fine: T) -> T {
        if self.side < FINE { fine } else { usual }
    }

    /// The top left corner of a place.
    fn corner(&self, place: usize) -> (usize, usize) {
        (place % self.drawing.columns * self.side, place / self.drawing.columns * self.side)
    }

    /// The middle of a place's square.
    pub(super) fn middle(&self, place: usize) -> (f64, f64) {
        let (x, y) = self.corner(place);
        (x as f64 + self.side as f64 / 2.0, y as f64 + self.side as f64 / 2.0)
    }

    /// The squares with their marks, the hatching of covered cells, and the outlines of the area's cells and of the
    /// footprint.
    pub(super) fn cells(&self) -> Vec<String> {
        let drawing = self.drawing;
        let filled = |mark: Mark| {
            let squares = self.squares(|place| drawing.mark(place) == Some(mark));
            (squares, format!("fill=\"{}\"", colours(mark).0))
        };
        let mut paths = Mark::ALL.map(filled).to_vec();
        let around_cells = path(&self.outline(|place| drawing.cells[place].is_some()));
        let around_footprint = path(&self.outline(|place| drawing.footprint[place]));
        paths.push((self.squares(|place| drawing.covered[place]), HATCH.to_string()));
        paths.push((self.lattice(), stroke("#ffffff", self.by_side(1.0, 0.5))));
        paths.push((self.ring_edges(), stroke(RING, self.ring_stroke())));
        paths.push((around_cells, stroke(CELLS_EDGE, 1.0)));
        paths.push((around_footprint, stroke(INK, self.by_side(2.5, 1.5))));
        let drawn = paths.into_iter().filter(|(path, _)| !path.is_empty());
        drawn.map(|(path, paint)| format!("<path d=\"{path}\" {paint}/>")).collect()
    }

    /// A path of the squares for which something holds; squares side by side are one rectangle.
    fn squares(&self, holds: impl Fn(usize) -> bool) -> String {
        let Drawing { rows, columns, .. } = *self.drawing;
        let side = self.side;
        let mut path = String::new();
        for row in 0..rows {
            for (column, count) in runs((0..columns).map(|column| holds(row * columns + column))) {
                let length = count * side;
                path += &format!("M{} {}h{length}v{side}h-{length}z", column * side, row * side);
            }
        }
        path
    }

    /// A path of the lines between rows and between columns.
    fn lattice(&self) -> String {
        let down = (1..self.drawing.columns).map(|column| format!("M{} 0v{}", column * self.side, self.height()));
        let across = (1..self.drawing.rows).map(|row| format!("M0 {}h{}", row * self.side, self.width()));
        down.chain(across).collect()
    }

    fn ring_stroke(&self) -> f64 {
        self.by_side(2.0, 1.0)
    }

    /// A path of an edge within each square of the last ring.
    fn ring_edges(&self) -> String {
        let stroke = self.ring_stroke();
        let length = self.side as f64 - 2.0 * stroke;
        let edge = |place: usize| {
            let (x, y) = self.corner(place);
            format!("M{} {}h{length}v{length}h-{length}z", x as f64 + stroke, y as f64 + stroke)
        };
        let of_ring = |place: &usize| self.drawing.mark(*place).is_some_and(is_ring);
        (0..self.drawing.cells.len()).filter(of_ring).map(edge).collect()
    }

    /// The font of the figures of people, if squares have room for all of them.
    fn figure_font(&self) -> Option<Font> {
        if self.side < SIDE_WITH_PEOPLE {
            return None;
        }
        let most = self.drawing.cells.iter().flatten().map(|cell| cell.people).max()?;
        let one_unit = Font { size: 1.0, bold: false };
        let size = (self.side as f64 - 6.0) / one_unit.width(&most.to_string());
        (size >= SMALLEST_FIGURE).then_some(Font { size: size.min(LARGEST_FIGURE), bold: false })
    }

    /// The people of each cell, where squares have room for the figures.
    pub(super) fn figures(&self) -> Vec<Figure> {
        let Some(font) = self.figure_font() else { return Vec::new() };
        let figure = |place: usize| {
            let (words, mark) = (self.drawing.cells[place]?.people.to_string(), self.drawing.mark(place)?);
            let at = Rectangle::around(self.middle(place), (font.width(&words), font.size));
            Some(Figure { words, at, font, colour: colours(mark).1 })
        };
        (0..self.drawing.cells.len()).filter_map(figure).collect()
    }

    /// The sides between places of a set and places outside it, each as long as it goes straight on.
    pub(super) fn outline(&self, holds: impl Fn(usize) -> bool) -> Vec<Line> {
        let Drawing { rows, columns, .. } = *self.drawing;
        // Rows and columns are counted from 1 here, so that those around the grid have numbers too.
        let inside = |row: usize, column: usize| {
            (1..=rows).contains(&row) && (1..=columns).contains(&column) && holds((row - 1) * columns + column - 1)
        };
        let line = |column: usize, row: usize, count: usize, down: bool| Line {
            start: ((column * self.side) as f64, (row * self.side) as f64),
            length: (count * self.side) as f64,
            down,
        };
        let mut lines = Vec::new();
        for row in 0..=rows {
            let sides = runs((1..=columns).map(|column| inside(row, column) != inside(row + 1, column)));
            lines.extend(sides.into_iter().map(|(column, count)| line(column, row, count, false)));
        }
        for column in 0..=columns {
            let sides = runs((1..=rows).map(|row| inside(row, column) != inside(row, column + 1)));
            lines.extend(sides.into_iter().map(|(row, count)| line(column, row, count, true)));
        }
        lines
    }
}

/// A cell's people as a figure on its square.
pub(super) struct Figure {
    words: String,
    pub at: Rectangle,
    font: Font,
    colour: &'static str,
}

impl Figure {
    pub(super) fn element(&self) -> String {
        self.font.centred(self.at.middle(), self.colour, &self.words)
    }
}

/// A path of lines.
pub(super) fn path(lines: &[Line]) -> String {
    lines.iter().map(Line::path).collect()
}

/// The paint of lines.
pub(super) fn stroke(colour: &str, width: f64) -> String {
    format!("fill=\"none\" stroke=\"{colour}\" stroke-width=\"{width}\"")
}

/// The first index and the length of each run of truths.
fn runs(truths: impl Iterator<Item = bool>) -> Vec<(usize, usize)> {
    let mut runs: Vec<(usize, usize)> = Vec::new();
    for (index, _) in truths.enumerate().filter(|&(_, truth)| truth) {
        match runs.last_mut() {
            Some((first, length)) if *first + *length == index => *length += 1,
            _ => runs.push((index, 1)),
        }
    }
    runs
}

#[cfg(test)]
mod tests {
    use super::*;

    #[test]
    fn runs_of_truths() {
        let truths = |signs: &'static str| runs(signs.chars().map(|sign| sign == '#'));
        assert_eq!(truths("##.#..###"), [(0, 2), (3, 1), (6, 3)]);
        assert_eq!(truths("..."), []);
    }
}
