//! The boxes of licences on the grid.
//!
//! Boxes are in coordinates and squares in rows and columns. Rows are fitted to latitudes and columns to longitudes by
//! least squares; where a box placed so doesn't hold just the cells that it covers, those cells get an outline instead.

use super::grid::{Grid, path, stroke};
use super::shapes::{Line, Rectangle};
use codwalet::{Cell, GeoBox, Licence};

/// Colours of boxes, in turn, so that lines that cross can be told apart.
const COLOURS: [&str; 5] = ["#9d174d", "#166534", "#6d28d9", "#7c4a03", "#0f5e6e"];
/// The least width and height of a box, so that it can be seen. Where squares are smaller it is their side, so that a
/// box made larger doesn't reach the middle of another square.
const LEAST_LENGTH: f64 = 8.0;
/// The lengths of a dash and of the gap after it. Boxes that are no larger than both have no gaps in their lines.
const DASH: f64 = 7.0;
const DASH_GAP: f64 = 4.0;

/// A box as it is drawn. Boxes that cover the same cells are drawn as one, the first by call sign.
pub(super) struct DrawnBox {
    pub licences: Vec<Licence>,
    pub colour: &'static str,
    pub lines: Vec<Line>,
    /// The rectangle around its lines.
    pub frame: Rectangle,
    path: String,
}

impl DrawnBox {
    fn new(licence: Licence, colour: &'static str, lines: Vec<Line>, path: String) -> DrawnBox {
        let empty = Rectangle { left: f64::MAX, right: f64::MIN, top: f64::MAX, bottom: f64::MIN };
        let frame = lines.iter().map(Line::frame).fold(empty, |frame, line| frame.with(&line));
        DrawnBox { licences: vec![licence], colour, lines, frame, path }
    }

    /// Whether one of its lines runs through a rectangle.
    pub(super) fn crosses(&self, at: &Rectangle) -> bool {
        self.lines.iter().any(|line| line.crosses(at))
    }

    pub(super) fn element(&self, grid: &Grid) -> String {
        let Rectangle { left, right, top, bottom } = self.frame;
        let paint = if (right - left).max(bottom - top) <= DASH + DASH_GAP {
            format!("{} stroke-dasharray=\"none\"", stroke(self.colour, 1.25))
        } else {
            dashes(self.colour, grid.by_side(2.0, 1.25))
        };
        format!("<path d=\"{}\" {paint}/>", self.path)
    }
}

/// The paint of the lines of boxes.
pub(super) fn dashes(colour: &str, width: f64) -> String {
    format!("{} stroke-dasharray=\"{DASH} {DASH_GAP}\"", stroke(colour, width))
}

impl Grid<'_> {
    /// The boxes of licences, by the first call sign of each.
    pub(super) fn boxes(&self) -> Vec<DrawnBox> {
        let fits = Fits::new(self);
        let (mut boxes, mut sets): (Vec<DrawnBox>, Vec<Vec<usize>>) = (Vec::new(), Vec::new());
        for (licence, edges) in self.drawing.boxes() {
            let set: Vec<usize> =
                self.placed().filter(|(_, cell)| edges.covers(cell)).map(|(place, _)| place).collect();
            if let Some(same) = sets.iter().position(|other| *other == set) {
                boxes[same].licences.push(licence);
                continue;
            }
            let (path, lines) = self.box_path(fits.as_ref(), &edges);
            boxes.push(DrawnBox::new(licence, COLOURS[boxes.len() % COLOURS.len()], lines, path));
            sets.push(set);
        }
        boxes
    }

    /// The path of a box and its lines.
    fn box_path(&self, fits: Option<&Fits>, edges: &GeoBox) -> (String, Vec<Line>) {
        let rectangle = fits.map(|fits| self.rectangle(fits, edges));
        match rectangle.filter(|rectangle| self.is_true(rectangle, edges)) {
            Some(rectangle) => (rectangle.path(), rectangle.sides()),
            None => {
                let lines = self.outline(|place| self.drawing.cells[place].is_some_and(|cell| edges.covers(&cell)));
                (path(&lines), lines)
            }
        }
    }

    /// The area's cells with their places.
    fn placed(&self) -> impl Iterator<Item = (usize, Cell)> + Clone {
        self.drawing.cells.iter().enumerate().filter_map(|(place, &cell)| Some((place, cell?)))
    }

    /// Where a box lies on the grid, cut at the grid's edges and large enough to be seen.
    fn rectangle(&self, fits: &Fits, edges: &GeoBox) -> Rectangle {
        let side = self.side as f64;
        let scaled = |place: f64, places: usize| place.clamp(0.0, places as f64) * side;
        let (left, right) = ordered(fits.column.place(edges.west), fits.column.place(edges.east));
        let (top, bottom) = ordered(fits.row.place(edges.north), fits.row.place(edges.south));
        let cut = Rectangle {
            left: scaled(left, self.drawing.columns),
            right: scaled(right, self.drawing.columns),
            top: scaled(top, self.drawing.rows),
            bottom: scaled(bottom, self.drawing.rows),
        };
        cut.at_least(LEAST_LENGTH.min(side)).moved_into(&self.frame())
    }

    /// Whether a rectangle holds the middles of just those cells that the box covers. Middles within a twentieth of a
    /// square from an edge count for neither side.
    fn is_true(&self, rectangle: &Rectangle, edges: &GeoBox) -> bool {
        let room = self.side as f64 / 20.0;
        let (wider, narrower) = (rectangle.wider(room), rectangle.wider(-room));
        self.placed().all(|(place, cell)| {
            let middle = self.middle(place);
            if edges.covers(&cell) { wider.holds(middle) } else { !narrower.holds(middle) }
        })
    }
}

fn ordered(one: f64, other: f64) -> (f64, f64) {
    (one.min(other), one.max(other))
}

/// Rows by latitude and columns by longitude.
struct Fits {
    row: Fit,
    column: Fit,
}

impl Fits {
    /// None if the latitudes or the longitudes don't vary.
    fn new(grid: &Grid) -> Option<Fits> {
        let columns = grid.drawing.columns;
        let row = Fit::new(grid.placed().map(|(place, cell)| (cell.latitude, place / columns)))?;
        let column = Fit::new(grid.placed().map(|(place, cell)| (cell.longitude, place % columns)))?;
        Some(Fits { row, column })
    }
}

/// A line through points (coordinate, row or column), by least squares.
struct Fit {
    mean_coordinate: f64,
    mean_place: f64,
    slope: f64,
}

impl Fit {
    /// None if the coordinates don't vary.
    fn new(points: impl Iterator<Item = (i32, usize)> + Clone) -> Option<Fit> {
        let count = points.clone().count() as f64;
        let mean_coordinate = points.clone().map(|(coordinate, _)| f64::from(coordinate)).sum::<f64>() / count;
        let mean_place = points.clone().map(|(_, place)| place as f64).sum::<f64>() / count;
        let (mut square, mut product) = (0.0, 0.0);
        for (coordinate, place) in points {
            let away = f64::from(coordinate) - mean_coordinate;
            square += away * away;
            product += away * (place as f64 - mean_place);
        }
        (square > 0.0).then(|| Fit { mean_coordinate, mean_place, slope: product / square })
    }

    /// Where a coordinate lies, in squares from the grid's edge. A cell's point is drawn in the middle of its square.
    fn place(&self, coordinate: i32) -> f64 {
        self.mean_place + self.slope * (f64::from(coordinate) - self.mean_coordinate) + 0.5
    }
}
