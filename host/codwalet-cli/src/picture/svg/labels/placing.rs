//! Where labels stand.
//!
//! A label stands within its box, on a line of it or next to it, where the lines of fewest other boxes run, and never
//! on another label or on a figure. Where there is no such spot it stands further off, tied to its box by a thin line.

use crate::picture::svg::boxes::DrawnBox;
use crate::picture::svg::grid::Grid;
use crate::picture::svg::shapes::{Line, Rectangle};
use crate::picture::svg::{BAND, MARGIN};

/// The room between labels, between spots that are tried, and between a line of a box and a label within or next to it.
const ROOM: f64 = 1.0;
const STEP: f64 = 4.0;
const INSET: f64 = 3.0;
/// How much of a box one label may hide, and how much of the grid several labels together: else they stand around it.
const MOST_HIDDEN_OF_BOX: f64 = 0.35;
const MOST_HIDDEN_OF_GRID: f64 = 0.1;

/// Where a label stands.
#[derive(Clone, Copy, Debug)]
pub(super) struct Spot {
    pub at: Rectangle,
    /// How many other boxes have a line there.
    pub crossed: usize,
    /// The point of its box that a label further off is tied to.
    pub tie: Option<(f64, f64)>,
}

/// Labels being placed.
pub(super) struct Placing<'a> {
    boxes: &'a [DrawnBox],
    /// The width and height of each box's label.
    sizes: &'a [(f64, f64)],
    /// Where labels may stand.
    region: Rectangle,
    /// The grid, if labels are to stand around it as long as there is room.
    kept_free: Option<Rectangle>,
    /// Where figures and the labels placed so far stand.
    taken: Vec<Rectangle>,
}

impl<'a> Placing<'a> {
    pub(super) fn new(grid: &Grid, boxes: &'a [DrawnBox], sizes: &'a [(f64, f64)]) -> Placing<'a> {
        let whole = grid.frame();
        let (across, down) = (MARGIN - 4.0, BAND - 4.0);
        let region = Rectangle { left: -across, right: whole.right + across, top: -down, bottom: whole.bottom + down };
        let hidden: f64 = sizes.iter().map(|(width, height)| width * height).sum();
        let taken = grid.figures().iter().map(|figure| figure.at).collect();
        let hide_much = boxes.len() > 1 && hidden > MOST_HIDDEN_OF_GRID * whole.area();
        let kept_free = hide_much.then_some(whole);
        Placing { boxes, sizes, region, kept_free, taken }
    }

    /// A spot for each box's label, if there is one. Boxes with the shortest lines come first, since they have the
    /// fewest spots.
    pub(super) fn spots(mut self) -> Vec<Option<Spot>> {
        let length = |index: &usize| self.boxes[*index].lines.iter().map(|line| line.length).sum::<f64>();
        let mut order: Vec<usize> = (0..self.boxes.len()).collect();
        order.sort_by(|one, other| length(one).total_cmp(&length(other)));
        let mut spots = vec![None; self.boxes.len()];
        for index in order {
            spots[index] = self.spot(index);
            self.taken.extend(spots[index].map(|spot| spot.at));
        }
        spots
    }

    /// The spot of a label: around a grid that is kept free, else at its box, else further off, hiding as little of all
    /// boxes as there is room for.
    fn spot(&self, index: usize) -> Option<Spot> {
        let around = self.kept_free.and_then(|grid| self.further_off(index, |at| !at.overlaps(&grid)));
        around
            .or_else(|| self.at_its_box(index))
            .or_else(|| self.further_off(index, |at| self.hides_little(at)))
            .or_else(|| self.further_off(index, |_| true))
    }

    fn is_free(&self, at: &Rectangle) -> bool {
        let with_room = at.wider(ROOM);
        at.is_within(&self.region) && !self.taken.iter().any(|taken| taken.overlaps(&with_room))
    }

    /// The spots along the top of a box within it, free or not. The first of a box's lines is at its top.
    fn spots_within(&self, index: usize) -> impl Iterator<Item = Spot> {
        let (size, drawn) = (self.sizes[index], &self.boxes[index]);
        let below = move |(x, y): (f64, f64)| Rectangle::around((x, y + size.1 / 2.0 + INSET), size);
        let along_top = drawn.lines.iter().take(1).flat_map(move |top| middles(top, size)).map(below);
        along_top.filter(|at| !drawn.crosses(at)).map(move |at| self.spot_off_lines(index, at))
    }

    /// The spots on a box's lines, free or not.
    fn spots_on_lines(&self, index: usize) -> impl Iterator<Item = Spot> {
        let size = self.sizes[index];
        let middles = self.boxes[index].lines.iter().flat_map(move |line| middles(line, size));
        middles.map(move |middle| {
            let at = Rectangle::around(middle, size);
            Spot { at, crossed: self.others(index, |drawn| drawn.crosses(&at)), tie: None }
        })
    }

    /// The spots next to a box's lines, free or not.
    fn spots_next_to(&self, index: usize) -> impl Iterator<Item = Spot> {
        let (size, drawn) = (self.sizes[index], &self.boxes[index]);
        let next_to_lines = drawn.lines.iter().flat_map(move |line| self.next_to(line, size));
        next_to_lines.filter(|at| !drawn.crosses(at)).map(move |at| self.spot_off_lines(index, at))
    }

    /// The rectangles of a size on both sides of a line, moved along it where they would leave the region. One that
    /// would have to be moved away from the line is left out.
    fn next_to(&self, line: &Line, size: (f64, f64)) -> impl Iterator<Item = Rectangle> {
        let (line, region) = (*line, self.region);
        let moved = both_sides(&line, size).into_iter().map(move |at| at.moved_into(&region));
        moved.filter(move |at| line.crosses(&at.wider(INSET)))
    }

    /// A spot that is not on a line of its box, so that another box around it counts as one with a line there.
    fn spot_off_lines(&self, index: usize, at: Rectangle) -> Spot {
        let holds = |drawn: &DrawnBox| drawn.crosses(&at) || drawn.frame.holds(at.middle());
        Spot { at, crossed: self.others(index, holds), tie: None }
    }

    /// How many other boxes something holds for.
    fn others(&self, index: usize, holds: impl Fn(&DrawnBox) -> bool) -> usize {
        self.boxes.iter().enumerate().filter(|&(other, drawn)| other != index && holds(drawn)).count()
    }

    /// Whether a label hides no more than a part of any box.
    fn hides_little(&self, at: &Rectangle) -> bool {
        let hides_little = |frame: &Rectangle| at.shared_area(frame) <= MOST_HIDDEN_OF_BOX * frame.area();
        self.boxes.iter().all(|drawn| hides_little(&drawn.frame))
    }

    /// The free spot in, on or next to a box with the fewest others.
    fn at_its_box(&self, index: usize) -> Option<Spot> {
        let spots = self.spots_within(index).chain(self.spots_on_lines(index)).chain(self.spots_next_to(index));
        let free = spots.filter(|spot| self.is_free(&spot.at) && self.hides_little(&spot.at));
        free.min_by_key(|spot| spot.crossed)
    }

    /// The free spot for which something holds that is nearest to the point of a box's lines with the fewest others.
    fn further_off(&self, index: usize, holds: impl Fn(&Rectangle) -> bool) -> Option<Spot> {
        let from = self.spots_on_lines(index).min_by_key(|spot| spot.crossed)?.at.middle();
        let away = |at: &Rectangle| {
            let (x, y) = at.middle();
            (x - from.0).powi(2) + (y - from.1).powi(2)
        };
        let mut nearest: Option<Rectangle> = None;
        for at in self.lattice(self.sizes[index]) {
            if nearest.is_none_or(|nearest| away(&at) < away(&nearest)) && holds(&at) && self.is_free(&at) {
                nearest = Some(at);
            }
        }
        nearest.map(|at| Spot { at, crossed: 0, tie: Some(from) })
    }

    /// Rectangles of a size all over the region.
    fn lattice(&self, size: (f64, f64)) -> impl Iterator<Item = Rectangle> {
        let Rectangle { left, right, top, bottom } = self.region;
        let along = |from: f64, to: f64| (0..=((to - from) / STEP) as usize).map(move |step| from + step as f64 * STEP);
        let corners = along(top, bottom).flat_map(move |y| along(left, right).map(move |x| (x, y)));
        corners.map(move |(x, y)| Rectangle::around((x + size.0 / 2.0, y + size.1 / 2.0), size))
    }
}

/// The rectangles of a size on both sides of a line, from the line's start on.
fn both_sides(line: &Line, (width, height): (f64, f64)) -> [Rectangle; 2] {
    let (x, y) = (line.start.0 + width / 2.0, line.start.1 + height / 2.0);
    let (before, behind) =
        if line.down { ((x - width - INSET, y), (x + INSET, y)) } else { ((x, y - height - INSET), (x, y + INSET)) };
    [before, behind].map(|middle| Rectangle::around(middle, (width, height)))
}

/// The points of a line that a label may have its middle on: within the line's ends, or the line's middle.
fn middles(line: &Line, (width, height): (f64, f64)) -> impl Iterator<Item = (f64, f64)> {
    let line = *line;
    let from_end = STEP + if line.down { height } else { width } / 2.0;
    let room = line.length - 2.0 * from_end;
    let first = if room < 0.0 { line.length / 2.0 } else { from_end };
    (0..=(room.max(0.0) / STEP) as usize).map(move |step| line.point(first + step as f64 * STEP))
}
