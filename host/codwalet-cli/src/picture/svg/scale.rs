//! The scale in cells and the arrow to the north.

use super::INK;
use super::grid::{Grid, stroke};
use super::words::{PLAIN, STRONG, tenths};
use crate::answers::counted;
use crate::picture::Drawing;

/// The scale's bar is as many cells long as fit into its length.
const CELLS: [usize; 4] = [20, 10, 5, 1];
const LONGEST_BAR: usize = 120;
/// The height of both with the room below.
pub(super) const HEIGHT: f64 = 34.0;

/// The scale, and behind it the arrow if there is one.
pub(super) fn elements(grid: &Grid, left: f64, top: f64) -> Vec<String> {
    let cells = CELLS.into_iter().find(|cells| cells * grid.side <= LONGEST_BAR).unwrap_or(1);
    let length = (cells * grid.side) as f64;
    let words = counted(cells as u64, "cell", "cells");
    let mut elements = vec![
        format!("<path d=\"M{left} {}v8m0 -4h{length}m0 -4v8\" {}/>", top + 4.0, stroke(INK, 1.5)),
        PLAIN.element((left + length + 8.0, top + 12.5), &words),
    ];
    if north_is_up(grid.drawing) {
        elements.extend(arrow(left + length + PLAIN.width(&words) + 36.0, top));
    }
    elements
}

fn arrow(middle: f64, top: f64) -> [String; 2] {
    let path = format!("M{} {}l6 17l-6 -4l-6 4z", tenths(middle), top - 1.0);
    [format!("<path d=\"{path}\" fill=\"{INK}\"/>"), STRONG.element((middle + 11.0, top + 12.5), "N")]
}

/// Whether latitudes fall down each column, and some column has two cells to tell.
fn north_is_up(drawing: &Drawing) -> bool {
    let mut told = false;
    for column in 0..drawing.columns {
        let places = (0..drawing.rows).map(|row| row * drawing.columns + column);
        let latitudes: Vec<i32> = places.filter_map(|place| Some(drawing.cells[place]?.latitude)).collect();
        if latitudes.windows(2).any(|pair| pair[0] <= pair[1]) {
            return false;
        }
        told |= latitudes.len() > 1;
    }
    told
}
