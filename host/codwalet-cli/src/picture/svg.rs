//! A footprint as SVG: the area's grid with a square for each cell, the boxes of licences over it, and a legend.
//!
//! The legend stands below the grid, or beside it where the grid is tall and leaves room.

mod boxes;
mod grid;
mod labels;
mod legend;
mod scale;
mod shapes;
mod words;

use super::{Drawing, Mark};
use crate::answers::{counted, grouped};
use grid::{Figure, Grid};
use labels::Labels;
use legend::Legend;
use words::{HEADING, PLAIN, escaped};

/// Lengths in the SVG's units: around the page, above and below the grid, and of the page's content.
const MARGIN: f64 = 24.0;
const BAND: f64 = 30.0;
const LEAST_WIDTH: f64 = 600.0;
const LEAST_LEGEND: f64 = 400.0;

/// Colours.
const INK: &str = "#14213d";
const RING: &str = "#d9730d";

/// The picture of a footprint.
pub fn svg(drawing: &Drawing) -> String {
    let grid = Grid::new(drawing);
    let boxes = grid.boxes();
    let labels = Labels::new(&grid, &boxes);
    let content = grid.width().max(LEAST_WIDTH);
    let sentences = sentences(drawing);
    let (title, grid_top) = title(drawing, &sentences, content);
    let grid_bottom = grid_top + grid.height() + BAND;

    let (left, top) = legend_corner(&grid, content, grid_top);
    let mut legend = Legend::new(left, top + scale::HEIGHT, content + MARGIN - left);
    legend.write(drawing, &boxes, labels.numbered);

    let (width, height) = (content + 2.0 * MARGIN, grid_bottom.max(legend.bottom) + MARGIN);
    let mut elements = head(drawing, &sentences, width, height);
    elements.extend(title);
    elements.push(format!("<g transform=\"translate({MARGIN} {grid_top})\">"));
    elements.extend(grid.cells());
    elements.extend(grid.figures().iter().map(Figure::element));
    elements.extend(boxes.iter().map(|drawn| drawn.element(&grid)));
    elements.extend(labels.elements());
    elements.push("</g>".to_string());
    elements.extend(scale::elements(&grid, left, top));
    elements.extend(legend.elements);
    elements.push("</svg>\n".to_string());
    elements.join("\n")
}

/// The top left corner of the legend.
fn legend_corner(grid: &Grid, content: f64, grid_top: f64) -> (f64, f64) {
    let beside = MARGIN + grid.width() + 2.0 * MARGIN;
    if grid.height() > grid.width() && content + MARGIN - beside >= LEAST_LEGEND {
        (beside, grid_top)
    } else {
        (MARGIN, grid_top + grid.height() + BAND)
    }
}

/// The root with the picture's name and description, the hatching of covered cells, and the white page.
fn head(drawing: &Drawing, sentences: &[String; 2], width: f64, height: f64) -> Vec<String> {
    let id = format!("footprint-{}", drawing.area);
    let root = format!(
        "<svg xmlns=\"http://www.w3.org/2000/svg\" viewBox=\"0 0 {width} {height}\" width=\"{width}\" \
         height=\"{height}\" font-family=\"sans-serif\" role=\"img\" aria-labelledby=\"{id} {id}-words\">"
    );
    let pattern = "<pattern id=\"covered\" width=\"6\" height=\"6\" patternUnits=\"userSpaceOnUse\">";
    vec![
        root,
        format!("<title id=\"{id}\">{}</title>", escaped(&heading(drawing))),
        format!("<desc id=\"{id}-words\">{}</desc>", escaped(&sentences.join(" "))),
        format!("<defs>{pattern}<path d=\"M0 6L6 0M-1 1L1 -1M5 7L7 5\" stroke=\"{INK}\"/></pattern></defs>"),
        format!("<rect width=\"{width}\" height=\"{height}\" fill=\"#ffffff\"/>"),
    ]
}

fn heading(drawing: &Drawing) -> String {
    format!("Footprint in area {}", drawing.area)
}

/// What the share is, and what the footprint carries.
fn sentences(drawing: &Drawing) -> [String; 2] {
    let footprint = drawing.count(|place| drawing.footprint[place]);
    let share = format!("The share is {}.", drawing.share);
    let carries = format!(
        "The footprint carries {}: {} in {} of {}.",
        grouped(drawing.carries().0),
        counted(footprint.people, "person", "people"),
        grouped(footprint.cells),
        counted(drawing.count(|_| true).cells, "cell", "cells")
    );
    [share, carries]
}

/// The heading and the sentences, and where the grid starts below them.
fn title(drawing: &Drawing, sentences: &[String; 2], width: f64) -> (Vec<String>, f64) {
    let mut elements = vec![HEADING.element((MARGIN, 40.0), &heading(drawing))];
    let mut y = 62.0;
    for line in sentences.iter().flat_map(|sentence| PLAIN.wrap(sentence, width)) {
        elements.push(PLAIN.element((MARGIN, y), &line));
        y += 18.0;
    }
    (elements, y - 14.0 + BAND)
}

fn is_ring(mark: Mark) -> bool {
    matches!(mark, Mark::RingIn | Mark::RingOut)
}
