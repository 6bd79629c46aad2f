//! The legend: what the marks on cells mean, and the licences.

use super::boxes::{DrawnBox, dashes};
use super::grid::{HATCH, colours, stroke};
use super::words::{Font, PLAIN, SMALL, STRONG, tenths};
use super::{INK, RING, is_ring};
use crate::answers::counted;
use crate::picture::{Drawing, Mark, NO_RING};
use codwalet::{Licence, limits};

/// The height of a line of words, and of a line of a list.
const LINE: f64 = 18.0;
/// The room between parts.
const GAP: f64 = 8.0;
/// The width of a sign with the room after it.
const SIGN: f64 = 26.0;

/// The legend, written from its top down.
pub(super) struct Legend {
    left: f64,
    width: f64,
    /// How far down it is written.
    pub bottom: f64,
    pub elements: Vec<String>,
}

/// An entry of a list of licences.
struct Entry {
    /// The colour of its box, if it has one.
    colour: Option<&'static str>,
    number: Option<usize>,
    licence: Licence,
}

impl Legend {
    /// An empty legend.
    pub(super) fn new(left: f64, top: f64, width: f64) -> Legend {
        Legend { left, width, bottom: top, elements: Vec::new() }
    }

    /// The marks, the licences for boxes and for the whole area, and a word where the last ring is not drawn.
    pub(super) fn write(&mut self, drawing: &Drawing, boxes: &[DrawnBox], numbered: bool) {
        self.marks(drawing);
        if drawing.last_ring.is_none() {
            self.words(PLAIN, 0.0, NO_RING);
        }
        self.list(&boxes_heading(boxes, numbered), &box_entries(boxes, numbered));
        let whole_area = drawing.whole_area().map(|licence| Entry { colour: None, number: None, licence });
        self.list("Licences for the whole area", &whole_area.collect::<Vec<Entry>>());
    }

    fn marks(&mut self, drawing: &Drawing) {
        for (mark, count) in drawing.legend() {
            let (cells, people) = (counted(count.cells, "cell", "cells"), counted(count.people, "person", "people"));
            self.elements.extend(sample(mark, self.left, self.bottom));
            self.words(PLAIN, SIGN, &format!("{}: {cells}, {people}", mark.words()));
        }
        // The marks of the last ring say nothing of licences, though its squares are hatched like others.
        if drawing.covered.contains(&true) && !drawing.legend().any(|(mark, _)| is_hatched(mark)) {
            self.elements.push(square(self.left, self.bottom, 16.0, HATCH));
            self.words(PLAIN, SIGN, "hatched: under a licence");
        }
    }

    /// Words from some way to the right of the legend's edge, in as many lines as they need.
    fn words(&mut self, font: Font, indent: f64, words: &str) {
        for line in font.wrap(words, self.width - indent) {
            self.elements.push(font.element((self.left + indent, self.bottom + 13.0), &line));
            self.bottom += LINE;
        }
        self.bottom += GAP / 2.0;
    }

    /// A list of licences in columns, from the top of each down, below a heading. Nothing if there are none.
    fn list(&mut self, heading: &str, entries: &[Entry]) {
        let Some(width) = entries.iter().map(Entry::width).reduce(f64::max) else { return };
        self.bottom += GAP;
        self.words(STRONG, 0.0, heading);
        // There is no need for room after the last column.
        let columns = ((self.width + Entry::COLUMN_ROOM) / width).floor().max(1.0) as usize;
        let lines = entries.len().div_ceil(columns);
        for (index, entry) in entries.iter().enumerate() {
            let (column, line) = ((index / lines) as f64, (index % lines) as f64);
            self.elements.extend(entry.elements(self.left + column * width, self.bottom + line * LINE + 11.0));
        }
        self.bottom += lines as f64 * LINE;
    }
}

fn boxes_heading(boxes: &[DrawnBox], numbered: bool) -> String {
    let shown = if numbered { "Boxes of licences, by number" } else { "Boxes of licences" };
    let shared = boxes.iter().any(|drawn| drawn.licences.len() > 1);
    let said = if shared { " (those over the same cells are drawn as one)" } else { "" };
    format!("{shown}{said}")
}

fn box_entries(boxes: &[DrawnBox], numbered: bool) -> Vec<Entry> {
    let entries = boxes.iter().enumerate().flat_map(|(index, drawn)| {
        let entry = move |&licence: &Licence| Entry {
            colour: Some(drawn.colour),
            number: numbered.then_some(index + 1),
            licence,
        };
        drawn.licences.iter().map(entry)
    });
    entries.collect()
}

impl Entry {
    const NUMBER: Font = Font { size: 12.0, bold: true };
    /// The width of a number with the room after it.
    const NUMBER_WIDTH: f64 = 26.0;
    /// The room between columns of entries.
    const COLUMN_ROOM: f64 = 2.0 * GAP;

    /// The call sign, and the width of a licence that is narrower than 50 MHz.
    fn words(&self) -> String {
        let (call_sign, mhz) = (self.licence.call_sign(), self.licence.width());
        if mhz == limits::FULL_WIDTH { call_sign.to_string() } else { format!("{call_sign} ({mhz} MHz)") }
    }

    /// How far to the right of the entry's edge its words stand.
    fn indent(&self) -> f64 {
        let sign = self.colour.map_or(0.0, |_| SIGN);
        sign + self.number.map_or(0.0, |_| Entry::NUMBER_WIDTH)
    }

    /// The width with the room after it.
    fn width(&self) -> f64 {
        self.indent() + SMALL.width(&self.words()) + Entry::COLUMN_ROOM
    }

    fn elements(&self, x: f64, y: f64) -> Vec<String> {
        let mut elements = Vec::new();
        if let Some(colour) = self.colour {
            elements.push(format!("<path d=\"M{} {}h18\" {}/>", tenths(x), y - 4.0, dashes(colour, 2.0)));
        }
        if let Some(number) = self.number {
            let (end, colour) = (x + self.indent() - GAP, self.colour.unwrap_or(INK));
            elements.push(Entry::NUMBER.ending((end, y), colour, &number.to_string()));
        }
        elements.push(SMALL.element((x + self.indent(), y), &self.words()));
        elements
    }
}

fn is_hatched(mark: Mark) -> bool {
    matches!(mark, Mark::CoveredIn | Mark::CoveredOut)
}

/// A square as the cells with a mark have it.
fn sample(mark: Mark, x: f64, y: f64) -> Vec<String> {
    let mut elements = vec![square(x, y, 16.0, &format!("fill=\"{}\"", colours(mark).0))];
    if is_hatched(mark) {
        elements.push(square(x, y, 16.0, HATCH));
    }
    if is_ring(mark) {
        elements.push(square(x + 1.0, y + 1.0, 14.0, &stroke(RING, 2.0)));
    }
    elements
}

fn square(x: f64, y: f64, side: f64, paint: &str) -> String {
    format!("<rect x=\"{x}\" y=\"{y}\" width=\"{side}\" height=\"{side}\" {paint}/>")
}
