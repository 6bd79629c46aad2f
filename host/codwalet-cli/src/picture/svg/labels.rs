//! Labels of boxes: their call signs, or numbers where call signs would be in the way of each other.

mod placing;

use super::boxes::DrawnBox;
use super::grid::{Grid, stroke};
use super::shapes::Rectangle;
use super::words::Font;
use placing::{Placing, Spot};

const CALL_SIGN: Font = Font { size: 12.0, bold: true };
const NUMBER: Font = Font { size: 11.0, bold: true };
/// Call signs are for no more boxes than this, each with no more licences than this.
const MOST_BOXES_WITH_CALL_SIGNS: usize = 12;
const MOST_CALL_SIGNS_OF_BOX: usize = 3;

/// The labels of all boxes.
pub(super) struct Labels {
    pub numbered: bool,
    labels: Vec<Label>,
    font: Font,
}

struct Label {
    words: String,
    colour: &'static str,
    spot: Spot,
}

impl Labels {
    /// Call signs if no other box has a line where they stand, else numbers in the order of the boxes.
    pub(super) fn new(grid: &Grid, boxes: &[DrawnBox]) -> Labels {
        let call_signs: Vec<String> = boxes.iter().map(call_signs).collect();
        let labels = place(grid, boxes, CALL_SIGN, call_signs);
        let is_clear = |label: &Label| label.spot.crossed == 0 && label.spot.tie.is_none();
        let are_few = boxes.len() <= MOST_BOXES_WITH_CALL_SIGNS
            && boxes.iter().all(|drawn| drawn.licences.len() <= MOST_CALL_SIGNS_OF_BOX);
        if are_few && labels.len() == boxes.len() && labels.iter().all(is_clear) {
            return Labels { numbered: false, labels, font: CALL_SIGN };
        }
        let numbers = (1..=boxes.len()).map(|number| number.to_string()).collect();
        Labels { numbered: true, labels: place(grid, boxes, NUMBER, numbers), font: NUMBER }
    }

    pub(super) fn elements(&self) -> Vec<String> {
        let ties = self.labels.iter().filter_map(Label::tie);
        ties.chain(self.labels.iter().map(|label| label.words(self.font))).collect()
    }
}

fn call_signs(drawn: &DrawnBox) -> String {
    drawn.licences.iter().map(|licence| licence.call_sign().to_string()).collect::<Vec<String>>().join(", ")
}

/// The labels with these words, for the boxes that have room for one.
fn place(grid: &Grid, boxes: &[DrawnBox], font: Font, words: Vec<String>) -> Vec<Label> {
    let sizes: Vec<(f64, f64)> = words.iter().map(|words| (font.width(words), font.size)).collect();
    let spots = Placing::new(grid, boxes, &sizes).spots();
    let labels = words.into_iter().zip(boxes).zip(spots);
    labels.filter_map(|((words, drawn), spot)| Some(Label { words, colour: drawn.colour, spot: spot? })).collect()
}

impl Label {
    /// The line to the box of a label further off.
    fn tie(&self) -> Option<String> {
        let (x, y) = self.spot.tie?;
        let (to_x, to_y) = self.spot.at.middle();
        Some(format!("<path d=\"M{x:.1} {y:.1}L{to_x:.1} {to_y:.1}\" {}/>", stroke(self.colour, 0.75)))
    }

    /// The words, on white so that lines behind them don't run into the letters.
    fn words(&self, font: Font) -> String {
        let Rectangle { left, top, right, bottom } = self.spot.at;
        let size = format!("width=\"{:.1}\" height=\"{:.1}\"", right - left, bottom - top);
        let white = format!("<rect x=\"{left:.1}\" y=\"{top:.1}\" {size} rx=\"2\" fill=\"#ffffff\" opacity=\"0.85\"/>");
        white + &font.centred(self.spot.at.middle(), self.colour, &self.words)
    }
}
