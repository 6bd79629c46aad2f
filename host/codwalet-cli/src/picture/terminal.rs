//! A footprint for a terminal: a character for each place, and a legend.

use super::{Drawing, Mark, NO_RING};
use crate::answers::{grouped, word_for};

/// The picture's lines.
pub fn terminal(drawing: &Drawing) -> Vec<String> {
    let edge = format!("+{}+", "-".repeat(drawing.columns));
    let mut lines = vec![edge.clone()];
    for row in 0..drawing.rows {
        let places = row * drawing.columns..(row + 1) * drawing.columns;
        let symbols: String = places.map(|place| drawing.mark(place).map_or(' ', symbol)).collect();
        lines.push(format!("|{symbols}|"));
    }
    lines.push(edge);
    for (mark, count) in drawing.legend() {
        let cells = format!("{:>6} {:5}", grouped(count.cells), word_for(count.cells, "cell", "cells"));
        let people = format!("{:>11} {:6}", grouped(count.people), word_for(count.people, "person", "people"));
        lines.push(format!("{}  {cells} {people}  {}", symbol(mark), mark.words()));
    }
    if drawing.last_ring.is_none() {
        lines.push(NO_RING.to_string());
    }
    lines
}

fn symbol(mark: Mark) -> char {
    match mark {
        Mark::CoveredIn => '#',
        Mark::JoinedIn => '*',
        Mark::RingIn => '+',
        Mark::RingOut => '-',
        Mark::CoveredOut => 'o',
        Mark::Out => '.',
    }
}
