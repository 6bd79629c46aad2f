//! Notes on licences that may be meant otherwise.

use super::coordinate::{arc_seconds, not_degrees};
use codwalet::{Cell, Ground, Licence, Map, Refusal};
use std::cell::OnceCell;
use std::fmt;
use std::rc::Rc;

/// What of a licence may be meant otherwise.
#[derive(Clone, Debug, PartialEq, Eq)]
#[non_exhaustive]
pub enum Note {
    /// The map lacks the area with this number.
    NoArea(u16),
    /// The box covers no cell. Where its edges look like degrees and are none, one of them is named.
    NoCell { like_degrees: Option<i32> },
    /// An edge of the box is a whole number where others are degrees.
    WholeAmongDegrees(i32),
}

impl Note {
    /// Whether the note is on what is written, and not on what comes of the licence once it is granted.
    pub fn is_on_writing(&self) -> bool {
        matches!(self, Note::WholeAmongDegrees(_))
    }
}

/// Notes as one text.
pub fn together<'n>(notes: impl IntoIterator<Item = &'n Note>) -> String {
    notes.into_iter().map(ToString::to_string).collect::<Vec<_>>().join("; ")
}

/// A map that licences are granted on.
pub struct Loaded {
    map: Rc<Result<Map<'static>, Refusal>>,
    /// The map's cells, each with its area's number; gathered when a box is first held against them.
    cells: OnceCell<Vec<(u16, Cell)>>,
}

impl Loaded {
    /// A map, accepted or refused.
    pub fn new(map: Rc<Result<Map<'static>, Refusal>>) -> Loaded {
        Loaded { map, cells: OnceCell::new() }
    }

    /// The note on a licence that covers nothing on the map. There is none on an ill-formed licence, which is refused,
    /// and none where the map is refused.
    pub fn note_on(&self, licence: &Licence, like_degrees: Option<i32>) -> Option<Note> {
        let map = self.map.as_ref().as_ref().ok().filter(|_| licence.flaw().is_none())?;
        if let Ground::Area(number) = licence.ground() {
            let lacks = map.areas().all(|area| area.number != number);
            return lacks.then_some(Note::NoArea(number));
        }
        let cells = self.cells.get_or_init(|| cells_of(map));
        let covers_some = cells.iter().any(|(area, cell)| licence.covers(*area, cell));
        (!covers_some).then_some(Note::NoCell { like_degrees })
    }
}

fn cells_of(map: &Map) -> Vec<(u16, Cell)> {
    map.areas().flat_map(|area| area.cells().into_iter().flatten().map(move |cell| (area.number, cell))).collect()
}

impl fmt::Display for Note {
    fn fmt(&self, out: &mut fmt::Formatter) -> fmt::Result {
        match self {
            Note::NoArea(number) => write!(out, "the map lacks area {number}"),
            Note::NoCell { like_degrees: None } => write!(out, "the box covers no cell of the map"),
            Note::NoCell { like_degrees: Some(edge) } => {
                write!(out, "the box covers no cell of the map; {}", not_degrees(*edge))
            }
            Note::WholeAmongDegrees(edge) => {
                write!(out, "{edge} is a whole number among degrees: it is {}", arc_seconds(*edge))
            }
        }
    }
}
