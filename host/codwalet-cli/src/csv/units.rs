//! The units of a column of coordinates: degrees, or whole numbers of hundredths of an arc second, and not both.

use super::{Column, FieldWrong, Found, Wrong};
use crate::plan::coordinate::{is_whole, like_degrees};
use std::borrow::Cow;

/// How the coordinates of a column are written.
#[derive(Clone, Debug, Default)]
pub struct Units<'t> {
    /// The first line with degrees.
    degrees_line: Option<usize>,
    whole: Vec<Whole<'t>>,
}

/// A coordinate that is a whole number.
#[derive(Clone, Debug)]
struct Whole<'t> {
    line: usize,
    word: Cow<'t, str>,
    value: i32,
}

impl<'t> Units<'t> {
    /// Adds a coordinate of the column.
    pub fn add(&mut self, line: usize, word: Cow<'t, str>, value: i32) {
        if is_whole(&word) {
            self.whole.push(Whole { line, word, value });
        } else {
            self.degrees_line.get_or_insert(line);
        }
    }

    /// The whole numbers among degrees. 0 is the same in both.
    pub fn mixed(&self, column: Column) -> Vec<Found> {
        let Some(degrees_line) = self.degrees_line else {
            return Vec::new();
        };
        let wrong = |whole: &Whole| {
            let why = FieldWrong::WholeAmongDegrees { degrees_line };
            (whole.line, Wrong::Field { column, word: whole.word.to_string(), why })
        };
        self.whole.iter().filter(|whole| whole.value != 0).map(wrong).collect()
    }

    /// One of the coordinates, if all are whole numbers that may be meant for degrees.
    pub fn like_degrees(&self) -> Option<i32> {
        let values = self.whole.iter().map(|whole| whole.value);
        like_degrees(values).filter(|_| self.degrees_line.is_none())
    }
}
