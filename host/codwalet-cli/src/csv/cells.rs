//! The lines of a CSV text below its header, read as cells.

use super::areas::CellLine;
use super::header::Header;
use super::records::{Record, Records};
use super::units::Units;
use super::{Column, Found, Wrong, field};
use crate::plan::coordinate::{Axis, not_degrees};
use std::borrow::Cow;

/// What is read of a text's lines.
#[derive(Clone, Debug, Default)]
pub struct Cells<'t> {
    /// The lines that can be read.
    pub lines: Vec<CellLine>,
    /// What is wrong with the others, and with the units of all.
    pub mistakes: Vec<Found>,
    latitudes: Units<'t>,
    longitudes: Units<'t>,
}

impl<'t> Cells<'t> {
    /// Reads the lines below a header.
    pub fn read(header: &Header, records: Records<'t>) -> Cells<'t> {
        let mut cells = Cells::default();
        for (line, fields) in records {
            match fields {
                Ok(fields) if fields.len() == header.width => cells.add(header, line, &fields),
                Ok(fields) => cells.mistakes.push((line, wrong_count(&fields, header.width))),
                Err(misquoted) => {
                    let column = header.column_at(misquoted.place);
                    cells.mistakes.push((line, misquoted.in_column(column)));
                }
            }
        }
        cells.mistakes.extend(cells.latitudes.mixed(Column::Latitude));
        cells.mistakes.extend(cells.longitudes.mixed(Column::Longitude));
        cells
    }

    fn add(&mut self, header: &Header, line: usize, fields: &Record<'t>) {
        let mistakes_above = self.mistakes.len();
        let mut read = |column: Column| self.value(line, column, fields[header.place(column)].clone());
        // No column's limit is beyond its type.
        let cell = CellLine {
            line,
            area: read(Column::Area) as u16,
            weight: read(Column::Weight) as u32,
            row: read(Column::Row) as usize,
            column: read(Column::Column) as usize,
            people: read(Column::People) as u32,
            latitude: read(Column::Latitude) as i32,
            longitude: read(Column::Longitude) as i32,
        };
        if self.mistakes.len() == mistakes_above {
            self.lines.push(cell);
        }
    }

    /// The value of a field; 0 if something is wrong with it.
    fn value(&mut self, line: usize, column: Column, word: Cow<'t, str>) -> i64 {
        let value = match field::read(column, &word) {
            Ok(value) => value,
            Err(wrong) => {
                self.mistakes.push((line, wrong));
                return 0;
            }
        };
        match column.axis() {
            Some(Axis::Latitude) => self.latitudes.add(line, word, value as i32),
            Some(Axis::Longitude) => self.longitudes.add(line, word, value as i32),
            None => {}
        }
        value
    }

    /// The note on a map whose latitudes or longitudes may be meant for degrees and are none.
    pub fn units_note(&self) -> Option<String> {
        self.latitudes.like_degrees().or_else(|| self.longitudes.like_degrees()).map(not_degrees)
    }
}

fn wrong_count(fields: &Record, due: usize) -> Wrong {
    Wrong::FieldCount { count: fields.len(), due, last: fields.last().map_or(String::new(), ToString::to_string) }
}
