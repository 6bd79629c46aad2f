//! What can be wrong with a CSV text.

use crate::answers::counted;
use crate::mistakes::listed;
use crate::plan::coordinate::{Axis, Unreadable};
use crate::shown::start_of;
use codwalet::{Refusal, grouped, limits};
use std::fmt;
use std::ops::RangeInclusive;

/// A column of a CSV text.
#[derive(Clone, Copy, Debug, PartialEq, Eq)]
pub enum Column {
    Area,
    Weight,
    Row,
    Column,
    People,
    Latitude,
    Longitude,
}

impl Column {
    /// All columns.
    pub const ALL: [Column; 7] = [
        Column::Area,
        Column::Weight,
        Column::Row,
        Column::Column,
        Column::People,
        Column::Latitude,
        Column::Longitude,
    ];

    /// The column's name in headers.
    pub fn name(self) -> &'static str {
        match self {
            Column::Area => "area",
            Column::Weight => "weight",
            Column::Row => "row",
            Column::Column => "column",
            Column::People => "people",
            Column::Latitude => "latitude",
            Column::Longitude => "longitude",
        }
    }

    /// Whether a header means this column by a name; capitals make no difference.
    pub fn is_named(self, name: &str) -> bool {
        name.eq_ignore_ascii_case(self.name())
    }

    /// Which coordinate the column holds, if it holds one.
    pub fn axis(self) -> Option<Axis> {
        match self {
            Column::Latitude => Some(Axis::Latitude),
            Column::Longitude => Some(Axis::Longitude),
            _ => None,
        }
    }

    /// Document 01's limits for the column. Rows and columns are counted from 0.
    pub fn limits(self) -> RangeInclusive<i64> {
        match self {
            Column::Area => 1..=limits::AREA_NUMBER.into(),
            Column::Weight => 1..=limits::WEIGHT.into(),
            Column::Row | Column::Column => 0..=limits::SIDE as i64 - 1,
            Column::People => 0..=limits::PEOPLE.into(),
            Column::Latitude => -i64::from(limits::LATITUDE)..=limits::LATITUDE.into(),
            Column::Longitude => -i64::from(limits::LONGITUDE)..=limits::LONGITUDE.into(),
        }
    }
}

/// What is wrong with a CSV file, and where.
#[derive(Clone, Debug, PartialEq, Eq)]
pub struct CsvMistake {
    /// The file, as messages call it.
    pub file: String,
    /// The line, from 1; 0 if it is no line in particular.
    pub line: usize,
    pub wrong: Wrong,
}

/// All that is wrong with a CSV file. As text, the first hundred mistakes.
#[derive(Clone, Debug, PartialEq, Eq)]
pub struct CsvMistakes(pub Vec<CsvMistake>);

/// What is wrong with a CSV text, and the line that it is on, from 1; 0 if it is no line in particular.
pub type Found = (usize, Wrong);

/// What is wrong with a CSV text.
#[derive(Clone, Debug, PartialEq, Eq)]
#[non_exhaustive]
pub enum Wrong {
    /// A word is not UTF-8; what is none of it is replaced.
    NotText(String),
    HeaderLacks {
        header: String,
        lacking: Vec<Column>,
    },
    ColumnTwice(Column),
    Quote {
        /// None if a map has no use for the column, and in the header.
        column: Option<Column>,
        word: String,
        why: QuoteWrong,
    },
    FieldCount {
        count: usize,
        due: usize,
        last: String,
    },
    Field {
        column: Column,
        word: String,
        why: FieldWrong,
    },
    OtherWeight {
        weight: u32,
        area: u16,
        earlier: u32,
        earlier_line: usize,
    },
    SamePlace {
        area: u16,
        row: usize,
        column: usize,
        earlier_line: usize,
    },
    Population {
        area: u16,
        people: u64,
    },
    AreaTooMany(u16),
    NoCells,
    /// The map writer can't write what was read; the text says why.
    Unwritable(String),
    /// The engine refused what was built.
    Refused(Refusal),
}

/// What is wrong with a quote.
#[derive(Clone, Copy, Debug, PartialEq, Eq)]
#[non_exhaustive]
pub enum QuoteWrong {
    /// None ends the field that one starts.
    Open,
    /// The field goes on behind it.
    NotAtEnd,
}

/// What is wrong with a field.
#[derive(Clone, Copy, Debug, PartialEq, Eq)]
#[non_exhaustive]
pub enum FieldWrong {
    Empty,
    NotDigits,
    Negative,
    NotWhole,
    NotACoordinate(Unreadable),
    OutOfLimits,
    /// The column has degrees, first on this line.
    WholeAmongDegrees {
        degrees_line: usize,
    },
}

impl fmt::Display for CsvMistakes {
    fn fmt(&self, out: &mut fmt::Formatter) -> fmt::Result {
        out.write_str(&listed(&self.0))
    }
}

impl std::error::Error for CsvMistakes {}

impl fmt::Display for CsvMistake {
    fn fmt(&self, out: &mut fmt::Formatter) -> fmt::Result {
        write!(out, "{}:", self.file)?;
        if self.line > 0 {
            write!(out, "{}:", self.line)?;
        }
        write!(out, " {}", self.wrong)
    }
}

impl std::error::Error for CsvMistake {}

impl fmt::Display for Wrong {
    fn fmt(&self, out: &mut fmt::Formatter) -> fmt::Result {
        match self {
            Wrong::NotText(word) => write!(out, "'{}' is not UTF-8 text", start_of(word)),
            Wrong::HeaderLacks { header, lacking } => {
                let names: Vec<&str> = lacking.iter().map(|column| column.name()).collect();
                write!(out, "the header '{}' lacks {}", start_of(header), names.join(", "))
            }
            Wrong::ColumnTwice(column) => write!(out, "the header has column {} twice", column.name()),
            Wrong::Quote { column, word, why } => write!(out, "{}{why}", in_column(*column, word)),
            Wrong::FieldCount { count, due, last } => {
                let count = counted(*count as u64, "field", "fields");
                write!(out, "{count} where {due} are due; the last is '{}'", start_of(last))
            }
            Wrong::Field { column, word, why } => write_field(out, *column, word, *why),
            Wrong::OtherWeight { weight, area, earlier, earlier_line } => {
                write!(out, "column weight: '{weight}', but area {area} has weight {earlier} on line {earlier_line}")
            }
            Wrong::SamePlace { area, row, column, earlier_line } => {
                let place = format!("row {row}, column {column} of area {area}");
                write!(out, "columns row, column: {place} is on line {earlier_line} already")
            }
            Wrong::Population { area, people } => {
                let (people, most) = (grouped(*people), grouped(limits::POPULATION));
                write!(out, "column people: area {area} has {people} people, not 1 to {most}")
            }
            Wrong::AreaTooMany(area) => {
                write!(out, "column area: '{area}' is an area too many: a map has at most {}", limits::AREAS)
            }
            Wrong::NoCells => write!(out, "has no cells"),
            Wrong::Unwritable(why) => write!(out, "the map cannot be written: {why}"),
            Wrong::Refused(refusal) => write!(out, "the map is refused, {}: {refusal}", refusal.number()),
        }
    }
}

impl fmt::Display for QuoteWrong {
    fn fmt(&self, out: &mut fmt::Formatter) -> fmt::Result {
        match self {
            QuoteWrong::Open => write!(out, "starts with a quote and none ends it"),
            QuoteWrong::NotAtEnd => write!(out, "goes on behind its closing quote"),
        }
    }
}

/// A word, and its column if that is known, before what is wrong with it.
fn in_column(column: Option<Column>, word: &str) -> String {
    let column = column.map_or(String::new(), |column| format!("column {}: ", column.name()));
    format!("{column}'{}' ", start_of(word))
}

fn write_field(out: &mut fmt::Formatter, column: Column, word: &str, why: FieldWrong) -> fmt::Result {
    write!(out, "{}", in_column(Some(column), word))?;
    match why {
        FieldWrong::Empty => write!(out, "is empty"),
        FieldWrong::NotDigits => write!(out, "is not written in digits"),
        FieldWrong::Negative => write!(out, "is negative"),
        FieldWrong::NotWhole => write!(out, "is not a whole number"),
        FieldWrong::NotACoordinate(why) => write!(out, "{why}"),
        FieldWrong::OutOfLimits => {
            let limits = column.limits();
            let unit = if column.axis().is_some() { " hundredths of an arc second" } else { "" };
            write!(out, "is not within {} to {}{unit}", limits.start(), limits.end())
        }
        FieldWrong::WholeAmongDegrees { degrees_line } => {
            write!(out, "is a whole number, hundredths of an arc second, where line {degrees_line} has degrees")
        }
    }
}
