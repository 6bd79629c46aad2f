//! Maps from CSV text: a header that names the columns, and a line for each cell, in any order.
//!
//! Columns may stand in any order and fields in quotes; `,`, `;` or a tab is between them, whichever the header has.
//! Blank lines and lines that start with `#` are passed over.

mod areas;
mod cells;
mod field;
mod header;
mod mistake;
mod records;
mod units;

use areas::Areas;
use cells::Cells;
use codwalet::{Map, write_map};
pub use mistake::{Column, CsvMistake, CsvMistakes, FieldWrong, Found, QuoteWrong, Wrong};
use std::path::Path;

/// A header with the columns in their usual order.
pub const HEADER: &str = "area,weight,row,column,people,latitude,longitude";

/// What comes of a CSV text without mistakes.
#[derive(Clone, Debug, PartialEq, Eq)]
pub struct Built {
    /// The map, which the engine accepts.
    pub bytes: Vec<u8>,
    /// What is to be said of the text that is no mistake.
    pub notes: Vec<String>,
}

/// Whether a file is CSV text: if its first line that is neither blank nor a comment names a column; else if its name
/// ends with `.csv`, so that what is wrong with its header is said.
///
/// No map that the engine accepts is taken for text by what it holds: the third byte of a map is the upper one of an
/// area's number, 0 or 1, and text has no such bytes.
pub fn is_csv(file: &Path, bytes: &[u8]) -> bool {
    header::is_header_first(bytes) || has_csv_name(file)
}

/// Whether a file's name ends with `.csv`.
pub fn has_csv_name(file: &Path) -> bool {
    file.extension().is_some_and(|extension| extension.eq_ignore_ascii_case("csv"))
}

/// The map of a CSV text.
///
/// # Errors
/// All mistakes: first those of single lines, then those of the whole map.
pub fn build(text: &[u8]) -> Result<Built, Vec<Found>> {
    let text = std::str::from_utf8(text).map_err(|why| vec![not_text(text, why.valid_up_to())])?;
    let (header, records) = header::read(text)?;
    let cells = Cells::read(&header, records);
    let notes = header.unused_note().into_iter().chain(cells.units_note()).collect();
    let mut mistakes = cells.mistakes;
    let areas = Areas::gather(cells.lines, &mut mistakes);
    if !mistakes.is_empty() {
        return Err(mistakes);
    }
    let bytes = write_map(&areas.to_new()).map_err(|why| vec![(0, Wrong::Unwritable(why.to_string()))])?;
    Map::new(&bytes).map_err(|refusal| vec![(0, Wrong::Refused(refusal))])?;
    Ok(Built { bytes, notes })
}

/// What is not UTF-8 in a text: its line, and the word around it.
fn not_text(text: &[u8], byte: usize) -> Found {
    let ends_word = |byte: &u8| b",;\t\r\n\"".contains(byte);
    let start = text[..byte].iter().rposition(ends_word).map_or(0, |place| place + 1);
    let end = text[byte..].iter().position(ends_word).map_or(text.len(), |length| byte + length);
    let line = 1 + text[..byte].iter().filter(|&&byte| byte == b'\n').count();
    (line, Wrong::NotText(String::from_utf8_lossy(&text[start..end]).into_owned()))
}
