//! Maps from files: bytes as they are, or built from CSV text.

use crate::csv::{self, Built, CsvMistake, CsvMistakes, Found};
use crate::files;
use std::fmt;
use std::path::Path;

/// A map's bytes, which the engine may still refuse.
#[derive(Clone, Debug, PartialEq, Eq)]
pub struct MapFile {
    pub bytes: Vec<u8>,
    /// What is to be said of the file that is no mistake.
    pub notes: Vec<String>,
}

/// Why a file gives no map.
#[derive(Clone, Debug, PartialEq, Eq)]
#[non_exhaustive]
pub enum NoMap {
    CannotRead(String),
    Csv(CsvMistakes),
}

impl fmt::Display for NoMap {
    fn fmt(&self, out: &mut fmt::Formatter) -> fmt::Result {
        match self {
            NoMap::CannotRead(why) => write!(out, "cannot be read: {why}"),
            NoMap::Csv(mistakes) => write!(out, "cannot be built\n{mistakes}"),
        }
    }
}

impl std::error::Error for NoMap {}

/// Reads a map's bytes, or builds them if the file is CSV text.
///
/// # Errors
/// The file can't be read, or it is CSV text with mistakes.
pub fn read(file: &Path) -> Result<MapFile, NoMap> {
    let bytes = files::read(file).map_err(|why| NoMap::CannotRead(why.to_string()))?;
    if csv::is_csv(file, &bytes) {
        return built(file, &bytes);
    }
    let notes = is_text(&bytes).then(|| noted(&files::name_of(file), &text_words())).into_iter().collect();
    Ok(MapFile { bytes, notes })
}

/// Bytes that tell whether a file is text.
const START: usize = 256;

/// Whether a file starts as text does. No map that the engine accepts is text, see [`csv::is_csv`].
fn is_text(bytes: &[u8]) -> bool {
    let start = &bytes[..bytes.len().min(START)];
    let text = match std::str::from_utf8(start) {
        Ok(text) => text,
        // The start may end within a character.
        Err(why) if why.error_len().is_none() => std::str::from_utf8(&start[..why.valid_up_to()]).unwrap_or(""),
        Err(_) => "",
    };
    !text.is_empty() && text.chars().all(|character| !character.is_control() || character.is_whitespace())
}

/// What is said of text that is no CSV by its first line: it is answered as the bytes of a map, which it is not.
fn text_words() -> String {
    format!("it looks like text; as CSV its first line must name {}", csv::HEADER.replace(',', ", "))
}

fn noted(name: &str, note: &str) -> String {
    format!("{name}: note: {note}")
}

/// Builds a map from a file that is CSV text, whatever it looks like.
///
/// # Errors
/// The file can't be read, or it has mistakes.
pub fn build(file: &Path) -> Result<MapFile, NoMap> {
    let text = files::read(file).map_err(|why| NoMap::CannotRead(why.to_string()))?;
    built(file, &text)
}

fn built(file: &Path, text: &[u8]) -> Result<MapFile, NoMap> {
    let name = files::name_of(file);
    let Built { bytes, notes } = csv::build(text).map_err(|list| NoMap::Csv(mistakes(&name, list)))?;
    Ok(MapFile { bytes, notes: notes.iter().map(|note| noted(&name, note)).collect() })
}

fn mistakes(file: &str, list: Vec<Found>) -> CsvMistakes {
    let at = |(line, wrong)| CsvMistake { file: file.to_string(), line, wrong };
    CsvMistakes(list.into_iter().map(at).collect())
}
