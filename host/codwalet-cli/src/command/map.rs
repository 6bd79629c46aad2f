//! The commands `map build`, `map show` and `check`.

use super::choice::Given;
use super::{Ended, Failure, Status, tell};
use crate::answers::{areas_lines, grouped, map_json, refused_words, size_words};
use crate::csv;
use crate::files::{self, Identity};
use crate::maps::{self, MapFile, NoMap};
use crate::shown::shown;
use codwalet::Map;
use std::io::Write;
use std::path::Path;

/// Builds a map from CSV text.
pub fn build(given: &Given, out: &mut dyn Write) -> Ended {
    let (cells, target) = (given.operand(0), given.operand(1));
    let name = shown(target);
    if csv::has_csv_name(target) {
        return Err(misnamed(&format!("'{name}' would be taken for CSV text")));
    }
    if !files::is_standard(target) && Identity::of(cells) == Identity::of(target) {
        return Err(misnamed(&format!("'{name}' is CELLS itself")));
    }
    let bytes = found(cells, maps::build(cells))?;
    let size = grouped(bytes.len() as u64);
    if files::is_standard(target) {
        files::write(target, &bytes)?;
        // Among a map's bytes a message would be taken for some of them.
        tell(&format!("standard output: {size} bytes written"));
    } else {
        files::write(target, &bytes).map_err(|why| Failure::CannotDo(format!("'{name}' cannot be written: {why}")))?;
        writeln!(out, "{name}: {size} bytes written")?;
    }
    Ok(Status::Done)
}

/// Lists a map's areas, or says why it is refused.
pub fn show(given: &Given, out: &mut dyn Write) -> Ended {
    let file = given.operand(0);
    let bytes = found(file, maps::read(file))?;
    let map = Map::new(&bytes);
    let lines = match &map {
        _ if given.has("--json") => vec![map_json(&file.to_string_lossy(), &bytes, &map)],
        Ok(map) => areas_lines(map),
        Err(refusal) => vec![refused_words(&bytes, refusal)],
    };
    lines.iter().try_for_each(|line| writeln!(out, "{line}"))?;
    Ok(if map.is_ok() { Status::Done } else { Status::MapRefused })
}

/// Says in a line whether a map is accepted.
pub fn check(given: &Given, out: &mut dyn Write) -> Ended {
    let file = given.operand(0);
    let bytes = found(file, maps::read(file))?;
    let (status, words) = match Map::new(&bytes) {
        Ok(map) => (Status::Done, format!("accepted: {}", size_words(&map))),
        Err(refusal) => (Status::MapRefused, refused_words(&bytes, &refusal)),
    };
    writeln!(out, "{}: {words}", files::name_of(file))?;
    Ok(status)
}

/// The bytes of a map that was read; the notes on it are told.
fn found(file: &Path, read: Result<MapFile, NoMap>) -> Result<Vec<u8>, Failure> {
    match read {
        Ok(MapFile { bytes, notes }) => {
            notes.iter().for_each(|note| tell(note));
            Ok(bytes)
        }
        Err(NoMap::Csv(mistakes)) => Err(Failure::Mistake(mistakes.to_string())),
        Err(why) => Err(Failure::Mistake(format!("'{}' {why}", files::name_of(file)))),
    }
}

/// A map must not be written under the name that it was to have.
fn misnamed(why: &str) -> Failure {
    Failure::Mistake(format!("codwalet map build: {why}; give the map another name"))
}
