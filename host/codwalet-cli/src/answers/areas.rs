//! A map by itself: its areas, or why it is refused and at which byte.

use super::object::{Object, array};
use super::{counted, grouped};
use codwalet::{AreaHead, Map, Refusal};

/// How many areas and bytes a map has.
pub fn size_words(map: &Map) -> String {
    let areas = counted(map.area_count() as u64, "area", "areas");
    format!("{areas}, {} bytes", grouped(map.bytes().len() as u64))
}

/// Why bytes are refused as a map, and the byte of the fault where it can be told.
pub fn refused_words(bytes: &[u8], refusal: &Refusal) -> String {
    let place = Map::fault(bytes).map_or(String::new(), |fault| format!(", at byte {}", grouped(fault.byte as u64)));
    format!("refused, {}{place}: {refusal}", refusal.number())
}

/// The lines that show an accepted map.
pub fn areas_lines(map: &Map) -> Vec<String> {
    let mut lines = vec![
        format!("accepted: {}", size_words(map)),
        String::new(),
        "area  weight  rows x columns   cells      people  bytes of its rows".to_string(),
    ];
    lines.extend(map.areas().map(|area| area_line(&area)));
    lines
}

fn area_line(area: &AreaHead) -> String {
    format!(
        "{:>4}  {:>6}  {:>14}  {:>6}  {:>10}  {:>17}",
        area.number,
        grouped(area.weight.into()),
        format!("{} x {}", area.rows, area.columns),
        grouped(cell_count(area)),
        grouped(area.population.0),
        grouped(area.bytes.len() as u64)
    )
}

fn cell_count(area: &AreaHead) -> u64 {
    area.cells().iter().flatten().count() as u64
}

/// What bytes are as a map, as a JSON object on one line; `map` is what the engine says of them.
pub fn map_json(file: &str, bytes: &[u8], map: &Result<Map, Refusal>) -> String {
    let mut object = Object::new();
    object.text("file", file);
    object.value("accepted", map.is_ok().to_string());
    object.number("bytes", bytes.len() as u64);
    match map {
        Ok(map) => object.value("areas", array(map.areas().map(|area| area_object(&area)))),
        Err(refusal) => {
            let mut refused = Object::refusal(refusal);
            if let Some(fault) = Map::fault(bytes) {
                refused.number("byte", fault.byte as u64);
            }
            object.value("refusal", refused.end());
        }
    }
    object.end()
}

fn area_object(area: &AreaHead) -> String {
    let mut object = Object::new();
    object.number("area", area.number);
    object.number("weight", area.weight);
    object.number("rows", area.rows as u64);
    object.number("columns", area.columns as u64);
    object.number("cells", cell_count(area));
    object.number("people", area.population.0);
    object.number("bytes", area.bytes.len() as u64);
    object.end()
}
