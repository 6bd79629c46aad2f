//! Areas of the independent implementation as the bytes of a map.

use crate::reference::{Area, Cell};
use codwalet::NewArea;

/// The bytes of a map, by the library's writer. Fields are written as they are, within document 01's limits or not.
pub fn write_map(areas: &[Area]) -> Vec<u8> {
    let areas: Vec<NewArea> = areas.iter().map(new_area).collect();
    codwalet::write_map(&areas).expect("no area made here has a field that is too large for its bytes")
}

fn new_area(area: &Area) -> NewArea {
    let cell = |&Cell { people, latitude, longitude }: &Cell| codwalet::Cell { people, latitude, longitude };
    let cells = area.cells.iter().map(|place| place.as_ref().map(cell)).collect();
    NewArea { number: area.number, weight: area.weight, rows: area.rows, columns: area.columns, cells }
}

#[cfg(test)]
mod tests {
    use super::*;
    use crate::reference::read_map;

    /// An area of ten columns, so that a bit map has two bytes, with a cell in every third place.
    fn gapped(number: u16) -> Area {
        let cell = |place: usize| Cell { people: place as u32, latitude: -(place as i32), longitude: place as i32 };
        let cells = (0..30).map(|place| (place % 3 == 0).then(|| cell(place))).collect();
        Area { number, weight: 70, rows: 3, columns: 10, cells, start: 0, end: 0 }
    }

    #[test]
    fn what_is_written_is_read() {
        let map = write_map(&[gapped(3), gapped(416)]);
        // Ten cells and three bit maps of two bytes an area.
        let [first, second] = [(9, 135), (143, 269)];
        let placed = |number, (start, end)| Area { start, end, ..gapped(number) };
        assert_eq!(read_map(&map), Ok(vec![placed(3, first), placed(416, second)]));
    }
}
