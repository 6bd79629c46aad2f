//! What the tests of the library share: document 01's holdings 10 to 12.

use codwalet::{Cell, GeoBox, Licence, Map, NewArea, Register, write_map};

/// An area with cells at some places of its rows, given by their people; a cell's coordinates are 5 and its column.
pub fn area(number: u16, weight: u32, columns: usize, people: &[Option<u32>]) -> NewArea {
    let cell = |(place, people): (usize, &Option<u32>)| {
        people.map(|people| Cell { people, latitude: 5, longitude: (place % columns) as i32 })
    };
    let cells = people.iter().enumerate().map(cell).collect();
    NewArea { number, weight, rows: people.len() / columns, columns, cells }
}

/// The bytes of a map of area 7, of weight 2: a row with 5, 0, 4, 3 and 8 people.
pub fn row_of_five() -> Vec<u8> {
    write_map(&[area(7, 2, 5, &[5, 0, 4, 3, 8].map(Some))]).expect("the map is written")
}

pub fn map_of_five() -> Map<'static> {
    Map::owned(row_of_five()).expect("the map is accepted")
}

/// Columns 2 and 3 of the row.
pub const MIDDLE: GeoBox = GeoBox { south: 0, north: 10, west: 2, east: 4 };

/// The register with so many licences over the middle of the row.
pub fn holding(licences: u32) -> Register {
    (1..=licences).fold(Register::empty(), |register, call_sign| {
        register.grant(Licence::within(call_sign, MIDDLE)).expect("the licence is granted")
    })
}
