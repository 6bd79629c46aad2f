//! Maps: written, accepted or refused, and their areas.

use crate::holdings::{area, map_of_five, row_of_five};
use codwalet::{Cell, Map, NewArea, People, Refusal, Unwritable, write_map};

/// Two areas with gaps, of ten columns, so that a bit map has two bytes.
fn gapped() -> Vec<NewArea> {
    let people = |place: u32| place.is_multiple_of(3).then_some(place);
    let places: Vec<Option<u32>> = (0..30).map(people).collect();
    vec![area(3, 70, 10, &places), area(416, 65_535, 10, &places[..20])]
}

#[test]
fn what_is_written_is_read() {
    let areas = gapped();
    let map = Map::owned(write_map(&areas).expect("the map is written")).expect("the map is accepted");
    assert_eq!(map.area_count(), 2);
    for (head, area) in map.areas().zip(&areas) {
        let written = NewArea {
            number: head.number,
            weight: head.weight,
            rows: head.rows,
            columns: head.columns,
            cells: head.cells(),
        };
        assert_eq!(written, *area);
    }
}

#[test]
fn the_areas_of_a_map_are_those_that_the_engine_looks_up() {
    let bytes = write_map(&gapped()).expect("the map is written");
    let map = Map::new(&bytes).expect("the map is accepted");
    let looked_up: Vec<_> = (0..=417).filter_map(|number| map.look_up(number)).collect();
    assert_eq!(map.areas().collect::<Vec<_>>(), looked_up);
}

#[test]
fn areas_are_looked_up() {
    let bytes = row_of_five();
    let map = Map::new(&bytes).expect("the map is accepted");
    let head = map.look_up(7).expect("the map has the area");
    assert_eq!((head.number, head.weight, head.rows, head.columns, head.population), (7, 2, 1, 5, People(20)));
    assert_eq!(head.bytes.as_ptr_range(), bytes[9..].as_ptr_range());
    assert_eq!(head.cells()[3], Some(Cell { people: 3, latitude: 5, longitude: 3 }));
    assert_eq!(map.look_up(8), None);
}

#[test]
fn a_refused_map_has_a_byte_at_which_it_goes_wrong() {
    let sound = row_of_five();
    let with = |byte: usize, value: u8| {
        let mut map = sound.clone();
        map[byte] = value;
        map
    };
    let repeated = write_map(&[&gapped()[..1], &gapped()[..1]].concat()).expect("the map is written");
    let nobody = write_map(&[area(7, 1, 1, &[Some(0)])]).expect("the map is written");
    let refused = [
        (Vec::new(), Refusal::MapEnds, 0),
        (sound[..20].to_vec(), Refusal::MapEnds, 18),
        (with(0, 33), Refusal::MapLimit, 0),
        (with(7, 129), Refusal::MapLimit, 7),
        (with(9, 0b100000), Refusal::MapLimit, 9),
        (with(13, 1), Refusal::MapLimit, 10),
        ([sound.as_slice(), &[0]].concat(), Refusal::MapExtra, 70),
        (repeated, Refusal::MapOrder, 135),
        (nobody, Refusal::MapPopulation, 22),
    ];
    for (bytes, refusal, byte) in refused {
        assert_eq!(Map::new(&bytes), Err(refusal));
        let fault = Map::fault(&bytes).expect("the map has a fault");
        assert_eq!((fault.refusal, fault.byte), (refusal, byte));
        assert_eq!(fault.to_string(), format!("refused, {}, at byte {byte}: {refusal}", refusal.number()));
    }
    assert_eq!(Map::fault(&sound), None);
}

#[test]
fn what_does_not_fit_its_bytes_is_not_written() {
    let one = area(7, 1, 1, &[Some(5)]);
    let many = vec![one.clone(); 256];
    assert_eq!(write_map(&many), Err(Unwritable::Areas(256)));
    let tall = NewArea { rows: 256, cells: vec![None; 256], ..one.clone() };
    assert_eq!(write_map(&[tall]), Err(Unwritable::Side { area: 7, side: 256 }));
    let short = NewArea { columns: 2, ..one };
    assert_eq!(write_map(&[short]), Err(Unwritable::Places { area: 7, places: 1 }));
}

#[test]
fn debug_prints_a_summary() {
    let map = map_of_five();
    assert_eq!(format!("{map:?}"), "Map { areas: [7], bytes: 70 }");
    let head = map.areas().next().expect("the map has an area");
    let summary = "AreaHead { number: 7, weight: 2, rows: 1, columns: 5, population: 20, bytes: 61 }";
    assert_eq!(format!("{head:?}"), summary);
}

#[test]
fn an_owned_map_outlives_its_bytes() {
    let map: Map<'static> = map_of_five();
    let bytes = row_of_five();
    assert_eq!(map, Map::new(&bytes).expect("the map is accepted"));
    assert_eq!(map.bytes(), bytes);
}
