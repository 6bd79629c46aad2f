//! Registers: grants, cancellations, and registers that are kept as bytes.

use crate::holdings::{MIDDLE, holding, map_of_five};
use codwalet::{Coverage, Flaw, GeoBox, Ground, Licence, MhzPops, Refusal, Register, limits};
use std::collections::HashSet;

#[test]
fn registers_are_values() {
    let area = Licence::area(101, 7);
    let within = Licence::within(102, MIDDLE);
    let register = Register::empty().grant(area).and_then(|next| next.grant(within)).expect("both are granted");
    let mut licences: Vec<Licence> = register.licences().collect();
    licences.sort();
    assert_eq!(licences, [area, within]);
    assert_eq!((register.len(), register.is_empty(), Register::empty().is_empty()), (2, false, true));
    assert_eq!((register.get(102), register.get(103)), (Some(within), None));
    assert_eq!(register.grant(within), Err(Refusal::InForce));
    assert_eq!(register.cancel(103), Err(Refusal::NotInForce));
    let left = register.cancel(101).expect("the licence is cancelled");
    assert_eq!(left.licences().collect::<Vec<_>>(), [within]);
    assert_eq!(left.cancel(102), Ok(Register::default()));
    assert_eq!(format!("{register:?}"), "Register { call_signs: [101, 102] }");
}

#[test]
fn a_register_has_64_places() {
    let full = holding(Register::LIMIT as u32);
    assert_eq!((Register::LIMIT, full.len()), (64, 64));
    assert_eq!(full.grant(Licence::area(65, 7)), Err(Refusal::Full));
}

#[test]
fn equal_registers_have_the_same_licences_in_force_in_any_place() {
    let granted = |call_signs: [u32; 2]| {
        call_signs.iter().fold(Register::empty(), |register, &call_sign| {
            register.grant(Licence::area(call_sign, 7)).expect("the licence is granted")
        })
    };
    assert_eq!(granted([1, 2]), granted([2, 1]));
    assert_ne!(granted([1, 2]), granted([1, 3]));
}

/// The licence as a register hands it back.
fn read_back(licence: Licence) -> Option<Licence> {
    Register::empty().grant(licence).expect("the licence is granted").get(licence.call_sign())
}

#[test]
fn widths_are_read_back() {
    for licence in [Licence::area(1, 7), Licence::within(1, MIDDLE)] {
        assert_eq!((licence.width(), read_back(licence)), (50, Some(licence)));
        for mhz in [1, 20, 49, 50] {
            let narrow = licence.with_width(mhz);
            assert_eq!((narrow.width(), read_back(narrow)), (mhz, Some(narrow)));
            assert_eq!(read_back(narrow).map(|licence| licence.width()), Some(mhz));
        }
        // The width that was named last counts.
        assert_eq!(licence.with_width(51).with_width(5), licence.with_width(5));
    }
}

#[test]
fn licences_and_registers_are_equal_by_the_width_that_counts() {
    let licence = Licence::area(1, 7);
    assert_eq!(licence, licence.with_width(50));
    assert_ne!(licence, licence.with_width(49));
    assert!(licence.with_width(9) < licence.with_width(10) && licence.with_width(49) < licence);
    assert_eq!(HashSet::from([licence, licence.with_width(50), licence.with_width(49)]).len(), 2);

    let granted = |licence| Register::empty().grant(licence).expect("the licence is granted");
    assert_eq!(granted(licence), granted(licence.with_width(50)));
    assert_eq!(granted(licence).to_bytes(), granted(licence.with_width(50)).to_bytes());
    assert_ne!(granted(licence), granted(licence.with_width(49)));
}

fn boxed(south: i32, north: i32, west: i32, east: i32) -> Licence {
    Licence::within(1, GeoBox { south, north, west, east })
}

#[test]
fn ill_formed_licences_are_refused_with_what_is_wrong() {
    let ill_formed = [
        (Licence::area(0, 7), Flaw::CallSignZero, "the call sign is 0"),
        (Licence::area(1, 0), Flaw::AreaNumber(0), "area 0 is not within 1 to 416"),
        (Licence::area(1, 417), Flaw::AreaNumber(417), "area 417 is not within 1 to 416"),
        (
            boxed(5, 5, 0, 1),
            Flaw::SouthNotBelowNorth { south: 5, north: 5 },
            "south 5 is not below north 5, in hundredths of an arc second",
        ),
        (
            boxed(0, 1, -3, -4),
            Flaw::WestNotBelowEast { west: -3, east: -4 },
            "west -3 is not below east -4, in hundredths of an arc second",
        ),
        (
            boxed(-32_400_001, 0, 0, 1),
            Flaw::Latitude(-32_400_001),
            "latitude -32400001 is not within -32400000 to 32400000 hundredths of an arc second",
        ),
        (
            boxed(0, 1, 0, 64_800_001),
            Flaw::Longitude(64_800_001),
            "longitude 64800001 is not within -64800000 to 64800000 hundredths of an arc second",
        ),
        (Licence::area(1, 7).with_width(0), Flaw::Width(0), "width 0 is not within 1 to 50 MHz"),
        (boxed(0, 1, 0, 1).with_width(51), Flaw::Width(51), "width 51 is not within 1 to 50 MHz"),
        // In one byte it would be 50.
        (Licence::area(1, 7).with_width(306), Flaw::Width(306), "width 306 is not within 1 to 50 MHz"),
        (Licence::area(1, 7).with_width(u32::MAX), Flaw::Width(u32::MAX), "width 4294967295 is not within 1 to 50 MHz"),
        // The call sign and the ground are named before the width.
        (Licence::area(0, 7).with_width(51), Flaw::CallSignZero, "the call sign is 0"),
        (Licence::area(1, 0).with_width(51), Flaw::AreaNumber(0), "area 0 is not within 1 to 416"),
    ];
    for (licence, flaw, words) in ill_formed {
        let refusal = Refusal::IllFormed { flaw: Some(flaw) };
        assert_eq!(Register::empty().grant(licence), Err(refusal));
        assert_eq!((refusal.number(), flaw.to_string().as_str()), (6, words));
        assert!(refusal.to_string().ends_with(&format!("({words})")), "{refusal}");
    }
}

/// The engine and the library agree on which licences are ill-formed, at every limit and one past it.
#[test]
fn a_licence_has_a_flaw_where_the_engine_refuses_it() {
    let edges = |limit: i32| [-limit - 1, -limit, -1, 0, limit, limit + 1];
    let (latitudes, longitudes) = (edges(limits::LATITUDE), edges(limits::LONGITUDE));
    let mut licences: Vec<Licence> = [0, 1, 416, 417, u16::MAX].map(|number| Licence::area(1, number)).to_vec();
    for (south, north) in latitudes.iter().flat_map(|south| latitudes.map(|north| (*south, north))) {
        licences.extend(longitudes.iter().flat_map(|west| longitudes.map(|east| boxed(south, north, *west, east))));
    }
    for mhz in [0, 1, 49, 50, 51, 255, 256, 257, 306, u32::MAX] {
        licences.extend(
            [Licence::area(1, 7), Licence::area(1, 417), boxed(0, 1, 0, 1)].map(|licence| licence.with_width(mhz)),
        );
    }
    for licence in licences {
        assert_eq!(Register::empty().grant(licence).is_err(), licence.flaw().is_some(), "{licence:?}");
    }
}

#[test]
fn kept_registers_are_read_back() {
    let narrow = Licence::area(10, 416).with_width(1);
    let granted = holding(3).grant(Licence::area(9, 416)).and_then(|register| register.grant(narrow));
    let register = granted.expect("both are granted");
    let bytes = register.to_bytes();
    assert_eq!((bytes.len(), Register::from_bytes(&bytes)), (1_536, register));
    assert_eq!(Register::from_bytes(&bytes).to_bytes(), bytes);
    assert_eq!(Register::try_from(&bytes[..]).ok(), Some(register));
    let cut = Register::try_from(&bytes[1..]).map_err(|why| why.to_string());
    assert_eq!(cut, Err("a saved register has 1,536 bytes, not 1,535".to_string()));
}

/// A place has 24 bytes; in that at 7 it keeps what the width lacks to 50 MHz.
#[test]
fn a_place_keeps_by_how_much_its_licence_is_narrower() {
    for (mhz, narrower_by) in [(1, 49), (20, 30), (50, 0)] {
        let register = Register::empty().grant(Licence::area(1, 7).with_width(mhz)).expect("the licence is granted");
        assert_eq!(places(&register.to_bytes()).find(|place| place[0] == 1).map(|place| place[7]), Some(narrower_by));
    }
}

/// The places of a register that is kept.
fn places(bytes: &[u8; Register::BYTES]) -> impl Iterator<Item = &[u8]> {
    bytes.chunks(24)
}

/// In these versions a place had call sign, area, kind, an unused byte, which was 0, and the four edges, in 24 bytes.
#[test]
fn registers_kept_in_versions_1_and_2_are_read_with_every_licence_at_50_mhz() {
    let mut kept = [0; Register::BYTES];
    kept[..8].copy_from_slice(&[0xE9, 3, 0, 0, 212, 0, 0, 0]);
    kept[24..][..8].copy_from_slice(&[0xEA, 3, 0, 0, 0, 0, 1, 0]);
    for (index, edge) in [0i32, 10, 2, 4].iter().enumerate() {
        kept[32 + 4 * index..][..4].copy_from_slice(&edge.to_le_bytes());
    }
    let register = Register::from_bytes(&kept);
    let mut licences: Vec<Licence> = register.licences().collect();
    licences.sort();
    assert_eq!(licences, [Licence::area(1001, 212), Licence::within(1002, MIDDLE)]);
    assert!(licences.iter().all(|licence| licence.width() == 50));
    assert_eq!(map_of_five().coverage(&register, 7).mhz_pops, MhzPops(50 * 7));
    assert_eq!(register.to_bytes(), kept);
}

/// No grant leaves 50 or more at byte 7 of a place. Such a licence is 0 MHz wide: it adds nothing to c, and its cells count.
#[test]
fn a_licence_without_any_width_covers_its_cells() {
    let map = map_of_five();
    for narrower_by in [50, 51, 255] {
        let mut bytes = holding(2).to_bytes();
        let place = bytes.chunks_mut(24).find(|place| place[0] == 2).expect("the licence is in force");
        place[7] = narrower_by;
        let register = Register::from_bytes(&bytes);
        let licence = register.get(2).expect("the licence is in force");
        assert_eq!((licence.width(), licence.ground(), licence.flaw()), (0, Ground::Box(MIDDLE), Some(Flaw::Width(0))));
        let covered = map.coverage(&register, 7);
        assert_eq!((covered.mhz_pops, covered.cells), (MhzPops(50 * 7), 4));
        assert_eq!(map.propose(&register, 0).map(|proposal| proposal.areas[0].cells), Ok(4));
        // It can be kept and cancelled, but not granted.
        assert_eq!(register.to_bytes(), bytes);
        let left = register.cancel(2).expect("the licence is cancelled");
        assert_eq!(left, holding(1));
        assert_eq!(left.grant(licence), Err(Refusal::IllFormed { flaw: Some(Flaw::Width(0)) }));
    }
}

/// A place has 24 bytes, its call sign first and its kind of ground at byte 6.
#[test]
fn any_bytes_are_a_register_and_only_what_is_in_force_counts() {
    let map = map_of_five();
    let mut bytes = holding(2).to_bytes();
    // A free place, whatever else it holds.
    bytes[48 + 4..].fill(0xA5);
    (2..64).for_each(|place| bytes[24 * place..][..4].fill(0));
    assert_eq!(Register::from_bytes(&bytes), holding(2));
    // A ground of no kind covers nothing.
    bytes[24 + 6] = 7;
    let register = Register::from_bytes(&bytes);
    assert_eq!(register.get(2).map(|licence| licence.ground()), Some(Ground::None));
    let covered = map.coverage(&register, 7);
    assert_eq!((register.len(), covered.mhz_pops, covered.cells), (2, MhzPops(350), 2));
    // Every place in force, with whatever ground.
    let crowded = Register::from_bytes(&[0xFF; Register::BYTES]);
    assert_eq!((crowded.len(), crowded.is_empty(), map.coverage(&crowded, 7)), (64, false, Coverage::default()));
    assert_eq!(crowded.cancel(u32::MAX), Ok(Register::empty()));
}

/// The southern edge of a place is at byte 8. No grant accepts an edge beyond the south pole, but the box covers its cells.
#[test]
fn a_box_past_the_limits_covers_what_lies_between_its_edges() {
    let mut bytes = holding(1).to_bytes();
    bytes[8..12].copy_from_slice(&i32::MIN.to_le_bytes());
    let register = Register::from_bytes(&bytes);
    let licence = register.get(1).expect("the licence is in force");
    assert_eq!((licence.flaw(), Register::empty().grant(licence).is_err()), (Some(Flaw::Latitude(i32::MIN)), true));
    assert_eq!(map_of_five().coverage(&register, 7).mhz_pops, MhzPops(350));
}
