//! Coverage, blocks, proposals and footprints: that the safe types hand on what the engine answers.

use crate::holdings::{MIDDLE, area, holding, map_of_five};
use codwalet::{
    Coverage, GeoBox, Gets, Kind, Licence, Map, MhzPops, Proposal, Refusal, Register, Weighted, Workspace, limits,
    write_map,
};

#[test]
fn holdings_are_answered() {
    let map = map_of_five();
    let register = holding(1);
    let covered = map.coverage(&register, 7);
    assert_eq!((covered.mhz_pops, covered.cells), (MhzPops(350), 2));
    assert_eq!(map.coverage(&register, 8), Coverage::default());
    let blocks = map.blocks(&register, 7);
    let part = blocks.part.map(|part| (part.value, part.size));
    assert_eq!((blocks.whole, part), (0, Some((Weighted(700), Weighted(4_000)))));
    assert_eq!(map.blocks(&register, 8), Default::default());

    let proposal = map.propose(&register, 5).expect("there is a proposal");
    assert_eq!((proposal.kind, proposal.kind.number(), proposal.tied), (Kind::OnePart, 3, 1));
    assert_eq!((proposal.target, proposal.white_space), (Weighted(700), Weighted(3_300)));
    let given: Vec<_> =
        proposal.areas.iter().map(|given| (given.number, given.blocks, given.gets, given.cells)).collect();
    assert_eq!(given, [(7, 0, Gets::Share(Weighted(700)), 2)]);
    let gets = proposal.areas[0].gets;
    assert_eq!((proposal.kind.to_string().as_str(), gets.words()), ("one part", "share"));
    assert_eq!(gets.to_string(), "a share of 700 weighted MHz-pops");
    assert_eq!((proposal.partial(), proposal.share()), (proposal.areas.first(), Some(Weighted(700))));
    assert_eq!(map.footprint(&Register::empty(), 0), Err(Refusal::NotOnePart));
}

/// The row's second cell, which has no people.
const NOBODY: GeoBox = GeoBox { south: 0, north: 10, west: 1, east: 2 };

/// A map of area 7, the row of five, and of area 9, whose two cells have the points of the row's first and third.
fn two_areas() -> Map<'static> {
    let areas = [area(7, 2, 5, &[5, 0, 4, 3, 8].map(Some)), area(9, 1, 3, &[Some(6), None, Some(0)])];
    Map::owned(write_map(&areas).expect("the map is written")).expect("the map is accepted")
}

/// The cells of areas 7 and 9 by coverage, which are those of the proposal too.
fn cells(register: &Register) -> [u64; 2] {
    let map = two_areas();
    let covered = [7, 9].map(|number| map.coverage(register, number).cells);
    let proposal = map.propose(register, 0).expect("there is a proposal");
    assert_eq!(proposal.areas.iter().map(|given| given.cells).collect::<Vec<_>>(), covered);
    covered
}

/// The register with a licence granted.
fn granted(register: Register, licence: Licence) -> Register {
    register.grant(licence).expect("the licence is granted")
}

/// A box over the middle of the row covers two of its cells and one of area 9.
#[test]
fn cells_count_once_for_each_licence() {
    let none = Register::empty();
    assert_eq!(cells(&none), [0, 0]);
    let middle = granted(none, Licence::within(1, MIDDLE));
    assert_eq!(cells(&middle), [2, 1]);
    let twice = granted(middle, Licence::within(2, MIDDLE));
    assert_eq!(cells(&twice), [4, 2]);
    // The gap of area 9 is no cell.
    let nobody = granted(twice, Licence::within(3, NOBODY));
    assert_eq!(cells(&nobody), [5, 2]);
    let whole = granted(granted(nobody, Licence::area(4, 7)), Licence::area(5, 9));
    assert_eq!(cells(&whole), [10, 4]);
    assert_eq!(cells(&whole.cancel(1).expect("the licence is cancelled")), [8, 3]);
}

#[test]
fn cells_without_people_change_nothing_else_of_a_proposal() {
    let map = two_areas();
    let few = holding(1);
    let more = granted(few, Licence::within(9, NOBODY));
    let [before, mut after] = [few, more].map(|register| map.propose(&register, 0).expect("there is a proposal"));
    assert_eq!((before.areas[0].cells, after.areas[0].cells), (2, 3));
    after.areas[0].cells = 2;
    assert_eq!(before, after);
}

/// The middle of the row has 7 of its 20 people, and the area weighs 2.
#[test]
fn a_width_counts_for_each_person_covered_and_for_no_cell() {
    let map = map_of_five();
    for (mhz, c) in [(1, 7), (20, 140), (49, 343), (50, 350)] {
        let register = granted(Register::empty(), Licence::within(1, MIDDLE).with_width(mhz));
        let covered = map.coverage(&register, 7);
        assert_eq!((covered.mhz_pops, covered.cells), (MhzPops(c), 2));
        let part = map.blocks(&register, 7).part.map(|part| (part.value, part.size));
        assert_eq!(part, Some((Weighted(2 * c), Weighted(4_000))));
        let proposal = map.propose(&register, 0).expect("there is a proposal");
        assert_eq!((proposal.target, proposal.areas[0].cells), (Weighted(2 * c), 2));
    }
}

/// 20 MHz over the middle beside 50 MHz over the whole row.
#[test]
fn a_cancelled_width_counts_no_more() {
    let map = map_of_five();
    let c = |register: &Register| map.coverage(register, 7).mhz_pops;
    let narrow = granted(Register::empty(), Licence::within(1, MIDDLE).with_width(20));
    let both = granted(narrow, Licence::area(2, 7));
    assert_eq!(c(&both), MhzPops(20 * 7 + 50 * 20));
    let wide = both.cancel(1).expect("the licence is cancelled");
    assert_eq!(c(&wide), MhzPops(50 * 20));
    // The place that was narrow is taken by a licence without a width.
    assert_eq!(c(&granted(wide, Licence::within(3, MIDDLE))), MhzPops(50 * 7 + 50 * 20));
}

/// A row with 1 and 99 people: a block is 10,000 MHz-pops, and from 9,900 on it counts as whole.
#[test]
fn a_block_is_whole_from_99_in_the_hundred_on() {
    let bytes = write_map(&[area(7, 1, 2, &[Some(1), Some(99)])]).expect("the map is written");
    let map = Map::owned(bytes).expect("the map is accepted");
    let wide = granted(granted(Register::empty(), Licence::area(1, 7)), Licence::area(2, 7).with_width(48));
    // 98 MHz for everybody are 9,800 MHz-pops. One more for the last cell adds 99, and one more for the first adds 1.
    let last = GeoBox { south: 0, north: 10, west: 1, east: 2 };
    let first = GeoBox { south: 0, north: 10, west: 0, east: 1 };
    let below = granted(wide, Licence::within(3, last).with_width(1));
    assert_eq!(map.coverage(&below, 7).mhz_pops, MhzPops(9_899));
    let blocks = map.blocks(&below, 7);
    assert_eq!((blocks.whole, blocks.part.map(|part| part.value)), (0, Some(Weighted(9_899))));
    for (mhz, c) in [(1, 9_900), (2, 9_901)] {
        let register = granted(below, Licence::within(4, first).with_width(mhz));
        assert_eq!(map.coverage(&register, 7).mhz_pops, MhzPops(c));
        let blocks = map.blocks(&register, 7);
        assert_eq!((blocks.whole, blocks.part), (1, None));
    }
}

/// The proposal on `two_areas` with so many licences of so many MHz over the middle, without its cells.
fn but_for_cells(licences: u32, mhz: u32) -> Proposal {
    let register = (1..=licences).fold(Register::empty(), |register, call_sign| {
        granted(register, Licence::within(call_sign, MIDDLE).with_width(mhz))
    });
    let mut proposal = two_areas().propose(&register, 0).expect("there is a proposal");
    assert_eq!(proposal.areas[0].cells, 2 * u64::from(licences));
    proposal.areas.iter_mut().for_each(|given| given.cells = 0);
    proposal
}

#[test]
fn slices_that_add_to_50_mhz_have_the_proposal_of_one_licence_but_for_its_cells() {
    let whole = but_for_cells(1, 50);
    for (licences, mhz) in [(10, 5), (2, 25), (50, 1)] {
        assert_eq!(but_for_cells(licences, mhz), whole, "{licences} licences of {mhz} MHz");
    }
    assert_ne!(but_for_cells(10, 4), whole);
}

#[test]
fn footprints_are_made() {
    let map = map_of_five();
    for (licences, mask) in [(1, [0, 0, 1, 0, 0]), (2, [0, 0, 1, 1, 0]), (3, [0, 1, 1, 1, 1])] {
        let footprint = map.footprint(&holding(licences), 0).expect("there is a footprint");
        assert_eq!((footprint.area, footprint.rows, footprint.columns), (7, 1, 5));
        assert_eq!(footprint.mask, mask);
        assert_eq!([(0, 2), (0, 5), (1, 0)].map(|(row, column)| footprint.contains(row, column)), [true, false, false]);
    }
    let footprint = map.footprint(&holding(3), 0).expect("there is a footprint");
    assert_eq!(format!("{footprint:?}"), "Footprint { area: 7, rows: 1, columns: 5, cells: 4 }");
}

/// The outer set is columns 2 and 3 with 7 people, and 3.5 are due: the slack is 3, so the table needs 4 entries.
#[test]
fn a_lent_workspace_says_what_it_lacks() {
    let (map, register) = (map_of_five(), holding(1));
    let mut workspace = Workspace::with_entries(3);
    assert_eq!(map.footprint_in(&register, 0, &mut workspace), Err(Refusal::TableShort { needed: 4 }));
    workspace.grow(4);
    assert_eq!(workspace.entries(), 4);
    let made = map.footprint_in(&register, 0, &mut workspace);
    assert_eq!(made, map.footprint(&register, 0));
    assert_eq!(format!("{workspace:?}"), "Workspace { entries: 4, .. }");
}

#[test]
fn lent_buffers_are_refused_as_document_01_says() {
    let (map, register) = (map_of_five(), holding(1));
    let (mut mask, mut table) = ([9; 6], [7; 8]);
    assert_eq!(map.footprint_into(&register, 0, &mut mask[..4], &mut table), Err(Refusal::MaskShort));
    assert_eq!((mask, table), ([9; 6], [7; 8]));
    let refused = Err(Refusal::TableShort { needed: 4 });
    assert_eq!(map.footprint_into(&register, 0, &mut mask, &mut table[..3]), refused);
    assert_eq!((mask, table), ([0, 0, 0, 0, 0, 9], [7; 8]));
    assert_eq!(map.footprint_into(&register, 0, &mut mask, &mut table), Ok(7));
    assert_eq!((mask, &table[4..]), ([0, 0, 1, 0, 0, 9], &[7; 4][..]));
}

#[test]
fn limits_are_document_01s() {
    assert_eq!((limits::AREAS, limits::LICENCES, limits::PARTIAL_AREAS, limits::SIDE), (32, 64, 20, 128));
    assert_eq!(limits::FULL_WIDTH, 50);
    assert_eq!((limits::AREA_NUMBER, limits::WEIGHT, limits::PEOPLE), (416, 65_535, 1_000_000));
    assert_eq!((limits::POPULATION, limits::LATITUDE, limits::LONGITUDE), (40_000_000, 32_400_000, 64_800_000));
    assert_eq!(limits::MASK, 16_384);
}
