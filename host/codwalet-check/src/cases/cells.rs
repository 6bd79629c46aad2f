//! Covered cells beside people.

use super::Cases;
use super::areas::{area, cell_at, grid, over, people};
use super::proposals::propose;
use crate::maps::write_map;
use crate::reference::{Area, Ground};

/// Cells without people, boxes that overlap, licences for areas beside boxes, areas that rank by people and differ in
/// cells, and more covered cells than a byte counts.
pub fn add(cases: &mut Cases) {
    add_without_people(cases);
    add_overlaps(cases);
    add_beside_boxes(cases);
    add_level(cases);
    add_ranked(cases);
    add_many(cases);
}

fn map_of(areas: &[(u32, &str)]) -> Vec<u8> {
    let areas: Vec<Area> =
        (1..).zip(areas).map(|(number, &(weight, text))| grid(number, weight, &people(text))).collect();
    write_map(&areas)
}

/// From an empty register, grants licences on some grounds, with call signs from 1 on.
fn hold(cases: &mut Cases, grounds: &[Ground]) {
    hold_and_propose(cases, grounds, &[], &[], &[]);
}

/// The same, with coverage of some areas and a proposal after the grants of some call signs.
fn hold_and_propose(cases: &mut Cases, grounds: &[Ground], after: &[u32], map: &[u8], numbers: &[u16]) {
    cases.empty();
    for (call_sign, &ground) in (1..).zip(grounds) {
        cases.grant(call_sign, ground);
        if after.contains(&call_sign) {
            propose(cases, map.to_vec(), numbers, &[0]);
        }
    }
}

/// One cell with people among eight without: a box beside it, a box over it, the whole area, and the first one
/// cancelled.
fn add_without_people(cases: &mut Cases) {
    let map = map_of(&[(1, "0 0 0 / 0 7 0 / 0 0 0")]);
    let grounds = [over((0, 0), (0, 2)), over((0, 2), (1, 1)), Ground::Area(1)];
    hold_and_propose(cases, &grounds, &[1, 2, 3], &map, &[1]);
    cases.cancel(1);
    propose(cases, map, &[1], &[0]);
}

/// Boxes that meet in a gap alone, one of them a second time, one around all cells, and one over the gap.
fn add_overlaps(cases: &mut Cases) {
    let map = map_of(&[(1, "1 2 3 4 / 5 - 6 7 / 8 9 0 1")]);
    let (north, south) = (over((0, 1), (0, 1)), over((1, 2), (1, 2)));
    let grounds = [north, south, north, over((0, 2), (0, 3)), over((1, 1), (1, 1))];
    hold_and_propose(cases, &grounds, &[2, 3, 5], &map, &[1]);
}

/// Two areas in one place under one box, with licences for each of them and for an area that the map lacks; then the
/// box is cancelled, which leaves whole blocks and no part. Last comes a map that is refused.
fn add_beside_boxes(cases: &mut Cases) {
    let map = map_of(&[(1, "3 0 / - 2"), (2, "5 5 0 / 0 - 1")]);
    let [one, two, lacking] = [1, 2, 416].map(Ground::Area);
    let grounds = [one, over((0, 0), (0, 2)), two, two, lacking, one];
    hold_and_propose(cases, &grounds, &[2, 5, 6], &map, &[1, 2, 416]);
    cases.cancel(2);
    propose(cases, map, &[1, 2, 416], &[0]);
    propose(cases, Vec::new(), &[1], &[0]);
}

/// Three areas, each with pop 100 and c 150, that differ in cells alone: the draw decides, whichever has most cells.
fn add_level(cases: &mut Cases) {
    hold(cases, &[Ground::Area(1), Ground::Area(2), Ground::Area(3), over((0, 0), (0, 0))]);
    let [few, more, most] = [(1, "50 50"), (1, "50 0 50"), (1, "50 50 0 0 0 / - 0 - - -")];
    for areas in [[few, more, most], [most, few, more]] {
        propose(cases, map_of(&areas), &[1, 2, 3], &[0, 1, 2]);
    }
}

/// Document 01's holding 8, in which the second area has fewer white-space people, with more cells in the first area
/// and in the second.
fn add_ranked(cases: &mut Cases) {
    hold(cases, &[Ground::Area(1), Ground::Area(2), over((0, 0), (0, 0))]);
    for (one, two) in [("80 20 0 0 0 0", "80 40"), ("80 20", "80 40 0 0 0 0")] {
        propose(cases, map_of(&[(1, one), (3, two)]), &[1, 2], &[0, 1]);
    }
}

/// Six licences over 43 cells, of which one has people: 258 covered cells.
fn add_many(cases: &mut Cases) {
    let cells = (0..43).map(|column| Some(cell_at(u32::from(column == 0), 0, column)));
    let map = write_map(&[area(1, 1, 43, cells.collect())]);
    let around = Ground::Box { south: 0, north: 1, west: 0, east: 43 };
    hold(cases, &[Ground::Area(1), around, Ground::Area(1), around, Ground::Area(1), around]);
    propose(cases, map, &[1], &[0]);
}

#[cfg(test)]
mod tests {
    use super::*;

    /// Each coverage of some cases by hand count: people under licences of 50 MHz, and cells.
    fn assert_covered(add: fn(&mut Cases), by_hand: &[(u32, u32)]) {
        let (mhz_pops, cells) = (Cases::printed(add, " mhz-pops "), Cases::printed(add, " cells "));
        let covered: Vec<(String, String)> = mhz_pops.into_iter().zip(cells).collect();
        let by_hand: Vec<(String, String)> =
            by_hand.iter().map(|(people, cells)| ((50 * people).to_string(), cells.to_string())).collect();
        assert_eq!(covered, by_hand);
    }

    #[test]
    fn coverage_by_hand_count() {
        assert_covered(add_without_people, &[(0, 3), (7, 6), (14, 15), (14, 12)]);
        assert_covered(add_overlaps, &[(23, 6), (31, 9), (77, 20)]);
        let [lacking, two] = [(0, 0), (32, 13)];
        let beside =
            [(8, 5), (10, 3), lacking, (8, 5), two, lacking, (13, 8), two, lacking, (10, 6), (22, 10), lacking];
        assert_covered(add_beside_boxes, &beside);
        let [few, more, most] = [(150, 3), (150, 4), (150, 7)];
        assert_covered(add_level, &[few, more, most, most, few, more]);
        assert_covered(add_ranked, &[(180, 7), (200, 3), (180, 3), (200, 7)]);
        assert_covered(add_many, &[(6, 258)]);
    }

    #[test]
    fn proposals_show_the_same_cells() {
        assert_eq!(Cases::printed(add_without_people, "  cells "), ["3", "6", "15", "12"]);
        assert_eq!(Cases::printed(add_beside_boxes, "  cells "), ["5", "3", "5", "13", "8", "13", "6", "10"]);
    }

    #[test]
    fn cells_decide_nothing() {
        assert_eq!(Cases::printed(add_level, "  share "), ["2500"; 6]);
        assert_eq!(Cases::printed(add_level, " tied "), ["3"; 6]);
        // The areas in order, draw by draw: each gets the share once.
        let mut cases = Cases::default();
        add_level(&mut cases);
        let gets: String = cases.played.iter().flat_map(|played| played.lines.lines()).filter_map(gets).collect();
        assert_eq!(gets, "swwwswwws".repeat(2));
        assert_eq!(Cases::printed(add_ranked, "  share "), ["29000"; 4]);
    }

    /// A letter for what an area gets.
    fn gets(line: &str) -> Option<char> {
        match line.trim_start() {
            "whole" => Some('w'),
            share if share.starts_with("share ") => Some('s'),
            _ => None,
        }
    }
}
