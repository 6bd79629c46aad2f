//! Licences narrower than 50 MHz.

use super::Cases;
use super::areas::{grid, one_row, over, people};
use super::footprints::{LONG, lent, outline, random_ground, random_map};
use super::proposals::propose;
use crate::maps::write_map;
use crate::random::Random;
use crate::reference::Ground;

/// Widths at their limits and past them; slices in the place of one licence; one person and one MHz-pop below, at and
/// above 99 and 90 in the hundred; cancellations; footprints; then random licences.
pub fn add(cases: &mut Cases, random: &mut Random) {
    add_limits(cases);
    add_refused(cases);
    add_slices(cases);
    add_near_by_people(cases);
    add_near_by_mhz_pops(cases);
    add_cancelled(cases);
    add_footprints(cases);
    for _ in 0..20 {
        add_random(cases, random);
    }
}

/// From an empty register, grants so many MHz on some grounds, with call signs from 1 on.
fn hold(cases: &mut Cases, held: &[(Ground, u32)]) {
    cases.empty();
    for (call_sign, &(ground, width)) in (1..).zip(held) {
        cases.grant_width(call_sign, ground, width);
    }
}

/// The same, with coverage of area 1 and a proposal after them.
fn hold_and_propose(cases: &mut Cases, held: &[(Ground, u32)], map: &[u8]) {
    hold(cases, held);
    propose(cases, map.to_vec(), &[1], &[0]);
}

/// Widths at their limits and past them, on an area and on a box over all of it: those that are accepted count.
fn add_limits(cases: &mut Cases) {
    let widths = [0, 1, 49, 50, 51, 255, 256, 306, 65_536 + 50, 1 << 31, u32::MAX];
    for all in [Ground::Area(1), over((0, 0), (0, 4))] {
        hold_and_propose(cases, &widths.map(|width| (all, width)), &one_row());
    }
}

/// A width that is refused by 6 comes ahead of 9 and of 10, as a call sign or a ground does.
fn add_refused(cases: &mut Cases) {
    let all = Ground::Area(1);
    hold(cases, &[(all, 1); 64]);
    for (call_sign, width) in [(64, 0), (64, 51), (64, 50), (65, 0), (65, 51), (65, 50), (0, 50), (0, 51)] {
        cases.grant_width(call_sign, all, width);
    }
    cases.grant_width(65, Ground::Area(417), 50);
    cases.grant(65, all);
    propose(cases, one_row(), &[1], &[0]);
}

/// One licence of 50 MHz over part of a row, ten of 5 and others that add to 50, which differ in cells alone; and the
/// first beside the ten.
fn add_slices(cases: &mut Cases) {
    let part = over((0, 0), (2, 3));
    for widths in [&[50][..], &[5; 10], &[49, 1], &[1, 2, 47], &[50, 5, 5, 5, 5, 5, 5, 5, 5, 5, 5]] {
        let held: Vec<(Ground, u32)> = widths.iter().map(|&width| (part, width)).collect();
        hold_and_propose(cases, &held, &one_row());
    }
}

/// An area of 100 people under 50 MHz, and so many of its people under 50 more, by one licence and by two: one person
/// below, at and above 90 and 99 in the hundred.
fn add_near_by_people(cases: &mut Cases) {
    let map = write_map(&[grid(1, 3, &people("1 1 17 79 1 1"))]);
    // 79, 80, 81, 97, 98 and 99 people.
    let parts = [(3, 3), (3, 4), (3, 5), (2, 4), (2, 5), (1, 5)].map(|columns| over((0, 0), columns));
    for part in parts {
        for slices in [&[(part, 50)][..], &[(part, 49), (part, 1)]] {
            hold_and_propose(cases, &[&[(Ground::Area(1), 50)], slices].concat(), &map);
        }
    }
}

/// An area of one person and 99: one MHz-pop of its 10,000 below, at and above 99 and 90 in the hundred, and others near
/// the whole.
fn add_near_by_mhz_pops(cases: &mut Cases) {
    let map = write_map(&[grid(1, 3, &people("1 99"))]);
    let (all, one, others) = (Ground::Area(1), over((0, 0), (0, 0)), over((0, 0), (1, 1)));
    let near: [&[(Ground, u32)]; 8] = [
        &[(all, 50), (all, 48), (others, 1)],
        &[(all, 50), (all, 49)],
        &[(all, 50), (all, 49), (one, 1)],
        &[(all, 50), (all, 39), (others, 1)],
        &[(all, 50), (all, 40)],
        &[(all, 50), (all, 40), (one, 1)],
        &[(all, 50), (all, 49), (others, 1)],
        &[(all, 50), (all, 50), (one, 1)],
    ];
    for held in near {
        hold_and_propose(cases, held, &map);
    }
}

/// A width goes with its licence: granted again without one, the call sign has 50 MHz.
fn add_cancelled(cases: &mut Cases) {
    let part = over((0, 0), (2, 3));
    hold_and_propose(cases, &[(part, 3), (Ground::Area(1), 7)], &one_row());
    cases.cancel(1);
    propose(cases, one_row(), &[1], &[0]);
    cases.grant(1, part);
    propose(cases, one_row(), &[1], &[0]);
    cases.cancel(1);
    cases.grant_width(1, part, 1);
    propose(cases, one_row(), &[1], &[0]);
}

/// Footprints that start from cells under narrow licences too, and tables that are too short for them.
fn add_footprints(cases: &mut Cases) {
    let (middle, first) = (over((0, 0), (2, 3)), over((0, 0), (0, 0)));
    let held: [&[(Ground, u32)]; 5] = [
        &[(middle, 7)],
        &[(over((0, 0), (3, 3)), 1)],
        &[(middle, 49), (middle, 1), (middle, 30), (middle, 20)],
        &[(middle, 50), (middle, 50), (first, 1)],
        &[(middle, 50), (middle, 50), (middle, 49), (middle, 1)],
    ];
    for held in held {
        hold(cases, held);
        outline(cases, &one_row(), &[lent(0, 6, 9), lent(0, 6, 0)]);
    }
}

/// Some licences of any widths on one area or two, with a proposal and its footprint.
fn add_random(cases: &mut Cases, random: &mut Random) {
    let map = random_map(random);
    let count = random.between(1, 6);
    let held: Vec<(Ground, u32)> = (0..count).map(|_| (random_ground(random), random.between(1, 50) as u32)).collect();
    hold(cases, &held);
    let draw = random.word() as u32;
    propose(cases, map.clone(), &[1, 2], &[draw]);
    outline(cases, &map, &[lent(draw, 45, LONG)]);
}

#[cfg(test)]
mod tests {
    use super::*;

    #[test]
    fn widths_at_their_limits() {
        assert_eq!(Cases::printed(add_limits, "grant ").concat(), "60006666666".repeat(2));
        // 100 MHz over 20 people.
        assert_eq!(Cases::printed(add_limits, " mhz-pops "), ["2000"; 2]);
        let refusals = Cases::printed(add_refused, "grant ");
        assert_eq!(refusals[64..], ["6", "6", "9", "6", "6", "10", "6", "6", "6", "10"]);
        assert_eq!(Cases::printed(add_refused, " mhz-pops "), ["1280"]);
    }

    #[test]
    fn slices_differ_in_cells_alone() {
        assert_eq!(Cases::printed(add_slices, " mhz-pops "), ["350", "350", "350", "350", "700"]);
        assert_eq!(Cases::printed(add_slices, "  share "), ["350", "350", "350", "350", "700"]);
        assert_eq!(Cases::printed(add_slices, " cells "), ["2", "20", "4", "6", "22"]);
    }

    /// "Kind: 1 exact, 2 rounded up, 3 one part."
    #[test]
    fn near_the_whole() {
        let twice = |each: [&'static str; 6]| each.map(|one| [one; 2]).concat();
        let c = twice(["8950", "9000", "9050", "9850", "9900", "9950"]);
        assert_eq!(Cases::printed(add_near_by_people, " mhz-pops "), c);
        assert_eq!(Cases::printed(add_near_by_people, " whole "), twice(["0", "0", "0", "0", "1", "1"]));
        assert_eq!(Cases::printed(add_near_by_people, " kind "), twice(["3", "2", "2", "2", "1", "1"]));
        let c = ["9899", "9900", "9901", "8999", "9000", "9001", "9999", "10001"];
        assert_eq!(Cases::printed(add_near_by_mhz_pops, " mhz-pops "), c);
        assert_eq!(Cases::printed(add_near_by_mhz_pops, " whole "), ["0", "1", "1", "0", "0", "0", "1", "1"]);
        assert_eq!(Cases::printed(add_near_by_mhz_pops, " kind "), ["2", "1", "1", "3", "2", "2", "1", "3"]);
    }

    #[test]
    fn a_width_goes_with_its_licence() {
        assert_eq!(Cases::printed(add_cancelled, " mhz-pops "), ["161", "140", "490", "147"]);
    }

    #[test]
    fn footprints_start_from_narrow_licences() {
        let masks = Cases::printed(add_footprints, " mask ");
        let lent_enough: Vec<&String> = masks.iter().step_by(2).collect();
        assert_eq!(lent_enough, ["00010.", "00010.", "00110.", "10010.", "01111."]);
    }
}
