//! Footprints.

use super::Cases;
use super::areas::{People, grid, one_row, over, people, refused};
use super::encoding::{Call, Case};
use super::proposals::{held, hold};
use crate::maps::write_map;
use crate::random::Random;
use crate::reference::{self, Area, Ground};

/// A table that is long enough for every area here.
pub const LONG: u16 = 4_000;

/// What a footprint is made with: a draw, the bytes of the mask and the entries of the table.
#[derive(Clone, Copy)]
pub struct Lent {
    draw: u32,
    mask: u16,
    table: u16,
}

pub const fn lent(draw: u32, mask: u16, table: u16) -> Lent {
    Lent { draw, mask, table }
}

/// Document 01's holdings 10 to 12, the refusals, tied areas, areas of some shapes; then random areas.
pub fn add(cases: &mut Cases, random: &mut Random) {
    add_holdings(cases);
    add_refused(cases);
    add_tied(cases);
    add_shapes(cases);
    for _ in 0..60 {
        add_random(cases, random);
    }
}

/// Footprints on one map. Of each, the entry from which none may change is the first one past those used.
pub fn outline(cases: &mut Cases, map: &[u8], lent: &[Lent]) {
    let call = |lent: &Lent| {
        let mut mask = vec![0; usize::from(lent.mask)];
        let made = reference::footprint(map, cases.ledger(), lent.draw, &mut mask, usize::from(lent.table));
        Call {
            draw: lent.draw,
            mask: lent.mask,
            table: lent.table,
            unchanged_from: made.map_or(0, |made| made.used as u16),
        }
    };
    let calls = lent.iter().map(call).collect();
    let map = map.to_vec();
    cases.add(Case::Footprints { map, calls });
}

/// The entries of the table that a footprint needs; 0 if it needs none or there is no footprint.
fn needed(cases: &Cases, map: &[u8], draw: u32) -> u16 {
    let mut mask = [0; 64];
    let refused = reference::footprint(map, cases.ledger(), draw, &mut mask, 0).err();
    refused.map_or(0, |refused| refused.needed as u16)
}

/// Holdings 10 to 12, each with buffers that suffice and that don't; before them nothing is held, so 13 comes before 7.
fn add_holdings(cases: &mut Cases) {
    let map = one_row();
    cases.empty();
    outline(cases, &map, &[lent(0, 0, 0)]);
    for call_sign in 1..=3 {
        cases.grant(call_sign, over((0, 0), (2, 3)));
        let needed = needed(cases, &map, 0);
        let each = [
            lent(0, 5, needed),
            lent(0, 5, needed.saturating_sub(1)),
            lent(0, 4, needed),
            lent(0, 9, needed + 3),
            lent(0, 0, 0),
            lent(u32::MAX, 6, 0),
        ];
        outline(cases, &map, &each);
    }
    // A cancelled licence no longer counts.
    cases.cancel(2);
    outline(cases, &map, &[lent(0, 5, 100)]);
}

/// Maps that are refused; kinds 1 and 2, refused by 13; twenty-one partial areas, refused by 12.
fn add_refused(cases: &mut Cases) {
    for map in refused(one_row()) {
        outline(cases, &map, &[lent(0, 5, 5)]);
    }
    let rounded_up = [held(1, 100, 180)];
    let exact = [held(1, 100, 100), held(1, 100, 100)];
    for areas in [&rounded_up[..], &exact] {
        let map = hold(cases, areas);
        outline(cases, &map, &[lent(0, 2, 200), lent(7, 0, 0)]);
    }
    let map = hold(cases, &[held(1, 100, 35); 21]);
    outline(cases, &map, &[lent(0, 0, 0)]);
}

/// Tied areas, each with pop 100 and c 150: each draw has its own area.
fn add_tied(cases: &mut Cases) {
    let one = grid(1, 1, &people("50 20 30"));
    let two = grid(2, 1, &people("50 40 10 / - 0 -"));
    let map = write_map(&[one, two]);
    cases.empty();
    cases.grant(1, Ground::Area(1));
    cases.grant(2, Ground::Area(2));
    cases.grant(3, over((0, 0), (0, 0)));
    outline(cases, &map, &[0, 1, 2, u32::MAX].map(|draw| lent(draw, 8, 400)));
}

/// A winding strip, cells without neighbours, one cell, a gap in the middle, ties in the last ring, mostly cells
/// without people, and many people.
fn add_shapes(cases: &mut Cases) {
    let shapes = [
        ("1 2 3 4 5 / - - - - 6 / 11 10 9 8 7 / 12 - - - - / 13 14 15 16 17", over((0, 0), (0, 1))),
        ("3 - 4 / - - - / 5 - 6", over((0, 0), (0, 0))),
        ("9", over((0, 0), (0, 0))),
        ("2 2 2 / 2 - 2 / 2 2 2", over((0, 2), (0, 2))),
        ("1 1 1 1 1 1 / 1 1 1 1 1 1 / 1 1 1 1 1 1 / 1 1 1 1 1 1 / 1 1 1 1 1 1", over((1, 2), (2, 3))),
        ("7 0 0 0 / 0 0 0 0 / 0 0 0 1", over((0, 0), (0, 0))),
        ("300 400 500 600 700 800 900", over((0, 0), (3, 3))),
    ];
    for (text, ground) in shapes {
        add_shape(cases, &people(text), ground);
    }
}

/// The footprints with one licence on a ground, with two and with three.
fn add_shape(cases: &mut Cases, people: &People, ground: Ground) {
    let map = write_map(&[grid(7, 3, people)]);
    let places = (people.len() * people[0].len()) as u16;
    cases.empty();
    for call_sign in 1..=3 {
        cases.grant(call_sign, ground);
        let needed = needed(cases, &map, call_sign);
        let each = [lent(call_sign, places, LONG), lent(call_sign, places + 2, needed)];
        outline(cases, &map, &each);
    }
}

/// One area or two with up to three licences, mostly on boxes; the second table may be too short.
fn add_random(cases: &mut Cases, random: &mut Random) {
    cases.empty();
    let map = random_map(random);
    for call_sign in 1..random.between(2, 4) {
        let ground = random_ground(random);
        cases.grant(call_sign as u32, ground);
    }
    let draw = random.word() as u32;
    let needed = needed(cases, &map, draw);
    let table = random.pick(&[needed, needed.saturating_sub(1), LONG]);
    outline(cases, &map, &[lent(draw, 45, needed), lent(draw, 42, table)]);
}

/// One area or two.
pub fn random_map(random: &mut Random) -> Vec<u8> {
    let count = random.pick(&[1, 1, 2]);
    let grids = (1..=count).map(|number| {
        let weight = random.pick(&[1, 2, 65_535]);
        grid(number, weight, &random_people(random))
    });
    write_map(&grids.collect::<Vec<Area>>())
}

/// People of a grid that is accepted: one without people is drawn again.
fn random_people(random: &mut Random) -> People {
    let drawn = any_people(random);
    let accepted = drawn.iter().flatten().flatten().any(|&people| people > 0);
    if accepted { drawn } else { random_people(random) }
}

/// Up to 6 rows and 7 columns, with more or fewer people and gaps.
fn any_people(random: &mut Random) -> People {
    let (rows, columns) = (random.between(1, 6), random.between(1, 7));
    let most = random.pick(&[1, 3, 9, 40]);
    let gaps_in_ten = random.pick(&[0, 2, 5]);
    let mut place = || {
        let people = [0, random.between(0, most) as u32, random.between(1, most) as u32];
        (random.below(10) >= gaps_in_ten).then(|| random.pick(&people))
    };
    (0..rows).map(|_| (0..columns).map(|_| place()).collect()).collect()
}

/// An area of a random map, or mostly a box over some of its cells.
pub fn random_ground(random: &mut Random) -> Ground {
    if random.once_in(4) {
        return Ground::Area(random.pick(&[1, 2]));
    }
    let (top, left) = (random.below(6) as i32, random.below(7) as i32);
    let (bottom, right) = (top + random.below(4) as i32, left + random.below(4) as i32);
    over((top, bottom), (left, right))
}

#[cfg(test)]
mod tests {
    use super::*;

    #[test]
    fn tied_areas_take_turns() {
        let mut cases = Cases::default();
        add_tied(&mut cases);
        let printed = cases.played.last().map_or("", |played| &played.lines);
        let areas: Vec<&str> = printed.lines().filter(|line| line.starts_with(" area")).collect();
        assert_eq!(areas, [" area 1", " area 2", " area 1", " area 2"]);
    }

    /// The program has a mask of 64 bytes and a table of 4,096 entries to lend.
    #[test]
    fn no_more_is_lent_than_the_program_has() {
        let mut cases = Cases::default();
        add(&mut cases, &mut Random::new(1));
        for played in &cases.played {
            if let Case::Footprints { calls, .. } = &played.case {
                assert!(calls.iter().all(|call| call.mask <= 64 && call.table <= 4_096), "{calls:?}");
            }
        }
    }
}
