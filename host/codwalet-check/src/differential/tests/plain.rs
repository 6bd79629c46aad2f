//! The plain version of the benchmarks does the engine's work in full: it is held against the reference as the engine
//! is.

use super::{KINDS, answers, cases, compare};
use crate::bench::plain;
use crate::differential::engine::{Buffers, Engine};
use crate::random::Random;
use codwalet::raw::{Area, Covered, Held, Licence, Outline, Proposal, Register, Step};

/// The plain version as an engine. What it lacks, and no benchmark times, is the reference's.
struct Plain;

impl Engine for Plain {
    fn empty(&self) -> Register {
        answers::NO_LICENCE
    }

    fn grant(&self, current: Register, licence: Licence) -> Step {
        plain::grant(current, licence)
    }

    fn grant_width(&self, current: Register, licence: Licence, width: u32) -> Step {
        plain::grant_width(current, licence, width)
    }

    fn cancel(&self, current: Register, call_sign: u32) -> Step {
        plain::cancel(current, call_sign)
    }

    fn check_map(&self, map: &[u8]) -> u32 {
        plain::check_map(map)
    }

    fn look_up(&self, map: &[u8], number: u16) -> Area {
        answers::look_up(map, number)
    }

    fn areas(&self, map: &[u8]) -> Vec<(u16, Area)> {
        answers::areas(map, |number| self.look_up(map, number))
    }

    fn coverage(&self, map: &[u8], current: Register, number: u16) -> Covered {
        plain::coverage(map, current, number)
    }

    fn blocks(&self, map: &[u8], current: Register, number: u16) -> Held {
        answers::blocks(map, &answers::lines(&current), number)
    }

    fn propose(&self, map: &[u8], current: Register, draw: u32) -> Proposal {
        plain::propose(map, current, draw)
    }

    fn footprint(&self, map: &[u8], current: Register, draw: u32, lent: &mut Buffers) -> Outline {
        plain::footprint(map, current, draw, lent.mask.part_mut(), lent.table.part_mut())
    }
}

#[test]
fn the_plain_version_does_not_differ() {
    // Two cases of each kind, the slow ones included, and more of the quick ones.
    let of_each_kind = KINDS.iter().flat_map(|kind| (0..2).map(|number| (kind.make)(&mut Random::new(number))));
    for case in of_each_kind.chain(cases(200)) {
        assert_eq!(compare::run(&Plain, &case).difference, None, "{case}");
    }
}
