//! Registers: grants and cancellations, registers that no calls can make, and lists of calls.

use crate::differential::answers::{NO_LICENCE, raw_licence};
use crate::differential::build::{self, SMALL};
use crate::differential::case::{Call, Case};
use crate::maps::write_map;
use crate::random::Random;
use crate::reference::{Area, Ground, Licence};
use codwalet::limits::{LATITUDE, LONGITUDE};
use codwalet::raw::{self, FULL_WIDTH, GROUND_AREA, GROUND_BOX, Register};

/// A call sign out of so many, or one of the ends.
fn call_sign(random: &mut Random, count: usize) -> u32 {
    match random.below(16) {
        0 => 0,
        1 => u32::MAX,
        _ => 1 + random.below(count) as u32,
    }
}

/// An edge at or past a limit, or anywhere.
fn edge(random: &mut Random, limit: i32) -> i32 {
    match random.below(8) {
        0 => random.word() as i32,
        1 => random.pick(&[i32::MIN, i32::MAX, -limit - 1, limit + 1]),
        2..4 => random.pick(&[-limit, limit, limit - 1, 1 - limit]),
        _ => random.between(-8, 8) as i32,
    }
}

/// A byte that leaves a width, at its ends or past them, or any.
fn narrower_by(random: &mut Random) -> u8 {
    match random.below(3) {
        0 => random.pick(&[0, 1, 49, 50, 51, 128, 206, 255]),
        1 => random.below(FULL_WIDTH as usize) as u8,
        _ => random.word() as u8,
    }
}

/// A width for a grant: mostly one that is accepted, else at and past the limits, or any.
fn width(random: &mut Random) -> u32 {
    match random.below(8) {
        0 => random.pick(&[0, 51, 255, 256, 257, 256 + FULL_WIDTH, 256 + FULL_WIDTH + 1, 1 << 31, u32::MAX]),
        1 => random.pick(&[1 << 8, 1 << 16, 1 << 24]) + build::width(random),
        2 => random.word() as u32,
        _ => build::width(random),
    }
}

/// A licence with every field at random: often ill-formed.
fn any_licence(random: &mut Random, call_sign: u32) -> raw::Licence {
    let kind = match random.below(8) {
        0 => random.word() as u8,
        1..4 => GROUND_AREA,
        _ => GROUND_BOX,
    };
    raw::Licence {
        call_sign,
        area: random.pick(&[0, 1, 2, 3, 415, 416, 417, u16::MAX]),
        kind,
        narrower_by: narrower_by(random),
        south: edge(random, LATITUDE),
        north: edge(random, LATITUDE),
        west: edge(random, LONGITUDE),
        east: edge(random, LONGITUDE),
    }
}

/// A licence to be granted: mostly well-formed, with what no grant reads at random.
fn licence(random: &mut Random, areas: &[Area], call_sign: u32) -> raw::Licence {
    let any = any_licence(random, call_sign);
    let good = raw_licence(&Licence::without_width(call_sign, build::ground(random, areas)));
    match (random.once_in(6), good.kind) {
        (true, _) => any,
        (false, GROUND_AREA) => raw::Licence { area: good.area, kind: good.kind, ..any },
        (false, _) => raw::Licence { area: any.area, narrower_by: any.narrower_by, ..good },
    }
}

fn grant_or_cancel(random: &mut Random, areas: &[Area], signs: usize, grants_in_four: usize) -> Call {
    let sign = call_sign(random, signs);
    if random.below(4) >= grants_in_four {
        return Call::Cancel(sign);
    }
    let licence = licence(random, areas, sign);
    if random.once_in(2) { Call::Grant(licence) } else { Call::GrantWidth(licence, width(random)) }
}

/// Grants and cancellations alone. With many call signs the register fills up.
pub fn grants_and_cancellations(random: &mut Random) -> Case {
    let areas = build::areas(random, 3, SMALL);
    let signs = random.pick(&[2, 20, 65, 200]);
    let grants_in_four = random.pick(&[1, 2, 3, 4]);
    let start = match random.below(3) {
        0 => None,
        _ => {
            let count = random.pick(&[1, 30, 62, 63, 64]);
            let grounds = build::grounds(random, &areas, count);
            let held = build::of_widths(random, &grounds);
            Some(numbered(build::register(random, &held)))
        }
    };
    let count = random.between(1, 120);
    let calls = (0..count).map(|_| grant_or_cancel(random, &areas, signs, grants_in_four)).collect();
    Case { map: write_map(&areas), start, calls, fill: random.word() }
}

/// The register with its call signs made 1, 2 and so on, which calls with few call signs meet.
fn numbered(mut register: Register) -> Register {
    for (place, number) in register.places.iter_mut().filter(|place| place.call_sign != 0).zip(1..) {
        place.call_sign = number;
    }
    register
}

/// A register that no calls can make: call signs in force twice, ill-formed grounds, licences of no width, and free
/// places that are not all 0.
fn forged_register(random: &mut Random, areas: &[Area]) -> Register {
    let mut register = NO_LICENCE;
    let signs = random.pick(&[1, 5, 100]);
    let free_in = random.pick(&[1, 2, 9, 1_000]);
    for place in &mut register.places {
        let sign = if random.once_in(free_in) { 0 } else { call_sign(random, signs) };
        *place = match random.below(3) {
            0 => any_licence(random, sign),
            1 => licence(random, areas, sign),
            _ => {
                let licence = raw_licence(&Licence::without_width(sign, Ground::Area(areas[0].number)));
                raw::Licence { narrower_by: narrower_by(random), ..licence }
            }
        };
    }
    register
}

/// Calls of every kind on a forged register.
pub fn forged(random: &mut Random) -> Case {
    let count = random.between(1, 5) as usize;
    let areas = build::areas(random, count, SMALL);
    let start = Some(forged_register(random, &areas));
    let calls = any_calls(random, &areas, 20);
    Case { map: write_map(&areas), start, calls, fill: random.word() }
}

/// The list of demand 3: calls of every kind from an empty register over one map.
pub fn list(random: &mut Random) -> Case {
    let count = random.between(1, 6) as usize;
    let areas = build::areas(random, count, SMALL);
    // A long list with many call signs fills the register.
    let count = if random.once_in(8) { 250 } else { random.between(1, 60) as usize };
    let calls = any_calls(random, &areas, count);
    Case { map: write_map(&areas), start: None, calls, fill: random.word() }
}

fn any_calls(random: &mut Random, areas: &[Area], count: usize) -> Vec<Call> {
    let signs = random.pick(&[3, 12, 40, 400]);
    let call = |_| match random.below(5) {
        0..3 => grant_or_cancel(random, areas, signs, 3),
        _ => build::read_call(random, areas),
    };
    (0..count).map(call).collect()
}
