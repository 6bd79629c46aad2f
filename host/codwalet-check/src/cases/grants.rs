//! Grants and cancellations, in lists that each start from an empty register.

use super::Cases;
use crate::random::Random;
use crate::reference::Ground;

/// A full register and places used again; then random lists.
pub fn add(cases: &mut Cases, random: &mut Random) {
    add_full_register(cases);
    for _ in 0..6 {
        cases.empty();
        for _ in 0..60 {
            add_random(cases, random);
        }
    }
}

/// All 64 places, one licence more, and places used again after a cancellation.
fn add_full_register(cases: &mut Cases) {
    cases.empty();
    for number in 1..=64 {
        cases.grant(u32::from(number), Ground::Area(number));
    }
    for call_sign in [65, 64, 0] {
        cases.grant(call_sign, Ground::Area(1));
    }
    let around_the_origin = Ground::Box { south: -1, north: 1, west: -1, east: 1 };
    for call_sign in [64, 1, 33] {
        cases.cancel(call_sign);
        cases.cancel(call_sign);
        cases.grant(call_sign + 100, around_the_origin);
        cases.grant(call_sign, Ground::Area(2));
    }
    cases.cancel(0);
}

/// A grant, or less often a cancellation, with one of few call signs so that they meet, or with any.
fn add_random(cases: &mut Cases, random: &mut Random) {
    let any = random.word() as u32;
    let call_sign = random.pick(&[0, 1, 2, 3, u32::MAX, any]);
    if random.below(10) < 7 {
        let ground = random_ground(random);
        cases.grant(call_sign, ground);
    } else {
        cases.cancel(call_sign);
    }
}

/// A ground at the limits or past them.
fn random_ground(random: &mut Random) -> Ground {
    if random.once_in(2) {
        return Ground::Area(random.pick(&[0, 1, 5, 416, 417, 65_535]));
    }
    let latitudes = [-32_400_001, -32_400_000, -1, 0, 1, 32_400_000, 32_400_001];
    let longitudes = [-64_800_001, -64_800_000, -1, 0, 1, 64_800_000, 64_800_001];
    Ground::Box {
        south: random.pick(&latitudes),
        north: random.pick(&latitudes),
        west: random.pick(&longitudes),
        east: random.pick(&longitudes),
    }
}
