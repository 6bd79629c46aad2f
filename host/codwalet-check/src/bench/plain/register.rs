//! Grant and cancellation. A register is passed as C passes it, which costs a copy.

use codwalet::limits::{AREA_NUMBER, LATITUDE, LONGITUDE};
use codwalet::raw::{
    FULL, FULL_WIDTH, GROUND_AREA, GROUND_BOX, ILL_FORMED, IN_FORCE, Licence, NOT_IN_FORCE, Register, Step,
};

/// The register with a licence of 50 MHz granted. Refused by 6, 9 or 10.
#[inline(never)]
pub extern "C" fn grant(current: Register, licence: Licence) -> Step {
    put(current, licence, FULL_WIDTH)
}

/// The register with a licence of so many MHz granted. Refused by 6, 9 or 10.
#[inline(never)]
pub extern "C" fn grant_width(current: Register, licence: Licence, width: u32) -> Step {
    put(current, licence, width)
}

#[inline(always)]
fn put(mut current: Register, licence: Licence, width: u32) -> Step {
    let is_width = (1..=FULL_WIDTH).contains(&width);
    let refusal = if licence.call_sign == 0 || !ground_formed(&licence) || !is_width {
        ILL_FORMED
    } else if current.places.iter().any(|place| place.call_sign == licence.call_sign) {
        IN_FORCE
    } else if let Some(free) = current.places.iter_mut().find(|place| place.call_sign == 0) {
        *free = granted(&licence, FULL_WIDTH - width);
        0
    } else {
        FULL
    };
    Step { next: current, refusal }
}

/// The register with a licence cancelled. Refused by 11.
#[inline(never)]
pub extern "C" fn cancel(mut current: Register, call_sign: u32) -> Step {
    let mut refusal = NOT_IN_FORCE;
    for place in &mut current.places {
        if call_sign != 0 && place.call_sign == call_sign {
            *place = Licence::default();
            refusal = 0;
        }
    }
    Step { next: current, refusal }
}

/// The licence as a register holds it: what its ground has no use for is 0, and so is what it lacks to 50 MHz if it has
/// them.
fn granted(&Licence { call_sign, area, kind, south, north, west, east, .. }: &Licence, narrower_by: u32) -> Licence {
    let free = Licence { call_sign, kind, narrower_by: narrower_by as u8, ..Licence::default() };
    match kind {
        GROUND_AREA => Licence { area, ..free },
        _ => Licence { south, north, west, east, ..free },
    }
}

fn ground_formed(licence: &Licence) -> bool {
    match licence.kind {
        GROUND_AREA => (1..=AREA_NUMBER).contains(&licence.area),
        GROUND_BOX => {
            -LATITUDE <= licence.south
                && licence.south < licence.north
                && licence.north <= LATITUDE
                && -LONGITUDE <= licence.west
                && licence.west < licence.east
                && licence.east <= LONGITUDE
        }
        _ => false,
    }
}
