//! The register: a ledger, which is a list of lines.

use super::map::{LATITUDES, LONGITUDES, NUMBERS};
use std::ops::RangeInclusive;

/// Licences in force, at most ("its limit of 64").
const LICENCES: usize = 64;
/// "A licence now carries its width in MHz, 1 to 50."
const WIDTHS: RangeInclusive<u32> = 1..=50;

/// The ground of a licence.
#[derive(Clone, Copy, Debug, PartialEq, Eq)]
pub enum Ground {
    /// The area of a PEA number.
    Area(u16),
    /// A box, its edges in hundredths of an arc second.
    Box { south: i32, north: i32, west: i32, east: i32 },
}

impl Ground {
    /// "Either a PEA number 1 to 416, or a box with south < north and west < east, edges in the ranges above."
    fn well_formed(&self) -> bool {
        match *self {
            Ground::Area(number) => NUMBERS.contains(&u64::from(number)),
            Ground::Box { south, north, west, east } => {
                south < north
                    && west < east
                    && [south, north].iter().all(|edge| LATITUDES.contains(edge))
                    && [west, east].iter().all(|edge| LONGITUDES.contains(edge))
            }
        }
    }
}

/// A licence, which is also a line of the ledger. Its width is in MHz.
#[derive(Clone, Copy, Debug, PartialEq, Eq)]
pub struct Licence {
    pub call_sign: u32,
    pub ground: Ground,
    pub width: u32,
}

impl Licence {
    /// "A licence granted without one counts as 50."
    pub fn without_width(call_sign: u32, ground: Ground) -> Licence {
        Licence { call_sign, ground, width: 50 }
    }
}

/// "Grant: 6 if the call sign is 0 or the ground ill-formed; else 9 if a line has the call sign; else 10 if there are
/// 64 lines; else accepted, and its line is added." "A width outside 1 to 50 belongs to the ill-formed grounds of
/// number 6." The error is the refusal's number.
pub fn grant(lines: &[Licence], licence: Licence) -> Result<Vec<Licence>, u32> {
    if licence.call_sign == 0 || !licence.ground.well_formed() || !WIDTHS.contains(&licence.width) {
        return Err(6);
    }
    if lines.iter().any(|line| line.call_sign == licence.call_sign) {
        return Err(9);
    }
    if lines.len() >= LICENCES {
        return Err(10);
    }
    Ok([lines, &[licence]].concat())
}

/// "Cancellation: 11 if no line has the call sign; else accepted, and that line is struck." The error is the refusal's
/// number.
pub fn cancel(lines: &[Licence], call_sign: u32) -> Result<Vec<Licence>, u32> {
    if !lines.iter().any(|line| line.call_sign == call_sign) {
        return Err(11);
    }
    Ok(lines.iter().copied().filter(|line| line.call_sign != call_sign).collect())
}

#[cfg(test)]
mod tests {
    use super::*;

    #[test]
    fn refusals_of_the_ledger() {
        let area = |call_sign, number| Licence::without_width(call_sign, Ground::Area(number));
        let boxed = |south, north, west, east| Licence::without_width(1, Ground::Box { south, north, west, east });
        let ill_formed = [
            area(0, 1),
            area(1, 0),
            area(1, 417),
            boxed(1, 1, 0, 1),
            boxed(0, 1, 1, 1),
            boxed(-32_400_001, 0, 0, 1),
            boxed(0, 32_400_001, 0, 1),
            boxed(0, 1, -64_800_001, 0),
            boxed(0, 1, 0, 64_800_001),
        ];
        for licence in ill_formed {
            assert_eq!(grant(&[], licence), Err(6), "{licence:?}");
        }
        let full: Vec<Licence> = (1..=64).map(|call_sign| area(call_sign, 416)).collect();
        assert_eq!(grant(&full, area(64, 1)), Err(9));
        assert_eq!(grant(&full, area(65, 1)), Err(10));
        assert_eq!(grant(&full[..63], area(64, 416)), Ok(full.clone()));
        assert_eq!(cancel(&full, 65), Err(11));
        assert_eq!(cancel(&full, 64), Ok(full[..63].to_vec()));
    }

    #[test]
    fn widths_of_the_ledger() {
        let wide = |call_sign, width| Licence { width, ..Licence::without_width(call_sign, Ground::Area(416)) };
        let full: Vec<Licence> = (1..=64).map(|call_sign| wide(call_sign, call_sign.min(50))).collect();
        for width in [0, 51, 255, 256, 306, u32::MAX] {
            assert_eq!(grant(&[], wide(1, width)), Err(6), "{width}");
            // Ahead of a call sign that is in force, and of a full ledger.
            assert_eq!(grant(&full, wide(1, width)), Err(6), "{width}");
            assert_eq!(grant(&full, wide(65, width)), Err(6), "{width}");
        }
        for width in 1..=50 {
            assert_eq!(grant(&full[..2], wide(3, width)), Ok(vec![full[0], full[1], wide(3, width)]));
        }
        // A width does not make it another licence, and goes with its line.
        assert_eq!(grant(&full[..5], wide(5, 50)), Err(9));
        assert_eq!(grant(&full, wide(65, 1)), Err(10));
        let left = cancel(&full[..2], 1).expect("in force");
        assert_eq!(grant(&left, wide(1, 50)), Ok(vec![full[1], wide(1, 50)]));
        assert_eq!(Licence::without_width(7, Ground::Area(416)), wide(7, 50));
    }
}
