//! What the command shows beyond the engine's answers, from code of which nothing is proved:
//!
//! - an area's cells, which pictures show and `map show` counts ([`codwalet::AreaHead::cells`]);
//! - the last ring of a footprint, which is drawn only where it goes with the engine's mask ([`ring`]);
//! - the cells under a licence, which pictures mark and the ring is found from ([`codwalet::Licence::covers`]), whatever its width;
//! - what a footprint carries, added up from the people of the mask's cells ([`crate::picture::Drawing::carries`]);
//! - the notes on licences ([`crate::plan::Note`]), which `--strict` makes mistakes, and on the files of maps;
//! - the byte at which a refused map goes wrong ([`codwalet::Map::fault`]).
//!
//! No answer of the engine comes from any of it, and none of it works out c, blocks or shares, which widths count in.

pub mod ring;

use codwalet::Weighted;

/// V of cells with some people, in an area with a weight: 100 MHz for each of them.
pub fn value_of(weight: u32, people: u64) -> Weighted {
    Weighted(100 * u64::from(weight) * people)
}
