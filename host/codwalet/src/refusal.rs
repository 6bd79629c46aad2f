//! Refusals: why a call was refused.

use crate::{Flaw, grouped, raw};
use std::fmt;

/// Why a call was refused, by document 01's numbers.
#[derive(Clone, Copy, Debug, PartialEq, Eq, Hash)]
#[non_exhaustive]
pub enum Refusal {
    /// 1: the map ends before or inside a field that is due.
    MapEnds,
    /// 2: a field of the map is outside its limits, or a bit is set past the last column.
    MapLimit,
    /// 3: bytes follow the map's last area.
    MapExtra,
    /// 4: an area's number is not above the one before.
    MapOrder,
    /// 5: an area's population is 0 or too large.
    MapPopulation,
    /// 6: the call sign is 0, the ground is ill-formed, or the width is not 1 to 50.
    IllFormed {
        /// What is wrong, as [`Licence::flaw`](crate::Licence::flaw) finds it.
        flaw: Option<Flaw>,
    },
    /// 7: the mask is shorter than the area's rows x columns.
    MaskShort,
    /// 8: the table is too short.
    TableShort {
        /// The entries that would do.
        needed: usize,
    },
    /// 9: the call sign is in force already.
    InForce,
    /// 10: as many licences are in force as can be.
    Full,
    /// 11: the call sign is not in force.
    NotInForce,
    /// 12: more areas are partial than a proposal can have.
    TooManyPartial,
    /// 13: the proposal has no area with a share.
    NotOnePart,
}

impl Refusal {
    /// Document 01's number.
    pub fn number(self) -> u32 {
        match self {
            Refusal::MapEnds => raw::MAP_ENDS,
            Refusal::MapLimit => raw::MAP_LIMIT,
            Refusal::MapExtra => raw::MAP_EXTRA,
            Refusal::MapOrder => raw::MAP_ORDER,
            Refusal::MapPopulation => raw::MAP_POPULATION,
            Refusal::IllFormed { .. } => raw::ILL_FORMED,
            Refusal::MaskShort => raw::MASK_SHORT,
            Refusal::TableShort { .. } => raw::TABLE_SHORT,
            Refusal::InForce => raw::IN_FORCE,
            Refusal::Full => raw::FULL,
            Refusal::NotInForce => raw::NOT_IN_FORCE,
            Refusal::TooManyPartial => raw::TOO_MANY,
            Refusal::NotOnePart => raw::NOT_ONE_PART,
        }
    }

    /// The words for the number, the same as in C.
    pub fn words(self) -> &'static str {
        let row = raw::REFUSALS.iter().find(|(number, _)| *number == self.number());
        row.map_or("", |(_, words)| words)
    }

    /// What the engine answered: nothing if it is 0. The flaw of a licence is for the caller to add.
    pub(crate) fn from_raw(number: u32, needed: u64) -> Option<Refusal> {
        Some(match number {
            raw::ACCEPTED => return None,
            raw::MAP_ENDS => Refusal::MapEnds,
            raw::MAP_LIMIT => Refusal::MapLimit,
            raw::MAP_EXTRA => Refusal::MapExtra,
            raw::MAP_ORDER => Refusal::MapOrder,
            raw::MAP_POPULATION => Refusal::MapPopulation,
            raw::ILL_FORMED => Refusal::IllFormed { flaw: None },
            raw::MASK_SHORT => Refusal::MaskShort,
            raw::TABLE_SHORT => Refusal::TableShort { needed: needed as usize },
            raw::IN_FORCE => Refusal::InForce,
            raw::FULL => Refusal::Full,
            raw::NOT_IN_FORCE => Refusal::NotInForce,
            raw::TOO_MANY => Refusal::TooManyPartial,
            raw::NOT_ONE_PART => Refusal::NotOnePart,
            other => unreachable!("the engine answered refusal {other}"),
        })
    }

    /// Refusals that come without a count.
    pub(crate) fn accepted(number: u32) -> Result<(), Refusal> {
        Refusal::from_raw(number, 0).map_or(Ok(()), Err)
    }
}

impl fmt::Display for Refusal {
    fn fmt(&self, out: &mut fmt::Formatter) -> fmt::Result {
        out.write_str(self.words())?;
        match self {
            Refusal::IllFormed { flaw: Some(flaw) } => write!(out, " ({flaw})"),
            Refusal::TableShort { needed } => write!(out, ": {} entries are needed", grouped(*needed as u64)),
            _ => Ok(()),
        }
    }
}

impl std::error::Error for Refusal {}

#[cfg(test)]
mod tests {
    use super::*;
    use crate::limits;

    #[test]
    fn every_number_of_the_header_has_its_refusal() {
        for (number, words) in raw::REFUSALS {
            let refusal = Refusal::from_raw(number, 5).expect("the number is not 0");
            assert_eq!((refusal.number(), refusal.words()), (number, words));
        }
        assert_eq!(raw::REFUSALS.map(|(number, _)| number).as_slice(), (1..=13).collect::<Vec<u32>>());
    }

    #[test]
    fn words_name_the_limits() {
        let said = [
            (Refusal::MapPopulation, limits::POPULATION),
            (Refusal::IllFormed { flaw: None }, limits::FULL_WIDTH.into()),
            (Refusal::Full, limits::LICENCES as u64),
            (Refusal::TooManyPartial, limits::PARTIAL_AREAS as u64),
        ];
        for (refusal, limit) in said {
            assert!(refusal.words().contains(&grouped(limit)), "{refusal}");
        }
    }

    #[test]
    fn what_comes_beside_the_number_is_said() {
        let table = Refusal::TableShort { needed: 1_046 };
        assert_eq!(table.to_string(), "the table is too short: 1,046 entries are needed");
        let licence = Refusal::IllFormed { flaw: Some(Flaw::AreaNumber(417)) };
        assert_eq!(
            licence.to_string(),
            "the call sign is 0, the ground is ill-formed, or the width is not 1 to 50 (area 417 is not within 1 to 416)"
        );
    }
}
