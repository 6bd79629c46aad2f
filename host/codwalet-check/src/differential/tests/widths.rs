//! Engines that take widths wrongly, at grants, in places of a register, or in what they come to.

use super::Mistake::{self, *};
use super::{Wrong, answers, cases, first_difference};
use crate::reference::{self, Area, Blocks, Ground, Licence};
use codwalet::raw::{self, FULL_WIDTH, GETS_ROUNDED_UP, GETS_SHARE, Held, ONE_PART, Outline, Proposal, Register};

/// The licences with other widths.
fn with_widths(lines: Vec<Licence>, width: impl Fn(u32) -> u32) -> Vec<Licence> {
    lines.into_iter().map(|line| Licence { width: width(line.width), ..line }).collect()
}

/// The licences with 1 MHz each, of which the MHz-pops are the people.
pub fn of_one_mhz(lines: &[Licence]) -> Vec<Licence> {
    with_widths(lines.to_vec(), |_| 1)
}

/// A cell counts for each MHz of a licence.
pub fn cells_times_width(lines: &[Licence], area: &Area) -> u64 {
    let cells = |line: &Licence| reference::covered(&[*line], area).cells;
    lines.iter().map(|line| u64::from(line.width) * cells(line)).sum()
}

/// Cells under a licence of no width are left out.
pub fn cells_of_some_width(lines: &[Licence], area: &Area) -> u64 {
    let wide: Vec<Licence> = lines.iter().copied().filter(|line| line.width > 0).collect();
    reference::covered(&wide, area).cells
}

/// The blocks of an area by its c, population and weight.
type Rule = fn(u64, u64, u64) -> Blocks;

/// Blocks from whole ones, whether the rest makes one more, and v.
fn blocks(whole: u64, is_whole: bool, value: u64, size: u64) -> Blocks {
    match value {
        _ if is_whole => Blocks { whole: whole + 1, value: 0, size: 0 },
        0 => Blocks { whole, value: 0, size: 0 },
        _ => Blocks { whole, value, size },
    }
}

/// Whole blocks of twice the population, as when c was people.
fn old_size(c: u64, population: u64, weight: u64) -> Blocks {
    let rest = c % (2 * population);
    blocks(c / (2 * population), rest >= 99 * population, weight * rest, 100 * weight * population)
}

fn ninety_nine_of_old(c: u64, population: u64, weight: u64) -> Blocks {
    let (whole, rest) = (c / (100 * population), c % (100 * population));
    blocks(whole, 50 * rest >= 99 * population, weight * rest, 100 * weight * population)
}

fn ninety_nine_strictly(c: u64, population: u64, weight: u64) -> Blocks {
    let (whole, rest) = (c / (100 * population), c % (100 * population));
    blocks(whole, rest > 99 * population, weight * rest, 100 * weight * population)
}

/// The rest is rounded down to whole people of 50 MHz where it is held against 99 in the hundred.
fn ninety_nine_of_people(c: u64, population: u64, weight: u64) -> Blocks {
    let (whole, rest) = (c / (100 * population), c % (100 * population));
    blocks(whole, rest / 50 * 50 >= 99 * population, weight * rest, 100 * weight * population)
}

/// v has the factor that it had when r was people. A proposal needs v below M, so it goes no further.
fn value_of_old(c: u64, population: u64, weight: u64) -> Blocks {
    let (whole, rest) = (c / (100 * population), c % (100 * population));
    let size = 100 * weight * population;
    blocks(whole, rest >= 99 * population, (50 * weight * rest).min(size - 1), size)
}

/// The rest is rounded down to whole people of 50 MHz in v.
fn value_of_people(c: u64, population: u64, weight: u64) -> Blocks {
    let (whole, rest) = (c / (100 * population), c % (100 * population));
    blocks(whole, rest >= 99 * population, rest / 50 * 50 * weight, 100 * weight * population)
}

fn blocks_rule(mistake: Mistake) -> Option<Rule> {
    match mistake {
        BlocksOfTheOldSize => Some(old_size),
        BlocksNinetyNineOfOld => Some(ninety_nine_of_old),
        BlocksNinetyNineStrictly => Some(ninety_nine_strictly),
        BlocksNinetyNineOfPeople => Some(ninety_nine_of_people),
        BlocksValueOfOld => Some(value_of_old),
        BlocksValueOfPeople => Some(value_of_people),
        _ => None,
    }
}

pub fn proposal_rule(mistake: Mistake) -> Option<Rule> {
    match mistake {
        ProposalOfTheOldSize => Some(old_size),
        ProposalNinetyNineOfOld => Some(ninety_nine_of_old),
        ProposalNinetyNineStrictly => Some(ninety_nine_strictly),
        ProposalNinetyNineOfPeople => Some(ninety_nine_of_people),
        ProposalValueOfOld => Some(value_of_old),
        ProposalValueOfPeople => Some(value_of_people),
        _ => None,
    }
}

fn by_rule(rule: Rule, lines: &[Licence], area: &Area) -> Blocks {
    rule(reference::covered(lines, area).mhz_pops, area.population(), area.weight.into())
}

/// The proposal by a mistaken rule for blocks.
pub fn propose(mistake: Mistake, map: &[u8], lines: &[Licence], draw: u32) -> Proposal {
    answers::propose_by(map, |areas| match proposal_rule(mistake) {
        None => reference::propose(areas, lines, draw),
        Some(rule) => {
            let held: Vec<Blocks> = areas.iter().map(|area| by_rule(rule, lines, area)).collect();
            reference::propose_blocks(areas, &held, lines, draw)
        }
    })
}

/// The proposal in which an area that is alone in S at just 90 in the hundred is not rounded up.
pub fn ninety_strictly(map: &[u8], lines: &[Licence], draw: u32) -> Proposal {
    let mut proposal = answers::propose(map, lines, draw);
    let areas = reference::read_map(map).unwrap_or_default();
    let partial: Vec<Blocks> = areas.iter().map(|area| reference::blocks(lines, area)).filter(|b| b.size > 0).collect();
    if let [alone] = partial[..]
        && 10 * alone.value == 9 * alone.size
    {
        let given = proposal.areas.iter_mut().find(|given| given.gets == GETS_ROUNDED_UP);
        given.into_iter().for_each(|given| (given.gets, given.share) = (GETS_SHARE, alone.value));
        proposal.kind = ONE_PART;
    }
    proposal
}

impl Wrong {
    /// The licences in force as the engine reads them from a register.
    pub fn lines(&self, register: &Register) -> Vec<Licence> {
        let lines = answers::lines(register);
        match self.0 {
            FreePlacesCount | CancelledLicencesCount => register.places.iter().map(answers::licence).collect(),
            WidthIsIgnored => with_widths(lines, |_| FULL_WIDTH),
            WidthWrapsInAByte => {
                let in_force = register.places.iter().filter(|place| place.call_sign != 0);
                let width = |place: &raw::Licence| (FULL_WIDTH as u8).wrapping_sub(place.narrower_by).into();
                in_force.map(|place| Licence { width: width(place), ..answers::licence(place) }).collect()
            }
            NoWidthIsFull => with_widths(lines, |width| if width == 0 { FULL_WIDTH } else { width }),
            NoWidthIsOne => with_widths(lines, |width| width.max(1)),
            _ => lines,
        }
    }

    /// The licence that a grant takes itself to be handed.
    pub fn due(&self, licence: &raw::Licence, width: Option<u32>) -> Licence {
        let width = width.map(|width| match self.0 {
            GrantWidthOfNoneIsFull if width == 0 => FULL_WIDTH,
            GrantWidthOf51 if width == FULL_WIDTH + 1 => FULL_WIDTH,
            GrantWidthOfALowByte => width & 0xff,
            GrantWidthOfALowHalf => width & 0xffff,
            _ => width,
        });
        answers::handed(licence, width)
    }

    pub fn spoil_refusal(&self, lines: &[Licence], licence: &raw::Licence, width: Option<u32>, refusal: u32) -> u32 {
        let without_width = reference::grant(lines, answers::handed(licence, None)).err();
        match (self.0, width) {
            (GrantRefusesTheByte, None) if u32::from(licence.narrower_by) >= FULL_WIDTH => 6,
            (GrantWidthOfFullIsRefused, Some(FULL_WIDTH)) | (GrantWidthOfOneIsRefused, Some(1)) => 6,
            (GrantWidthAfterInForce, Some(_)) if refusal == 6 && without_width == Some(9) => 9,
            (GrantWidthAfterFull, Some(_)) if refusal == 6 && without_width == Some(10) => 10,
            _ => refusal,
        }
    }

    /// What a grant leaves as the width of the place that it took, which had another before.
    pub fn spoil_width(&self, before: u8, licence: &raw::Licence, width: Option<u32>, place: &mut raw::Licence) {
        match (self.0, width) {
            (GrantReadsTheByte, None) | (GrantWidthReadsTheByte, Some(_)) => place.narrower_by = licence.narrower_by,
            (GrantKeepsTheWidthOfThePlace, None) => place.narrower_by = before,
            (GrantWidthIsIgnored, Some(_)) => place.narrower_by = 0,
            (GrantWidthIsStoredAsItIs, Some(width)) => place.narrower_by = width as u8,
            _ => {}
        }
    }

    pub fn spoil_blocks(&self, map: &[u8], lines: &[Licence], number: u16, held: &mut Held) {
        let areas = reference::read_map(map).unwrap_or_default();
        let area = areas.iter().find(|area| area.number == number);
        if let (Some(rule), Some(area)) = (blocks_rule(self.0), area) {
            let Blocks { whole, value, size } = by_rule(rule, lines, area);
            (held.whole, held.value, held.size) = (whole, value, size);
        }
    }

    /// The footprint, which may start from cells under wide licences alone.
    pub fn outline(&self, map: &[u8], lines: &[Licence], draw: u32, mask: &mut [u8], table: usize) -> (Outline, usize) {
        let least = match self.0 {
            FootprintOfFullWidth => FULL_WIDTH,
            FootprintOfSomeWidth => 1,
            _ => 0,
        };
        let wide: Vec<Licence> = lines.iter().copied().filter(|line| line.width >= least).collect();
        let areas = reference::read_map(map).unwrap_or_default();
        match reference::shared_area(&areas, lines, draw) {
            Ok((area, share)) => {
                let start = reference::covered_places(&wide, area);
                answers::outlined(reference::footprint_from(area, start, share, mask, table))
            }
            Err(_) => answers::footprint(map, lines, draw, mask, table),
        }
    }
}

/// The full width of the header is that of the reference.
#[test]
fn the_full_width_is_that_of_a_licence_without_one() {
    assert_eq!(Licence::without_width(1, Ground::Area(1)).width, FULL_WIDTH);
}

/// Each of these is seen in what it is about, and not by what follows from it.
#[test]
fn wrong_widths_are_seen_where_they_are() {
    let seen_at: [(&[Mistake], &[&str]); 5] = [
        (&[GrantWidthOfNoneIsFull, GrantWidthOf51, GrantWidthOfALowByte, GrantWidthOfALowHalf], &["refusal"]),
        (&[GrantWidthAfterInForce, GrantWidthAfterFull, GrantRefusesTheByte], &["refusal"]),
        (
            &[GrantReadsTheByte, GrantWidthReadsTheByte, GrantWidthIsIgnored, GrantKeepsTheWidthOfThePlace],
            &["licences in force", "place "],
        ),
        (&[CoverageInPeople, CoverageIn32Bits], &["MHz-pops"]),
        (&[FootprintOfFullWidth, FootprintOfSomeWidth], &["refusal", "needed", "mask at "]),
    ];
    let cases = cases(40);
    for (mistakes, names) in seen_at {
        for &mistake in mistakes {
            let what = first_difference(&cases, mistake).map(|(_, difference)| difference.what).unwrap_or_default();
            assert!(names.iter().any(|name| what.starts_with(name)), "{mistake:?} at {what:?}");
        }
    }
}
