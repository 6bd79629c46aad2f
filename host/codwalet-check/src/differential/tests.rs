//! The comparison bites: the reference itself, with one mistake at a time, is seen to differ.

mod cells;
mod plain;
mod widths;

use std::time::Duration;

use super::answers::{self, FREE, NO_LICENCE};
use super::case::{Call, Case};
use super::compare::{self, Difference};
use super::engine::{Buffers, Engine, Lent};
use super::kinds::KINDS;
use super::run::{MOST_DIFFERENCES, Test};
use super::seen::Seen;
use super::shrink::shrink;
use crate::random::Random;
use crate::reference;
use codwalet::raw::{Area, Covered, Held, Licence, Outline, Proposal, Register, Step};

/// Declares the mistakes, and lists them all but `Nothing`.
macro_rules! mistakes {
    ($($mistake:ident,)*) => {
        /// What is wrong with an engine.
        #[derive(Clone, Copy, Debug, PartialEq, Eq)]
        enum Mistake {
            Nothing,
            $($mistake,)*
        }

        use Mistake::*;

        const MISTAKES: &[Mistake] = &[$($mistake,)*];
    };
}

mistakes! {
    EmptyHoldsALicence,
    GrantRefusesAll,
    GrantTakesTwice,
    GrantTakesTwoPlaces,
    GrantTakesAPlaceInForce,
    GrantKeepsWhatIsUnused,
    GrantReadsTheByte,
    GrantRefusesTheByte,
    GrantKeepsTheWidthOfThePlace,
    GrantWidthReadsTheByte,
    GrantWidthIsIgnored,
    GrantWidthIsStoredAsItIs,
    GrantWidthOfNoneIsFull,
    GrantWidthOf51,
    GrantWidthOfALowByte,
    GrantWidthOfALowHalf,
    GrantWidthOfFullIsRefused,
    GrantWidthOfOneIsRefused,
    GrantWidthAfterInForce,
    GrantWidthAfterFull,
    RefusedGrantChangesARegister,
    CancelReturnsItsRegister,
    CancelStrikesOneOfTwo,
    CancelLeavesTheGround,
    CancelLeavesTheWidth,
    CancelledLicencesCount,
    FreePlacesCount,
    WidthIsIgnored,
    WidthWrapsInAByte,
    NoWidthIsFull,
    NoWidthIsOne,
    MapIsNeverRefused,
    LookUpRefusal,
    LookUpWeight,
    LookUpRows,
    LookUpColumns,
    LookUpPopulation,
    LookUpOffset,
    LookUpLength,
    AreasLackTheLast,
    AreasAreOutOfOrder,
    AreasStartElsewhere,
    CoverageMhzPops,
    CoverageInPeople,
    CoverageCellsTimesWidth,
    CoverageCellsOfNoWidth,
    CoverageIn32Bits,
    CoverageOfALackingArea,
    CoverageCells,
    CoverageCellsOfALackingArea,
    CoverageWhereRefused,
    CoverageOfCellsWithPeople,
    CoverageOfEachCellOnce,
    CoverageOfCellsUnderBoxes,
    CoverageOfPlaces,
    CoverageOfTheFirstArea,
    BlocksWhole,
    BlocksValue,
    BlocksSize,
    BlocksUnused,
    BlocksOfCoveredPopulation,
    BlocksOfTheOldSize,
    BlocksNinetyNineOfOld,
    BlocksNinetyNineStrictly,
    BlocksNinetyNineOfPeople,
    BlocksValueOfOld,
    BlocksValueOfPeople,
    ProposalKindIsExact,
    ProposalTiedIsOne,
    ProposalIgnoresTheDraw,
    ProposalWhiteSpace,
    ProposalTarget,
    ProposalShare,
    ProposalPastItsCount,
    ProposalCellsPastItsCount,
    ProposalCellsWhereRefused,
    ProposalCellsOfTheNextArea,
    ProposalOfCellsWithPeople,
    ProposalOfEachCellOnce,
    ProposalOfCellsUnderBoxes,
    ProposalOfPlaces,
    ProposalOfPartialAreasAlone,
    ProposalOfCoveredPopulation,
    ProposalCellsTimesWidth,
    ProposalCellsOfNoWidth,
    ProposalOfTheOldSize,
    ProposalNinetyNineOfOld,
    ProposalNinetyNineStrictly,
    ProposalNinetyNineOfPeople,
    ProposalValueOfOld,
    ProposalValueOfPeople,
    ProposalNinetyStrictly,
    ProposalTiesByCells,
    FootprintIsTheWholeArea,
    FootprintOfFullWidth,
    FootprintOfSomeWidth,
    FootprintArea,
    MaskAfterTheArea,
    MaskGuardBefore,
    MaskGuardAfter,
    MaskKeptAtEight,
    MaskWrittenWhereRefused,
    NeededIsOneMore,
    TableWrittenPastUse,
    TableGuard,
}

/// The reference as an engine, with a mistake.
struct Wrong(Mistake);

impl Wrong {
    fn is(&self, mistake: Mistake) -> bool {
        self.0 == mistake
    }

    /// Puts a licence into the first free place of a register.
    fn put(&self, register: &mut Register, licence: Licence, width: Option<u32>) {
        let wanted = |place: &&mut Licence| (place.call_sign == 0) != self.is(GrantTakesAPlaceInForce);
        let places = if self.is(GrantTakesTwoPlaces) { 2 } else { 1 };
        for place in register.places.iter_mut().filter(wanted).take(places) {
            let before = place.narrower_by;
            *place = match self.0 {
                GrantKeepsWhatIsUnused => licence,
                _ => answers::raw_licence(&self.due(&licence, width)),
            };
            self.spoil_width(before, &licence, width, place);
        }
    }

    /// A grant with a width or without, as the interface takes it.
    fn step(&self, current: Register, licence: Licence, width: Option<u32>) -> Step {
        let lines = answers::lines(&current);
        let refusal = match reference::grant(&lines, self.due(&licence, width)) {
            _ if self.is(GrantRefusesAll) => 10,
            Err(9) if self.is(GrantTakesTwice) && lines.len() < 64 => 0,
            answer => self.spoil_refusal(&lines, &licence, width, answer.err().unwrap_or(0)),
        };
        let mut next = current;
        if refusal == 0 {
            self.put(&mut next, licence, width);
        } else if self.is(RefusedGrantChangesARegister) {
            next.places[63].narrower_by ^= 1;
        }
        Step { next, refusal }
    }

    fn spoil_outline(&self, outline: &mut Outline) {
        match self.0 {
            FootprintArea if outline.refusal == 0 => outline.area += 1,
            NeededIsOneMore if outline.refusal == 8 => outline.needed += 1,
            _ => {}
        }
    }

    fn spoil_mask(&self, before: &Lent<u8>, mask: &mut Lent<u8>, outline: &Outline) {
        let last = mask.whole().len() - 1;
        match (self.0, outline.refusal) {
            (FootprintIsTheWholeArea, 0) => {
                mask.part_mut().iter_mut().filter(|byte| **byte == 0).for_each(|byte| *byte = 1)
            }
            (MaskAfterTheArea, 0) => mask.part_mut().iter_mut().rev().take(1).for_each(|byte| *byte ^= 2),
            (MaskGuardBefore, 0) => mask.whole_mut()[15] ^= 1,
            (MaskGuardAfter, 0) => mask.whole_mut()[last - 15] ^= 1,
            (MaskKeptAtEight, 8) => *mask = before.clone(),
            (MaskWrittenWhereRefused, 1..=7 | 9..) => mask.part_mut().fill(0),
            _ => {}
        }
    }

    fn spoil_table(&self, table: &mut Lent<u16>, used: usize) {
        match self.0 {
            TableWrittenPastUse => table.part_mut().iter_mut().skip(used).take(1).for_each(|entry| *entry ^= 1),
            TableGuard => table.whole_mut()[0] ^= 1,
            _ => table.part_mut()[..used].fill(0),
        }
    }
}

impl Engine for Wrong {
    fn empty(&self) -> Register {
        let mut register = NO_LICENCE;
        register.places[5].call_sign = u32::from(self.is(EmptyHoldsALicence));
        register
    }

    fn grant(&self, current: Register, licence: Licence) -> Step {
        self.step(current, licence, None)
    }

    fn grant_width(&self, current: Register, licence: Licence, width: u32) -> Step {
        self.step(current, licence, Some(width))
    }

    fn cancel(&self, current: Register, call_sign: u32) -> Step {
        let refusal = reference::cancel(&answers::lines(&current), call_sign).err().unwrap_or(0);
        let mut next = current;
        let most = if self.is(CancelStrikesOneOfTwo) { 1 } else { 64 };
        for place in next.places.iter_mut().filter(|place| place.call_sign == call_sign).take(most) {
            match self.0 {
                _ if refusal != 0 => {}
                CancelReturnsItsRegister => {}
                CancelLeavesTheGround | CancelledLicencesCount => place.call_sign = 0,
                CancelLeavesTheWidth => *place = Licence { narrower_by: place.narrower_by, ..FREE },
                _ => *place = FREE,
            }
        }
        Step { next, refusal }
    }

    fn check_map(&self, map: &[u8]) -> u32 {
        if self.is(MapIsNeverRefused) { 0 } else { answers::check_map(map) }
    }

    fn look_up(&self, map: &[u8], number: u16) -> Area {
        let mut area = answers::look_up(map, number);
        match self.0 {
            LookUpRefusal => area.refusal ^= 1,
            LookUpWeight => area.weight += 1,
            LookUpRows => area.rows += 1,
            LookUpColumns => area.columns += 1,
            LookUpPopulation => area.population += 1,
            LookUpOffset => area.offset += 1,
            LookUpLength => area.length += 1,
            _ => {}
        }
        area
    }

    fn areas(&self, map: &[u8]) -> Vec<(u16, Area)> {
        let mut areas = answers::areas(map, |number| self.look_up(map, number));
        match self.0 {
            AreasLackTheLast => areas.truncate(areas.len().saturating_sub(1)),
            AreasAreOutOfOrder => areas.reverse(),
            AreasStartElsewhere => areas.iter_mut().for_each(|(_, area)| area.offset += 1),
            _ => {}
        }
        areas
    }

    fn coverage(&self, map: &[u8], current: Register, number: u16) -> Covered {
        let lines = self.lines(&current);
        let mut covered = answers::coverage(map, &lines, number);
        match self.0 {
            CoverageMhzPops => covered.mhz_pops += 1,
            CoverageCells => covered.cells += 1,
            CoverageOfALackingArea if answers::look_up(map, number).rows == 0 => covered.mhz_pops = 1,
            CoverageInPeople => covered.mhz_pops = answers::coverage(map, &widths::of_one_mhz(&lines), number).mhz_pops,
            CoverageIn32Bits => covered.mhz_pops = u64::from(covered.mhz_pops as u32),
            _ => self.spoil_coverage(map, &lines, number, &mut covered),
        }
        covered
    }

    fn blocks(&self, map: &[u8], current: Register, number: u16) -> Held {
        let lines = self.lines(&current);
        let mut held = answers::blocks(map, &lines, number);
        match self.0 {
            BlocksOfCoveredPopulation => held = answers::blocks(&cells::covered_alone(map, &lines), &lines, number),
            BlocksWhole => held.whole += 1,
            BlocksValue => held.value += 1,
            BlocksSize => held.size += 1,
            BlocksUnused => held.unused += 1,
            _ => self.spoil_blocks(map, &lines, number, &mut held),
        }
        held
    }

    fn propose(&self, map: &[u8], current: Register, draw: u32) -> Proposal {
        let draw = if self.is(ProposalIgnoresTheDraw) { 0 } else { draw };
        let lines = self.lines(&current);
        let mut proposal = match self.0 {
            _ if widths::proposal_rule(self.0).is_some() => widths::propose(self.0, map, &lines, draw),
            ProposalNinetyStrictly => widths::ninety_strictly(map, &lines, draw),
            ProposalOfCoveredPopulation => answers::propose(&cells::covered_alone(map, &lines), &lines, draw),
            ProposalTiesByCells => cells::tied_by_cells(map, &lines, draw),
            _ => answers::propose(map, &lines, draw),
        };
        self.spoil_cells(map, &lines, &mut proposal);
        match self.0 {
            _ if proposal.refusal != 0 => {}
            ProposalKindIsExact => proposal.kind = 1,
            ProposalTiedIsOne => proposal.tied = proposal.tied.min(1),
            ProposalWhiteSpace => proposal.white_space += 1,
            ProposalTarget => proposal.target += 1,
            ProposalShare => {
                proposal.areas.iter_mut().filter(|given| given.gets == 3).for_each(|given| given.share += 1)
            }
            ProposalPastItsCount => proposal.areas[31].number = 416,
            _ => {}
        }
        proposal
    }

    fn footprint(&self, map: &[u8], current: Register, draw: u32, lent: &mut Buffers) -> Outline {
        let before = lent.mask.clone();
        let (lines, entries) = (self.lines(&current), lent.table.part().len());
        let (mut outline, used) = self.outline(map, &lines, draw, lent.mask.part_mut(), entries);
        self.spoil_outline(&mut outline);
        self.spoil_mask(&before, &mut lent.mask, &outline);
        self.spoil_table(&mut lent.table, used);
        outline
    }
}

/// Some cases of each kind, the slow ones aside.
fn cases(of_each: u64) -> Vec<Case> {
    let slow = ["maps at the limits", "20 and 21 partial areas", "long last rings", "greatest counts of cells"];
    let quick = KINDS.iter().filter(|kind| !slow.contains(&kind.name));
    quick.flat_map(|kind| (0..of_each).map(|number| (kind.make)(&mut Random::new(number)))).collect()
}

fn first_difference(cases: &[Case], mistake: Mistake) -> Option<(&Case, Difference)> {
    cases.iter().find_map(|case| Some((case, compare::run(&Wrong(mistake), case).difference?)))
}

#[test]
fn the_reference_does_not_differ_from_itself() {
    assert_eq!(first_difference(&cases(10), Nothing), None);
}

#[test]
fn each_mistake_is_seen() {
    let cases = cases(10);
    for &mistake in MISTAKES {
        assert!(first_difference(&cases, mistake).is_some(), "{mistake:?}");
    }
}

#[test]
fn every_sort_of_answer_comes_up() {
    let mut seen = Seen::default();
    cases(100).iter().for_each(|case| seen.add(&compare::run(&Wrong(Nothing), case).seen));
    // Too slow for here: the one takes 21 partial areas, the other a large area under many licences.
    assert_eq!(seen.lacking(), ["refusal 12", "more covered cells than 16 bits count"]);
}

#[test]
fn every_kind_makes_cases() {
    for kind in &KINDS {
        let case = (kind.make)(&mut Random::new(1));
        assert!(!case.calls.is_empty(), "{}", kind.name);
    }
}

#[test]
fn a_case_that_differs_gets_smaller() {
    let cases = cases(10);
    let (case, difference) = first_difference(&cases, ProposalTiedIsOne).expect("a tie");
    assert_eq!((difference.what.as_str(), difference.got.as_str()), ("tied", "1"));
    let small = shrink(&Wrong(ProposalTiedIsOne), case);
    let areas = reference::read_map(&small.map).expect("a good map");
    assert_eq!((small.calls.len(), areas.len()), (1, 2));
    assert!(compare::run(&Wrong(ProposalTiedIsOne), &small).difference.is_some());
}

/// A width stays where it counts, and nowhere else.
#[test]
fn a_case_that_differs_loses_its_widths() {
    let cases = cases(10);
    let narrow = |mistake: Mistake| {
        let (case, _) = first_difference(&cases, mistake).expect("a case");
        let small = shrink(&Wrong(mistake), case);
        assert!(compare::run(&Wrong(mistake), &small).difference.is_some(), "{mistake:?}");
        let places = small.start.map_or(0, |start| start.places.iter().filter(|place| place.narrower_by > 0).count());
        let with_width = small.calls.iter().filter(|call| matches!(call, Call::GrantWidth(..))).count();
        let has_byte = |call: &&Call| match call {
            Call::Grant(licence) | Call::GrantWidth(licence, _) => licence.narrower_by > 0,
            _ => false,
        };
        (places, with_width, small.calls.iter().filter(has_byte).count())
    };
    assert_eq!(narrow(CoverageInPeople), (0, 0, 0));
    assert_eq!(narrow(WidthIsIgnored), (1, 0, 0));
    assert_eq!(narrow(GrantTakesTwoPlaces), (0, 0, 0));
    assert_eq!(narrow(GrantWidthOfALowByte), (0, 1, 0));
    assert_eq!(narrow(GrantReadsTheByte), (0, 0, 1));
}

/// A case is printed with its widths.
#[test]
fn widths_are_printed() {
    let licence = Licence { call_sign: 7, area: 416, narrower_by: 30, ..FREE };
    let words = "call sign 7, kind 0 (area), area 416, south 0, north 0, west 0, east 0, narrower by 30";
    assert_eq!(Call::Grant(licence).to_string(), format!("grant {words}"));
    assert_eq!(Call::GrantWidth(licence, 306).to_string(), format!("grant 306 MHz, {words}"));
    let mut start = NO_LICENCE;
    start.places[5] = licence;
    let case = Case { map: Vec::new(), start: Some(start), calls: Vec::new(), fill: 0 };
    assert!(case.to_string().contains(&format!("  place 5: {words}\n")), "{case}");
}

#[test]
fn cases_that_differ_are_written_down() {
    let folder = std::env::temp_dir().join(format!("codwalet-differ-{}", std::process::id()));
    let mut said = Vec::new();
    let mut test = Test::new(&Wrong(CoverageMhzPops), &folder, &mut said);
    test.round(7, Duration::from_secs(2)).expect("a folder to write to");
    assert_eq!(test.differed(), MOST_DIFFERENCES);
    for number in 1..=MOST_DIFFERENCES {
        let text = std::fs::read_to_string(folder.join(format!("7-{number}.txt"))).expect("a case");
        let [before, after] = text.split("differs at call 1: MHz-pops").collect::<Vec<_>>()[..] else {
            panic!("no difference in {text}");
        };
        assert!(before.contains("map, ") && before.contains("  1: coverage of area "), "{text}");
        assert!(after.contains("expected ") && after.contains("got "), "{text}");
    }
    std::fs::remove_dir_all(&folder).expect("a folder that was written to");
    let said = String::from_utf8(said).expect("text");
    assert_eq!(said.matches("differs: ").count(), MOST_DIFFERENCES, "{said}");
}
