//! Engines that count covered cells wrongly, or let them decide.

use super::Mistake::{self, *};
use super::{Wrong, answers, cases, first_difference, widths};
use crate::maps::write_map;
use crate::reference::{self, Area, Cell, Ground, Licence};
use codwalet::raw::{Covered, GETS_NOTHING, GETS_WHOLE, Given, Proposal};

/// A count of the cells that licences cover in an area.
type Count = fn(&[Licence], &Area) -> u64;

fn coverage_count(mistake: Mistake) -> Option<Count> {
    match mistake {
        CoverageOfCellsWithPeople => Some(with_people),
        CoverageOfEachCellOnce => Some(once),
        CoverageOfCellsUnderBoxes => Some(under_boxes),
        CoverageOfPlaces => Some(places),
        CoverageCellsTimesWidth => Some(widths::cells_times_width),
        CoverageCellsOfNoWidth => Some(widths::cells_of_some_width),
        _ => None,
    }
}

fn proposal_count(mistake: Mistake) -> Option<Count> {
    match mistake {
        ProposalOfCellsWithPeople => Some(with_people),
        ProposalOfEachCellOnce => Some(once),
        ProposalOfCellsUnderBoxes => Some(under_boxes),
        ProposalOfPlaces => Some(places),
        ProposalOfPartialAreasAlone => Some(of_partial),
        ProposalCellsTimesWidth => Some(widths::cells_times_width),
        ProposalCellsOfNoWidth => Some(widths::cells_of_some_width),
        _ => None,
    }
}

/// The area with the cells that are to be kept.
fn with_cells(area: &Area, is_kept: impl Fn(&Cell) -> bool) -> Area {
    Area { cells: area.cells.iter().map(|place| place.filter(&is_kept)).collect(), ..area.clone() }
}

fn is_covered(lines: &[Licence], area: &Area, cell: &Cell) -> bool {
    lines.iter().any(|line| line.ground.covers(area.number, cell))
}

/// Cells without people are left out.
fn with_people(lines: &[Licence], area: &Area) -> u64 {
    reference::covered(lines, &with_cells(area, |cell| cell.people > 0)).cells
}

/// A cell under two licences counts once.
fn once(lines: &[Licence], area: &Area) -> u64 {
    area.cells.iter().flatten().filter(|cell| is_covered(lines, area, cell)).count() as u64
}

/// What licences for areas cover is left out.
fn under_boxes(lines: &[Licence], area: &Area) -> u64 {
    let boxes: Vec<Licence> = lines.iter().copied().filter(|line| matches!(line.ground, Ground::Box { .. })).collect();
    reference::covered(&boxes, area).cells
}

/// A licence for an area counts its places, with a cell or without.
fn places(lines: &[Licence], area: &Area) -> u64 {
    under_boxes(lines, area) + naming(lines, area.number) * area.cells.len() as u64
}

/// The cells of an area that is not partial are left out.
fn of_partial(lines: &[Licence], area: &Area) -> u64 {
    if reference::blocks(lines, area).size > 0 { reference::covered(lines, area).cells } else { 0 }
}

/// How many licences are for the area with a number.
fn naming(lines: &[Licence], number: u16) -> u64 {
    lines.iter().filter(|line| line.ground == Ground::Area(number)).count() as u64
}

/// The map without the cells that no licence covers, so that an area's population is that of its covered cells. An area
/// without people in these stays as it is.
pub fn covered_alone(map: &[u8], lines: &[Licence]) -> Vec<u8> {
    let Ok(areas) = reference::read_map(map) else {
        return map.to_vec();
    };
    let covered = |area: Area| {
        let kept = with_cells(&area, |cell| is_covered(lines, &area, cell));
        if kept.population() > 0 { kept } else { area }
    };
    write_map(&areas.into_iter().map(covered).collect::<Vec<Area>>())
}

/// The proposal in which the draw decides among those tied areas alone that have most covered cells.
pub fn tied_by_cells(map: &[u8], lines: &[Licence], draw: u32) -> Proposal {
    let by_draw = answers::propose(map, lines, draw);
    let each: Vec<Proposal> = (0..by_draw.tied as u32).map(|draw| answers::propose(map, lines, draw)).collect();
    let most = each.iter().map(cells_of_partial).max();
    let best: Vec<&Proposal> = each.iter().filter(|proposal| Some(cells_of_partial(proposal)) == most).collect();
    if best.is_empty() { by_draw } else { *best[draw as usize % best.len()] }
}

fn cells_of_partial(proposal: &Proposal) -> u64 {
    let is_partial = |given: &&Given| ![GETS_NOTHING, GETS_WHOLE].contains(&given.gets);
    proposal.areas.iter().find(is_partial).map_or(0, |given| given.cells)
}

impl Wrong {
    pub fn spoil_coverage(&self, map: &[u8], lines: &[Licence], number: u16, covered: &mut Covered) {
        let areas = reference::read_map(map).unwrap_or_default();
        let area = areas.iter().find(|area| area.number == number);
        match (self.0, area) {
            (CoverageWhereRefused, _) => covered.cells += u64::from(covered.refusal != 0),
            (CoverageCellsOfALackingArea, None) if covered.refusal == 0 => covered.cells = naming(lines, number),
            (CoverageOfTheFirstArea, Some(_)) => covered.cells = reference::covered(lines, &areas[0]).cells,
            (mistake, Some(area)) => {
                covered.cells = coverage_count(mistake).map_or(covered.cells, |count| count(lines, area));
            }
            _ => {}
        }
    }

    pub fn spoil_cells(&self, map: &[u8], lines: &[Licence], proposal: &mut Proposal) {
        let (areas, blank) = proposal.areas.split_at_mut(proposal.count as usize);
        match self.0 {
            ProposalCellsWhereRefused if proposal.refusal != 0 => blank[0].cells = 1,
            ProposalCellsPastItsCount if proposal.refusal == 0 => blank.iter_mut().for_each(|given| given.cells = 1),
            ProposalCellsOfTheNextArea => show_those_of_the_next(areas),
            _ => {}
        }
        if let Some(count) = proposal_count(self.0) {
            let counted = reference::read_map(map).unwrap_or_default();
            areas.iter_mut().zip(&counted).for_each(|(given, area)| given.cells = count(lines, area));
        }
    }
}

/// Each area shows the cells of the next one, and the last one those of the first.
fn show_those_of_the_next(areas: &mut [Given]) {
    for place in 1..areas.len() {
        let shown = areas[place - 1].cells;
        areas[place - 1].cells = areas[place].cells;
        areas[place].cells = shown;
    }
}

/// A wrong count is seen where it is shown, and not by what follows from it.
#[test]
fn wrong_counts_are_seen_as_cells() {
    let cases = cases(10);
    for &mistake in super::MISTAKES {
        let shown_at = match (coverage_count(mistake), proposal_count(mistake)) {
            (Some(_), _) => "cells",
            (_, Some(_)) => "cells of the area at ",
            _ => continue,
        };
        let what = first_difference(&cases, mistake).map(|(_, difference)| difference.what);
        assert!(what.as_ref().is_some_and(|what| what.starts_with(shown_at)), "{mistake:?} at {what:?}");
    }
}
