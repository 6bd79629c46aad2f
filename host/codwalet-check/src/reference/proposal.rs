//! The proposal: every choice is listed.

use super::coverage::{Blocks, blocks, covered};
use super::map::Area;
use super::register::Licence;
use std::cmp::Ordering;

/// Partial areas of a proposal, at most (refusal 12).
const PARTIAL_AREAS: usize = 20;

/// What an area gets by a proposal.
#[derive(Clone, Copy, Debug, PartialEq, Eq)]
pub enum Gets {
    Nothing,
    Whole,
    RoundedUp,
    Share(u64),
}

/// An area's line of a proposal: the whole blocks that it has, its sum of covered cells, and what it gets.
#[derive(Clone, Copy, Debug, PartialEq, Eq)]
pub struct Given {
    pub number: u16,
    pub blocks: u64,
    pub cells: u64,
    pub gets: Gets,
}

/// "The answer: kind (1 exact, 2 rounded up, 3 one part), T, white space, tied count, and for each map area its whole
/// blocks and what it gets." "The proposal shows the sum of cells for each map area." Nothing else here reads them:
/// "Ranking and shares read people only", which since widths are MHz-pops.
#[derive(Clone, Debug, PartialEq, Eq)]
pub struct Proposal {
    pub kind: u32,
    pub target: u64,
    pub white_space: u64,
    pub tied: u64,
    pub areas: Vec<Given>,
}

/// A partial area: an entry of S.
struct Partial {
    number: u16,
    weight: u64,
    value: u64,
    size: u64,
}

/// An allowed choice: the areas of S taken whole, as a set number, and the place in S of the partial area with its
/// share.
#[derive(Clone, Copy)]
struct Choice {
    whole: u32,
    part: Option<(usize, u64)>,
}

impl Choice {
    /// "White space is M - share, or 0 if exact."
    fn white_space(&self, partials: &[Partial]) -> u64 {
        self.part.map_or(0, |(place, share)| partials[place].size - share)
    }

    /// "All-whole means exact, or 10 × share ≥ 9 × M."
    fn all_whole(&self, partials: &[Partial]) -> bool {
        self.part.is_none_or(|(place, share)| 10 * share >= 9 * partials[place].size)
    }

    /// "White-space people are white space / (100 × the partial area's weight), compared as fractions, or 0 if exact."
    fn white_space_people(&self, partials: &[Partial]) -> (u128, u128) {
        let under = self.part.map_or(1, |(place, _)| 100 * u128::from(partials[place].weight));
        (u128::from(self.white_space(partials)), under)
    }

    /// "All-whole choices rank ahead of the others; then less white space; then fewer white-space people." Less is
    /// better.
    fn compare(&self, other: &Choice, partials: &[Partial]) -> Ordering {
        let (people, under) = self.white_space_people(partials);
        let (other_people, other_under) = other.white_space_people(partials);
        other
            .all_whole(partials)
            .cmp(&self.all_whole(partials))
            .then(self.white_space(partials).cmp(&other.white_space(partials)))
            .then((people * other_under).cmp(&(other_people * under)))
    }

    /// "Kind: 1 exact, 2 rounded up, 3 one part."
    fn kind(&self, partials: &[Partial]) -> u32 {
        match self.part {
            None => 1,
            Some(_) if self.all_whole(partials) => 2,
            Some(_) => 3,
        }
    }

    /// What the area at a place in S gets.
    fn gets(&self, place: usize, partials: &[Partial]) -> Gets {
        match self.part {
            Some((part, _)) if part == place && self.all_whole(partials) => Gets::RoundedUp,
            Some((part, share)) if part == place => Gets::Share(share),
            _ if self.whole >> place & 1 == 1 => Gets::Whole,
            _ => Gets::Nothing,
        }
    }
}

/// "S is the list of partial areas, ascending."
fn partial_areas(areas: &[Area], held: &[Blocks]) -> Vec<Partial> {
    let partial = |(area, &Blocks { value, size, .. }): (&Area, &Blocks)| {
        (value > 0).then_some(Partial { number: area.number, weight: u64::from(area.weight), value, size })
    };
    areas.iter().zip(held).filter_map(partial).collect()
}

/// "T is the sum of v over S."
fn target(partials: &[Partial]) -> u64 {
    partials.iter().map(|partial| partial.value).sum()
}

/// "A choice is allowed if the sizes of the whole areas add to T with no partial area (exact), or the shortfall,
/// written share, is above 0 and below the M of the partial area." Every choice, whole areas by ascending set number.
fn each_allowed_choice(partials: &[Partial], mut visit: impl FnMut(Choice)) {
    let target = target(partials);
    for whole in 0..1u32 << partials.len() {
        let taken = |place: usize| whole >> place & 1 == 1;
        let sizes: u64 = (0..partials.len()).filter(|&place| taken(place)).map(|place| partials[place].size).sum();
        if sizes == target {
            visit(Choice { whole, part: None });
        }
        for place in (0..partials.len()).filter(|&place| !taken(place)) {
            if sizes < target && target - sizes < partials[place].size {
                visit(Choice { whole, part: Some((place, target - sizes)) });
            }
        }
    }
}

/// A best-ranked choice. One is always allowed: whole areas taken in turn until the next one's M is above what is
/// missing.
fn best_choice(partials: &[Partial]) -> Choice {
    let mut best: Option<Choice> = None;
    each_allowed_choice(partials, |choice| {
        if best.is_none_or(|best| choice.compare(&best, partials).is_lt()) {
            best = Some(choice);
        }
    });
    best.expect("each v is below its M, so some choice is allowed")
}

/// The choice that wins, and the tied count. "The tied areas are the partial areas of best-ranked choices; an exact
/// answer has 0 of them. The area at place draw mod tied, from 0, ascending. Among best choices with that area, or
/// among exact ones, the smallest set number wins."
fn winning_choice(partials: &[Partial], draw: u32) -> (Choice, u64) {
    let best = best_choice(partials);
    // By partial area, none included: the best choice with the smallest set number.
    let mut exact: Option<Choice> = None;
    let mut by_area: Vec<Option<Choice>> = vec![None; partials.len()];
    each_allowed_choice(partials, |choice| {
        if choice.compare(&best, partials).is_eq() {
            let smallest = choice.part.map_or(&mut exact, |(place, _)| &mut by_area[place]);
            if smallest.is_none_or(|smallest| choice.whole < smallest.whole) {
                *smallest = Some(choice);
            }
        }
    });
    if let Some(choice) = exact {
        return (choice, 0);
    }
    let tied: Vec<Choice> = by_area.into_iter().flatten().collect();
    (tied[draw as usize % tied.len()], tied.len() as u64)
}

/// The proposal. The error is the refusal's number.
pub fn propose(areas: &[Area], lines: &[Licence], draw: u32) -> Result<Proposal, u32> {
    let held: Vec<Blocks> = areas.iter().map(|area| blocks(lines, area)).collect();
    propose_blocks(areas, &held, lines, draw)
}

/// The proposal for areas of which these blocks are held; of the licences it reads the covered cells alone. "12: more
/// than 20 partial areas." The error is the refusal's number.
pub fn propose_blocks(areas: &[Area], held: &[Blocks], lines: &[Licence], draw: u32) -> Result<Proposal, u32> {
    let partials = partial_areas(areas, held);
    if partials.len() > PARTIAL_AREAS {
        return Err(12);
    }
    let (choice, tied) = winning_choice(&partials, draw);
    let given = |(area, held): (&Area, &Blocks)| {
        let place = partials.iter().position(|partial| partial.number == area.number);
        Given {
            number: area.number,
            blocks: held.whole,
            cells: covered(lines, area).cells,
            gets: place.map_or(Gets::Nothing, |place| choice.gets(place, &partials)),
        }
    };
    Ok(Proposal {
        kind: choice.kind(&partials),
        target: target(&partials),
        white_space: choice.white_space(&partials),
        tied,
        areas: areas.iter().zip(held).map(given).collect(),
    })
}
