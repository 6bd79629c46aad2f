//! The proposal from areas that are not refused.

use super::map::Area;
use super::search::{Best, Search};
use codwalet::limits::{AREAS, PARTIAL_AREAS};
use codwalet::raw::{
    EXACT, GETS_ROUNDED_UP, GETS_SHARE, GETS_WHOLE, Given, Held, ONE_PART, Proposal, ROUNDED_UP, TOO_MANY,
};

/// The answer that a refusal comes with.
pub fn refused(refusal: u32) -> Proposal {
    Proposal { refusal, kind: 0, tied: 0, count: 0, target: 0, white_space: 0, areas: [Given::default(); AREAS] }
}

/// The proposal with a draw, or refusal 12.
pub fn choose(areas: &[Area], draw: u32) -> Result<Proposal, u32> {
    let held: Vec<Held> = areas.iter().map(Area::blocks).collect();
    let partial: Vec<usize> = (0..areas.len()).filter(|&area| held[area].size > 0).collect();
    if partial.len() > PARTIAL_AREAS {
        return Err(TOO_MANY);
    }
    let target = held.iter().map(|held| held.value).sum();
    let mut proposal = Proposal { count: areas.len() as u64, target, ..refused(0) };
    for (given, (area, held)) in proposal.areas.iter_mut().zip(areas.iter().zip(&held)) {
        given.number = u32::from(area.number);
        given.blocks = held.whole;
        given.cells = area.covered.cells;
    }
    let sizes: Vec<u64> = partial.iter().map(|&area| held[area].size).collect();
    let weights: Vec<u32> = partial.iter().map(|&area| areas[area].weight).collect();
    give(&mut proposal, &partial, Search::new(&sizes, target).best(&weights, draw));
    Ok(proposal)
}

/// What the partial areas get by the best choice.
fn give(proposal: &mut Proposal, partial: &[usize], best: Best) {
    proposal.tied = best.tied;
    proposal.kind = EXACT;
    if let Some(part) = best.part {
        let given = &mut proposal.areas[partial[part.area]];
        (proposal.kind, given.gets, given.share) =
            if part.all_whole { (ROUNDED_UP, GETS_ROUNDED_UP, 0) } else { (ONE_PART, GETS_SHARE, part.share) };
        proposal.white_space = part.white_space;
    }
    for (bit, &area) in partial.iter().enumerate() {
        if best.whole >> bit & 1 == 1 {
            proposal.areas[area].gets = GETS_WHOLE;
        }
    }
}
