//! The search over the partial areas. The subsets of each half of them are listed by the sum of their sizes, and one
//! pass over both lists finds the sum that is wanted, so that 2,048 subsets stand for the 1,048,576 of 20 areas.

use std::cmp::Reverse;

/// A subset of the partial areas: the sum of its sizes, and its set number. Where sums are equal, the smaller number
/// is less.
type Subset = (u64, u32);

/// The choice that wins.
pub struct Best {
    /// The areas taken whole, as a set number.
    pub whole: u32,
    /// The partial area, unless the choice is exact.
    pub part: Option<Part>,
    pub tied: u64,
}

/// The partial area of a choice.
#[derive(Clone, Copy)]
pub struct Part {
    pub area: usize,
    pub share: u64,
    pub white_space: u64,
    pub all_whole: bool,
}

/// Partial areas by size, and T.
pub struct Search<'a> {
    sizes: &'a [u64],
    target: u64,
    lower: Vec<Subset>,
    upper: Vec<Subset>,
}

/// Every subset of the areas at some places, ascending.
fn subsets(sizes: &[u64], places: impl Iterator<Item = usize>) -> Vec<Subset> {
    let mut subsets = vec![(0, 0)];
    for place in places {
        subsets.extend_from_within(..);
        let half = subsets.len() / 2;
        subsets[half..].iter_mut().for_each(|subset| *subset = (subset.0 + sizes[place], subset.1 | 1 << place));
        // Two ascending runs, which a stable sort merges.
        subsets.sort();
    }
    subsets
}

/// The subsets without an area.
fn without(subsets: &[Subset], area: usize) -> Vec<Subset> {
    subsets.iter().copied().filter(|&(_, set)| set >> area & 1 == 0).collect()
}

/// The least sum from `low` on of two subsets, one of each list, and the smallest set number with it. As the sums of
/// one list go up, the least sum that is enough goes down in the other.
fn least_from(low: u64, lower: &[Subset], upper: &[Subset]) -> Option<Subset> {
    let mut enough = upper.len();
    let mut least = None;
    for &(sum, set) in lower {
        while enough > 0 && sum + upper[enough - 1].0 >= low {
            enough -= 1;
        }
        if let Some(&(other, rest)) = upper.get(enough) {
            let both = (sum + other, set | rest);
            least = Some(least.map_or(both, |least: Subset| least.min(both)));
        }
    }
    least
}

impl<'a> Search<'a> {
    /// A search for whole areas that add to T, or nearly.
    pub fn new(sizes: &'a [u64], target: u64) -> Search<'a> {
        let middle = sizes.len() / 2;
        let (lower, upper) = (subsets(sizes, 0..middle), subsets(sizes, middle..sizes.len()));
        Search { sizes, target, lower, upper }
    }

    /// The smallest set number of whole areas that add to T.
    fn exact(&self) -> Option<u32> {
        let (sum, whole) = least_from(self.target, &self.lower, &self.upper)?;
        (sum == self.target).then_some(whole)
    }

    /// The choice with a partial area that has the least white space, and of these the smallest set number: the whole
    /// areas add to as little as the area's size lets them.
    fn with_part(&self, area: usize) -> Option<(Part, u32)> {
        let size = self.sizes[area];
        let low = (self.target + 1).saturating_sub(size);
        let (sum, whole) = if area < self.sizes.len() / 2 {
            least_from(low, &without(&self.lower, area), &self.upper)?
        } else {
            least_from(low, &self.lower, &without(&self.upper, area))?
        };
        let share = self.target.checked_sub(sum).filter(|&share| share > 0)?;
        Some((Part { area, share, white_space: size - share, all_whole: 10 * share >= 9 * size }, whole))
    }

    /// The best choice. At equal white space its people are fewer where the weight is greater.
    pub fn best(&self, weights: &[u32], draw: u32) -> Best {
        if let Some(whole) = self.exact() {
            return Best { whole, part: None, tied: 0 };
        }
        let choices: Vec<(Part, u32)> = (0..self.sizes.len()).filter_map(|area| self.with_part(area)).collect();
        let rank = |(part, _): &(Part, u32)| (!part.all_whole, part.white_space, Reverse(weights[part.area]));
        let best = choices.iter().map(rank).min();
        let tied: Vec<(Part, u32)> = choices.into_iter().filter(|choice| Some(rank(choice)) == best).collect();
        // Each area's share of T is below its size, so that some choice is allowed and some area is tied.
        let (part, whole) = tied[draw as usize % tied.len()];
        Best { whole, part: Some(part), tied: tied.len() as u64 }
    }
}
