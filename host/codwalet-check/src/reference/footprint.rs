//! The footprint: rings and sets of places, a truth for each place.

use super::map::{Area, Cell, read_map};
use super::proposal::{Gets, Given, propose};
use super::register::Licence;
use std::cmp::Ordering;

/// Last rings with up to this many cells with people are decided by listing every subset.
const LISTED: usize = 14;

impl Area {
    /// V of a set of places: "100 × weight × its people". A place without a cell has no people.
    fn value(&self, places: &[bool]) -> u64 {
        let people: u64 = (0..self.cells.len()).filter(|&place| places[place]).map(|place| self.people(place)).sum();
        100 * u64::from(self.weight) * people
    }

    fn people(&self, place: usize) -> u64 {
        self.cells[place].map_or(0, |cell| u64::from(cell.people))
    }
}

/// A footprint without buffers: by place of the partial area, the set that it starts from, the last ring (empty if
/// there is none) and the footprint.
#[derive(Clone, Debug, PartialEq, Eq)]
pub struct Outline {
    pub number: u16,
    pub rows: usize,
    pub columns: usize,
    pub share: u64,
    pub start: Vec<bool>,
    pub last_ring: Vec<bool>,
    pub footprint: Vec<bool>,
    /// Slack + 1, or 0 without a last ring.
    pub entries: usize,
}

/// What the rings come to: a set that has just the share, or the outer set with its last ring.
enum Rings {
    Even(Vec<bool>),
    Last { outer: Vec<bool>, ring: Vec<bool> },
}

/// The area that gets a share, and the share. "12", and "13: footprint of a proposal that isn't kind 3".
pub fn shared_area<'a>(areas: &'a [Area], lines: &[Licence], draw: u32) -> Result<(&'a Area, u64), u32> {
    let proposal = propose(areas, lines, draw)?;
    let share_of = |given: &Given| match given.gets {
        Gets::Share(share) => Some(share),
        _ => None,
    };
    let shared = areas.iter().zip(&proposal.areas).find_map(|(area, given)| Some((area, share_of(given)?)));
    shared.ok_or(13)
}

/// "F is the set of cells of the partial area that a licence in force covers", whatever its width.
pub fn covered_places(lines: &[Licence], area: &Area) -> Vec<bool> {
    let is_covered = |cell: &Cell| lines.iter().any(|line| line.ground.covers(area.number, cell));
    area.cells.iter().map(|cell| cell.as_ref().is_some_and(is_covered)).collect()
}

/// "Neighbours share a side." For each side of a place, whether the place on it is in a set; "a place without a cell or
/// beyond the grid is not in F".
fn sides(area: &Area, set: &[bool], place: usize) -> [bool; 4] {
    let (row, column) = (place / area.columns, place % area.columns);
    [
        row > 0 && set[place - area.columns],
        row + 1 < area.rows && set[place + area.columns],
        column > 0 && set[place - 1],
        column + 1 < area.columns && set[place + 1],
    ]
}

/// "B is the cells outside F that neighbour F, or, if there are none, all cells outside F."
fn ring_outside(area: &Area, set: &[bool]) -> Vec<bool> {
    let outside: Vec<bool> = (0..set.len()).map(|place| area.cells[place].is_some() && !set[place]).collect();
    let neighbours: Vec<bool> =
        (0..set.len()).map(|place| outside[place] && sides(area, set, place).contains(&true)).collect();
    if neighbours.contains(&true) { neighbours } else { outside }
}

/// "B is the cells of F with a side on a place not in F."
fn ring_inside(area: &Area, set: &[bool]) -> Vec<bool> {
    (0..set.len()).map(|place| set[place] && sides(area, set, place).contains(&false)).collect()
}

fn with(set: &[bool], ring: &[bool]) -> Vec<bool> {
    set.iter().zip(ring).map(|(&in_set, &in_ring)| in_set || in_ring).collect()
}

fn without(set: &[bool], ring: &[bool]) -> Vec<bool> {
    set.iter().zip(ring).map(|(&in_set, &in_ring)| in_set && !in_ring).collect()
}

/// "While V(F and B) ≤ share, B joins F; equality ends it."
fn grow(area: &Area, mut set: Vec<bool>, share: u64) -> Rings {
    loop {
        let ring = ring_outside(area, &set);
        let outer = with(&set, &ring);
        match area.value(&outer).cmp(&share) {
            Ordering::Less => set = outer,
            Ordering::Equal => return Rings::Even(outer),
            Ordering::Greater => return Rings::Last { outer, ring },
        }
    }
}

/// "While V(F without B) ≥ share, B leaves F; equality ends it."
fn shrink(area: &Area, mut set: Vec<bool>, share: u64) -> Rings {
    loop {
        let ring = ring_inside(area, &set);
        let inner = without(&set, &ring);
        match area.value(&inner).cmp(&share) {
            Ordering::Greater => set = inner,
            Ordering::Equal => return Rings::Even(inner),
            Ordering::Less => return Rings::Last { outer: set, ring },
        }
    }
}

/// "If V(F) equals share, F is the answer. If less .. If more .."
fn rings(area: &Area, start: Vec<bool>, share: u64) -> Rings {
    match area.value(&start).cmp(&share) {
        Ordering::Less => grow(area, start, share),
        Ordering::Equal => Rings::Even(start),
        Ordering::Greater => shrink(area, start, share),
    }
}

/// The outer set and the last ring; without a last ring, the answer and an empty ring.
pub fn last_ring(area: &Area, start: &[bool], share: u64) -> (Vec<bool>, Vec<bool>) {
    match rings(area, start.to_vec(), share) {
        Rings::Even(set) => {
            let none = vec![false; set.len()];
            (set, none)
        }
        Rings::Last { outer, ring } => (outer, ring),
    }
}

/// "The slack is (V(outer) - share) / (100 × weight), rounded down."
fn slack(area: &Area, outer: &[bool], share: u64) -> u64 {
    (area.value(outer) - share) / (100 * u64::from(area.weight))
}

/// "A lent table of u16 with slack + 1 entries, or none if there is no last ring."
fn entries(area: &Area, rings: &Rings, share: u64) -> usize {
    match rings {
        Rings::Even(_) => 0,
        Rings::Last { outer, .. } => slack(area, outer, share) as usize + 1,
    }
}

/// Which cells are left out, by listing every subset: the greatest total within the slack, then the smallest set
/// number.
fn left_out_by_listing(people: &[u64], slack: u64) -> Vec<bool> {
    let left_out = |subset: u32| (0..people.len()).map(move |cell| subset >> cell & 1 == 1);
    let total =
        |subset: u32| -> u64 { people.iter().zip(left_out(subset)).map(|(p, out)| if out { *p } else { 0 }).sum() };
    let mut best = 0;
    for subset in 0..1u32 << people.len() {
        // A later subset has a greater set number, so it must have a greater total.
        if total(subset) <= slack && total(subset) > total(best) {
            best = subset;
        }
    }
    left_out(best).collect()
}

/// The totals within the slack that subsets of the first k cells have, ascending, for each k from 0.
fn reachable_totals(people: &[u64], slack: u64) -> Vec<Vec<u64>> {
    let mut reachable = vec![vec![0]];
    for cell in people {
        let before = &reachable[reachable.len() - 1];
        let mut totals = before.clone();
        totals.extend(before.iter().map(|total| total + cell).filter(|&total| total <= slack));
        totals.sort();
        totals.dedup();
        reachable.push(totals);
    }
    reachable
}

/// The same for more cells, from the last cell down: it is left in wherever the cells before it still reach the total,
/// which makes the set number smallest.
fn left_out_by_totals(people: &[u64], slack: u64) -> Vec<bool> {
    let reachable = reachable_totals(people, slack);
    let mut missing = *reachable[people.len()].last().expect("no cell left out has the total 0");
    let mut left_out = vec![false; people.len()];
    for cell in (0..people.len()).rev() {
        if reachable[cell].binary_search(&missing).is_err() {
            left_out[cell] = true;
            missing -= people[cell];
        }
    }
    left_out
}

/// "From it are left out cells of B with people above 0: the subset of greatest total with V(rest) ≥ share, then of
/// smallest set number (cells of B with people, by row then column, first the ones place). Cells of B without people
/// stay in."
fn leave_out(area: &Area, outer: &[bool], ring: &[bool], share: u64) -> Vec<bool> {
    let places: Vec<usize> = (0..ring.len()).filter(|&place| ring[place] && area.people(place) > 0).collect();
    let people: Vec<u64> = places.iter().map(|&place| area.people(place)).collect();
    let slack = slack(area, outer, share);
    let left_out = match people.len() {
        0..=LISTED => left_out_by_listing(&people, slack),
        _ => left_out_by_totals(&people, slack),
    };
    let mut footprint = outer.to_vec();
    for (&place, out) in places.iter().zip(left_out) {
        footprint[place] = !out;
    }
    footprint
}

/// The set of places that the rings lead to, and the last ring.
fn finish(area: &Area, rings: Rings, share: u64) -> (Vec<bool>, Vec<bool>) {
    match rings {
        Rings::Even(set) => (set, vec![false; area.cells.len()]),
        Rings::Last { outer, ring } => (leave_out(area, &outer, &ring, share), ring),
    }
}

/// The footprint without buffers. The error is the refusal's number, 12 or 13.
pub fn outline(areas: &[Area], lines: &[Licence], draw: u32) -> Result<Outline, u32> {
    let (area, share) = shared_area(areas, lines, draw)?;
    let start = covered_places(lines, area);
    let rings = rings(area, start.clone(), share);
    let entries = entries(area, &rings, share);
    let (footprint, last_ring) = finish(area, rings, share);
    let Area { number, rows, columns, .. } = *area;
    Ok(Outline { number, rows, columns, share, start, last_ring, footprint, entries })
}

/// Why a footprint is refused: the number, and at 8 "the count needed comes too" (else 0).
#[derive(Clone, Copy, Debug, PartialEq, Eq)]
pub struct Refused {
    pub number: u32,
    pub needed: usize,
}

/// A footprint made: the area's number, and how many entries of the table may have been used.
#[derive(Clone, Copy, Debug, PartialEq, Eq)]
pub struct Made {
    pub number: u16,
    pub used: usize,
}

/// The footprint into lent buffers. "Footprint: 1 to 5, 12, 13, 7, 8. Buffers are untouched, save the mask at 8."
pub fn footprint(
    map: &[u8],
    lines: &[Licence],
    draw: u32,
    mask: &mut [u8],
    table_length: usize,
) -> Result<Made, Refused> {
    let refused = |number| Refused { number, needed: 0 };
    let areas = read_map(map).map_err(|fault| refused(fault.number))?;
    let (area, share) = shared_area(&areas, lines, draw).map_err(refused)?;
    footprint_from(area, covered_places(lines, area), share, mask, table_length)
}

/// The same for an area that gets a share, from the set that the footprint starts from. "7, 8."
pub fn footprint_from(
    area: &Area,
    start: Vec<bool>,
    share: u64,
    mask: &mut [u8],
    table_length: usize,
) -> Result<Made, Refused> {
    let refused = |number| Refused { number, needed: 0 };
    let rings = rings(area, start, share);
    let mask = mask.get_mut(..area.rows * area.columns).ok_or(refused(7))?;
    let entries = entries(area, &rings, share);
    if table_length < entries {
        mask.fill(0);
        return Err(Refused { number: 8, needed: entries });
    }
    let (footprint, _) = finish(area, rings, share);
    for (byte, in_footprint) in mask.iter_mut().zip(footprint) {
        *byte = u8::from(in_footprint);
    }
    Ok(Made { number: area.number, used: entries })
}

#[cfg(test)]
mod tests {
    use super::*;
    use crate::reference::register::Ground;
    use crate::reference::tests::{Slice, columns, licences, of_widths, small_map};

    #[test]
    fn refusals_of_a_footprint() {
        let map = small_map();
        let one = licences(&[columns(7, 2, 4)]);
        let run = |map: &[u8], lines: &[Licence], mask_length: usize, table_length: usize| {
            let mut mask = vec![9; mask_length];
            (footprint(map, lines, 0, &mut mask, table_length), mask)
        };
        let refused = |number, needed| Err(Refused { number, needed });
        assert_eq!(run(&map[1..], &one, 5, 4), (refused(2, 0), vec![9; 5]));
        assert_eq!(run(&map, &[], 5, 4), (refused(13, 0), vec![9; 5]));
        assert_eq!(run(&map, &one, 4, 0), (refused(7, 0), vec![9; 4]));
        assert_eq!(run(&map, &one, 6, 3), (refused(8, 4), vec![0, 0, 0, 0, 0, 9]));
        assert_eq!(run(&map, &one, 6, 4), (Ok(Made { number: 7, used: 4 }), vec![0, 0, 1, 0, 0, 9]));
    }

    /// People 5, 0, 4, 3 and 8: the set that a footprint starts from, the footprint, and the entries that it needs.
    #[test]
    fn widths_by_hand_count() {
        let middle = columns(7, 2, 4);
        let held: [(&[Slice], u64, &str, &str, usize); 7] = [
            // 7 MHz over 7 people are worth less than one of them: 4 are left out, and of the slack of 6.51 counts 6.
            (&[(middle, 7)], 49, "..##.", "...#.", 7),
            // One MHz over one cell: of its 3 people none can go while any of it is due, as 3 are more than 2.97.
            (&[(columns(7, 3, 4), 1)], 3, "...#.", "...#.", 3),
            // Twice 50 MHz in slices: just the people under them.
            (&[(middle, 49), (middle, 1), (middle, 30), (middle, 20)], 700, "..##.", "..##.", 0),
            // One MHz more over the first cell brings that cell in: of 12 people 4.95 may go, so the 4.
            (&[(middle, 50), (middle, 50), (columns(7, 0, 1), 1)], 705, "#.##.", "#..#.", 5),
            // The same with no width at all, which adds nothing to the share: 5 may go.
            (&[(middle, 50), (middle, 50), (columns(7, 0, 1), 0)], 700, "#.##.", "..##.", 6),
            // 150 MHz in slices grow as in holding 12.
            (&[(middle, 50), (middle, 50), (middle, 49), (middle, 1)], 1_050, "..##.", ".####", 5),
            // A licence of no width over the whole area beside: of 20 people 13 may go, and nobody's cell stays.
            (&[(middle, 50), (middle, 50), (Ground::Area(7), 0)], 700, "#####", ".###.", 14),
        ];
        let areas = read_map(&small_map()).expect("a good map");
        let shown = |set: &[bool]| set.iter().map(|&inside| if inside { '#' } else { '.' }).collect::<String>();
        for (each, share, start, footprint, entries) in held {
            let outline = outline(&areas, &of_widths(each), 0).expect("of kind 3");
            let sets = (shown(&outline.start), shown(&outline.footprint));
            assert_eq!((outline.share, sets), (share, (start.to_string(), footprint.to_string())), "{each:?}");
            assert_eq!(outline.entries, entries, "{each:?}");
        }
    }

    /// Both ways to decide what is left out agree where both can be used.
    #[test]
    fn listing_and_totals_agree() {
        let people = [3, 1, 4, 1, 5, 9, 2, 6, 5, 3];
        for slack in 0..=39 {
            assert_eq!(left_out_by_listing(&people, slack), left_out_by_totals(&people, slack), "slack {slack}");
        }
    }
}
