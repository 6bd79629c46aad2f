//! The last ring of a footprint (document 01, "The footprint").
//!
//! This is beyond the engine's answers: the engine gives the mask alone, and the ring is found here by the rounds that
//! the document describes. It is not proved, so it is held against the mask, and a picture says nothing of the ring
//! where the two disagree.
//!
//! Each round goes on from the ring before. A cell of the next ring neighbours that ring, since a cell that neighbours
//! anything earlier was in an earlier ring.

use super::value_of;
use codwalet::{Cell, Weighted};
use std::cmp::Ordering;

/// An area with the cells that its footprint starts from. Lists by place go row by row, top first.
#[derive(Clone, Copy, Debug)]
pub struct Start<'a> {
    pub rows: usize,
    pub columns: usize,
    pub weight: u32,
    pub cells: &'a [Option<Cell>],
    /// The cells that a licence covers.
    pub covered: &'a [bool],
    pub share: Weighted,
}

/// The last ring by place, all false if there is none. None where it disagrees with the engine's mask: outside the ring
/// the footprint must be the outer set, and inside it only cells with people may be left out.
pub fn last_ring(start: &Start, footprint: &[bool]) -> Option<Vec<bool>> {
    let Rings { outer, last } = start.rings();
    let agrees = |place: usize| footprint[place] == outer[place] || last[place] && start.people(place) > 0;
    (0..outer.len()).all(agrees).then_some(last)
}

/// The outer set and the last ring, by place. Without a last ring, the outer set is the footprint.
struct Rings {
    outer: Vec<bool>,
    last: Vec<bool>,
}

/// Whether rings join or leave.
#[derive(Clone, Copy, PartialEq, Eq)]
enum Course {
    Grow,
    Shrink,
}

impl Start<'_> {
    fn people(&self, place: usize) -> u64 {
        self.cells[place].map_or(0, |cell| u64::from(cell.people))
    }

    /// V of some places.
    fn value(&self, places: &[usize]) -> u64 {
        value_of(self.weight, places.iter().map(|&place| self.people(place)).sum()).0
    }

    /// The places with a cell for which something holds.
    fn cells_where(&self, holds: impl Fn(usize) -> bool) -> Vec<usize> {
        (0..self.cells.len()).filter(|&place| self.cells[place].is_some() && holds(place)).collect()
    }

    /// The places that share a side with a place; fewer than four at the grid's edge.
    fn neighbours(&self, place: usize) -> impl Iterator<Item = usize> {
        let (row, column) = (place / self.columns, place % self.columns);
        let above = (row > 0).then(|| place - self.columns);
        let below = (row + 1 < self.rows).then(|| place + self.columns);
        let before = (column > 0).then(|| place - 1);
        let after = (column + 1 < self.columns).then(|| place + 1);
        [above, below, before, after].into_iter().flatten()
    }

    /// All rounds: rings join or leave until one would overshoot, which is the last ring, or the share is met.
    fn rings(&self) -> Rings {
        let mut set = self.covered.to_vec();
        let mut value = self.value(&self.cells_where(|place| set[place]));
        let course = if value < self.share.0 { Course::Grow } else { Course::Shrink };
        let mut ring = if value == self.share.0 { Vec::new() } else { self.first_ring(course) };
        // An empty ring ends the rounds too, so that no share keeps them going.
        while !ring.is_empty() {
            let (next, overshoots) = match course {
                Course::Grow => (value + self.value(&ring), Ordering::Greater),
                Course::Shrink => (value - self.value(&ring), Ordering::Less),
            };
            if next.cmp(&self.share.0) == overshoots {
                break;
            }
            ring.iter().for_each(|&place| set[place] = course == Course::Grow);
            value = next;
            ring = if value == self.share.0 { Vec::new() } else { self.ring_after(&ring, &set, course) };
        }
        let mut last = vec![false; set.len()];
        for place in ring {
            (set[place], last[place]) = (true, true);
        }
        Rings { outer: set, last }
    }

    /// The ring next to the cells that a footprint starts from.
    fn first_ring(&self, course: Course) -> Vec<usize> {
        let covered = |place: usize| self.covered[place];
        match course {
            Course::Grow => {
                let beside = |place: usize| self.neighbours(place).any(covered);
                self.or_all_outside(self.cells_where(|place| !covered(place) && beside(place)), self.covered)
            }
            // A side on the grid's edge is a side on a place not in the set.
            Course::Shrink => self.cells_where(|place| {
                covered(place) && self.neighbours(place).filter(|&next| covered(next)).count() < 4
            }),
        }
    }

    /// The ring after one that has just joined or left the set: the cells beside it that are still to join or leave.
    fn ring_after(&self, ring: &[usize], set: &[bool], course: Course) -> Vec<usize> {
        let waits = |place: &usize| self.cells[*place].is_some() && set[*place] == (course == Course::Shrink);
        let mut next: Vec<usize> = ring.iter().flat_map(|&place| self.neighbours(place)).filter(waits).collect();
        next.sort_unstable();
        next.dedup();
        if course == Course::Grow { self.or_all_outside(next, set) } else { next }
    }

    /// A ring that grows a set; all cells outside the set if none neighbours it.
    fn or_all_outside(&self, ring: Vec<usize>, set: &[bool]) -> Vec<usize> {
        if ring.is_empty() { self.cells_where(|place| !set[place]) } else { ring }
    }
}

#[cfg(test)]
mod tests {
    use super::*;

    /// Cells with some people.
    fn cells(people: &[u32]) -> Vec<Option<Cell>> {
        people.iter().map(|&people| Some(Cell { people, latitude: 0, longitude: 0 })).collect()
    }

    /// The places of a set that is written as signs.
    fn set(signs: &str) -> Vec<bool> {
        signs.chars().map(|sign| sign == '#').collect()
    }

    fn signs(set: &[bool]) -> String {
        set.iter().map(|&holds| if holds { '#' } else { '.' }).collect()
    }

    /// The outer set and the last ring in an area of weight 1.
    fn rings_of(rows: usize, people: &[u32], covered: &str, share: u64) -> (String, String) {
        let (cells, covered, share) = (cells(people), set(covered), Weighted(share));
        let columns = people.len() / rows;
        let Rings { outer, last } = Start { rows, columns, weight: 1, cells: &cells, covered: &covered, share }.rings();
        (signs(&outer), signs(&last))
    }

    #[test]
    fn rounds_by_hand_count() {
        let row = [5, 0, 4, 3, 8];
        let cases = [
            // Covered, share, outer set, last ring.
            ("..##.", 700, "..##.", "....."),
            ("..##.", 350, "..##.", "..##."),
            ("..##.", 1_050, ".####", ".#..#"),
            ("..##.", 1_500, ".####", "....."),
            ("..##.", 1_700, "#####", "#...."),
            // In one row each cell has a side beyond the grid.
            ("#####", 650, "#####", "#####"),
            // Nothing neighbours an empty set, so all cells are the ring.
            (".....", 50, "#####", "#####"),
            // No set of cells has such a share: the rounds end all the same.
            ("..##.", 9_000, "#####", "....."),
            ("..##.", 0, ".....", "....."),
        ];
        for (covered, share, outer, last) in cases {
            assert_eq!(rings_of(1, &row, covered, share), (outer.into(), last.into()), "{covered} {share}");
        }
    }

    #[test]
    fn rings_leave_from_the_edge_inwards() {
        let (all, middle) = ("###############", "......###......");
        let around = "######...######";
        for (share, outer, last) in [(1_000, all, around), (300, middle, "..............."), (250, middle, middle)] {
            assert_eq!(rings_of(3, &[1; 15], all, share), (outer.into(), last.into()), "{share}");
        }
    }

    #[test]
    fn a_mask_that_the_ring_cannot_leave_has_none() {
        let (cells, covered, share) = (cells(&[5, 0, 4, 3, 8]), set("..##."), Weighted(1_050));
        let start = Start { rows: 1, columns: 5, weight: 1, cells: &cells, covered: &covered, share };
        let shown = |mask: &str| last_ring(&start, &set(mask)).map(|ring| signs(&ring));
        assert_eq!([shown(".####"), shown(".###.")], [Some(".#..#".into()), Some(".#..#".into())]);
        // A cell without people is left out, one beyond the outer set is in, one within it is not.
        assert_eq!([shown("..###"), shown("#####"), shown(".##.#")], [None, None, None]);
    }
}
