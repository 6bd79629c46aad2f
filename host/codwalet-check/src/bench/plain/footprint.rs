//! The footprint. A ring is a list of places, and the next one is found beside them, so that no place is looked at more
//! than a few times.

use super::coverage::Grounds;
use super::last_ring::leave_out;
use super::map::{self, Area};
use super::proposal;
use codwalet::limits::SIDE;
use codwalet::raw::{GETS_SHARE, MASK_SHORT, NOT_ONE_PART, Outline, TABLE_SHORT};

/// The partial area by place: its people, its cells, and the set that becomes its footprint. There is a place without
/// a cell after each row, and a row of such places before the first and after the last, so that each cell has a place
/// on all four sides.
struct Grid {
    /// Places from one row to the next.
    stride: usize,
    people: Vec<u32>,
    cells: Vec<bool>,
    set: Vec<bool>,
}

/// The last ring, by row and column, and the slack.
struct LastRing {
    ring: Vec<usize>,
    slack: usize,
}

impl Grid {
    fn of(area: &Area, grounds: &Grounds) -> Result<Grid, u32> {
        let stride = area.columns + 1;
        let places = (area.rows + 2) * stride;
        let named = grounds.naming(area.number).count > 0;
        let mut grid = Grid { stride, people: vec![0; places], cells: vec![false; places], set: vec![false; places] };
        let mut first = stride;
        area.each_row(|bits, row| {
            let mut covered = [named; SIDE];
            grounds.mark_boxed(row, &mut covered);
            let columns = (0..area.columns).filter(|column| bits[column / 8] >> (column % 8) & 1 == 1);
            for (column, (&people, &covered)) in columns.zip(row.people().iter().zip(&covered)) {
                grid.people[first + column] = people;
                grid.cells[first + column] = true;
                grid.set[first + column] = covered;
            }
            first += stride;
        })?;
        Ok(grid)
    }

    fn people_in_set(&self) -> u64 {
        let counted = |(&people, &inside): (&u32, &bool)| if inside { u64::from(people) } else { 0 };
        self.people.iter().zip(&self.set).map(counted).sum()
    }

    fn people_at(&self, places: &[usize]) -> u64 {
        places.iter().map(|&place| u64::from(self.people[place])).sum()
    }

    fn put(&mut self, places: &[usize], inside: bool) {
        places.iter().for_each(|&place| self.set[place] = inside);
    }

    /// The places on the sides of a cell.
    fn sides(&self, place: usize) -> [usize; 4] {
        [place - self.stride, place - 1, place + 1, place + self.stride]
    }

    /// The cells that a ring may take: those outside the set when it grows, those inside when it shrinks.
    fn open(&self, grow: bool) -> Vec<bool> {
        self.cells.iter().zip(&self.set).map(|(&cell, &inside)| cell && inside != grow).collect()
    }

    /// The first ring: of the cells that it may take, those beside one in the set when it grows, and beside a place
    /// that isn't when it shrinks.
    fn first_ring(&self, open: &mut [bool], grow: bool) -> Vec<usize> {
        let beside = |&place: &usize| open[place] && self.sides(place).iter().any(|&side| self.set[side] == grow);
        let ring: Vec<usize> = (0..open.len()).filter(beside).collect();
        ring.iter().for_each(|&place| open[place] = false);
        ring
    }

    /// The ring after one that has joined or left: the cells beside it that no ring has taken. A cell beside what
    /// joined or left earlier was in a ring before this one.
    fn next_ring(&self, ring: &[usize], open: &mut [bool], next: &mut Vec<usize>) {
        next.clear();
        for side in ring.iter().flat_map(|&place| self.sides(place)) {
            if open[side] {
                open[side] = false;
                next.push(side);
            }
        }
    }

    /// Takes rings until the set has the share or the last ring is met. Then the set is the outer set.
    fn rounds(&mut self, unit: u64, share: u64) -> Option<LastRing> {
        let mut people = self.people_in_set();
        let grow = unit * people < share;
        let mut open = self.open(grow);
        let mut ring = self.first_ring(&mut open, grow);
        let mut next = Vec::new();
        while unit * people != share {
            if ring.is_empty() {
                // Nothing is beside the set, which grows: all cells outside it are the ring.
                ring.extend((0..open.len()).filter(|&place| open[place]));
            }
            let moved = self.people_at(&ring);
            let (inner, outer) = if grow { (people, people + moved) } else { (people - moved, people) };
            if unit * inner < share && share < unit * outer {
                self.put(&ring, true);
                ring.sort_unstable();
                return Some(LastRing { ring, slack: ((unit * outer - share) / unit) as usize });
            }
            self.put(&ring, grow);
            people = if grow { outer } else { inner };
            self.next_ring(&ring, &mut open, &mut next);
            std::mem::swap(&mut ring, &mut next);
        }
        None
    }

    fn write(&self, columns: usize, mask: &mut [u8]) {
        for (row, set) in mask.chunks_exact_mut(columns).zip(self.set.chunks_exact(self.stride).skip(1)) {
            row.iter_mut().zip(set).for_each(|(byte, &inside)| *byte = u8::from(inside));
        }
    }
}

/// The footprint into lent buffers, or its refusal but for 8, which comes with a count.
pub fn outline(map: &[u8], grounds: &Grounds, draw: u32, mask: &mut [u8], table: &mut [u16]) -> Result<Outline, u32> {
    let areas = map::read(map, grounds)?;
    let proposal = proposal::choose(&areas, draw)?;
    let shared = proposal.areas.iter().zip(&areas).find(|(given, _)| given.gets == GETS_SHARE);
    let (given, area) = shared.ok_or(NOT_ONE_PART)?;
    let mask = mask.get_mut(..area.rows * area.columns).ok_or(MASK_SHORT)?;
    let mut grid = Grid::of(area, grounds)?;
    if let Some(LastRing { ring, slack }) = grid.rounds(100 * u64::from(area.weight), given.share) {
        let Some(table) = table.get_mut(..=slack) else {
            mask.fill(0);
            return Ok(Outline { refusal: TABLE_SHORT, area: 0, needed: slack as u64 + 1 });
        };
        let people: Vec<usize> = ring.iter().map(|&place| grid.people[place] as usize).collect();
        for index in leave_out(&people, table) {
            grid.set[ring[index]] = false;
        }
    }
    grid.write(area.columns, mask);
    Ok(Outline { refusal: 0, area: given.number, needed: 0 })
}
