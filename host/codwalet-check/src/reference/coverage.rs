//! Coverage, and the blocks of an area.

use super::map::{Area, Cell, read_map};
use super::register::{Ground, Licence};

impl Ground {
    /// "A box covers a cell if south ≤ latitude < north and west ≤ longitude < east. A PEA ground covers every cell of
    /// that area."
    pub fn covers(&self, area_number: u16, cell: &Cell) -> bool {
        match *self {
            Ground::Area(number) => number == area_number,
            Ground::Box { south, north, west, east } => {
                south <= cell.latitude && cell.latitude < north && west <= cell.longitude && cell.longitude < east
            }
        }
    }
}

/// What licences in force cover in an area: c, in MHz-pops, and "the count of covered cells".
#[derive(Clone, Copy, Debug, Default, PartialEq, Eq)]
pub struct Covered {
    pub mhz_pops: u64,
    pub cells: u64,
}

/// "For an area, c becomes the sum of width × people covered." Beside it document 02 has the cells: "Cells without
/// people count too, and a cell under two licences counts twice", whatever their widths. c is at most
/// 64 × 50 × 40,000,000.
pub fn covered(lines: &[Licence], area: &Area) -> Covered {
    let mut covered = Covered::default();
    for line in lines {
        for cell in area.cells.iter().flatten().filter(|cell| line.ground.covers(area.number, cell)) {
            covered.mhz_pops += u64::from(line.width) * u64::from(cell.people);
            covered.cells += 1;
        }
    }
    covered
}

/// Coverage of the area with a number: zeros if the map lacks it. The error is the refusal's number, 1 to 5.
pub fn coverage(map: &[u8], lines: &[Licence], number: u16) -> Result<Covered, u32> {
    let areas = read_map(map).map_err(|fault| fault.number)?;
    let area = areas.iter().find(|area| area.number == number);
    Ok(area.map_or(Covered::default(), |area| covered(lines, area)))
}

/// The blocks of an area: whole ones, and v and M, which are 0 where the area is not partial.
#[derive(Clone, Copy, Debug, PartialEq, Eq)]
pub struct Blocks {
    pub whole: u64,
    pub value: u64,
    pub size: u64,
}

/// "Whole blocks are c / (100 × pop) with remainder r. The 99% rule reads r ≥ 99 × pop, and v is weight × r." The rest
/// is document 01's: with 99% "one more whole block and nothing partial. Otherwise, if r > 0, the area is partial", with
/// "size M = 100 × weight × pop".
pub fn blocks(lines: &[Licence], area: &Area) -> Blocks {
    let c = covered(lines, area).mhz_pops;
    let population = area.population();
    let weight = u64::from(area.weight);
    let whole = c / (100 * population);
    let rest = c % (100 * population);
    if rest >= 99 * population {
        Blocks { whole: whole + 1, value: 0, size: 0 }
    } else if rest > 0 {
        Blocks { whole, value: weight * rest, size: 100 * weight * population }
    } else {
        Blocks { whole, value: 0, size: 0 }
    }
}

#[cfg(test)]
mod tests {
    use super::*;
    use crate::reference::tests::{Slice, area_held, columns, licences, of_widths, row, small_map};

    /// Area 7 with people 5, 0, 4, 3 and 8 and a gap in the middle, so with six places and five cells.
    fn gapped() -> Area {
        let mut area = row(7, 1, &[5, 0, 4, 9, 3, 8]);
        area.cells[3] = None;
        area
    }

    #[test]
    fn cells_by_hand_count() {
        let around = Ground::Box { south: -100, north: 100, west: -100, east: 100 };
        let held: [(&[Ground], (u64, u64)); 12] = [
            // Nothing, one cell, a cell without people, a cell with its neighbour without people.
            (&[], (0, 0)),
            (&[columns(7, 0, 1)], (5, 1)),
            (&[columns(7, 1, 2)], (0, 1)),
            (&[columns(7, 0, 2)], (5, 2)),
            // A gap alone, and cells on both its sides.
            (&[columns(7, 3, 4)], (0, 0)),
            (&[columns(7, 2, 5)], (7, 2)),
            // Two boxes that share two cells, and the same box twice.
            (&[columns(7, 0, 3), columns(7, 1, 5)], (16, 6)),
            (&[columns(7, 1, 2), columns(7, 1, 2)], (0, 2)),
            // A licence for the area is over all five cells, with a box beside it or a second one of its kind.
            (&[Ground::Area(7)], (20, 5)),
            (&[Ground::Area(7), columns(7, 1, 3)], (24, 7)),
            (&[Ground::Area(7), around, Ground::Area(7)], (60, 15)),
            // A licence for another area, and a box on another latitude.
            (&[Ground::Area(8), columns(8, 0, 6)], (0, 0)),
        ];
        for (grounds, (people, cells)) in held {
            let by_hand = Covered { mhz_pops: 50 * people, cells };
            assert_eq!(covered(&licences(grounds), &gapped()), by_hand, "{grounds:?}");
        }
    }

    #[test]
    fn widths_by_hand_count() {
        let all = Ground::Area(7);
        let held: [(&[Slice], (u64, u64)); 10] = [
            // One MHz over five people, over nobody, and over the area.
            (&[(columns(7, 0, 1), 1)], (5, 1)),
            (&[(columns(7, 1, 2), 1)], (0, 1)),
            (&[(all, 1)], (20, 5)),
            // A cell counts once, as narrow as its licence may be, and once more for a second one.
            (&[(columns(7, 0, 2), 49)], (245, 2)),
            (&[(columns(7, 0, 2), 49), (columns(7, 0, 1), 2)], (255, 3)),
            // Boxes of 7 and 11 MHz that share the cells of 0 and of 4 people.
            (&[(columns(7, 0, 3), 7), (columns(7, 1, 5), 11)], (63 + 77, 6)),
            // The area in slices that add to 50, and beside a licence for another area.
            (&[(all, 20), (all, 29), (all, 1)], (1_000, 15)),
            (&[(all, 20), (Ground::Area(8), 30)], (400, 5)),
            // No width, which no grant leaves: cells alone.
            (&[(all, 0)], (0, 5)),
            (&[(all, 0), (columns(7, 5, 6), 3), (columns(7, 5, 6), 0)], (24, 7)),
        ];
        for (each, (mhz_pops, cells)) in held {
            assert_eq!(covered(&of_widths(each), &gapped()), Covered { mhz_pops, cells }, "{each:?}");
        }
    }

    #[test]
    fn a_number_that_the_map_lacks_and_a_map_that_is_refused() {
        let lines = licences(&[Ground::Area(7), Ground::Area(8), columns(7, 0, 5)]);
        assert_eq!(coverage(&small_map(), &lines, 7), Ok(Covered { mhz_pops: 2_000, cells: 10 }));
        for lacking in [0, 6, 8, u16::MAX] {
            assert_eq!(coverage(&small_map(), &lines, lacking), Ok(Covered { mhz_pops: 0, cells: 0 }), "{lacking}");
        }
        for number in [7, 8] {
            assert_eq!(coverage(&small_map()[..69], &lines, number), Err(1));
        }
    }

    #[test]
    fn holdings_1_and_2_in_blocks() {
        for (c, by_hand) in [(198, (1, 0, 0)), (197, (0, 9_850, 10_000))] {
            let (area, grounds) = area_held(1, (1, 100, c));
            let Blocks { whole, value, size } = blocks(&licences(&grounds), &area);
            assert_eq!((whole, value, size), by_hand, "c {c}");
        }
    }

    /// An area with pop 100 and weight 3, of one person and 99, held so that one MHz-pop decides.
    #[test]
    fn one_mhz_pop_decides() {
        let area = row(1, 3, &[1, 99]);
        let (all, one, others) = (Ground::Area(1), columns(1, 0, 1), columns(1, 1, 2));
        let held: [(&[Slice], u64, [u64; 3]); 8] = [
            (&[(one, 1)], 1, [0, 3, 30_000]),
            // 99 in the hundred, and one MHz-pop below and above.
            (&[(all, 50), (all, 48), (others, 1)], 9_899, [0, 29_697, 30_000]),
            (&[(all, 50), (all, 49)], 9_900, [1, 0, 0]),
            (&[(all, 50), (all, 49), (one, 1)], 9_901, [1, 0, 0]),
            // A whole block, and one MHz-pop below and above.
            (&[(all, 50), (all, 49), (others, 1)], 9_999, [1, 0, 0]),
            (&[(all, 50), (all, 50)], 10_000, [1, 0, 0]),
            (&[(all, 50), (all, 50), (one, 1)], 10_001, [1, 3, 30_000]),
            // The same for the second block.
            (&[(all, 50), (all, 50), (all, 50), (all, 48), (others, 1)], 19_899, [1, 29_697, 30_000]),
        ];
        for (each, c, by_hand) in held {
            let lines = of_widths(each);
            assert_eq!(covered(&lines, &area).mhz_pops, c, "{each:?}");
            let Blocks { whole, value, size } = blocks(&lines, &area);
            assert_eq!([whole, value, size], by_hand, "{each:?}");
        }
    }

    /// 64 licences over 40 cells of 1,000,000 people, with the greatest weight.
    #[test]
    fn the_greatest_amounts() {
        let area = row(416, 65_535, &[1_000_000; 40]);
        let all = of_widths(&[(Ground::Area(416), 50); 64]);
        assert_eq!(covered(&all, &area), Covered { mhz_pops: 128_000_000_000, cells: 2_560 });
        assert_eq!(blocks(&all, &area), Blocks { whole: 32, value: 0, size: 0 });
        let mut part = all;
        part[63].width = 48;
        let (value, size) = (65_535 * 98 * 40_000_000, 65_535 * 100 * 40_000_000);
        assert_eq!(blocks(&part, &area), Blocks { whole: 31, value, size });
    }
}
