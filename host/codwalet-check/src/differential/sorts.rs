//! What makes a count of covered cells, or a width, easy to get wrong, so that it can be shown to have come up.

use super::answers;
use crate::reference::{self, Area, Blocks, Cell, Covered, Ground, Licence};
use codwalet::raw::{self, FULL_WIDTH, GETS_NOTHING, GETS_WHOLE};

const TWICE: &str = "a cell under two licences";
const NO_PEOPLE: &str = "a covered cell without people";
const CELLS_ALONE: &str = "covered cells that have no people between them";
const BESIDE: &str = "a licence for an area beside a box";
const GAPS: &str = "a licence for an area with gaps";
const LACKING: &str = "a licence for a number that the map lacks";
const MANY: &str = "more covered cells than 16 bits count";
const UNLIKE: &str = "areas of a proposal that differ in cells";
const NOT_PARTIAL: &str = "covered cells of an area that is not partial";
const TIED: &str = "tied areas that differ in cells alone";
const NARROW: &str = "people under a licence narrower than 50 MHz";
const ONE_MHZ: &str = "people under a licence of 1 MHz";
const NO_WIDTH: &str = "people under a forged licence of no width";
const UNEVEN: &str = "MHz-pops that are no multiple of 50";
const WIDE_SUM: &str = "more MHz-pops than 32 bits count";
const BELOW_99: &str = "one MHz-pop below 99 in the hundred";
const AT_99: &str = "99 in the hundred";
const ABOVE_99: &str = "one MHz-pop above 99 in the hundred";
const BELOW_90: &str = "a share one MHz-pop below 90 in the hundred";
const AT_90: &str = "a share of 90 in the hundred";
const ABOVE_90: &str = "a share one MHz-pop above 90 in the hundred";
const NARROW_START: &str = "a footprint that starts from cells under narrow licences alone";
const NO_WIDTH_START: &str = "a footprint that starts from cells under licences of no width alone";
const WIDTH_ALONE: &str = "a grant refused for its width alone";
const WIDTH_FIRST: &str = "a grant refused for its width, with its call sign in force or 64 licences";
const LOW_BYTE: &str = "a width of which the lowest byte would do";
const BYTE_HANDED: &str = "a byte that no grant reads, in a licence that is granted";

/// The names of all sorts.
pub const SORTS: [&str; 27] = [
    TWICE,
    NO_PEOPLE,
    CELLS_ALONE,
    BESIDE,
    GAPS,
    LACKING,
    MANY,
    UNLIKE,
    NOT_PARTIAL,
    TIED,
    NARROW,
    ONE_MHZ,
    NO_WIDTH,
    UNEVEN,
    WIDE_SUM,
    BELOW_99,
    AT_99,
    ABOVE_99,
    BELOW_90,
    AT_90,
    ABOVE_90,
    NARROW_START,
    NO_WIDTH_START,
    WIDTH_ALONE,
    WIDTH_FIRST,
    LOW_BYTE,
    BYTE_HANDED,
];

/// The names of the sorts that are there.
fn named<const N: usize>(sorts: [(&'static str, bool); N]) -> Vec<&'static str> {
    sorts.into_iter().filter(|&(_, is_there)| is_there).map(|(name, _)| name).collect()
}

/// The sorts of a grant, with a width or without.
pub fn of_grant(lines: &[Licence], licence: &raw::Licence, width: Option<u32>) -> Vec<&'static str> {
    let (full, due) = (answers::handed(licence, None), answers::handed(licence, width));
    let is_ill_formed = |licence: Licence| reference::grant(&[], licence).is_err();
    let is_width_alone = is_ill_formed(due) && !is_ill_formed(full);
    let low_byte = Licence { width: due.width & 0xff, ..full };
    named([
        (WIDTH_ALONE, is_width_alone && reference::grant(lines, full).is_ok()),
        (WIDTH_FIRST, is_width_alone && reference::grant(lines, full).is_err()),
        (LOW_BYTE, is_width_alone && !is_ill_formed(low_byte)),
        (BYTE_HANDED, licence.narrower_by != 0 && reference::grant(lines, due).is_ok()),
    ])
}

/// The sorts of the blocks of the area with a number. A map that is refused has none.
pub fn of_blocks(map: &[u8], lines: &[Licence], number: u16) -> Vec<&'static str> {
    let areas = reference::read_map(map).unwrap_or_default();
    areas.iter().find(|area| area.number == number).map_or(Vec::new(), |area| near_99(area, lines))
}

/// How far an area is from 99 in the hundred of a block, where it is near.
fn near_99(area: &Area, lines: &[Licence]) -> Vec<&'static str> {
    let population = area.population();
    let rest = reference::covered(lines, area).mhz_pops % (100 * population);
    named([
        (BELOW_99, rest + 1 == 99 * population),
        (AT_99, rest == 99 * population),
        (ABOVE_99, rest == 99 * population + 1),
    ])
}

/// The sorts of a footprint that is made.
pub fn of_footprint(map: &[u8], lines: &[Licence], outline: &raw::Outline) -> Vec<&'static str> {
    let areas = reference::read_map(map).unwrap_or_default();
    let Some(area) = areas.iter().find(|area| u32::from(area.number) == outline.area) else {
        return Vec::new();
    };
    let widest_over = |cell: &Cell| {
        let over = lines.iter().filter(|line| line.ground.covers(area.number, cell));
        over.map(|line| line.width).max()
    };
    let widest: Vec<u32> = area.cells.iter().flatten().filter_map(widest_over).collect();
    named([
        (NARROW_START, widest.iter().any(|width| (1..FULL_WIDTH).contains(width))),
        (NO_WIDTH_START, widest.contains(&0)),
    ])
}

/// The sorts of the coverage of the area with a number. A map that is refused has none.
pub fn of_coverage(map: &[u8], lines: &[Licence], number: u16) -> Vec<&'static str> {
    let Ok(areas) = reference::read_map(map) else {
        return Vec::new();
    };
    let is_named = lines.iter().any(|line| line.ground == Ground::Area(number));
    match areas.iter().find(|area| area.number == number) {
        Some(area) => of_area(area, lines, is_named),
        None => named([(LACKING, is_named)]),
    }
}

fn of_area(area: &Area, lines: &[Licence], is_named: bool) -> Vec<&'static str> {
    let cells: Vec<&Cell> = area.cells.iter().flatten().collect();
    let covers = |line: &Licence, cell: &Cell| line.ground.covers(area.number, cell);
    let licences_over = |cell: &Cell| lines.iter().filter(|line| covers(line, cell)).count();
    let is_box = |line: &&Licence| matches!(line.ground, Ground::Box { .. });
    let is_boxed = lines.iter().filter(is_box).any(|line| cells.iter().any(|cell| covers(line, cell)));
    let has_people_under = |is_meant: fn(u32) -> bool| {
        let meant = |line: &&Licence| is_meant(line.width);
        lines.iter().filter(meant).any(|line| cells.iter().any(|cell| cell.people > 0 && covers(line, cell)))
    };
    let covered = reference::covered(lines, area);
    named([
        (TWICE, cells.iter().any(|cell| licences_over(cell) > 1)),
        (NO_PEOPLE, cells.iter().any(|cell| cell.people == 0 && licences_over(cell) > 0)),
        (CELLS_ALONE, covered.cells > 0 && !has_people_under(|_| true)),
        (BESIDE, is_named && is_boxed),
        (GAPS, is_named && cells.len() < area.cells.len()),
        (MANY, covered.cells > u64::from(u16::MAX)),
        (NARROW, has_people_under(|width| (1..FULL_WIDTH).contains(&width))),
        (ONE_MHZ, has_people_under(|width| width == 1)),
        (NO_WIDTH, has_people_under(|width| width == 0)),
        (UNEVEN, !covered.mhz_pops.is_multiple_of(u64::from(FULL_WIDTH))),
        (WIDE_SUM, covered.mhz_pops > u64::from(u32::MAX)),
    ])
}

/// What a proposal reads of an area, and its covered cells.
struct Shown {
    number: u16,
    weight: u32,
    blocks: Blocks,
    cells: u64,
}

impl Shown {
    /// Whether both areas are worth the same, so that where one is tied the other is too, and have other counts.
    fn differs_in_cells_alone(&self, other: &Shown) -> bool {
        let worth = |shown: &Shown| (shown.weight, shown.blocks.value, shown.blocks.size);
        worth(self) == worth(other) && self.cells != other.cells
    }
}

/// The sorts of a proposal. One that is refused has none.
pub fn of_proposal(map: &[u8], lines: &[Licence], proposal: &raw::Proposal) -> Vec<&'static str> {
    if proposal.refusal != 0 {
        return Vec::new();
    }
    let areas = reference::read_map(map).unwrap_or_default();
    let shown: Vec<Shown> = areas.iter().map(|area| shown(area, lines)).collect();
    let partial = proposal.areas.iter().find(|given| ![GETS_NOTHING, GETS_WHOLE].contains(&given.gets));
    let partial = partial.and_then(|given| shown.iter().find(|area| u32::from(area.number) == given.number));
    // Whether the partial area, with a share or rounded up, is so many of its MHz-pops away from 90 in the hundred.
    let near_90 = |away: i64| {
        let ten_shares = |area: &Shown| 10 * (area.blocks.size - proposal.white_space) as i64;
        partial.is_some_and(|area| ten_shares(area) - 9 * area.blocks.size as i64 == 10 * away * i64::from(area.weight))
    };
    named([
        (UNLIKE, shown.iter().any(|area| area.cells != shown[0].cells)),
        (NOT_PARTIAL, shown.iter().any(|area| area.blocks.size == 0 && area.cells > 0)),
        (TIED, partial.is_some_and(|partial| shown.iter().any(|area| area.differs_in_cells_alone(partial)))),
        (BELOW_90, near_90(-1)),
        (AT_90, near_90(0)),
        (ABOVE_90, near_90(1)),
    ])
}

fn shown(area: &Area, lines: &[Licence]) -> Shown {
    let Covered { cells, .. } = reference::covered(lines, area);
    Shown { number: area.number, weight: area.weight, blocks: reference::blocks(lines, area), cells }
}
