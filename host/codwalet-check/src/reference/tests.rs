//! Document 01's twelve holdings, and what the tests of the sections are built from.

use super::*;

/// An area of one row of cells, one hundredth of an arc second apart, on a latitude of its own.
pub(super) fn row(number: u16, weight: u32, people: &[u32]) -> Area {
    let cell = |(column, &people)| Some(Cell { people, latitude: i32::from(number), longitude: column as i32 });
    let cells = people.iter().enumerate().map(cell).collect();
    Area { number, weight, rows: 1, columns: people.len(), cells, start: 0, end: 0 }
}

/// A ground over the columns from `west` to before `east` of the row with a number.
pub(super) fn columns(number: u16, west: i32, east: i32) -> Ground {
    Ground::Box { south: i32::from(number), north: i32::from(number) + 1, west, east }
}

/// A licence for each ground, with call signs from 1 on.
pub(super) fn licences(grounds: &[Ground]) -> Vec<Licence> {
    (1..).zip(grounds).map(|(call_sign, &ground)| Licence::without_width(call_sign, ground)).collect()
}

/// A ground, and so many MHz over it.
pub(super) type Slice = (Ground, u32);

/// A licence for each ground and width, with call signs from 1 on.
pub(super) fn of_widths(each: &[Slice]) -> Vec<Licence> {
    (1..).zip(each).map(|(call_sign, &(ground, width))| Licence { call_sign, ground, width }).collect()
}

/// An area with weight, population and document 01's c, with the grounds that cover c people of it: at 50 MHz each,
/// document 02's c is 50 times that.
pub(super) fn area_held(number: u16, (weight, population, c): (u32, u32, u32)) -> (Area, Vec<Ground>) {
    let mut grounds = vec![Ground::Area(number); (c / population) as usize];
    grounds.push(columns(number, 0, 1));
    (row(number, weight, &[c % population, population - c % population]), grounds)
}

/// A map of one area, number 7, with the cells of holdings 10 to 12: 9 bytes of head, the bit map, and five cells.
pub(super) fn small_map() -> Vec<u8> {
    let mut map = vec![1, 7, 0, 1, 0, 0, 0, 1, 5, 0b11111];
    for (column, people) in [5u32, 0, 4, 3, 8].into_iter().enumerate() {
        map.extend(people.to_le_bytes());
        map.extend(7i32.to_le_bytes());
        map.extend((column as i32).to_le_bytes());
    }
    map
}

/// What a holding consists of.
enum Held {
    /// Each area's weight, pop and c.
    Areas(&'static [(u32, u32, u32)]),
    /// So many licences over columns 2 and 3 of one row with people 5, 0, 4, 3, 8.
    Row(usize),
}

/// One of document 01's holdings with its answers by hand count.
struct Holding {
    name: &'static str,
    held: Held,
    draw: u32,
    kind: u32,
    target: u64,
    white_space: u64,
    tied: u64,
    blocks: u64,
    /// Each area's covered cells, of the two or five that it is built from here, and what it gets.
    areas: &'static [(u64, Gets)],
    /// Where a footprint is asked for: the mask, and the table's entries.
    footprint: Option<([u8; 5], usize)>,
}

const fn exact(name: &'static str, held: Held, areas: &'static [(u64, Gets)]) -> Holding {
    let footprint = None;
    Holding { name, held, draw: 0, kind: 1, target: 0, white_space: 0, tied: 0, blocks: 0, areas, footprint }
}

const fn part(name: &'static str, held: Held, target: u64, white: u64, areas: &'static [(u64, Gets)]) -> Holding {
    Holding { kind: 3, target, white_space: white, tied: 1, ..exact(name, held, areas) }
}

// A row of the table is a holding: it stays on two lines.
#[rustfmt::skip]
const HOLDINGS: [Holding; 13] = {
    use Gets::{Nothing, RoundedUp, Share, Whole};
    use Held::{Areas, Row};
    [
        Holding { blocks: 1, ..exact("1", Areas(&[(1, 100, 198)]), &[(3, Nothing)]) },
        Holding { kind: 2, ..part("2", Areas(&[(1, 100, 197)]), 9_850, 150, &[(3, RoundedUp)]) },
        Holding { kind: 2, ..part("3", Areas(&[(1, 100, 180)]), 9_000, 1_000, &[(3, RoundedUp)]) },
        part("4", Areas(&[(1, 100, 179)]), 8_950, 1_050, &[(3, Share(8_950))]),
        Holding { target: 10_000,
            ..exact("5", Areas(&[(1, 100, 100), (1, 100, 100)]), &[(3, Whole), (3, Nothing)]) },
        part("6", Areas(&[(1, 100, 100), (1, 40, 40)]), 7_000, 3_000, &[(3, Share(7_000)), (3, Nothing)]),
        Holding { kind: 2, ..part("7", Areas(&[(1, 1_000, 1_000), (1, 330, 300), (1, 330, 300), (1, 330, 300)]),
            95_000, 5_000, &[(3, RoundedUp), (1, Nothing), (1, Nothing), (1, Nothing)]) },
        part("8", Areas(&[(1, 100, 180), (3, 120, 200)]), 39_000, 7_000, &[(3, Whole), (3, Share(29_000))]),
        Holding { tied: 2, ..part("9, draw 0", Areas(&[(1, 100, 150), (1, 100, 150)]),
            15_000, 5_000, &[(3, Share(5_000)), (3, Whole)]) },
        Holding { tied: 2, draw: 3, ..part("9, draw 3", Areas(&[(1, 100, 150), (1, 100, 150)]),
            15_000, 5_000, &[(3, Whole), (3, Share(5_000))]) },
        Holding { footprint: Some(([0, 0, 1, 0, 0], 4)), ..part("10", Row(1), 350, 1_650, &[(2, Share(350))]) },
        Holding { footprint: Some(([0, 0, 1, 1, 0], 0)), ..part("11", Row(2), 700, 1_300, &[(4, Share(700))]) },
        Holding { footprint: Some(([0, 1, 1, 1, 1], 5)), ..part("12", Row(3), 1_050, 950, &[(6, Share(1_050))]) },
    ]
};

/// The areas of a holding and its licences.
fn hold(held: &Held) -> (Vec<Area>, Vec<Licence>) {
    match held {
        Held::Areas(areas) => {
            let each = areas.iter().enumerate().map(|(place, &area)| area_held(place as u16 + 1, area));
            let (areas, grounds): (Vec<Area>, Vec<Vec<Ground>>) = each.unzip();
            (areas, licences(&grounds.concat()))
        }
        Held::Row(count) => (vec![row(1, 1, &[5, 0, 4, 3, 8])], licences(&vec![columns(1, 2, 4); *count])),
    }
}

/// Checks the answers of a holding, each of its licences being held as so many with the same ground.
fn assert_by_hand(holding: &Holding, areas: &[Area], lines: &[Licence], each: u64) {
    let name = format!("holding {}, {each} for each licence", holding.name);
    let given = |(place, &(cells, gets)): (usize, &(u64, Gets))| Given {
        number: place as u16 + 1,
        blocks: holding.blocks,
        cells: each * cells,
        gets,
    };
    let by_hand = Proposal {
        kind: holding.kind,
        target: holding.target,
        white_space: holding.white_space,
        tied: holding.tied,
        areas: holding.areas.iter().enumerate().map(given).collect(),
    };
    assert_eq!(propose(areas, lines, holding.draw), Ok(by_hand), "{name}");
    if let Some((mask, entries)) = holding.footprint {
        let outline = outline(areas, lines, holding.draw).expect("of kind 3");
        assert_eq!(outline.footprint, mask.map(|byte| byte == 1), "{name}");
        assert_eq!(outline.entries, entries, "{name}");
    }
}

/// "The twelve cases keep their results, with each c multiplied by 50."
#[test]
fn the_twelve_holdings() {
    for holding in &HOLDINGS {
        let (areas, lines) = hold(&holding.held);
        let c: Vec<u64> = areas.iter().map(|area| covered(&lines, area).mhz_pops).collect();
        let by_hand: Vec<u64> = match holding.held {
            Held::Areas(areas) => areas.iter().map(|&(_, _, c)| 50 * u64::from(c)).collect(),
            Held::Row(licences) => vec![50 * 7 * licences as u64],
        };
        assert_eq!(c, by_hand, "holding {}", holding.name);
        assert_by_hand(holding, &areas, &lines, 1);
    }
}

/// Slices in the place of each licence of 50 MHz: the same proposal but for its cells, and the same footprint.
#[test]
fn the_twelve_holdings_in_slices() {
    for slices in [&[5; 10][..], &[49, 1], &[1, 2, 47], &[1; 50]] {
        assert_eq!(slices.iter().sum::<u32>(), 50);
        for holding in &HOLDINGS {
            let (areas, lines) = hold(&holding.held);
            let sliced = |line: &Licence| slices.iter().map(|&width| (line.ground, width)).collect::<Vec<_>>();
            let lines = of_widths(&lines.iter().flat_map(sliced).collect::<Vec<_>>());
            assert_by_hand(holding, &areas, &lines, slices.len() as u64);
        }
    }
}

/// Pop 100 at 90 in the hundred of a block, and one MHz-pop below and above: of one person and 99.
#[test]
fn one_mhz_pop_makes_a_share() {
    let areas = [row(1, 1, &[1, 99])];
    let (all, one, others) = (Ground::Area(1), columns(1, 0, 1), columns(1, 1, 2));
    let held: [(&[Slice], u64, Gets); 3] = [
        (&[(all, 50), (all, 39), (others, 1)], 8_999, Gets::Share(8_999)),
        (&[(all, 50), (all, 40)], 9_000, Gets::RoundedUp),
        (&[(all, 50), (all, 40), (one, 1)], 9_001, Gets::RoundedUp),
    ];
    for (each, c, gets) in held {
        let proposal = propose(&areas, &of_widths(each), 0).expect("one partial area");
        let kind = if gets == Gets::RoundedUp { 2 } else { 3 };
        assert_eq!((proposal.kind, proposal.target, proposal.white_space), (kind, c, 10_000 - c));
        assert_eq!((proposal.areas[0].blocks, proposal.areas[0].gets), (0, gets));
    }
}

/// Areas with pop 100 and c 5,000, and one with 1 MHz-pop more or less: what was exact has a share of 1, or all but 1.
#[test]
fn one_mhz_pop_beside_an_exact_holding() {
    let areas = [row(1, 1, &[1, 99]), row(2, 1, &[100])];
    let (all, one, others, two) = (Ground::Area(1), columns(1, 0, 1), columns(1, 1, 2), Ground::Area(2));
    let proposed = |each: &[Slice]| {
        let proposal = propose(&areas, &of_widths(each), 0).expect("two partial areas");
        let gets: Vec<Gets> = proposal.areas.iter().map(|given| given.gets).collect();
        (proposal.kind, proposal.target, proposal.white_space, proposal.tied, gets)
    };
    use Gets::{Nothing, RoundedUp, Share, Whole};
    assert_eq!(proposed(&[(all, 50), (two, 50)]), (1, 10_000, 0, 0, vec![Whole, Nothing]));
    let below = [(all, 49), (others, 1), (two, 50)];
    assert_eq!(proposed(&below), (2, 9_999, 1, 2, vec![RoundedUp, Nothing]));
    let above = [(all, 50), (one, 1), (two, 50)];
    assert_eq!(proposed(&above), (3, 10_001, 9_999, 2, vec![Share(1), Whole]));
}

/// Three areas with pop 100 and c 150 each, of two, three and five cells: cells without people decide nothing.
#[test]
fn areas_that_differ_in_cells_alone() {
    let areas = [row(1, 1, &[50, 50]), row(2, 1, &[50, 0, 50]), row(3, 1, &[50, 50, 0, 0, 0])];
    let each = [1, 2, 3].map(|number| [Ground::Area(number), columns(number, 0, 1)]);
    let lines = licences(&each.concat());
    for draw in 0..6 {
        let proposal = propose(&areas, &lines, draw).expect("three partial areas");
        assert_eq!((proposal.kind, proposal.target, proposal.white_space, proposal.tied), (3, 22_500, 7_500, 3));
        let cells: Vec<u64> = proposal.areas.iter().map(|given| given.cells).collect();
        assert_eq!(cells, [3, 4, 6]);
        let shared = proposal.areas.iter().position(|given| given.gets == Gets::Share(2_500));
        assert_eq!(shared, Some(draw as usize % 3), "draw {draw}");
    }
}

/// An area that is whole, one that has only cells without people covered, and one under no licence show their cells
/// too.
#[test]
fn cells_of_areas_that_are_not_partial() {
    let areas = [row(1, 1, &[5, 0, 5]), row(2, 1, &[0, 0, 9]), row(3, 1, &[7, 0])];
    let lines = licences(&[Ground::Area(1), Ground::Area(1), columns(2, 0, 2)]);
    let given = |number, blocks, cells| Given { number, blocks, cells, gets: Gets::Nothing };
    let by_hand = vec![given(1, 1, 6), given(2, 0, 2), given(3, 0, 0)];
    let exact = Proposal { kind: 1, target: 0, white_space: 0, tied: 0, areas: by_hand };
    assert_eq!(propose(&areas, &lines, 0), Ok(exact));
}

#[test]
fn more_than_20_partial_areas() {
    let areas: Vec<Area> = (1..=21).map(|number| row(number, 1, &[1])).collect();
    let lines = licences(&(1..=21).map(Ground::Area).collect::<Vec<Ground>>());
    assert_eq!(propose(&areas, &lines, 0), Err(12));
    assert_eq!(outline(&areas, &lines, 0), Err(12));
    assert_eq!(propose(&areas, &lines[1..], 0).map(|proposal| proposal.kind), Ok(1));
}
