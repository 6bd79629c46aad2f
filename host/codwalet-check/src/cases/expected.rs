//! The lines that the program `holdings` must print for a case, by the independent implementation of document 01.

use super::encoding::{Call, Case};
use crate::reference::{self, Area, Blocks, Covered, Fault, Gets, Ground, Licence, Proposal};

/// What the program puts into a mask before it lends it: no byte of a footprint.
const UNTOUCHED: u8 = 9;

/// The words of an item of a list.
pub const ITEM: usize = 8;

/// The lines of a case, each with its end of line. A grant, a cancellation, an empty register or a list changes the
/// ledger.
pub fn lines(case: &Case, ledger: &mut Vec<Licence>) -> String {
    let lines = match case {
        Case::Map { map, numbers } => map_lines(map, numbers),
        Case::Grant(licence) | Case::GrantWidth(licence) => {
            let next = reference::grant(ledger, *licence);
            vec![format!("grant {}", settle(ledger, next))]
        }
        Case::Cancellation(call_sign) => {
            let next = reference::cancel(ledger, *call_sign);
            vec![format!("cancel {}", settle(ledger, next))]
        }
        Case::Empty => {
            ledger.clear();
            vec!["empty".to_string()]
        }
        Case::Proposals { map, numbers, draws } => proposals_lines(map, ledger, numbers, draws),
        Case::Footprints { map, calls } => calls.iter().flat_map(|call| footprint_lines(map, ledger, call)).collect(),
        Case::List { map, mask, table, unchanged_from, words } => {
            let mut mask = vec![UNTOUCHED; usize::from(*mask)];
            let list = play(map, words, &mut mask, usize::from(*table));
            *ledger = list.ledger;
            vec![
                format!("list {}", words.len()),
                format!(" calls {}", list.calls),
                format!(" refused {}", list.refusals.len()),
                mask_line(&mask),
                unchanged_line(*table, *unchanged_from),
            ]
        }
    };
    lines.iter().map(|line| format!("{line}\n")).collect()
}

/// Takes over the next ledger unless it is refused, and gives the refusal's number, or 0.
fn settle(ledger: &mut Vec<Licence>, next: Result<Vec<Licence>, u32>) -> u32 {
    match next {
        Ok(next) => {
            *ledger = next;
            0
        }
        Err(number) => number,
    }
}

fn find(areas: &[Area], number: u16) -> Option<&Area> {
    areas.iter().find(|area| area.number == number)
}

fn map_lines(map: &[u8], numbers: &[u16]) -> Vec<String> {
    let areas = reference::read_map(map);
    let mut lines = vec![format!("map {}", areas.as_ref().err().map_or(0, |fault| fault.number))];
    for &number in numbers {
        lines.extend(look_up_lines(map, &areas, number));
    }
    lines
}

/// The head of the area with a number, and the length and the sum of the part of the map that holds its rows.
fn look_up_lines(map: &[u8], areas: &Result<Vec<Area>, Fault>, number: u16) -> Vec<String> {
    let mut lines = vec![format!("area {number}")];
    let mut rows: &[u8] = &[];
    match areas.as_ref().map(|areas| find(areas, number)) {
        Err(fault) => lines.push(format!(" refused {}", fault.number)),
        Ok(None) => lines.push(" lacking".to_string()),
        Ok(Some(area)) => {
            lines.push(format!(" weight {}", area.weight));
            lines.push(format!(" rows {}", area.rows));
            lines.push(format!(" columns {}", area.columns));
            lines.push(format!(" people {}", area.population()));
            rows = &map[area.start..area.end];
        }
    }
    let sum: u32 = rows.iter().map(|&byte| u32::from(byte)).sum();
    lines.extend([format!(" bytes {}", rows.len()), format!(" sum {sum}")]);
    lines
}

fn proposals_lines(map: &[u8], ledger: &[Licence], numbers: &[u16], draws: &[u32]) -> Vec<String> {
    let areas = reference::read_map(map).map_err(|fault| fault.number);
    let mut lines = Vec::new();
    for &number in numbers {
        lines.push(format!("coverage {number}"));
        match &areas {
            // Coverage and blocks are two calls, and each is refused.
            Err(fault) => lines.extend([format!(" refused {fault}"), format!(" refused {fault}")]),
            Ok(areas) => lines.extend(coverage_lines(find(areas, number), ledger)),
        }
    }
    for &draw in draws {
        lines.push(format!("propose {draw}"));
        let proposal = areas.as_ref().map_err(|&fault| fault);
        match proposal.and_then(|areas| reference::propose(areas, ledger, draw)) {
            Err(number) => lines.push(format!(" refused {number}")),
            Ok(proposal) => lines.extend(proposal_lines(&proposal)),
        }
    }
    lines
}

/// Coverage and blocks of one area: "zeros for a number that the map lacks".
fn coverage_lines(area: Option<&Area>, ledger: &[Licence]) -> [String; 5] {
    let Covered { mhz_pops, cells } = area.map_or(Covered::default(), |area| reference::covered(ledger, area));
    let none = Blocks { whole: 0, value: 0, size: 0 };
    let Blocks { whole, value, size } = area.map_or(none, |area| reference::blocks(ledger, area));
    [
        format!(" mhz-pops {mhz_pops}"),
        format!(" cells {cells}"),
        format!(" whole {whole}"),
        format!(" value {value}"),
        format!(" size {size}"),
    ]
}

fn proposal_lines(proposal: &Proposal) -> Vec<String> {
    let mut lines = vec![
        format!(" kind {}", proposal.kind),
        format!(" target {}", proposal.target),
        format!(" white {}", proposal.white_space),
        format!(" tied {}", proposal.tied),
    ];
    for given in &proposal.areas {
        lines.push(format!(" area {}", given.number));
        lines.push(format!("  blocks {}", given.blocks));
        lines.push(format!("  cells {}", given.cells));
        lines.push(match given.gets {
            Gets::Nothing => "  nothing".to_string(),
            Gets::Whole => "  whole".to_string(),
            Gets::RoundedUp => "  rounded up".to_string(),
            Gets::Share(amount) => format!("  share {amount}"),
        });
    }
    lines
}

/// The answer of a footprint, the mask that it leaves, and how many entries of the table must be as they were lent.
fn footprint_lines(map: &[u8], ledger: &[Licence], call: &Call) -> [String; 4] {
    let mut mask = vec![UNTOUCHED; usize::from(call.mask)];
    let answer = match reference::footprint(map, ledger, call.draw, &mut mask, usize::from(call.table)) {
        Ok(made) => format!(" area {}", made.number),
        Err(refused) if refused.number == 8 => format!(" needed {}", refused.needed),
        Err(refused) => format!(" refused {}", refused.number),
    };
    [format!("footprint {}", call.draw), answer, mask_line(&mask), unchanged_line(call.table, call.unchanged_from)]
}

fn mask_line(mask: &[u8]) -> String {
    let shown: String = mask.iter().map(|&byte| shown(byte)).collect();
    format!(" mask {shown}")
}

/// How many entries of a table must be as they were lent.
fn unchanged_line(table: u16, unchanged_from: u16) -> String {
    format!(" unchanged {}", table.saturating_sub(unchanged_from))
}

/// The character for a byte of a mask; any but 0 and 1 is as it was lent.
fn shown(byte: u8) -> char {
    match byte {
        0 => '0',
        1 => '1',
        _ => '.',
    }
}

/// What comes of a list of calls, besides the mask.
#[derive(Default)]
pub struct List {
    ledger: Vec<Licence>,
    calls: usize,
    /// A number for each call that is refused.
    pub refusals: Vec<u32>,
    /// How many entries of the table its footprints may have used.
    pub used: usize,
}

/// Plays a list from an empty ledger, by the words of the function `play` of the crate `ledger`: "The list ends before
/// the first item of another kind, which makes no call, or with the last eight words: words after those are not read."
pub fn play(map: &[u8], words: &[u32], mask: &mut [u8], table: usize) -> List {
    let mut list = List::default();
    for item in words.chunks_exact(ITEM) {
        let (kind, word) = (item[0], item[1]);
        let number = match kind {
            0 | 4 => {
                let next = reference::grant(&list.ledger, licence(item));
                settle(&mut list.ledger, next)
            }
            1 => {
                let next = reference::cancel(&list.ledger, word);
                settle(&mut list.ledger, next)
            }
            2 => {
                let areas = reference::read_map(map).map_err(|fault| fault.number);
                areas.and_then(|areas| reference::propose(&areas, &list.ledger, word)).err().unwrap_or(0)
            }
            3 => match reference::footprint(map, &list.ledger, word, mask, table) {
                Ok(made) => {
                    list.used = list.used.max(made.used);
                    0
                }
                Err(refused) => refused.number,
            },
            _ => break,
        };
        list.calls += 1;
        if number != 0 {
            list.refusals.push(number);
        }
    }
    list
}

/// The licence in an item that grants one, without a width or with one: "A width stands above the low 16 bits of the
/// fourth word, where an area's number is."
fn licence(item: &[u32]) -> Licence {
    let licence = Licence::without_width(item[1], ground(item));
    if item[0] == 0 { licence } else { Licence { width: item[3] >> 16, ..licence } }
}

/// The ground in an item: "0 and an area's number, or else anything but 0, a word that is not read, and the edges
/// south, north, west and east". A number is a u16: of its word the lower half counts.
fn ground(item: &[u32]) -> Ground {
    if item[2] == 0 {
        return Ground::Area(item[3] as u16);
    }
    let edge = |place: usize| item[place] as i32;
    Ground::Box { south: edge(4), north: edge(5), west: edge(6), east: edge(7) }
}

#[cfg(test)]
mod tests {
    use super::super::areas::{cell_at, one_cell, one_row, over};
    use super::*;

    /// The licence of holding 10.
    fn one_licence() -> Vec<Licence> {
        vec![Licence::without_width(1, over((0, 0), (2, 3)))]
    }

    #[test]
    fn maps() {
        let looked_up = |map| {
            let numbers = vec![5, 6];
            lines(&Case::Map { map, numbers }, &mut Vec::new())
        };
        // Its bytes are a bit map of 1, then 3, 2 and 1 in 4 bytes each.
        let accepted = "map 0\narea 5\n weight 1\n rows 1\n columns 1\n people 3\n bytes 13\n sum 7\n\
                        area 6\n lacking\n bytes 0\n sum 0\n";
        assert_eq!(looked_up(one_cell(cell_at(3, 2, 1))), accepted);
        let refused = "map 5\narea 5\n refused 5\n bytes 0\n sum 0\narea 6\n refused 5\n bytes 0\n sum 0\n";
        assert_eq!(looked_up(one_cell(cell_at(0, 2, 1))), refused);
    }

    #[test]
    fn calls_on_the_register() {
        let mut ledger = Vec::new();
        let licence = Licence::without_width(7, Ground::Area(416));
        let calls = [
            (Case::Grant(licence), "grant 0\n", 1),
            (Case::Grant(licence), "grant 9\n", 1),
            (Case::Cancellation(8), "cancel 11\n", 1),
            (Case::Cancellation(7), "cancel 0\n", 0),
            (Case::Grant(licence), "grant 0\n", 1),
            (Case::Empty, "empty\n", 0),
        ];
        for (case, printed, in_force) in calls {
            assert_eq!(lines(&case, &mut ledger), printed);
            assert_eq!(ledger.len(), in_force, "{case:?}");
        }
    }

    #[test]
    fn proposals() {
        let proposals = |map| Case::Proposals { map, numbers: vec![1, 2], draws: vec![4] };
        let holding_10 = "coverage 1\n mhz-pops 350\n cells 2\n whole 0\n value 350\n size 2000\n\
                          coverage 2\n mhz-pops 0\n cells 0\n whole 0\n value 0\n size 0\n\
                          propose 4\n kind 3\n target 350\n white 1650\n tied 1\n\
                          \x20area 1\n  blocks 0\n  cells 2\n  share 350\n";
        assert_eq!(lines(&proposals(one_row()), &mut one_licence()), holding_10);
        let refused = "coverage 1\n refused 1\n refused 1\ncoverage 2\n refused 1\n refused 1\npropose 4\n refused 1\n";
        assert_eq!(lines(&proposals(Vec::new()), &mut one_licence()), refused);
    }

    #[test]
    fn footprints() {
        let call = |mask, table, unchanged_from| Call { draw: 0, mask, table, unchanged_from };
        let case = Case::Footprints { map: one_row(), calls: vec![call(6, 9, 4), call(6, 3, 0), call(4, 9, 0)] };
        let holding_10 = "footprint 0\n area 1\n mask 00100.\n unchanged 5\n\
                          footprint 0\n needed 4\n mask 00000.\n unchanged 3\n\
                          footprint 0\n refused 7\n mask ....\n unchanged 9\n";
        assert_eq!(lines(&case, &mut one_licence()), holding_10);
    }

    /// A list with a mask of 6 bytes and a table of 9 entries.
    fn list(map: Vec<u8>, unchanged_from: u16, items: &[[u32; ITEM]]) -> Case {
        Case::List { map, mask: 6, table: 9, unchanged_from, words: items.concat() }
    }

    /// Grants as in holding 10, in which one licence needs 4 entries and two need none, and other calls.
    const GRANT_1: [u32; ITEM] = [0, 1, 1, 0, 0, 10, 20, 40];
    const GRANT_2: [u32; ITEM] = [0, 2, 1, 0, 0, 10, 20, 40];
    const CANCEL_1: [u32; ITEM] = [1, 1, 0, 0, 0, 0, 0, 0];
    const PROPOSE: [u32; ITEM] = [2, 0, 0, 0, 0, 0, 0, 0];
    const FOOTPRINT: [u32; ITEM] = [3, 0, 0, 0, 0, 0, 0, 0];
    const UNKNOWN: [u32; ITEM] = [5, 1, 0, 1, 0, 0, 0, 0];

    #[test]
    fn lists() {
        // Refused: the first footprint by 13, the second grant by 9, the second cancellation by 11.
        let calls = [FOOTPRINT, GRANT_1, FOOTPRINT, GRANT_1, GRANT_2, PROPOSE, FOOTPRINT, CANCEL_1, CANCEL_1];
        let mut ledger = vec![Licence::without_width(7, Ground::Area(1))];
        let accepted = lines(&list(one_row(), 4, &calls), &mut ledger);
        assert_eq!(accepted, "list 72\n calls 9\n refused 3\n mask 00110.\n unchanged 5\n");
        assert_eq!(ledger, [Licence::without_width(2, over((0, 0), (2, 3)))]);
        // The proposal and all footprints are refused too: nothing is written.
        let refused = lines(&list(vec![0], 0, &calls), &mut ledger);
        assert_eq!(refused, "list 72\n calls 9\n refused 6\n mask ......\n unchanged 9\n");
        assert_eq!(ledger, [Licence::without_width(2, over((0, 0), (2, 3)))]);
    }

    #[test]
    fn widths_in_lists() {
        let on_area = Licence::without_width(1, Ground::Area(416));
        let narrow = Licence { width: 7, ..on_area };
        let item = [4, 1, 0, (7 << 16) + 416, 0, 0, 0, 0];
        assert_eq!(licence(&item), narrow);
        assert_eq!(licence(&[4, 1, 1, (50 << 16) + 77, 0, 10, 20, 40]), one_licence()[0]);
        // Without a width the upper half of the word is not read.
        assert_eq!(licence(&[0, 1, 0, (7 << 16) + 416, 0, 0, 0, 0]), on_area);
        // Widths of 0 and of 51 are refused.
        let (none, wide) = ([4, 2, 0, 416, 0, 0, 0, 0], [4, 3, 1, 51 << 16, 0, 10, 20, 40]);
        let played = play(&one_row(), &[item, none, wide].concat(), &mut [], 0);
        assert_eq!((played.ledger, played.refusals), (vec![narrow], vec![6, 6]));
    }

    #[test]
    fn a_list_ends_at_an_unknown_kind() {
        let mut ledger = Vec::new();
        let ended = lines(&list(one_row(), 4, &[GRANT_1, FOOTPRINT, UNKNOWN, CANCEL_1, PROPOSE]), &mut ledger);
        assert_eq!(ended, "list 40\n calls 2\n refused 0\n mask 00100.\n unchanged 5\n");
        assert_eq!(ledger, one_licence());
    }
}
