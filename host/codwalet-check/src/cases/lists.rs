//! Lists of calls, each played whole from an empty register.

use super::Cases;
use super::areas::{gapped, grid, one_row, over, people, refused};
use super::encoding::Case;
use super::expected::{self, ITEM};
use super::footprints::{LONG, random_ground, random_map};
use super::maps::damaged;
use super::proposals::{Held, held, hold};
use crate::maps::write_map;
use crate::random::Random;
use crate::reference::Ground;

/// An item of a list.
type Item = [u32; ITEM];

/// What an item has in each word that its call doesn't read.
const UNREAD: u32 = 77;

/// What a list's footprints are lent: the bytes of the mask and the entries of the table.
#[derive(Clone, Copy)]
struct Lent {
    mask: u16,
    table: u16,
}

const fn lent(mask: u16, table: u16) -> Lent {
    Lent { mask, table }
}

/// Enough for any footprint on the map of holdings 10 to 12, and a byte and entries past those that it uses.
const ENOUGH: Lent = lent(6, 9);

/// Holdings 10 to 12, on their map and on refused ones; refusals; lists that end early; words at their limits; tied
/// areas; then random lists.
pub fn add(cases: &mut Cases, random: &mut Random) {
    add_holdings(cases);
    add_refused_grants(cases);
    add_refused_proposals(cases);
    add_short_buffers(cases);
    add_unknown_kinds(cases);
    add_loose_words(cases);
    add_numbers(cases);
    add_boxes(cases);
    add_tied(cases);
    for _ in 0..40 {
        add_random(cases, random, random_item);
    }
}

fn call(kind: u32, word: u32) -> Item {
    [kind, word, UNREAD, UNREAD, UNREAD, UNREAD, UNREAD, UNREAD]
}

fn grant(call_sign: u32, ground: Ground) -> Item {
    match ground {
        Ground::Area(number) => grant_number(call_sign, u32::from(number)),
        Ground::Box { south, north, west, east } => grant_box(call_sign, 1, [south, north, west, east]),
    }
}

/// A grant of an area, whose number is the lower half of a word.
fn grant_number(call_sign: u32, number: u32) -> Item {
    [0, call_sign, 0, number, UNREAD, UNREAD, UNREAD, UNREAD]
}

/// A grant of a box, as any form but 0 says. Its edges are south, north, west and east.
fn grant_box(call_sign: u32, form: u32, edges: [i32; 4]) -> Item {
    let [south, north, west, east] = edges.map(|edge| edge as u32);
    [0, call_sign, form, UNREAD, south, north, west, east]
}

/// A grant with a width.
fn grant_width(call_sign: u32, ground: Ground, width: u16) -> Item {
    with_width(grant(call_sign, ground), width)
}

/// A grant, given a width: the upper half of the word that has an area's number in its lower half.
fn with_width(mut item: Item, width: u16) -> Item {
    item[0] = 4;
    item[3] = item[3] % 65_536 + u32::from(width) * 65_536;
    item
}

fn cancel(call_sign: u32) -> Item {
    call(1, call_sign)
}

fn propose(draw: u32) -> Item {
    call(2, draw)
}

fn footprint(draw: u32) -> Item {
    call(3, draw)
}

/// Grants of some grounds, with call signs from 1 on.
fn grant_each<T: Copy>(grounds: &[T], grant: impl Fn(u32, T) -> Item) -> Vec<Item> {
    (1..).zip(grounds).map(|(call_sign, &ground)| grant(call_sign, ground)).collect()
}

/// A grant of holdings 10 to 12.
fn grant_columns(call_sign: u32) -> Item {
    grant(call_sign, over((0, 0), (2, 3)))
}

fn play(cases: &mut Cases, map: &[u8], lent: Lent, items: &[Item]) {
    play_words(cases, map, lent, items.concat());
}

/// The entry from which none may change is the first one past those that any footprint of the list used.
fn play_words(cases: &mut Cases, map: &[u8], lent: Lent, words: Vec<u32>) {
    let Lent { mask, table } = lent;
    let list = expected::play(map, &words, &mut vec![0; usize::from(mask)], usize::from(table));
    let (map, unchanged_from) = (map.to_vec(), list.used as u16);
    cases.add(Case::List { map, mask, table, unchanged_from, words });
}

/// The list up to each of its footprints: each mask is seen.
fn play_by_footprint(cases: &mut Cases, map: &[u8], lent: Lent, items: &[Item]) {
    for (place, item) in items.iter().enumerate() {
        if *item == footprint(0) {
            play(cases, map, lent, &items[..=place]);
        }
    }
}

/// Which of some licences the list before left in force: their cancellations are answered by 0 or 11.
fn show_in_force(cases: &mut Cases, call_signs: &[u32]) {
    for &call_sign in call_signs {
        cases.cancel(call_sign);
    }
}

/// What the licences that the list before left in force cover of some areas.
fn show_coverage(cases: &mut Cases, map: Vec<u8>, numbers: &[u16]) {
    let (numbers, draws) = (numbers.to_vec(), Vec::new());
    cases.add(Case::Proposals { map, numbers, draws });
}

/// No call, each kind of call alone, and holdings 10 to 12 with a cancellation after them. On refused maps every
/// proposal and every footprint is refused, and grants and cancellations are answered as ever.
fn add_holdings(cases: &mut Cases) {
    let alone = [grant_columns(1), cancel(1), propose(0), footprint(0)];
    let [one, two, three] = [1, 2, 3].map(grant_columns);
    let outlined = footprint(0);
    let holdings = [one, propose(0), outlined, two, outlined, three, outlined, cancel(2), outlined, propose(1)];
    play_by_footprint(cases, &one_row(), ENOUGH, &holdings);
    for map in [&[one_row()][..], &refused(one_row())].concat() {
        play(cases, &map, ENOUGH, &[]);
        for item in alone {
            play(cases, &map, ENOUGH, &[item]);
        }
        play(cases, &map, ENOUGH, &holdings);
        show_in_force(cases, &[1, 2, 3]);
    }
}

/// Grants that are refused by 6, 9 and 10, cancellations that are refused by 11, and a place that is used again.
fn add_refused_grants(cases: &mut Cases) {
    let map = one_row();
    let area = |call_sign| grant(call_sign, Ground::Area(1));
    let no_height = grant_box(1, 1, [5, 5, 0, 1]);
    let too_far_north = grant_box(1, 1, [0, 32_400_001, 0, 1]);
    let ill_formed = [area(0), grant_number(1, 0), grant_number(1, 417), no_height, too_far_north];
    play(cases, &map, ENOUGH, &ill_formed);
    show_in_force(cases, &[0, 1]);
    play(cases, &map, ENOUGH, &[area(1), area(1), grant_columns(1), cancel(1), area(1)]);
    show_in_force(cases, &[1, 1]);
    play(cases, &map, ENOUGH, &[cancel(1), area(1), cancel(2), cancel(1), cancel(1), cancel(0)]);
    show_in_force(cases, &[1]);
    // Call signs of which the lower halves are 0, 1 and 65,535.
    play(cases, &map, ENOUGH, &[area(1), area(65_536), area(65_537), area(u32::MAX), cancel(131_073)]);
    show_in_force(cases, &[0, 1, 1, 65_535, 65_536, 65_537, u32::MAX]);

    let all: Vec<Item> = (1..=65).map(area).collect();
    play(cases, &map, ENOUGH, &[&all[..], &[area(64), cancel(33), area(66), area(67)]].concat());
    show_in_force(cases, &[1, 32, 33, 34, 64, 65, 66, 67]);
}

/// A map and the grants by which its areas are held as told.
fn holding(areas: &[Held]) -> (Vec<u8>, Vec<Item>) {
    let mut cases = Cases::default();
    let map = hold(&mut cases, areas);
    let grants = cases.ledger().iter().map(|licence| grant(licence.call_sign, licence.ground));
    (map, grants.collect())
}

/// Footprints of kinds 1 and 2, refused by 13; proposals and footprints of twenty-one partial areas, refused by 12,
/// and a proposal of twenty.
fn add_refused_proposals(cases: &mut Cases) {
    let rounded_up = [held(1, 100, 180)];
    let exact = [held(1, 100, 100), held(1, 100, 100)];
    for areas in [&rounded_up[..], &exact] {
        let (map, grants) = holding(areas);
        play(cases, &map, ENOUGH, &[&grants[..], &[propose(0), footprint(0), footprint(7)]].concat());
    }
    let (map, grants) = holding(&[held(1, 100, 35); 21]);
    // The licence of the first area has call sign 1.
    play(cases, &map, ENOUGH, &[&grants[..], &[propose(0), footprint(0), cancel(1), propose(0)]].concat());
}

/// A mask that is too short, refused by 7, and tables that are, by 8: the footprint after it writes the mask again.
fn add_short_buffers(cases: &mut Cases) {
    let map = one_row();
    let [one, two, three] = [1, 2, 3].map(grant_columns);
    let outlined = footprint(0);
    for mask in [0, 4] {
        play(cases, &map, lent(mask, 9), &[one, outlined, propose(0), two, outlined]);
    }
    // With one licence a footprint needs 4 entries, with two none, with three 5.
    play_by_footprint(cases, &map, lent(6, 3), &[one, outlined, two, outlined]);
    play_by_footprint(cases, &map, lent(6, 4), &[one, outlined, two, three, outlined, cancel(3), outlined]);
}

/// An item of another kind, before a list, in it and after it: nothing from there on is played.
fn add_unknown_kinds(cases: &mut Cases) {
    let items = [grant_columns(1), footprint(0), grant_columns(2), footprint(0)];
    for kind in [5, 9, 65_536, 65_540, u32::MAX] {
        // But for its kind it is a grant.
        let mut unknown = grant_columns(3);
        unknown[0] = kind;
        for place in [0, 2, 4] {
            let (before, after) = items.split_at(place);
            play(cases, &one_row(), ENOUGH, &[before, &[unknown], after].concat());
            show_in_force(cases, &[1, 2, 3]);
        }
    }
}

/// Words that are no whole item at the end: they are not read.
fn add_loose_words(cases: &mut Cases) {
    let words = [grant_columns(1), grant_columns(2), footprint(0)].concat();
    for count in [1, 7, 11, 15, 23] {
        play_words(cases, &one_row(), ENOUGH, words[..count].to_vec());
        show_in_force(cases, &[1, 2]);
    }
}

/// Words for an area's number, of which the lower half counts: 5, 7, 416, and 0, 417 and 65,535, which are refused.
fn add_numbers(cases: &mut Cases) {
    let numbers = [65_536 + 5, u32::MAX - 65_535 + 7, 3 * 65_536 + 416, 65_536, 65_536 + 417, u32::MAX];
    play(cases, &gapped(), ENOUGH, &grant_each(&numbers, grant_number));
    show_coverage(cases, gapped(), &[5, 7]);
    show_in_force(cases, &[1, 2, 3, 4, 5, 6]);
}

/// Boxes: any word but 0 for their form, and edges below 0, at the limits and past them.
fn add_boxes(cases: &mut Cases) {
    let forms = [2, 256, 65_536, 1 << 31, u32::MAX];
    let grants = grant_each(&forms, |call_sign, form| grant_box(call_sign, form, [0, 10, 20, 40]));
    play(cases, &one_row(), ENOUGH, &[&grants[..], &[footprint(0)]].concat());
    show_coverage(cases, one_row(), &[1]);

    // The first is over one cell, south and west of 0; the second is over every cell.
    let edges = [
        [-1, 0, -100, -99],
        [-32_400_000, 32_400_000, -64_800_000, 64_800_000],
        [-32_400_001, 0, -1, 1],
        [-1, 1, -64_800_001, 0],
        [i32::MIN, i32::MAX, i32::MIN, i32::MAX],
    ];
    let grants = grant_each(&edges, |call_sign, edges| grant_box(call_sign, 1, edges));
    play(cases, &gapped(), ENOUGH, &grants);
    show_coverage(cases, gapped(), &[5, 7]);
    show_in_force(cases, &[1, 2, 3, 4, 5]);
}

/// Three tied areas, each with pop 100 and c 150: each draw has its own, with a mask of its own, and what a footprint of
/// a longer area leaves past a shorter one stays.
fn add_tied(cases: &mut Cases) {
    let one = grid(1, 1, &people("20 30 50"));
    let two = grid(2, 1, &people("50 0 50 / - 0 -"));
    let three = grid(3, 1, &people("0 50 / 50 0"));
    let map = write_map(&[one, two, three]);
    let first_columns = over((0, 0), (0, 1));
    let grants = grant_each(&[Ground::Area(1), Ground::Area(2), Ground::Area(3), first_columns], grant);
    let draws: [&[u32]; 8] = [&[0], &[1], &[2], &[65_536], &[u32::MAX], &[1, 0], &[u32::MAX - 1, 3], &[0, 1, 2]];
    for draws in draws {
        let calls: Vec<Item> = draws.iter().flat_map(|&draw| [propose(draw), footprint(draw)]).collect();
        play(cases, &map, lent(8, 400), &[grants.as_slice(), &calls].concat());
    }
}

/// Widths at their limits and past them, and a narrow licence cancelled; then random lists.
pub fn add_widths(cases: &mut Cases, random: &mut Random) {
    add_limits_of_widths(cases);
    add_narrow(cases);
    for _ in 0..20 {
        add_random(cases, random, random_item_with_width);
    }
}

/// Widths at their limits and past them, on a box and on an area.
fn add_limits_of_widths(cases: &mut Cases) {
    let widths = [0, 1, 49, 50, 51, 255, 256, 306, u16::MAX];
    for ground in [over((0, 0), (2, 3)), Ground::Area(1)] {
        let grants = grant_each(&widths, |call_sign, width| grant_width(call_sign, ground, width));
        play(cases, &one_row(), ENOUGH, &[&grants[..], &[propose(0), footprint(0)]].concat());
        show_coverage(cases, one_row(), &[1]);
        show_in_force(cases, &[1, 2, 3, 4, 5, 6, 7, 8, 9]);
    }
}

/// A width goes with its licence: granted again without one, the call sign has 50 MHz.
fn add_narrow(cases: &mut Cases) {
    let [one, seven] = [grant_width(1, over((0, 0), (2, 3)), 1), grant_width(2, Ground::Area(1), 7)];
    let again = [one, seven, footprint(0), one, cancel(1), footprint(0), grant_columns(1), footprint(0)];
    play_by_footprint(cases, &one_row(), lent(6, 20), &again);
    show_coverage(cases, one_row(), &[1]);
    show_in_force(cases, &[1, 2]);
}

/// Some calls on a small map, which may be damaged, with buffers that may be too short.
fn add_random(cases: &mut Cases, random: &mut Random, item: fn(&mut Random) -> Item) {
    let good = random_map(random);
    let map = if random.once_in(4) { damaged(random, good) } else { good };
    let count = random.between(4, 12);
    let items: Vec<Item> = (0..count).map(|_| item(random)).collect();
    let lent = lent(random.pick(&[42, 45, 45, 45, 64, 64, 64, 4]), random.pick(&[LONG, LONG, LONG, 12, 12, 0]));
    play(cases, &map, lent, &items);
    show_in_force(cases, &[1, 2, 3, 4, 5]);
}

/// Most often a grant or a footprint, seldom of no kind, with few call signs so that they meet.
fn random_item(random: &mut Random) -> Item {
    let call_sign = random.between(0, 5) as u32;
    let draw = random.word() as u32;
    match random.below(40) {
        0..16 => grant(call_sign, random_part(random)),
        16..20 => cancel(call_sign),
        20..25 => propose(draw),
        25..39 => footprint(draw),
        _ => call(5, call_sign),
    }
}

/// The same, with a width in each grant, which is most often well formed.
fn random_item_with_width(random: &mut Random) -> Item {
    let any = random.between(1, 50) as u16;
    let width = random.pick(&[any, any, any, any, 1, 49, 50, 51, 0]);
    let item = random_item(random);
    if item[0] == 0 { with_width(item, width) } else { item }
}

/// Any ground, or a box over the first rows and columns, where small areas too have cells.
fn random_part(random: &mut Random) -> Ground {
    if random.once_in(3) {
        return random_ground(random);
    }
    let (bottom, right) = (random.below(3) as i32, random.below(4) as i32);
    over((0, bottom), (0, right))
}

#[cfg(test)]
mod tests {
    use super::*;
    use std::collections::BTreeSet;

    fn each_list() -> Vec<Case> {
        let mut cases = Cases::default();
        let mut random = Random::new(1);
        add(&mut cases, &mut random);
        add_widths(&mut cases, &mut random);
        let each = cases.played.into_iter().map(|played| played.case);
        each.filter(|case| matches!(case, Case::List { .. })).collect()
    }

    /// The program has a mask of 64 bytes, a table of 4,096 entries and 1,024 words to lend.
    #[test]
    fn no_more_is_lent_than_the_program_has() {
        for case in each_list() {
            if let Case::List { mask, table, words, .. } = case {
                assert!(mask <= 64 && table <= 4_096 && words.len() <= 1_024, "{mask} {table} {}", words.len());
            }
        }
    }

    #[test]
    fn every_refusal_comes() {
        let mut refusals = BTreeSet::new();
        for case in each_list() {
            if let Case::List { map, mask, table, words, .. } = case {
                let mut mask = vec![0; usize::from(mask)];
                refusals.extend(expected::play(&map, &words, &mut mask, usize::from(table)).refusals);
            }
        }
        assert_eq!(refusals, (1..=13).collect());
    }

    #[test]
    fn one_mask_for_tied_areas() {
        let [one, two, three] = ["010.....", "011010..", "1011...."];
        let masks = Cases::printed(add_tied, " mask ");
        assert_eq!(masks, [one, two, three, two, one, "010010..", "0101....", "101110.."]);
    }
}
