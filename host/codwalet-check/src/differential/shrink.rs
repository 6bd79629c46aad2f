//! Makes a case that differs smaller, for a person to read.

use std::time::{Duration, Instant};

use super::answers::FREE;
use super::case::{Call, Case};
use super::compare;
use super::engine::Engine;
use crate::maps::write_map;
use crate::reference::{self, Area};
use codwalet::limits::LICENCES;
use codwalet::raw::Licence;

/// The time that one case may take.
const TIME: Duration = Duration::from_secs(5);

/// Drops calls, licences, widths, areas and cells for as long as the case still differs.
pub fn shrink(engine: &impl Engine, case: &Case) -> Case {
    let end = Instant::now() + TIME;
    let mut case = case.clone();
    let mut differs = |case: &Case| Instant::now() < end && compare::run(engine, case).difference.is_some();
    loop {
        let before = case.clone();
        case = drop_calls(case, &mut differs);
        case = drop_licences(case, &mut differs);
        case = drop_widths(case, &mut differs);
        case = drop_areas(case, &mut differs);
        case = drop_cells(case, &mut differs);
        if case == before {
            return case;
        }
    }
}

/// Drops items, many at a time and then one by one, where the rest still differs.
fn fewer<T: Clone>(items: Vec<T>, mut differs: impl FnMut(&[T]) -> bool) -> Vec<T> {
    let mut items = items;
    let mut size = items.len();
    while size > 0 {
        let mut at = 0;
        while at < items.len() {
            let rest = [&items[..at], &items[items.len().min(at + size)..]].concat();
            if differs(&rest) {
                items = rest;
            } else {
                at += size;
            }
        }
        size /= 2;
    }
    items
}

fn drop_calls(case: Case, differs: &mut impl FnMut(&Case) -> bool) -> Case {
    let with = |calls: &[_]| Case { calls: calls.to_vec(), ..case.clone() };
    with(&fewer(case.calls.clone(), |calls| differs(&with(calls))))
}

fn drop_licences(case: Case, differs: &mut impl FnMut(&Case) -> bool) -> Case {
    let Some(start) = case.start else {
        return case;
    };
    let with = |kept: &[usize]| {
        let mut register = start;
        for place in (0..LICENCES).filter(|place| !kept.contains(place)) {
            register.places[place] = FREE;
        }
        Case { start: Some(register), ..case.clone() }
    };
    let held = (0..LICENCES).filter(|&place| start.places[place] != FREE).collect();
    with(&fewer(held, |kept| differs(&with(kept))))
}

/// Makes licences 50 MHz wide, and grants such as have no width, so that a width which stays is seen to count.
fn drop_widths(mut case: Case, differs: &mut impl FnMut(&Case) -> bool) -> Case {
    let mut attempt = |case: &mut Case, full: Case| {
        if full != *case && differs(&full) {
            *case = full;
        }
    };
    for place in 0..LICENCES {
        let mut full = case.clone();
        full.start.iter_mut().for_each(|start| start.places[place].narrower_by = 0);
        attempt(&mut case, full);
    }
    for place in 0..case.calls.len() {
        for full_call in full_calls(&case.calls[place]) {
            let mut full = case.clone();
            full.calls[place] = full_call;
            attempt(&mut case, full);
        }
    }
    case
}

/// A grant without its width, then without the byte that no grant reads, or with the width and without the byte.
fn full_calls(call: &Call) -> Vec<Call> {
    match *call {
        Call::Grant(licence) => vec![Call::Grant(Licence { narrower_by: 0, ..licence })],
        Call::GrantWidth(licence, width) => {
            let blank = Licence { narrower_by: 0, ..licence };
            vec![Call::GrantWidth(blank, width), Call::Grant(licence), Call::Grant(blank)]
        }
        _ => Vec::new(),
    }
}

/// A map that is refused stays as it is: what is wrong with it may be all that counts.
fn drop_areas(case: Case, differs: &mut impl FnMut(&Case) -> bool) -> Case {
    let Ok(areas) = reference::read_map(&case.map) else {
        return case;
    };
    let with = |areas: &[Area]| Case { map: write_map(areas), ..case.clone() };
    with(&fewer(areas, |areas| differs(&with(areas))))
}

fn drop_cells(case: Case, differs: &mut impl FnMut(&Case) -> bool) -> Case {
    let Ok(areas) = reference::read_map(&case.map) else {
        return case;
    };
    let with = |kept: &[(usize, usize)]| {
        let mut fewer = areas.clone();
        fewer.iter_mut().for_each(|area| area.cells.fill(None));
        for &(area, place) in kept {
            fewer[area].cells[place] = areas[area].cells[place];
        }
        Case { map: write_map(&fewer), ..case.clone() }
    };
    let of_area = |(number, area): (usize, &Area)| {
        let places: Vec<_> = (0..area.cells.len()).filter(|&place| area.cells[place].is_some()).collect();
        places.into_iter().map(move |place| (number, place))
    };
    let cells = areas.iter().enumerate().flat_map(of_area).collect();
    with(&fewer(cells, |kept| differs(&with(kept))))
}
