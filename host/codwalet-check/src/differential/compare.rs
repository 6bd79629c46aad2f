//! Runs a case on an engine and compares each answer, each lent byte and each register with the reference.

use std::fmt::{Debug, Display};

use super::answers::{self, FREE, NO_LICENCE};
use super::case::{Call, Case};
use super::engine::{Buffers, Engine, Lent};
use super::fields::Fields;
use super::seen::Seen;
use super::sorts;
use crate::random::Random;
use crate::reference;
use codwalet::raw::{Licence, Register, Step};

/// No table longer than this is lent: a footprint that needs more is refused by 8.
const LONGEST_TABLE: usize = 300_000;

/// Where an engine and the reference differ.
#[derive(Clone, Debug, PartialEq, Eq)]
pub struct Difference {
    /// The call's place in the list, from 1; 0 is the empty register before the first, or the map and its areas after
    /// the last.
    pub call: usize,
    pub what: String,
    pub expected: String,
    pub got: String,
}

/// What came of a case.
pub struct Outcome {
    /// Calls compared, the one that differs included.
    pub calls: usize,
    pub seen: Seen,
    pub difference: Option<Difference>,
}

type Compared = Result<(), Difference>;

fn differ(what: impl Display, expected: impl Display, got: impl Display) -> Difference {
    Difference { call: 0, what: what.to_string(), expected: expected.to_string(), got: got.to_string() }
}

fn same<T: PartialEq + Debug>(what: impl Display, expected: &T, got: &T) -> Compared {
    if expected == got { Ok(()) } else { Err(differ(what, format!("{expected:?}"), format!("{got:?}"))) }
}

/// Compares two answers: the first field that differs is named.
fn same_fields<T: Fields + PartialEq + Debug>(expected: &T, got: &T) -> Compared {
    if expected == got {
        return Ok(());
    }
    for ((name, expected), (_, got)) in expected.fields().into_iter().zip(got.fields()) {
        same(name, &expected, &got)?;
    }
    same("the answer", expected, got)
}

/// Compares a lent buffer, guards included, leaving aside so many of its first elements.
fn same_lent<T>(name: &str, expected: &Lent<T>, got: &Lent<T>, aside: usize) -> Compared
where
    T: Clone + PartialEq + Debug,
{
    if expected == got {
        return Ok(());
    }
    for (at, (expected, got)) in expected.whole().iter().zip(got.whole()).enumerate() {
        let place = Lent::<T>::place(at);
        if !(0..aside as i64).contains(&place) {
            same(format_args!("{name} at {place}"), expected, got)?;
        }
    }
    Ok(())
}

/// The state of a run: the engine's register beside the ledger's lines.
struct Run<'a, E> {
    engine: &'a E,
    map: &'a [u8],
    register: Register,
    lines: Vec<reference::Licence>,
    random: Random,
    seen: Seen,
}

/// Runs a case up to its first difference.
pub fn run(engine: &impl Engine, case: &Case) -> Outcome {
    let mut random = Random::new(case.fill);
    let lent = Lent::new(&case.map, || random.word() as u8);
    let before = lent.clone();
    let register = case.start.unwrap_or_else(|| engine.empty());
    let lines = case.start.map_or(Vec::new(), |start| answers::lines(&start));
    let mut run = Run { engine, map: lent.part(), register, lines, random, seen: Seen::default() };
    let mut difference = match case.start {
        None => same("the empty register", &NO_LICENCE, &register).err(),
        Some(_) => None,
    };
    let mut calls = 0;
    while difference.is_none() && calls < case.calls.len() {
        let compared = run.call(&case.calls[calls]);
        calls += 1;
        difference = compared.err().map(|difference| Difference { call: calls, ..difference });
    }
    let of_map = run.areas().and(same_lent("the map", &before, &lent, 0)).err();
    Outcome { calls, seen: run.seen, difference: difference.or(of_map) }
}

impl<E: Engine> Run<'_, E> {
    fn call(&mut self, call: &Call) -> Compared {
        match *call {
            Call::Grant(licence) => self.grant(licence, None),
            Call::GrantWidth(licence, width) => self.grant(licence, Some(width)),
            Call::Cancel(call_sign) => self.cancel(call_sign),
            Call::CheckMap => {
                let expected = answers::check_map(self.map);
                self.seen.refusal(expected);
                same("refusal", &expected, &self.engine.check_map(self.map))
            }
            Call::LookUp(number) => {
                let expected = answers::look_up(self.map, number);
                self.seen.refusal(expected.refusal);
                same_fields(&expected, &self.engine.look_up(self.map, number))
            }
            Call::Coverage(number) => {
                let expected = answers::coverage(self.map, &self.lines, number);
                self.seen.refusal(expected.refusal);
                self.seen.sorts(&sorts::of_coverage(self.map, &self.lines, number));
                same_fields(&expected, &self.engine.coverage(self.map, self.register, number))
            }
            Call::Blocks(number) => {
                let expected = answers::blocks(self.map, &self.lines, number);
                self.seen.refusal(expected.refusal);
                self.seen.sorts(&sorts::of_blocks(self.map, &self.lines, number));
                same_fields(&expected, &self.engine.blocks(self.map, self.register, number))
            }
            Call::Propose(draw) => {
                let expected = answers::propose(self.map, &self.lines, draw);
                self.seen.proposal(&expected);
                self.seen.sorts(&sorts::of_proposal(self.map, &self.lines, &expected));
                same_fields(&expected, &self.engine.propose(self.map, self.register, draw))
            }
            Call::Footprint { draw, more_mask, more_table } => self.footprint(draw, more_mask, more_table),
        }
    }

    /// Compares the areas that the library lists with those that the engine looks up.
    fn areas(&self) -> Compared {
        let looked_up = answers::areas(self.map, |number| self.engine.look_up(self.map, number));
        same("areas listed", &looked_up, &self.engine.areas(self.map))
    }

    fn grant(&mut self, licence: Licence, width: Option<u32>) -> Compared {
        let before = self.register;
        let step = match width {
            None => self.engine.grant(before, licence),
            Some(width) => self.engine.grant_width(before, licence, width),
        };
        let handed = answers::handed(&licence, width);
        let expected = reference::grant(&self.lines, handed);
        let granted = answers::raw_licence(&handed);
        self.seen.sorts(&sorts::of_grant(&self.lines, &licence, width));
        self.step(expected, &step, |place, next| {
            let changed = before.places[place] != *next;
            !changed || before.places[place].call_sign == 0 && *next == granted
        })
    }

    fn cancel(&mut self, call_sign: u32) -> Compared {
        let before = self.register;
        let step = self.engine.cancel(before, call_sign);
        let expected = reference::cancel(&self.lines, call_sign);
        self.step(expected, &step, |place, next| {
            let struck = before.places[place].call_sign == call_sign;
            *next == if struck { FREE } else { before.places[place] }
        })
    }

    /// Compares what a grant or a cancellation hands back. Accepted, each place must be as `allowed` says, and the
    /// licences in force must be the ledger's lines, wherever they stand. Refused, the register must be the one passed.
    fn step(
        &mut self,
        expected: Result<Vec<reference::Licence>, u32>,
        step: &Step,
        allowed: impl Fn(usize, &Licence) -> bool,
    ) -> Compared {
        let refusal = expected.as_ref().err().copied().unwrap_or(0);
        self.seen.refusal(refusal);
        same("refusal", &refusal, &step.refusal)?;
        match expected {
            Err(_) => same("the register", &self.register, &step.next),
            Ok(lines) => {
                same("licences in force", &in_order(&lines), &in_order(&answers::lines(&step.next)))?;
                for (place, next) in step.next.places.iter().enumerate() {
                    if !allowed(place, next) {
                        let before = self.register.places[place];
                        let what = format!("place {place} of the register, which held {before:?}");
                        return Err(differ(what, "as before, or as the call makes it", format!("{next:?}")));
                    }
                }
                self.lines = lines;
                self.register = step.next;
                Ok(())
            }
        }
    }

    fn footprint(&mut self, draw: u32, more_mask: i64, more_table: i64) -> Compared {
        let (mask_needed, table_needed) = answers::needs(self.map, &self.lines, draw);
        let length = |needed: usize, more: i64| (needed as i64 + more).max(0) as usize;
        let entries = length(table_needed, more_table).min(LONGEST_TABLE);
        let mut lent = Buffers {
            mask: Lent::bytes(length(mask_needed, more_mask), &mut self.random),
            table: Lent::table(entries, &mut self.random),
        };
        let mut left = lent.clone();
        let (expected, used) = answers::footprint(self.map, &self.lines, draw, left.mask.part_mut(), entries);
        self.seen.footprint(&expected, used);
        self.seen.sorts(&sorts::of_footprint(self.map, &self.lines, &expected));
        let got = self.engine.footprint(self.map, self.register, draw, &mut lent);
        same_fields(&expected, &got)?;
        same_lent("mask", &left.mask, &lent.mask, 0)?;
        same_lent("table", &left.table, &lent.table, used)
    }
}

/// Licences as a list in an order of its own, so that their places don't count.
fn in_order(lines: &[reference::Licence]) -> Vec<String> {
    let mut words: Vec<String> = lines.iter().map(|line| format!("{line:?}")).collect();
    words.sort();
    words
}
